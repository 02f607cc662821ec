# Read in by the gate: runs its parts, shows what each says as it comes, and adds up what passed and what failed.
# A part that ends with a status other than 0, or of which nothing passed, has at least one failure, whatever it says of itself.
passed=0 failed=0 room=
trap 'rm -rf "$room"' EXIT
room=$(mktemp -d) || exit 1

# A tally of the part's own gets the part's name in front: the gate's last line is the only one of its form.
shown() { # NAME
    while IFS= read -r line || [ -n "$line" ]; do
        case $line in
        *' passed, '*' failed'*) printf '%s: %s\n' "$1" "$line" ;;
        *) printf '%s\n' "$line" ;;
        esac
    done
}

# Leaves what the command says in $room/log and its status in `status`.
run() { # NAME COMMAND...
    name=$1 status=1
    shift
    echo 1 >"$room/status"
    { "$@" 2>&1 </dev/null; echo $? >"$room/status"; } | shown "$name" | tee "$room/log"
    read -r status <"$room/status"
}

count() { # PASSED FAILED
    bad=$2
    [ "$status" -eq 0 ] && [ "$1" -gt 0 ] || [ "$bad" -gt 0 ] || bad=1
    passed=$((passed + $1)) failed=$((failed + bad))
    echo "gate: $name: $1 passed, $bad failed"
}

# A part that is one test.
one() { # NAME COMMAND...
    run "$@"
    if [ "$status" -eq 0 ]; then count 1 0; else count 0 1; fi
}

# A part that says in its last line how many passed and failed.
tally() { # NAME COMMAND...
    run "$@"
    # shellcheck disable=SC2046
    set -- $(tail -n 1 "$room/log" | sed -n "s/^$name: \([0-9]\{1,\}\) passed, \([0-9]\{1,\}\) failed\$/\1 \2/p")
    count "${1:-0}" "${2:-0}"
}

# `cargo test`: what its test programs say, one line each. An ignored test has failed, and so has a program that says nothing.
tests_of() { # NAME COMMAND...
    run "$@"
    # shellcheck disable=SC2046
    set -- $(awk '$1 == "Running" || $1 == "Doc-tests" { begun++ }
        /^test result: / { ended++; good += $4; bad += $6 + $8 }
        END { print good + 0, bad + (begun > ended ? begun - ended : 0) }' "$room/log")
    count "${1:-0}" "${2:-0}"
}

sum() {
    echo "$passed passed, $failed failed"
    [ "$failed" -eq 0 ]
    exit
}
