#!/bin/sh
# After `rt ci`: a must-fail edit is worth something where it is refused because a fact no longer holds. Some are refused since the proof names goals or steps, or uses a test in a form, that the
# changed code has not: then a right program of that shape would be refused too, and the edit shows nothing. `rt must-fail` tells again what `rt ci` found of each edit, with the first error that
# does not say that a name is gone. Wrong are an edit that was not tried, cannot be applied or is not refused; one that is refused for names alone or at a limit of the prover; one whose error is
# among those that are known to tell of a shape; and one that leaves a goal open which its function, where its proof has files, has not as it stands (an edit may bring the proof to the new shape
# itself). This cannot know others.
set -eu
cd "$(dirname "$0")/.."
room=$(mktemp -d)
trap 'rm -rf "$room"' EXIT
rt must-fail >"$room/said" 2>&1 || true
bad=0 seen=0

wrong() { # EDIT WHAT SAID
    printf 'refusals: %s %s:\n%s\n' "$1" "$2" "$3"
    bad=1
}

# the function that holds a line of a file: the last that begins at the line or above it, and of an attribute's line the one below it
function_at() { # FILE LINE
    line=$2
    while sed -n "${line}p" "$1" | grep -q '^ *#\['; do line=$((line + 1)); done
    head -n "$line" "$1" | sed -n 's/^ *\(pub \)\{0,1\}\(const \|unsafe \|extern "C" \)*fn \([A-Za-z0-9_]*\).*/\3/p' | tail -n 1
}

# Whether a function has a goal, as its crate stands. A name with no backquote behind it was cut: then one that begins so.
has_goal() { # CRATE FUNCTION GOAL
    if [ ! -f "$room/$1/names.json" ]; then
        (cd "crates/$1" && rt names "$room/$1") >"$room/log" 2>&1 || cat "$room/log"
    fi
    goal=$(printf '%s\n' "$3" | sed 's/-clause-[^`]*//; s/-whole`$/`/; s/`$/"/')
    sed 's/"Rattle-/\n&/g' "$room/$1/names.json" |
        sed -n "s/^\"Rattle-[^\"]*[.+]$2\\.Lts\".*\"needs\":\\[\\(.*\\)\\],\"params\":.*/\\1/p" | grep -qF -- "\"$goal"
}

for edit in crates/*/must-fail/*.edit; do
    crate=${edit#crates/} label=${edit##*/}
    crate=${crate%%/*}
    said=$(grep -F -- "must-fail $crate/$label: " "$room/said" | head -n 1)
    case $said in
    '') wrong "$edit" 'was not tried' "$(tail -n 1 "$room/said")" ;;
    *': refused, as it must be: note: src/'*)
        seen=$((seen + 1))
        at=${said#*: note: }
        file=${at%%:*} place=${at#*:}
        name=$(function_at "crates/$crate/$file" "${place%%:*}")
        goal=$(printf '%s\n' "$said" | awk 'match($0, /\(`[^`]*`?/) { print substr($0, RSTART + 2, RLENGTH - 2) }')
        if ! grep -q '^file: proofs/' "$edit" && find "crates/$crate/proofs" -path "*[/+]$name/*.antt" | grep -q . && ! has_goal "$crate" "$name" "$goal"; then
            wrong "$edit" "leaves a goal open that $name has not as it stands" "$said"
        fi
        ;;
    *': refused, as it must be: '*)
        seen=$((seen + 1))
        case $said in
        *'has no field'* | *'has no `'* | *'is not in scope'* | *' that depend on `'* | *' that depends on `'* | *'in a cycle of calls'* | *'this is applied to an argument but has type'*)
            wrong "$edit" 'is refused for the shape of its code' "$said"
            ;;
        esac
        ;;
    *': refused, as it must be (only '*) wrong "$edit" 'is refused for no fact' "$said" ;;
    *) wrong "$edit" 'is not refused' "$said" ;;
    esac
done
echo "refusals: the first errors of $seen edits were read"
exit $bad
