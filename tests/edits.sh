#!/bin/sh
# Each must-fail edit says at which input the edited text is wrong, and its old text stands in one line of its file. As each proves its crate again, a crate of definitions has at most five, a crate of code
# at most three, and at most one where it takes over 20 seconds to prove. The seconds are those of the last table `| crate | seconds | edits |` of
# docs/LANDINGS.md, which has every crate of crates.txt with the number of its edits.
set -eu
cd "$(dirname "$0")/.."
bad=0
say() {
    echo "edits: $*"
    bad=1
}

rows=$(awk '$0 == "| crate | seconds | edits |" { on = 1; rows = ""; next }
    !/^\|/ { on = 0 }
    on { rows = rows $0 "\n" }
    END { printf "%s", rows }' docs/LANDINGS.md |
    sed -n 's/^| `\([a-z0-9_]*\)` | \([0-9]\{1,\}\) | \([0-9]\{1,\}\) |$/\1 \2 \3/p')
crates=$(sed -n 's/^\([a-z0-9_]*\)\( [^:]*\)\{0,1\}:.*/\1/p' crates.txt)
if [ "$(printf '%s\n' "$rows" | cut -d ' ' -f 1 | sort)" != "$(printf '%s\n' "$crates" | sort)" ]; then
    say "the rows of LANDINGS' last table are not the crates of crates.txt, once each"
    exit 1
fi

budget() { # CRATE SECONDS
    if ! grep -q '^[^/]*fn ' "crates/$1"/src/*.rt; then echo 5; elif [ "$2" -gt 20 ]; then echo 1; else echo 3; fi
}

while read -r crate seconds edits; do
    count=$(find "crates/$crate" -path '*/must-fail/*.edit' | wc -l)
    most=$(budget "$crate" "$seconds")
    [ "$count" -eq "$edits" ] || say "$crate has $count edits, and LANDINGS says $edits"
    [ "$count" -le "$most" ] || say "$crate, proved in $seconds s, has $count edits; at most $most"
done <<END
$rows
END

for edit in crates/*/must-fail/*.edit; do
    grep -q '^\(.* \)\{0,1\}Wrong ' "$edit" || say "$edit does not say where it is wrong"
    while IFS= read -r line; do
        case $line in
        'file: '*) file=${edit%/must-fail/*}/${line#file: } ;;
        'old: '*) [ "$(grep -cF -- "${line#old: }" "$file")" -eq 1 ] || say "$edit: not one line of $file has ${line#old: }" ;;
        esac
    done <"$edit"
done
exit $bad
