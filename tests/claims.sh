#!/bin/sh
# Every name that the documents cite as `NAME` in `FILE` is declared in that file: a definition or theorem for other modules to see, or a function of the code.
set -eu
cd "$(dirname "$0")/.."
pairs=$(grep -ho '`[^` ]*` in `crates/[^` ]*`' docs/*.md README.md | sort -u | sed 's/`//g; s/ in / /')
[ -n "$pairs" ] || { echo "claims: no name is cited"; exit 1; }
bad=0
while read -r name file; do
    if [ ! -f "$file" ]; then
        echo "claims: $file is not there (cited for $name)"
        bad=1
    elif ! awk -v n="$name" '{ for (i = 1; i <= NF; i++) if ($i == "pub" || $i == "fn") { j = i; if ($j == "pub") j++; if ($j == "extern") j += 2; if ($j == "record" || $j == "data" || $j == "fn" || $j == "struct" || $j == "enum" || $j == "type") j++; split($j, w, /[(<]/); if (w[1] == n) f = 1; break } } END { exit !f }' "$file"; then
        echo "claims: $file does not declare $name"
        bad=1
    fi
done <<EOF
$pairs
EOF
[ $bad -eq 0 ] && echo "claims: $(printf '%s\n' "$pairs" | wc -l) cited names are declared where the documents say"
exit $bad
