#!/bin/sh
# LOG is what `rt ci` said. A must-fail edit that cannot be applied or read is bad, and fails nothing there: its line `rt: ok` must say of every edit of the repository that it is refused, and of none that
# it is bad.
set -eu
cd "$(dirname "$0")/.."
[ $# -eq 1 ] || { echo "use: bad_edits.sh LOG"; exit 2; }
ok=$(grep '^rt: ok' "$1" | tail -n 1)
said=$(printf '%s\n' "$ok" | sed -n 's/^rt: ok; .*must-fail edits: \([^;]*\);.*/\1/p')
refused=$(printf '%s\n' "$said" | sed -n 's/^\([0-9]\{1,\}\) refused\(, .*\)\{0,1\}$/\1/p')
bad=$(printf '%s\n' "$said" | sed -n 's/.*, \([0-9]\{1,\}\) bad$/\1/p')
edits=$(find crates -path '*/must-fail/*.edit' | wc -l)
echo "bad edits: of $edits edits ${refused:-0} are refused, and ${bad:-0} are bad"
[ -n "$ok" ] || echo "bad edits: rt ci has no line 'rt: ok'"
[ "${bad:-0}" -eq 0 ] && [ "${refused:-0}" -eq "$edits" ] && [ "$edits" -gt 0 ]
