#!/bin/sh
# Contracts, by their text alone (that they hold is the checker's work): each public function with a reply says what it is (`ensures`); DECISIONS 33 names, as `NAME` in `FILE`, each
# public function with a `requires`, and none without; and no function that users call has one: those of the crates and files below, and what is exported for C, but for the
# functions for a caller that owns its memory, which stand in files of their own, in the library and where C gets it.
set -eu
cd "$(dirname "$0")/.."
free='crates/(fst|semirings|compose_filters|fst_properties|compose_state_tuple|compose_fst_op|tr_lists|matchers|counted_iter|match_input|compose_moves|compose_weigh|session_checks|listing_read|listing_input|fan_out_call)/'
free="$free|crates/(lazy_fst|rinkolza|rinkolza_c|listing)/src/lib.rt|crates/(rinkolza|rinkolza_c)/src/fan_out.rt"
owned='crates/(rinkolza|rinkolza_c)/src/trusted.rt'
named=$(awk '/^[0-9]+\. / { on = /^33\. / } on' docs/DECISIONS.md | grep -o '`[^` ]*` in `crates/[^` ]*`' | sed 's/`//g; s/ in / /' | sort -u)
[ -n "$named" ] || { echo "contracts: DECISIONS 33 names no function"; exit 1; }
# shellcheck disable=SC2046
awk -v named="$named" -v free="^($free)" -v owned="^$owned\$" '
function wrong(what) { print "contracts: " FILENAME ": " name " " what; bad = 1 }
function judge() {
    all++
    if (open && sig ~ /->/ && !says) wrong("has a reply and no ensures")
    if (asks && (open || exported)) {
        if (!((name " " FILENAME) in listed)) wrong("has a requires and is not named in DECISIONS 33")
        if ((exported && FILENAME !~ owned) || FILENAME ~ free) wrong("is for users and has a requires")
    }
    if (asks) asking[name " " FILENAME] = 1
    name = ""
}
BEGIN { n = split(named, l, "\n"); for (i = 1; i <= n; i++) listed[l[i]] = 1 }
FNR == 1 { name = "" }
/^ *\/\// { next }
# how many more braces a line opens than it closes
function braces(line,    t) { t = line; return gsub(/{/, "", t) - gsub(/}/, "", t) }
# a clause ends where its own braces do
function on_clause() { deep += braces($0); begun = begun || /{/; clause = deep > 0 || !begun }
name == "" && /^ *(pub )?((const|unsafe|extern "C") )*fn / {
    open = /^ *pub /
    exported = /extern "C"/
    split($0, w, "fn ")
    split(w[2], v, /[(<]/)
    name = v[1]
    sig = ""
    says = asks = clause = 0
}
name == "" { next }
clause { on_clause(); next }
$1 == "ensures" || $1 == "requires" {
    if ($1 == "ensures") says = 1; else asks = 1
    deep = begun = 0
    on_clause()
    next
}
{ sig = sig $0 }
/[{};]$/ { judge() }
END {
    for (f in listed) if (!(f in asking)) { print "contracts: DECISIONS 33 names " f ", which has no requires"; bad = 1 }
    if (!bad) print "contracts: of " all " functions, each public one with a reply says what it is, and " n " with a requires are named"
    exit bad || !all
}' $(find crates/*/src -name '*.rt' | sort)
