#!/bin/sh
# Each row of docs/WRONG.md still speaks of the code: the line that it changes stands exactly once in the body of its function. (That the changed line is refused is tried by tests/mutate.py --wrong.)
set -eu
cd "$(dirname "$0")/.."
awk '
function trim(s) { sub(/^[ `]+/, "", s); sub(/[ `]+$/, "", s); return s }
# the lines of every function, each under its file and name
function read_code(file,    line, name, deep) {
    if (file in known) return
    known[file] = 1
    while ((getline line < file) > 0) {
        if (name == "" && line ~ /^ *(pub )?(extern "C" )?fn /) {
            name = line
            sub(/.*fn /, "", name)
            sub(/[(<].*/, "", name)
            match(line, /^ */)
            deep = RLENGTH
        }
        if (name == "") continue
        seen[file, name, trim(line)]++
        match(line, /^ */)
        if (line ~ /^ *}$/ && RLENGTH == deep) name = ""
    }
    close(file)
}
/^## / { crate = $2 }
/^\| `/ {
    gsub(/\\\|/, "\001")
    split($0, cell, / \| /)
    who = cell[1]
    sub(/^\| /, "", who)
    split(who, part, ", ")
    if (part[2] == "") next
    file = "crates/" crate "/src/" trim(part[2])
    name = trim(part[1])
    sub(/.*::/, "", name)
    was = trim(cell[2])
    gsub(/\001/, "|", was)
    read_code(file)
    rows++
    if (seen[file, name, was] != 1) {
        print "wrong: " file ": " name ": not one line reads " was
        bad = 1
    }
}
END {
    if (!bad) print "wrong: the lines of " rows " rows stand in their functions"
    exit bad || !rows
}' docs/WRONG.md
