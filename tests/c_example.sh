#!/bin/sh
# Compiles tests/c_example.c and tests/c_grow.c against the proved library with warnings as errors, runs them, and compares what each prints with document
# 01's listing of case 1, which `composed` is held to as well; the second must have been refused 13 and grown on the way. tests/c_large.c compares by itself and prints what a million states take.
# `plain`, `sanitized` (the address and undefined-behaviour sanitizers), or both where none is named.
# RINKOLZA_LIB_DIR is the folder of the archive; without it tests/archive.sh builds the archive, which needs `rt`. Needs `gcc` on x86-64 Linux.
set -eu
cd "$(dirname "$0")/.."
room=$(mktemp -d)
trap 'rm -rf "$room"' EXIT
[ -n "${RINKOLZA_LIB_DIR:-}" ] || sh tests/archive.sh
[ $# -gt 0 ] || set -- plain sanitized
for build; do
    case $build in
    plain) extra= ;;
    sanitized) extra='-fsanitize=address,undefined -fno-sanitize-recover=all' ;;
    *) echo "C example: no build $build"; exit 2 ;;
    esac
    for name in c_example c_grow c_large; do
        # shellcheck disable=SC2086
        gcc -Wall -Wextra -Werror -std=c99 -pedantic -O1 -g $extra -o "$room/$name" tests/$name.c "${RINKOLZA_LIB_DIR:-target/staticlib}/librinkolza.a"
        "$room/$name" >"$room/wrote" 2>"$room/said" || { cat "$room/said" "$room/wrote"; exit 1; }
        cat "$room/said"
        case $name in
        c_large) cat "$room/wrote" ;;
        *) cmp "$room/wrote" crates/composed/stdout ;;
        esac
        [ $name != c_grow ] || grep -q '^refused 13 with room for' "$room/said" || { echo "c_grow never grew"; exit 1; }
    done
    echo "C example, $build: ok"
done
