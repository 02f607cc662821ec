#!/bin/sh
# Builds the proved library's archive from the crate `rinkolza_c`, and puts it where the Rust crate, the C example and the benchmark look for it: librinkolza.a in the folder RINKOLZA_LIB_DIR,
# else in target/staticlib.
set -eu
cd "$(dirname "$0")/.."
folder=${RINKOLZA_LIB_DIR:-target/staticlib}
rm -f "$folder/librinkolza.a"
(cd crates/rinkolza_c && rt lib)
mkdir -p "$folder"
cp crates/rinkolza_c/out/librinkolza_c.a "$folder/librinkolza.a"
echo "archive: $folder/librinkolza.a"
