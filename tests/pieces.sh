#!/bin/sh
# After `rt ci`: the programs that read lines, on their own input in many reads: before each line stand more blanks than one read takes, so that every line but the first begins in a later read
# than the line feed before it. They must print what they print without the blanks. `rt ci` and `rt run` leave a proved program in its crate's out/.
set -eu
cd "$(dirname "$0")/.."
for name in composed fan_out; do
    awk '{ printf "%70000s%s\n", "", $0 }' "crates/$name/stdin" | "crates/$name/out/$name" | cmp - "crates/$name/stdout"
done
echo "pieces: composed and fan_out print the same of their lines in many reads"
