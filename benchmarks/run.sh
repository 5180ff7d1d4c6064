#!/bin/sh
# Measures the proved walk and reading beside the plain ones of wire.rs. README.md says more.
set -eu

here=$(cd "$(dirname "$0")" && pwd)
rounds=${1:-10}
proved=$here/../crates/wire_benchmark/out/wire_benchmark

if ! command -v rustc >/dev/null 2>&1; then
    echo 'rustc is missing: there is nothing to compare with'
    exit 0
fi

folder=$(mktemp -d)
trap 'rm -rf "$folder"' EXIT

# `rt run` proves and builds the program, where it or a crate below it has changed.
if command -v rt >/dev/null 2>&1; then
    (cd "$here/../crates/wire_benchmark" && rt run) >"$folder/build" 2>&1 || { cat "$folder/build" >&2; exit 1; }
fi
if [ ! -x "$proved" ]; then
    echo "crates/wire_benchmark/out/wire_benchmark is missing: run 'rt run' in crates/wire_benchmark" >&2
    exit 1
fi
cp "$proved" "$folder/proved"
rustc -O --edition 2024 -C target-cpu=x86-64-v2 -o "$folder/plain" "$here/wire.rs"

# Each line of the programs is NAME NANOSECONDS BYTES SUM.
round=0
while [ "$round" -lt "$rounds" ]; do
    for which in proved plain; do
        "$folder/$which" measure | sed "s/^/$which /" >>"$folder/lines"
    done
    round=$((round + 1))
done

awk '
    {
        key = $1 " " $2
        if (!(key in least) || $3 < least[key]) least[key] = $3
        if (!($2 in size)) { size[$2] = $4; sum[$2] = $5; order[++count] = $2 }
        else if (size[$2] != $4 || sum[$2] != $5) { print "the inputs differ: " $2; failed = 1; exit 1 }
    }
    END {
        if (failed) exit 1
        printf "%-14s %9s %12s %12s %12s %12s %7s\n", "input", "bytes", "proved ns", "plain ns", "proved GB/s", "plain GB/s", "ratio"
        for (i = 1; i <= count; i++) {
            name = order[i]; a = least["proved " name]; b = least["plain " name]
            printf "%-14s %9d %12.2f %12.2f %12.2f %12.2f %7.2f\n", name, size[name], a, b, size[name] / a, size[name] / b, a / b
        }
    }
' "$folder/lines"
