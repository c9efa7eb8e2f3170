#!/usr/bin/env bash
# Measures the reader of array files against a plain one in C: bash bench/arrays.sh. Each reads a file of one array of a million random
# values, of 64 bits and of 16, and the best of many runs counts. The bench program is built in a folder of its own, and is no part of
# the gate. Prints our time, and where valgrind is there our instructions, in parts of those of each C compiler.
set -eu
top=$(cd "$(dirname "$0")/.." && pwd)
work=$(mktemp -d)
trap 'rm -rf "$work"' EXIT
mkdir -p "$work/crates/arrays_bench/src"
for crate in shapes_core text_tokens array_text; do
    cp -r "$top/crates/$crate" "$work/crates/"
    grep "^$crate:" "$top/crates.txt" >>"$work/crates.txt"
done
echo 'arrays_bench: shapes_core array_text anyhow' >>"$work/crates.txt"
cp "$top/bench/arrays/main.txt" "$work/crates/arrays_bench/src/main.rt"

cd "$work"
for bits in 64 16; do
    mkdir $bits
    { echo 'array A 1000000'; head -c $((bits * 125000)) /dev/urandom | od -An -v -td$((bits / 8)) -w$bits | tr -s ' '; } >$bits/values
done
cp 64/values crates/arrays_bench/values
if ! (cd crates/arrays_bench && rt run) >log 2>&1; then
    cat log
    exit 1
fi
cp crates/arrays_bench/out/arrays_bench ours
for compiler in gcc clang; do
    "$compiler" -O2 -o $compiler-reader "$top/bench/arrays/reader.c"
done

# The least of the times that each reader prints, which take turns.
best() {
    for _ in 1 2 3 4 5 6 7 8 9; do
        for reader in ours gcc-reader clang-reader; do echo "$reader $(../$reader)"; done
    done | sort -k1,1 -k2,2n | awk '!seen[$1]++ { print $1, $2 }'
}
# The instructions of each reader.
counted() {
    for reader in ours gcc-reader clang-reader; do
        valgrind --tool=callgrind --callgrind-out-file=/dev/null ../$reader 2>&1 | awk -v name=$reader '/refs:/ { gsub(",", "", $NF); print name, $NF }'
    done
}
for bits in 64 16; do
    for measure in best counted; do
        if [ $measure = counted ] && ! command -v valgrind >/dev/null; then continue; fi
        (cd $bits && $measure) | awk -v bits=$bits -v measure=$measure '{ of[$1] = $2 }
            END { printf "values of %d bits, %s: %.2f of gcc, %.2f of clang\n", bits, measure, of["ours"] / of["gcc-reader"], of["ours"] / of["clang-reader"] }'
    done
done
