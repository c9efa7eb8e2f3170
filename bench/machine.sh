#!/usr/bin/env bash
# Measures the interpreter against a plain one in C: bash bench/machine.sh. Both are placed at four places of a cache line, and each
# program is run several times, the least time of which counts. The bench program is built in a folder of its own, and is no part
# of the gate. Prints nanoseconds a step.
set -eu
top=$(cd "$(dirname "$0")/.." && pwd)
kit=$(dirname "$(rt doc)")
work=$(mktemp -d)
trap 'rm -rf "$work"' EXIT
mkdir -p "$work/crates/machine_bench/src"
for crate in shapes_core rv_line rv_steps rv_reader rv_machine; do
    cp -r "$top/crates/$crate" "$work/crates/"
    grep "^$crate:" "$top/crates.txt" >>"$work/crates.txt"
done
echo 'machine_bench: shapes_core rv_line rv_reader rv_machine anyhow' >>"$work/crates.txt"
cp "$top/bench/machine/main.txt" "$work/crates/machine_bench/src/main.rt"
if ! (cd "$work/crates/machine_bench" && rt run) >"$work/log" 2>&1; then
    cat "$work/log"
    exit 1
fi

cd "$work"
for pad in 16 32 48 64; do
    printf '.section .note.GNU-stack,"",@progbits\n.section .text,"axR",@progbits\n.p2align 6\n.globl pad\npad: .skip %s, 0x90\n' "$pad" >pad.s
    cc -c pad.s -o pad.o
    "$kit/bin/rattle-link" --target x86_64-unknown-linux-gnu --toolchain "$kit/toolchain" -o here-$pad \
        pad.o crates/machine_bench/out/machine_bench.o "$kit/c/liblibc_c.a" "$kit/c/libos_c.a" 2>/dev/null
    for compiler in gcc clang; do
        "$compiler" -O2 -c "$top/bench/machine/interpreter.c" -o plain.o
        cc pad.o plain.o -o $compiler-$pad
    done
done
for program in here gcc clang; do
    for pad in 16 32 48 64; do
        for _ in 1 2 3 4 5 6 7; do ./$program-$pad; done | sort -n | head -1
    done | awk -v name=$program '{ each = each sprintf("  %.2f", $1 / $2); all += $1 / $2 } END { printf "%-6s mean %.2f, at each place%s\n", name, all / NR, each }'
done
