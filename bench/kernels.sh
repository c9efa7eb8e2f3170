#!/usr/bin/env bash
# Compiles six kernels and prints how many steps their texts print for each element of the output: bash bench/kernels.sh. The
# steps are a property of the text, so the figures are the same on every machine.
set -eu
top=$(cd "$(dirname "$0")/.." && pwd)
work=$(mktemp -d)
trap 'rm -rf "$work"' EXIT

# A name, the elements of the output, and the lines of the source behind the first.
kernel() {
    printf 'psi 1\n%s\n' "$3" >"$work/kernel.moa"
    "$top/psic" compile "$work/kernel.moa" >"$work/kernel.s"
    awk -v name="$1" -v elements="$2" '
        $2 == "steps" { steps = $3 }
        /^    / { lines++ }
        END { printf "%-28s %10d steps  %6.2f an element  %4d instructions\n", name, steps, steps / elements, lines }
    ' "$work/kernel.s"
}

kernel 'add A B' 4096 $'in A 4096\nin B 4096\nout C = add A B'
kernel 'add mul 3 A B' 4096 $'in A 4096\nin B 4096\nout C = add mul 3 A B'
kernel 'transpose A, 64 by 64' 4096 $'in A 64 64\nout C = transpose A'
kernel 'sub (drop <1> X) drop <-1> X' 4095 $'in X 4096\nout D = sub (drop <1> X) (drop <-1> X)'
kernel 'outer mul A B, 64 by 64' 4096 $'in A 64\nin B 64\nout C = outer mul A B'
kernel 'max 0 (min 255 A)' 4096 $'in A 4096\nout C = max 0 (min 255 A)'
