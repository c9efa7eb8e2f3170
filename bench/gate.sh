#!/usr/bin/env bash
# Where the time of the gate goes. Runs a command at the top of a clean clone of the last commit and prints its last lines and
# a table: for each crate the minutes of a processor of its proof, its tests, its edits with the check that they begin with, and the building of
# programs.
#   bench/gate.sh                 proves all from nothing (rt ci --anew)
#   bench/gate.sh .ci/run         runs the gate, with what earlier runs on this machine kept
#   bench/gate.sh rt ci NAME..    some crates
# A process is looked at twice a second, so what it does after the last look is not counted. Minutes that depend on
# nothing else need a machine that does nothing beside.
set -u
top=$(cd "$(dirname "$0")/.." && pwd)
[ $# -gt 0 ] || set -- rt ci --anew
room=$(mktemp -d)
trap 'rm -rf "$room"' EXIT
git clone -q "$top" "$room/clone" || exit
cd "$room/clone" || exit

# one line for each process of the prover: who it is, its hundredths of a second so far, what it does, and for which crate
look() {
    local pid stat args fields kind
    for pid in $(pgrep -s "$gate" -f rattle); do
        { read -r stat <"/proc/$pid/stat" && args=$(tr '\0' ' ' <"/proc/$pid/cmdline"); } 2>/dev/null || continue
        case $args in
            *" --crate-name "*) ;;
            *) continue ;;
        esac
        case "$(readlink "/proc/$pid/cwd") $args" in
            */rt-edit-* | *" --incremental "*) kind=edits ;;
            *" --test "*) kind=tests ;;
            *" --crate-checked "*) kind=programs ;;
            *) kind=proof ;;
        esac
        read -ra fields <<<"${stat##*) }"
        args=${args#* --crate-name }
        echo "$pid.${fields[19]} $((fields[11] + fields[12])) $kind ${args%% *}"
    done
}

setsid "$@" >"$room/log" 2>&1 &
gate=$!
begun=$(date +%s)
while kill -0 "$gate" 2>/dev/null; do
    look
    sleep 0.5
done >"$room/looks"
wait "$gate"
status=$?
tail -n 3 "$room/log"
echo "status $status after $((($(date +%s) - begun) / 60)) minutes on $(nproc) processors"
awk -v hertz="$(getconf CLK_TCK)" '
    { ticks[$1] = $2; kind[$1] = $3; crate[$1] = $4 }
    END {
        for (it in ticks) {
            minutes = ticks[it] / hertz / 60
            of[crate[it], kind[it]] += minutes; all[crate[it]] += minutes; sum[kind[it]] += minutes; whole += minutes
        }
        row = "%-14s %8.1f %8.1f %8.1f %8.1f %8.1f\n"
        printf "%-14s %8s %8s %8s %8s %8s\n", "crate", "proof", "tests", "edits", "programs", "all"
        for (it in all) printf row, it, of[it, "proof"], of[it, "tests"], of[it, "edits"], of[it, "programs"], all[it] | "sort -k6,6nr"
        close("sort -k6,6nr")
        printf row, "all", sum["proof"], sum["tests"], sum["edits"], sum["programs"], whole
    }' "$room/looks"
exit "$status"
