#!/usr/bin/env bash
# Tries the edits of crates/NAME/edits, each of which the check must refuse. They tell much and take long, so the gate leaves them
# out, and whoever changes the crate tries them, once the gate has passed:
#   bench/edits.sh NAME..     those of these crates
#   bench/edits.sh            those of every crate that has some
# The work is done in a copy, over the proofs that the gate kept. The status is 0 where each is refused.
set -eu
cd "$(dirname "$0")/.."
[ $# -gt 0 ] || set -- $(cd crates && for it in */edits; do echo "${it%/edits}"; done)
room=$(mktemp -d)
trap 'rm -rf "$room"' EXIT
git archive HEAD | tar -x -C "$room"
rm -rf "$room"/crates/*/must-fail
for name in "$@"; do
    cp -r "crates/$name/edits" "$room/crates/$name/must-fail"
done
cd "$room"
rt ci "$@" 2>&1 | grep -E '^rt: (must-fail|FAILED|.*(NOT|BAD))|passed,'
exit "${PIPESTATUS[0]}"
