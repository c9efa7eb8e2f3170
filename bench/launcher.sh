#!/usr/bin/env bash
# Tries the launcher psic: bash bench/launcher.sh, with words to try only the cases that have them in their name.
# A stand-in for rt makes a program that shows how it was called, in a copy of the tree in a temporary folder.
# Prints a line for each case, and ends with 1 where one is not ok. Takes a minute or two.
# shellcheck disable=SC2317
set -u
top=$(cd "$(dirname "$0")/.." && pwd) || exit 1
work=$(mktemp -d) || exit 1
trap 'chmod -R u+w "$work"; rm -rf "$work"' EXIT
tree="$work/a tree"
out=$tree/crates/psic/out
export COUNT=$work/count
mkdir -p "$tree" "$work/bin" "$work/bare"
tar -C "$top" --exclude='crates/*/out' -cf - psic crates crates.txt | tar -C "$tree" -xf - || exit 1

# The stand-in counts its calls, takes what it finds on standard input, and is SLOW, FAILS, is LAZY or makes NONE where wanted.
cat >"$work/bin/rt" <<'END'
#!/usr/bin/env bash
echo "$$ $*" >>"$COUNT"
cat >/dev/null
echo 'what rt says'
echo 'what rt complains' >&2
[ "$*" = 'run -- compile data/p.moa' ] && [ -f data/p.moa ] || exit 3
sleep "${SLOW:-0}"
[ -z "${FAILS:-}" ] || exit 4
[ -z "${NONE:-}" ] || exit 0
[ -z "${LAZY:-}" ] || [ ! -x out/psic ] || exit 0
[ -z "${EDIT:-}" ] || [ "$(grep -c . "$COUNT")" -gt 1 ] || touch "$EDIT"
mkdir -p out
cat >out/psic.tmp-1 <<'PROGRAM'
#!/usr/bin/env bash
case ${1-} in
    status) exit "$2" ;;
    read) exec cat - /dev/fd/9 ;;
    stay) echo "$$" && exec sleep 60 ;;
esac
printf '<%s>' "$@"
PROGRAM
chmod +x out/psic.tmp-1
mv out/psic.tmp-1 out/psic
END
chmod +x "$work/bin/rt"
# The tools that the launcher and the stand-in want, without flock and rt.
for tool in bash cat chmod env find grep ls mkdir mv ps readlink rm sleep touch; do
    ln -s "$(type -P $tool)" "$work/bare/$tool" || exit 1
done
usual=$work/bin:$PATH
plain=$work/bin:$work/bare
PATH=$usual

bad=0
only=$*
try() {
    local name=$1
    case $name in *"$only"*) ;; *) return ;; esac
    shift
    PATH=$usual
    rm -rf "$out" "$COUNT"
    if "$@"; then
        echo "ok      $name"
    else
        echo "not ok  $name"
        bad=1
    fi
}
# Runs the launcher, or another path of it, and keeps what it writes and its status.
call() { call_as "$tree/psic" "$@"; }
call_as() {
    "$@" >"$work/wrote" 2>"$work/said" </dev/null
    status=$?
}
# Tells that the last call ran the program well, and how often rt was called until now.
ran() { [ "$status" -eq 0 ] && [ "$(cat "$work/wrote")" = "$1" ] && calls "$2"; }
calls() { [ "$(grep -c . "$COUNT" 2>/dev/null)" = "$1" ]; }
quiet() { [ ! -s "$work/said" ]; }
said() { grep -q "$1" "$work/said"; }
refused() { [ "$status" -eq 125 ] && [ ! -s "$work/wrote" ]; }
# Tells that nothing of a build is left.
clean() { [ -z "$(ls -A "$out")" ]; }

from_nothing() { call a && ran '<a>' 1 && said 'building the program, since it is not built' && ! said 'what rt'; }
built_already() { call a && call a && ran '<a>' 1 && quiet && [ "$(ls -A "$out")" = psic ]; }
words() { call 'a b' '' '*' $'c\nd' '' && ran "<a b><><*><c"$'\n'"d><>" 1 && call && ran '<>' 1; }
streams() {
    local word
    for word in built again; do
        [ "$(echo "in $word" | "$tree/psic" read 9< <(echo nine) 2>/dev/null)" = "in $word"$'\n'nine ] || return
    done
}
statuses() { call status 7 && [ "$status" -eq 7 ] && call status 11 && [ "$status" -eq 11 ] && calls 1; }
signals() {
    local pid
    rm -f "$work/stays"
    "$tree/psic" stay >"$work/stays" 2>/dev/null &
    pid=$!
    until [ -s "$work/stays" ]; do sleep 0.1; done
    touch "$tree/crates.txt"
    [ "$(cat "$work/stays")" = "$pid" ] && call a && ran '<a>' 2 && ! said waiting || return
    kill "$pid"
    wait "$pid" 2>/dev/null
    [ $? -eq 143 ]
}

stale() { call a && touch "$tree/$1" && call a && ran '<a>' 2 && said "since $1 is newer" && call a && ran '<a>' 2 && quiet; }
removed() {
    touch "$tree/crates/psi_top/proofs/Extra.antt" && call a && rm "$tree/crates/psi_top/proofs/Extra.antt"
    call a && ran '<a>' 2 && said 'since crates/psi_top/proofs is newer'
}
left_by_builds() {
    mkdir -p "$tree/crates/psi_top/out/rlib" && call a && touch "$tree/crates/psi_top/out/rlib/x" "$out/psic.o"
    call a && ran '<a>' 1 && quiet
}
rt_changes_nothing() { call a && touch "$tree/crates.txt" && LAZY=1 call a && ran '<a>' 2 && call a && ran '<a>' 2 && quiet; }
edited_meanwhile() { EDIT=$tree/crates.txt call a && ran '<a>' 2 && call a && ran '<a>' 2 && quiet; }
in_future() {
    touch -t 203001010000 "$tree/crates/psic/args" && call a && ran '<a>' 1 && said 'crates/psic/args is dated in the future'
    call a && ran '<a>' 2
    local -i well=$?
    touch "$tree/crates/psic/args"
    return "$well"
}

links() {
    mkdir -p "$work/links/deep" && ln -sf "$tree/psic" "$work/links/absolute" && ln -sf '../a tree/psic' "$work/links/relative"
    ln -sf ../relative "$work/links/deep/chain" && ln -sf deep/chain "$work/links/longer" && ln -sfn "$tree/crates/psic" "$work/folder"
    local link well=0
    for link in absolute relative deep/chain longer; do
        { call_as "$work/links/$link" a && ran '<a>' 1 && (cd "$work/links" && PATH=.:$PATH "$link" b | grep -q '<b>'); } || well=1
    done
    ln -sf ../../../psic "$tree/crates/psic/data/back"
    { call_as "$work/folder/data/back" a && ran '<a>' 2; } || well=1
    rm "$tree/crates/psic/data/back"
    return "$well"
}
folders() {
    mkdir -p "$work/other/a tree" "$work/other/crates"
    for at in / "$tree/crates" "$work/other"; do
        (cd "$at" && CDPATH=$work:$tree:$work/other "$tree/psic" a) >"$work/wrote" 2>/dev/null
        status=$?
        ran '<a>' 1 || return
    done
    cd "$work" && CDPATH=$work/other:$work call_as 'a tree/psic' a && ran '<a>' 1 && cd "$tree" && CDPATH=$work call_as bash psic a && ran '<a>' 1
}

two_at_once() {
    local first
    SLOW=2 "$tree/psic" a >"$work/first" 2>"$work/said-first" &
    first=$!
    until [ -s "$COUNT" ]; do sleep 0.1; done
    call b && ran '<b>' 1 && said 'waiting for another build' && ! said building
    wait "$first" && [ "$(cat "$work/first")" = '<a>' ] && [ "$(ls -A "$out")" = psic ]
}
many_at_once() {
    local each all=''
    for each in 1 2 3 4 5 6; do
        SLOW=1 "$tree/psic" "$each" >"$work/many-$each" 2>/dev/null &
        all="$all $!"
    done
    for each in $all; do wait "$each" || return; done
    calls 1 && [ "$(cat "$work"/many-*)" = '<1><2><3><4><5><6>' ] && [ "$(ls -A "$out")" = psic ]
}
# The launcher gets the signal in the middle of a build, and so does its group where it is sent from the keyboard.
interrupted() {
    local pid rt
    set -m
    SLOW=5 "$tree/psic" a >"$work/wrote" 2>"$work/said" &
    pid=$!
    set +m
    until [ -s "$COUNT" ]; do sleep 0.1; done
    sleep 0.2
    if [ "$1" = INT ]; then kill -INT -- "-$pid"; else kill -s "$1" "$pid"; fi
    wait "$pid" 2>/dev/null
    [ $? -eq $((128 + $(kill -l "$1"))) ] || return
    read -r rt _ <"$COUNT"
    if [ "$1" = KILL ]; then
        kill "$rt"
    else
        clean && ! kill -0 "$rt" 2>/dev/null || return
    fi
    call a && ran '<a>' 2 && ! said waiting && [ "$(ls -A "$out")" = psic ]
}
interrupted_again() {
    local pid
    call a && touch "$tree/crates.txt"
    SLOW=5 "$tree/psic" a >"$work/wrote" 2>"$work/said" &
    pid=$!
    until calls 2; do sleep 0.1; done
    kill "$pid"
    wait "$pid" 2>/dev/null
    [ ! -s "$work/wrote" ] && clean && call a && ran '<a>' 3
}
half_done() { call a && touch "$out/psic.begun" && call a && ran '<a>' 2 && said 'its last build did not end'; }
by_folder() { PATH=$plain "$@"; }

no_rt() {
    call_as env PATH="$work/bare" "$tree/psic" a && refused && said 'put rt' && clean && call a && ran '<a>' 1 || return
    call_as env PATH="$work/bare" "$tree/psic" b && ran '<b>' 1 && quiet
}
fails() {
    FAILS=1 call a && refused && said 'what rt says' && said 'what rt complains' && said 'failed with status 4' && clean || return
    call a && ran '<a>' 2 && touch "$tree/crates.txt" && FAILS=1 call a && refused && clean
}
makes_nothing() { NONE=1 call a && refused && clean; }
not_to_be_run() { call a && printf '\177ELF\0' >"$out/psic" && call a && refused && said 'cannot be run'; }
empty() { call a && : >"$out/psic" && call a && ran '<a>' 2; }
goes_on() { SLOW=11 call a && ran '<a>' 1 && said '^\.$'; }

# As root nothing is read-only, so the calls are made as nobody where that can be, and the listing must be the same in any case.
listing() { find "$tree" -printf '%p %T@ %C@ %s\n' | sort; }
as_other=()
if [ "$(id -u)" -eq 0 ] && setpriv --reuid=65534 --regid=65534 --clear-groups true 2>/dev/null; then
    as_other=(setpriv --reuid=65534 --regid=65534 --clear-groups)
    chmod 755 "$work"
fi
read_only() {
    local before well=0
    call a
    chmod -R a-w,a+rX "$tree"
    before=$(listing)
    { call_as ${as_other[@]+"${as_other[@]}"} "$tree/psic" b && ran '<b>' 1 && quiet && [ "$(listing)" = "$before" ]; } || well=1
    chmod -R u+w "$tree"
    return "$well"
}
read_only_not_built() {
    local before well=0
    chmod -R a-w,a+rX "$tree"
    before=$(listing)
    { call_as ${as_other[@]+"${as_other[@]}"} "$tree/psic" b && refused && said 'can be written' && [ "$(listing)" = "$before" ]; } || well=1
    chmod -R u+w "$tree"
    return "$well"
}

try 'builds from nothing, says so, and writes nothing of its own' from_nothing
try 'does not build again' built_already
try 'passes arguments with spaces, lines and nothing in them' words
try 'passes the input and an open file, also where it builds' streams
try 'passes the status' statuses
try 'is the program itself, which gets the signals and holds no lock' signals
try 'builds again after a source changed' stale crates/psi_top/src/lib.rt
try 'builds again after crates.txt changed' stale crates.txt
try 'builds again after a source was removed' removed
try 'does not build again for what builds leave' left_by_builds
try 'does not build again where rt found nothing to do' rt_changes_nothing
try 'builds again what was edited during the build' edited_meanwhile
try 'builds once a call where a source is dated in the future' in_future
try 'works through links, relative ones and chains' links
try 'works from any folder and with CDPATH' folders
try 'two at once build once' two_at_once
try 'six at once build once' many_at_once
try 'two at once build once, without flock' by_folder two_at_once
try 'six at once build once, without flock' by_folder many_at_once
for signal in INT TERM HUP; do
    try "leaves nothing and no lock after $signal" interrupted $signal
    try "leaves nothing and no lock after $signal, without flock" by_folder interrupted $signal
done
try 'is not held up by a build that was killed' interrupted KILL
try 'is not held up by a build that was killed, without flock' by_folder interrupted KILL
try 'runs no stale program after an interrupted build' interrupted_again
try 'builds again where a build did not come to its end' half_done
try 'builds again where the program is empty' empty
try 'ends with 125 without rt, if it must build' no_rt
try 'ends with 125 and shows the log where the build fails' fails
try 'ends with 125 where rt makes no program' makes_nothing
try 'ends with 125 where the program cannot be run' not_to_be_run
try 'shows that a long build goes on' goes_on
try 'runs from a read-only tree and writes nothing' read_only
if [ "$(id -u)" -ne 0 ] || [ ${#as_other[@]} -gt 0 ]; then
    try 'ends with 125 in a read-only tree that is not built' read_only_not_built
fi
exit $bad
