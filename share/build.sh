#!/bin/sh
# build.sh TOP: proves the program of the repository at TOP and builds it, at TOP/crates/colis_checker/out/colis_checker.
#
# Where no library was built there yet, a copy of the sources, without tests and must-fail edits, is proved by `rt ci`,
# which takes crates that don't stand on one another side by side, on all processors; each crate is told on standard
# error when it is proved. Else `rt run` goes on with what stands there. What the kit says goes to out/build.log.
# Ends with 0 where the program stands.
top=$1
crate=$top/crates/colis_checker
program=$crate/out/colis_checker
log=$crate/out/build.log
mkdir -p "$crate/out" && rm -f "$program" || exit 1

# copied TO: what the program is made of. A folder `.git` makes it the top of a repository, which rt ci asks for.
copied() {
    mkdir -p "$1/.git" "$1/crates" && cp "$top/HANDLES" "$1" || return 1
    grep -v '_tests:' "$top/crates.txt" >"$1/crates.txt" || return 1
    sed -n 's/^\([a-z0-9_]*\):.*/\1/p' "$1/crates.txt" >"$1/.git/names"
    while read -r name; do
        mkdir "$1/crates/$name" || return 1
        for part in src specs proofs args data stdout; do
            [ ! -e "$top/crates/$name/$part" ] || cp -R "$top/crates/$name/$part" "$1/crates/$name" || return 1
        done
    done <"$1/.git/names"
}

# told N: a line for each of N crates that the lines of standard input say is proved, and how many are left.
told() {
    left=$1
    while IFS= read -r line; do
        printf '%s\n' "$line"
        case $line in
        'rt: '*': its tests'*) continue ;;
        'rt: '*' NOT PROVED'*) word='could not be proved' ;;
        'rt: '*' proved') word='is proved' ;;
        'rt: '*' is kept: '*) word='was proved before' ;;
        *) continue ;;
        esac
        left=$((left - 1))
        name=${line#rt: }
        echo "colis: ${name%% *} $word, $left left" >&2
    done
}

# (a folder of git's own is no part of the repository, so that what an ended build leaves there is in nobody's way)
room=
for folder in "$top/.git" "${TMPDIR:-/tmp}"; do
    [ -n "$room" ] || [ ! -d "$folder" ] || room=$(mktemp -d "$folder/colis-build.XXXXXX" 2>/dev/null)
done
built=
for stamp in "$top"/crates/*/out/rlib/stamp; do
    [ ! -e "$stamp" ] || built=yes
done
if [ -z "$built" ] && [ -n "$room" ] && copied "$room"; then
    trap 'rm -rf "$room"' EXIT
    trap 'exit 129' HUP
    trap 'exit 130' INT
    trap 'exit 143' TERM
    (unset CI && cd "$room" && rt ci </dev/null 2>&1) | told "$(wc -l <"$room/.git/names")" >"$log"
    tail -n 1 "$log" | grep -q ', 0 failed$' && mv "$room/crates/colis_checker/out/colis_checker" "$program"
else
    rm -rf "$room"
    (cd "$crate" && rt run </dev/null) >"$log" 2>&1
fi
[ -x "$program" ]
