#!/bin/sh
# Times the built program on stores of 1,000, 2,000 and 4,000 entries of /srv, which the base names: with no act, and
# with 50, each of which makes one more entry. Prints the milliseconds of both and the microseconds of one act, of
# processor time where /usr/bin/time is there. An act is to take n log n of the entries at most: at most 2.3 times as
# long on twice as many.
#
#     bench/solver.sh [ACT]         the act, with %d for its number; without it, mkdir /srv/k%d
act=${1:-mkdir /srv/k%d}
. "$(dirname "$(readlink -f "$0")")/common.sh"

# base COUNT: what is known of that many entries of /srv, whose names rise.
base() {
    echo 'dir /srv'
    i=0
    while [ "$i" -lt "$1" ]; do
        printf 'file /srv/name%05d\n' "$i"
        i=$((i + 1))
    done
}

# acts COUNT: a script of that many acts.
acts() {
    printf '#!/bin/sh\nset -e\n'
    i=0
    while [ "$i" -lt "$1" ]; do
        # (a format, with the number of the act)
        # shellcheck disable=SC2059
        printf "$act\n" "$i"
        i=$((i + 1))
    done
}

# spend NAME: reports the package's installation over the base; the milliseconds are in `took`.
spend() {
    timed=
    [ ! -x /usr/bin/time ] || timed="/usr/bin/time -q -f %U -o $folder/spent"
    begin=$(date +%s%N)
    $timed "$program" check "$folder/$1" --base "$folder/base" --scenario install --brief >"$folder/report"
    took=$((($(date +%s%N) - begin) / 1000000))
    [ -z "$timed" ] || took=$(awk '{ print $1 * 1000 }' "$folder/spent")
}

before=0
for count in 1000 2000 4000; do
    base "$count" >"$folder/base"
    acts 0 | package none
    acts 50 | package some
    spend none
    none=$took
    spend some
    one=$(((took - none) * 20))
    printf '%d entries: %d ms, with 50 acts %d ms, one act %d us' "$count" "$none" "$took" "$one"
    [ "$before" -eq 0 ] || awk -v a="$before" -v b="$one" 'BEGIN { printf ", %.2f times the half", b / a }'
    echo
    before=$one
done
