#!/bin/sh
# Times the built program on two made packages: 250 and 500 directories, each in all six scenarios at once. Prints the
# status, the seconds that passed, the seconds of processor time and the most memory in KiB of each, where /usr/bin/time
# is there, and the ratio of the seconds. 500 are to take at most 5 times the 250, under 2 seconds and under 1 GB.
# Where a text is not the one that is expected, or 1,000 outcomes are not refused, it says so and ends with 1.
. "$(dirname "$(readlink -f "$0")")/common.sh"
cd "$folder" || exit 1

# summary NUMBER: what the program is to write for that many directories.
summary() {
    echo "load $1"
    for scenario in install install-again upgrade; do
        echo "$scenario outcomes $((2 * $1 + 1)) done 1 failed $1 incomplete $1 bound 0"
    done
    for scenario in remove purge purge-later; do
        echo "$scenario outcomes 1 done 1 failed 0 incomplete 0 bound 0"
    done
    echo 'status 1'
}

# load NUMBER: the call on that many directories; its milliseconds are in `took`.
load() {
    timed=
    [ ! -x /usr/bin/time ] || timed="/usr/bin/time -q -o spent -f %U\ %M"
    begin=$(date +%s%N)
    eval "$timed" '"$program" load "$1" --limit "$((2 * $1 + 1))" >text 2>line'
    status=$?
    took=$((($(date +%s%N) - begin) / 1000000))
    [ -n "$timed" ] || echo '- -' >spent
    read -r processor memory <spent
    printf 'load %d: status %d, %d ms, %s s of processor time, %s KiB\n' "$1" "$status" "$took" "$processor" "$memory"
    summary "$1" >wanted
    if ! cmp -s text wanted || [ "$status" -ne 1 ] || [ -s line ]; then
        echo "WRONG load $1"
        exit 1
    fi
}

load 250
small=$took
load 500
awk -v a="$small" -v b="$took" 'BEGIN { printf "ratio: %.2f\n", b / (a ? a : 1) }'

"$program" load 500 --limit 1000 >text 2>line
status=$?
echo 'colis: more than 1000 outcomes in install' >wanted
if [ "$status" -ne 3 ] || [ -s text ] || ! cmp -s line wanted; then
    echo 'WRONG load 500 --limit 1000'
    exit 1
fi
