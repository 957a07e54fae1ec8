#!/bin/sh
# Times the built program on a script and on one of twice its size, and prints both times and their ratio.
#
#     bench/two_sizes.sh tests      100 and 200 tests of different names of /srv. 200 are to take under two seconds, and at
#                                   most 4.5 times the 100.
#     bench/two_sizes.sh changes    100 and 200 names of /srv, each taken away and made anew. Each clause tells the changes
#                                   before it, so the report grows with the square of the count: 200 names are to take
#                                   under two seconds, and at most 6 times the 100.
what=$1
case $what in
tests) line='test -e /srv/name%d\n' ;;
changes) line='rm -f /srv/name%d\nmkdir /srv/name%d\n' ;;
*) echo "usage: bench/two_sizes.sh tests|changes" >&2; exit 1 ;;
esac
. "$(dirname "$(readlink -f "$0")")/common.sh"

for count in 100 200; do
    {
        printf '#!/bin/sh\nset -e\n'
        i=0
        while [ "$i" -lt "$count" ]; do
            # (a format for each line, with the number as often as it stands there)
            # shellcheck disable=SC2059
            printf "$line" "$i" "$i"
            i=$((i + 1))
        done
    } | package "$what-$count"
    install "$what-$count"
    [ "$count" -ne 100 ] || small=$took
done
awk -v a="$small" -v b="$took" 'BEGIN { printf "ratio: %.2f\n", b / (a ? a : 1) }'
