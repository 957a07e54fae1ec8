#!/bin/sh
# Times the built program on long scripts of changes.
#
#     bench/changes.sh remove       1,500, 3,000, 6,000 and 12,000 times `rm -f /srv/a`: each doubling is to take at
#                                   most 2.6 times as long, and the last under five seconds.
#     bench/changes.sh make         500 and 1,000 directories of /srv. A clause tells the changes before it, so the
#                                   report grows with the square of the count.
what=$1
case $what in
remove) counts='1500 3000 6000 12000' ;;
make) counts='500 1000' ;;
*) echo "usage: bench/changes.sh remove|make" >&2; exit 1 ;;
esac
. "$(dirname "$(readlink -f "$0")")/common.sh"

for count in $counts; do
    {
        printf '#!/bin/sh\nset -e\n'
        i=0
        while [ "$i" -lt "$count" ]; do
            case $what in
            remove) echo 'rm -f /srv/a' ;;
            make) echo "mkdir /srv/k$i" ;;
            esac
            i=$((i + 1))
        done
    } | package "$what-$count"
    install "$what-$count"
done
