#!/bin/sh
# Pages of packages that are installed here, in a browser: each is the one that page.py makes by its definition; tidy and
# chromium's console say nothing of it; no request leaves; and the document that chromium makes of it has the text of
# `explain`, each anchor and each link. What is otherwise is printed, and the script then ends with 1.
#
#     bench/browser.sh [COUNT [DIR]]
#
# The first COUNT installed packages (20) that have a script and are explained within 60 seconds, with the base of this
# machine (colis-base), else with share/debian.base. With DIR the pages and their pictures, at 400 and 1400 pixels, light
# and dark, are put there. chromium and tidy are needed.
here=$(dirname "$(readlink -f "$0")")
count=${1:-20}
if [ -n "$2" ]; then
    mkdir -p "$2" || exit 1
    PAGES=$(readlink -f "$2")
    export PAGES
fi
for tool in chromium tidy dpkg-query python3; do
    command -v "$tool" >/dev/null || { echo "bench: $tool is missing" >&2; exit 1; }
done
. "$here/common.sh"
cd "$folder" || exit 1
"$here/../colis-base" >base 2>/dev/null || cp "$here/../share/debian.base" base

for script in /var/lib/dpkg/info/*.p*inst /var/lib/dpkg/info/*.p*rm; do
    name=${script##*/}
    name=${name%.*}
    echo "${name%:*}"
done | sort -u >names
found=0
while [ "$found" -lt "$count" ] && read -r name; do
    "$here/../colis-unpack" --installed "$name" "$name" </dev/null 2>/dev/null || continue
    timeout 60 "$program" explain "$name" --base base --html </dev/null >page 2>/dev/null
    [ "$?" -le 2 ] || continue
    found=$((found + 1))
    python3 "$here/page.py" "$program" --base base "$name" </dev/null
done <names >all
grep -v '^1 pages, 0 with faults$' all
echo "$found pages, $(grep -c '^1 pages, 1 with faults$' all) with faults"
! grep -q '^1 pages, 1 with faults$' all
