#!/bin/sh
# Checks installed packages of this machine, scenario by scenario, with the built program, and prints for each scenario
# the package, the scenario, the status, the milliseconds, and the outcomes that are done, failed, incomplete and bound;
# then for each scenario how often each status came, and at the end the reasons of incomplete ends with the word that
# stands there, by the number of packages and scenarios that have them.
#
#     bench/real_packages.sh [-b BASE] [COUNT [FILE.deb ..]]
#
# The first COUNT installed packages that have a script (40), and the packages in these files, as `apt-get download`
# leaves them, with the base in the file BASE, else the usual one.
#
# Where there is no package database it says so and goes on with the files. A check that takes longer than 60 seconds is
# stopped, and told as `slow`.
base=
if [ "$1" = -b ]; then
    base=$(readlink -f "$2")
    shift 2
fi
count=${1:-40}
[ "$#" -eq 0 ] || shift
top=$(dirname "$(readlink -f "$0")")/..
program=$top/crates/colis_checker/out/colis_checker
[ -x "$program" ] || { echo "bench: build the program first: ./colis check examples/web-data" >&2; exit 1; }
command -v dpkg-query >/dev/null 2>&1 || { echo "bench: no package database here" >&2; count=0; }
folder=$(mktemp -d) || exit 1
trap 'rm -rf "$folder"' EXIT

packages() {
    for script in /var/lib/dpkg/info/*.p*inst /var/lib/dpkg/info/*.p*rm; do
        name=${script##*/}
        name=${name%.*}
        echo "${name%:*}"
    done | sort -u | head -n "$count"
}

# ends: of each incomplete outcome in the report the reason, the script that was called last, and the byte offset.
ends() {
    awk '$1 == "outcome" { reason = ""; if ($3 == "incomplete") { reason = $4; split($5, site, ":") } }
        $1 == "call" && reason != "" && $NF == "ended" { print reason, $3, site[2] }' "$folder/report"
}

# check_all NAME: the six scenarios of the unpacked package of this name, which is taken away afterwards.
check_all() {
    name=$1
    for scenario in install install-again upgrade remove purge purge-later; do
        begin=$(date +%s%N)
        timeout 60 "$program" check "$folder/$name" --scenario "$scenario" ${base:+--base "$base"} \
            >"$folder/report" 2>"$folder/line"
        status=$?
        end=$(date +%s%N)
        [ "$status" -ne 124 ] || status=slow
        for kind in done failed incomplete bound; do
            grep -c "^outcome [0-9]* $kind " "$folder/report"
        done | xargs echo "$name $scenario $status $(((end - begin) / 1000000))" "$(head -n 1 "$folder/line")"
        echo "$scenario $status" >>"$folder/statuses"
        ends | sort -u | while read -r reason script at; do
            echo "$reason $(tail -c +$((at + 1)) "$folder/$name/$script" | head -n 1 | cut -d' ' -f1)"
        done | sort -u >>"$folder/reasons"
    done
    rm -rf "${folder:?}/$name"
}

for installed in $(packages); do
    if "$top/colis-unpack" --installed "$installed" "$folder/$installed" 2>/dev/null; then
        check_all "$installed"
    else
        echo "$installed - cannot be unpacked"
    fi
done
for file in "$@"; do
    package=$(basename "$file" .deb)
    if "$top/colis-unpack" "$file" "$folder/$package"; then
        check_all "$package"
    else
        echo "$package - cannot be unpacked"
    fi
done
echo 'statuses:'
sort "$folder/statuses" 2>/dev/null | uniq -c
echo 'reasons of incomplete ends:'
sort "$folder/reasons" 2>/dev/null | uniq -c | sort -rn
