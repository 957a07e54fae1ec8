#!/bin/sh
# All six scenarios of a package by one call, whose workers answer them side by side, beside six calls of one scenario
# each, one after another: for a small package (examples/logwatcher), and for one whose scripts make so many directories
# each. Prints the milliseconds of both, their ratio, and how many processors there are.
#
#     bench/workers.sh [RUNS [COUNT]]    RUNS times each (20), COUNT directories in each script (60)
here=$(dirname "$(readlink -f "$0")")
. "$here/common.sh"
runs=${1:-20}
count=${2:-60}
scenarios='install install-again upgrade remove purge purge-later'

awk -v count="$count" 'BEGIN {
    print "#!/bin/sh\nset -e"
    for (n = 1; n <= count; n++) printf "mkdir -p /srv/k%03d\n", n
}' | package large
for script in preinst prerm postrm; do
    cp "$folder/large/postinst" "$folder/large/$script"
done

# spent COMMAND ..: the milliseconds that so many runs of the command take.
spent() {
    begin=$(date +%s%N)
    run=0
    while [ "$run" -lt "$runs" ]; do
        "$@" >/dev/null 2>&1
        run=$((run + 1))
    done
    echo $((($(date +%s%N) - begin) / 1000000))
}

# in_turn PACKAGE: six calls, one after another.
in_turn() {
    for scenario in $scenarios; do
        "$program" check "$1" --scenario "$scenario" --brief
    done
}

# compare NAME PACKAGE: both ways, with their ratio.
compare() {
    at_once=$(spent "$program" check "$2" --brief)
    one_by_one=$(spent in_turn "$2")
    awk -v name="$1" -v a="$at_once" -v b="$one_by_one" -v runs="$runs" -v processors="$(nproc)" 'BEGIN {
        printf "%s: %.1f ms at once, %.1f ms one by one, ratio %.2f on %d processors\n",
            name, a / runs, b / runs, a / b, processors }'
}

compare small "$here/../examples/logwatcher"
compare large "$folder/large"

small=$(spent "$program" check "$here/../examples/web-data" --brief)
one=$(spent "$program" check "$here/../examples/web-data" --scenario install --brief)
awk -v a="$small" -v b="$one" -v runs="$runs" 'BEGIN {
    printf "start: %.2f ms with all scenarios, %.2f ms with one, ratio %.2f\n", a / runs, b / runs, a / b }'
