#!/bin/sh
# Times `predict` of the built program: the outcomes of a script with independent questions, by trees of 500 entries.
#
# 1. 8,191 outcomes by 1,000 trees: in under five seconds on four processors, and under 2 GB.
# 2. Twice as many outcomes, and twice as many trees: at most 2.5 times as long.
# 3. Beside a loop over `run`, on 50 trees: the same results.
# 4. The tree that each outcome of each example shows has that outcome.
. "$(dirname "$(readlink -f "$0")")/common.sh"
cd "$folder" || exit 1

# questions COUNT: a script with so many questions, and its report.
questions() {
    awk -v count="$1" 'BEGIN {
        print "#!/bin/sh"
        for (i = 0; i < count; i++) print "[ -e /srv/k" i " ] || :"
    }' | package asks
    printf 'dir /srv\n' >base
    "$program" check asks --base base --scenario install --limit 100000 --json >report
}

# trees COUNT: so many trees, each of which answers 12 questions by the digits of its number, with 500 entries.
trees() {
    awk -v count="$1" 'BEGIN {
        for (n = 0; n < count; n++) {
            print "tree t" n "\nd /srv\nd /usr"
            left = n
            for (i = 0; i < 12; i++) {
                if (left % 3 == 1) print "f /srv/k" i
                else if (left % 3 == 2 && i > 8) print "l /srv/k" i " x"
                left = int(left / 3)
            }
            for (i = 0; i < 490; i++) print "f /usr/f" i
        }
    }' >trees
}

# predict: what is said of the trees; the milliseconds are in `took`, and the most memory in KiB in `memory`.
predict() {
    timed=
    [ ! -x /usr/bin/time ] || timed="/usr/bin/time -f %M -o memory"
    begin=$(date +%s%N)
    $timed "$program" predict report trees >said || echo "WRONG status $?"
    took=$((($(date +%s%N) - begin) / 1000000))
}

# read_alone: the milliseconds that reading the same report takes, for no tree.
read_alone() {
    : >none
    begin=$(date +%s%N)
    "$program" predict report none >nothing || echo "WRONG status $?"
    alone=$((($(date +%s%N) - begin) / 1000000))
}

# line NAME: what was taken.
line() {
    printf '%s: %d outcomes, %d bytes, %d trees, %d ms, of which %d for the report; %s KiB\n' "$1" \
        "$(grep -o '"number":' report | wc -l)" "$(wc -c <report)" "$(grep -c '^tree ' trees)" "$took" "$alone" \
        "$(tail -n 1 memory 2>/dev/null)"
}

questions 12
trees 1000
read_alone
predict
line 'all'
[ "$took" -lt 5000 ] || echo 'WRONG: five seconds and more'

trees 500
predict
line 'half of the trees'
trees 1000
questions 11
read_alone
predict
line 'half of the outcomes'

questions 10
trees 50
read_alone
predict
line 'beside run'
awk '/^tree / { name = $2; next } { print >name ".tree" }' trees
begin=$(date +%s%N)
i=0
while [ "$i" -lt 50 ]; do
    result=$("$program" run asks --base base --scenario install --tree "t$i.tree" | sed -n 's/^result //p')
    echo "t$i $result"
    i=$((i + 1))
done >ran
printf 'the same trees by run: %d ms\n' $((($(date +%s%N) - begin) / 1000000))
sed -n '3,$s/ outcome [0-9]* / /p' said | cmp -s - ran || echo 'WRONG: run ends otherwise'

for example in "${program%/crates/*}"/examples/*/; do
    "$program" check "$example" --json >report
    [ $? -le 2 ] || continue
    "$program" check "$example" | awk '
        /^scenario / { scenario = $2 }
        /^outcome / { name = scenario "." $2; line = name " " $0 }
        /^shown$/ { print "tree " name; print line >"wanted"; shows = 1; next }
        /^after$/ { shows = 0 }
        shows' >trees
    "$program" predict report trees | awk '
        /^scenario / { scenario = $2 "."; next }
        scenario && substr($0, 1, length(scenario)) == scenario' >said
    if cmp -s wanted said; then
        echo "ok ${example##*/examples/} $(wc -l <said) outcomes"
    else
        echo "WRONG ${example##*/examples/}"
    fi
done
