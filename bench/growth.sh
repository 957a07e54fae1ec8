#!/bin/sh
# How the built program's time and memory grow with its input: families of packages, each in three sizes that double.
# Prints for the fastest of three calls the family, n, the seconds of processor time and the most memory in MB, and for
# each family the exponents of time and memory between its last two sizes. Ends with 1 where an exponent is above 1.3,
# or where a call is refused. Memory counts above that of a call on nothing; less than 0.05 s and less than 16 MB are
# not judged (-). Where every outcome tells its own trace, so that the report grows with the square of n (paths,
# outcomes), the exponents are those by the bytes of the report, and where paths get longer (nested) by the bytes of
# their list. It needs GNU time.
#
#     bench/growth.sh [FAMILY ..]    one-path paths folder own-folder shuffled into side nested ifs turns calls words
#                                    outcomes: all of these, if none is named
#     SHARE=N bench/growth.sh ..     the sizes divided by N, for a busy machine or a program with checks
here=$(dirname "$(readlink -f "$0")")
. "$here/common.sh"
[ -x /usr/bin/time ] || { echo "bench: growth.sh needs /usr/bin/time" >&2; exit 1; }
cd "$folder" || exit 1
share=${SHARE:-1}

# fresh: a package without files and scripts in p.
fresh() {
    rm -rf p
    mkdir p
    printf 'Package: p\nVersion: 1\n' >p/control
    echo '/.' >p/list
    extra=
}

# lines N FORMAT: the format for each number from 1 to N, which stands in it once.
lines() {
    awk -v n="$1" -v format="$2" 'BEGIN { for (i = 1; i <= n; i++) printf format "\n", i }'
}

# again N WORD: the word so often.
again() {
    awk -v n="$1" -v word="$2" 'BEGIN { for (i = 0; i < n; i++) printf "%s", word }'
}

# postinst: standard input behind the first lines of a script.
postinst() {
    {
        printf '#!/bin/sh\nset -e\n'
        cat
    } >p/postinst
}

# call_once OPTION ..: one call on the package p, with the extra words and the stack that ./colis asks for.
call_once() {
    # (the extra words are to be cut apart, and some shells know no limit of the stack)
    # shellcheck disable=SC2086,SC3045
    (
        ulimit -S -s 1048576 2>/dev/null
        exec timeout 300 /usr/bin/time -q -o spent -f '%U %S %M' \
            "$program" check p --scenario "$scenario" $extra "$@"
    ) >report 2>line
    status=$?
}

# try FAMILY N SCENARIO OPTION ..: the fastest of three such calls.
try() {
    family=$1
    count=$2
    scenario=$3
    shift 3
    : >times
    for _ in 1 2 3; do
        call_once "$@"
        read -r user system memory <spent
        echo "$user $system $memory" >>times
    done
    read -r user system memory <<EOF
$(sort -n -k1,1 times | head -n 1)
EOF
    case $measure in
    n) of=$count ;;
    *) of=$(wc -c <"$measure") ;;
    esac
    case $status in
    [012]) ;;
    *) echo "WRONG $family $count: status $status: $(head -n 1 line)" | tee -a wrong ;;
    esac
    echo "$family $count $of $user $system $memory" | awk -v least="$least" '{
        printf "%-16s %8d %9.2f s %9.1f MB\n", $1, $2, $4 + $5, $6 / 1024
        print $1, $2, $3, $4 + $5, $6 / 1024 - least / 1024 >>"figures"
    }'
}

# judge: the exponents of the family in figures.
judge() {
    awk '{ at[NR] = $3; took[NR] = $4; memory[NR] = $5; name = $1 }
        function exponent(a, b, low) {
            if (b < low) return "-"
            if (a < low / 4) a = low / 4
            return sprintf("%.2f", log(b / a) / log(at[NR] / at[NR - 1]))
        }
        END {
            time = exponent(took[NR - 1], took[NR], 0.05)
            room = exponent(memory[NR - 1], memory[NR], 16)
            bad = (time != "-" && time > 1.3) || (room != "-" && room > 1.3)
            printf "%s== %s: time %s, memory %s\n", bad ? "WRONG " : "", name, time, room
            if (bad) print name >>"wrong"
        }' figures
    rm -f figures
}

# sizes N ..: each divided by the share.
sizes() {
    for size in "$@"; do
        echo $((size / share))
    done
}

# ---- one change of one path, n times; n paths

one_path() {
    for n in $(sizes 4000 8000 16000); do
        fresh
        again "$n" 'rm -f /srv/a~' | tr '~' '\n' | postinst
        try one-path "$n" install --brief
    done
}

paths() {
    measure=report
    for n in $(sizes 500 1000 2000); do
        fresh
        lines "$n" 'rm -f /srv/k%d' | postinst
        try paths "$n" install --brief
    done
    judge
    measure=n
}

# ---- n files in one folder, removed, purged, upgraded; the same where nothing but the package's own files stands there

# files N: the list of a folder of so many files.
files() {
    printf '/usr\n/usr/share\n/usr/share/p\n'
    lines "$1" /usr/share/p/f%06d
}

folder_of() {
    for scenario in remove purge upgrade; do
        for n in $(sizes 10000 20000 40000); do
            fresh
            files "$n" >>p/list
            try "$1-$scenario" "$n" "$scenario" --brief
        done
        judge
    done
}

own_folder() {
    for scenario in remove purge upgrade; do
        for n in $(sizes 10000 20000 40000); do
            fresh
            files "$n" >>p/list
            printf 'dir /usr\ndir /usr/share\nown\n' >base
            extra='--base base'
            try "own-$scenario" "$n" "$scenario" --brief
        done
        judge
    done
}

# ---- n files in one folder, listed in an order like a random one

shuffled() {
    for scenario in remove upgrade; do
        for n in $(sizes 10000 20000 40000); do
            fresh
            files 0 >>p/list
            awk -v n="$n" 'BEGIN {
                for (i = 0; i < n; i++) printf "%06d /usr/share/p/f%06d\n", i * 7919 % 99991, i
            }' | sort | cut -d ' ' -f 2 >>p/list
            try "shuffled-$scenario" "$n" "$scenario" --brief
        done
        judge
    done
}

# ---- n links put into a new folder, beside n files; n of these files copied there, and moved

into() {
    for act in ln cp mv; do
        case $act in
        ln) format='ln -s f%06d /usr/share/p/d' ;;
        *) format="$act /usr/share/p/f%06d /usr/share/p/d" ;;
        esac
        for n in $(sizes 1000 2000 4000); do
            fresh
            files "$n" >>p/list
            printf 'dir /usr\ndir /usr/share\nown\nfits\n' >base
            extra='--base base'
            {
                echo 'mkdir /usr/share/p/d'
                lines "$n" "$format"
            } | postinst
            try "into-$act" "$n" install-again --brief
        done
        judge
    done
}

# ---- n folders side by side, and within one another, where nothing but the package's own stands there

side() {
    for n in $(sizes 250 500 1000); do
        fresh
        printf 'dir /usr\ndir /usr/share\nown\n' >base
        extra='--base base'
        printf '/usr\n/usr/share\n' >>p/list
        lines "$n" /usr/share/d%06d >>p/list
        try side "$n" remove --brief
    done
}

nested() {
    measure=p/list
    for n in 16 32 64; do
        fresh
        printf 'dir /usr\nown\n' >base
        extra='--base base'
        awk -v n="$n" 'BEGIN { for (i = 0; i < n; i++) { path = path "/d"; print path } }' >>p/list
        try nested "$n" remove --brief
    done
    judge
    measure=n
}

# ---- n `if` within one another; a loop of n turns

ifs() {
    for n in 16 32 64; do
        fresh
        {
            again "$n" 'if test -e /srv/a; then~' | tr '~' '\n'
            echo :
            again "$n" 'fi~' | tr '~' '\n'
        } | postinst
        try ifs "$n" install --brief
    done
}

turns() {
    for n in $(sizes 2500 5000 10000); do
        fresh
        printf 'while test ! -e /srv/a; do rm -f /srv/b; done\n' | postinst
        extra="--turns $n"
        try turns "$n" install --brief
    done
}

# ---- n lines of a base that state calls; a word of n bytes

calls() {
    for n in $(sizes 4000 8000 16000); do
        fresh
        lines "$n" 'call c%06d ok' >base
        echo c000001 | postinst
        extra='--base base'
        try calls "$n" install --brief
    done
}

words() {
    for n in $(sizes 250000 500000 1000000); do
        fresh
        {
            printf 'x='
            again "$n" a
            echo
        } | postinst
        try words "$n" install --brief
    done
}

# ---- n outcomes, in each layout

outcomes() {
    measure=report
    for layout in text --brief --json; do
        for n in $(sizes 100 200 400); do
            fresh
            lines "$n" 'mkdir /srv/k%d' | postinst
            if [ "$layout" = text ]; then
                try outcomes-text "$n" install
            else
                try "outcomes$layout" "$n" install "$layout"
            fi
        done
        judge
    done
    measure=n
}

measure=n
fresh
least=0
try nothing 0 install --brief >/dev/null
least=$memory
rm -f figures wrong
for family in ${*:-one-path paths folder own-folder shuffled into side nested ifs turns calls words outcomes}; do
    case $family in
    one-path) one_path ;;
    folder) folder_of folder ;;
    own-folder) own_folder ;;
    paths | shuffled | into | side | nested | ifs | turns | calls | words | outcomes) "$family" ;;
    *)
        echo "usage: bench/growth.sh [one-path] [paths] [folder] [own-folder] [shuffled] [into] [side] [nested] [ifs]" \
            "[turns] [calls] [words] [outcomes]" >&2
        exit 1
        ;;
    esac
    [ ! -e figures ] || judge
done
[ ! -e wrong ]
