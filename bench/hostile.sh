#!/bin/sh
# Hostile input through the built program: each file of 1,048,576 bytes, the most that is read, or of the longest
# repetition that fits. Prints for each the status, the milliseconds of processor time and the most memory in KiB, where
# /usr/bin/time is there (else the milliseconds that passed), and the answer's first line. Each is to end within five
# seconds and 2 GB with a status from 0 to 3; each other is printed as WRONG, and the script then ends with 1.
#
#     bench/hostile.sh [GROUP ..]    bytes nests lines words lists trees: all of these, if none is named; and long, of
#                                    what takes longer. A call is stopped after a minute.
here=$(dirname "$(readlink -f "$0")")
. "$here/common.sh"
most=1048576
cd "$folder" || exit 1
mkdir p
echo '/.' >list

# try NAME WORD ..: one call of the program, in at most 2 GiB of address space, with the stack that ./colis asks for.
try() {
    name=$1
    shift
    timed=
    [ ! -x /usr/bin/time ] || timed="/usr/bin/time -o spent -f %M\ %U\ %S"
    begin=$(date +%s%N)
    # (some shells know no limit of memory: there the figures alone are looked at)
    # shellcheck disable=SC3045
    (
        ulimit -S -s 1048576 2>/dev/null
        ulimit -v 2097152 2>/dev/null
        eval "exec timeout 60 $timed" '"$program" "$@"'
    ) >out 2>err
    status=$?
    took=$((($(date +%s%N) - begin) / 1000000))
    memory=0
    [ -z "$timed" ] || read -r memory took <<EOF
$(tail -n 1 spent | awk '{ printf "%d %d\n", $1, ($2 + $3) * 1000 }')
EOF
    [ "$status" -ne 124 ] || took=60000
    said=$(head -q -n 1 err out | head -n 1 | cut -c 1-60)
    echo "$status $took $memory" >>figures
    verdict=
    if [ "$status" -gt 3 ] || [ "$took" -gt 5000 ] || [ "$memory" -gt 2097152 ]; then
        verdict='WRONG '
        echo "$name" >>wrong
    fi
    [ -z "$verdict$told" ] ||
        printf '%s%s: status %d, %d ms, %d KiB: %s\n' "$verdict" "$name" "$status" "$took" "$memory" "$said"
}
told=yes

# summary NAME: of the calls since the last one how many there were, the longest time, the most memory, the statuses.
summary() {
    awk -v name="$1" '{ times[$1]++; if ($2 > took) took = $2; if ($3 > memory) memory = $3 }
        END { printf "== %s: %d, at most %d ms and %d KiB; statuses:", name, NR, took, memory
            for (status in times) printf " %d times %s", times[status], status
            print "" }' figures
    rm -f figures
}

# filled WORD: the word again and again, up to the most bytes.
filled() {
    yes "$1" | tr -d '\n' | head -c "$most"
}

# numbered COUNT FORMAT: the format for each number from 0 on and the one before it, whole lines of at most the most
# bytes.
numbered() {
    awk -v count="$1" -v format="$2" -v most="$most" 'BEGIN {
        for (n = 0; n < count; n++) {
            line = sprintf(format, n, n - 1)
            size += length(line) + 1
            if (size > most) exit
            print line
        }
    }'
}

# deep COUNT BEFORE: a line of a path of so many names, and of each path above it, the shortest first.
deep() {
    awk -v count="$1" -v before="$2" 'BEGIN { for (n = 0; n < count; n++) { path = path "/a"; print before path } }'
}

# script NAME: standard input, cut at the most bytes, as the postinst of a package that places nothing; installed.
script() {
    rm -rf p
    mkdir p
    cp list p/list
    head -c "$most" >p/postinst
    try "$1" check p --scenario install --brief
}

# repeated NAME BEFORE WORD COUNT BEHIND: a script that has the word so often; with no count, as often as fits.
repeated() {
    size=$((most - ${#2} - ${#5} - 12))
    count=${4:-$((size / ${#3}))}
    {
        printf '#!/bin/sh\n%s' "$2"
        yes "$3" | head -n "$count" | tr -d '\n'
        printf '%s\n' "$5"
    } | tr '~' '\n' | script "$1"
}

# ---- all of one byte: as the whole file, and behind the first line

bytes() {
    told=
    for place in alone behind; do
        value=0
        while [ "$value" -lt 256 ]; do
            {
                [ "$place" = alone ] || printf '#!/bin/sh\n'
                head -c "$most" /dev/zero | tr '\0' "\\$(printf %o "$value")"
            } | script "byte $value $place"
            value=$((value + 1))
        done
        summary "all of one byte, $place"
    done
    told=yes
}

# ---- what opens a level, again and again; then 64 levels again and again

# times64 WORD: the word 64 times.
times64() {
    yes "$1" | head -n 64 | tr -d '\n'
}

nests() {
    for open in '{ ' '( ' '$(' '"$(' 'x=$(' 'if ' 'if :; then ' 'if :; then :; else ' 'while ' 'while :; do ' \
        'until :; do ' 'for i in a; do ' 'case a in a) ' 'f() { ' '! ' "'" '"' '\' '$((' '${x:-' '${' '`' '<<EOF ' '#' \
        '{' '( : );(' '{ :; };{ ' '$()' '$(:)' '"$(:)"' ':;' ': && ' ': || ' ': | ' ':&' '(:)' '{ :; }' \
        '>/dev/null ' '2>&1 ' '>/dev/null 2>&1 ' '>&2 </dev/null 2>/dev/null '; do
        repeated "again and again: $open" '' "$open" '' ''
    done
    for open in '{ ' '( ' 'if :; then ' 'while false; do ' 'for i in a; do ' 'case a in a) '; do
        case $open in
        '{ ') close='; }' ;;
        '( ') close=' )' ;;
        'if'*) close='; fi' ;;
        'case'*) close=';; esac' ;;
        *) close='; done' ;;
        esac
        nest=$(times64 "$open"):$(times64 "$close")
        repeated "64 levels: $open" '' "$nest~" '' ''
    done
    repeated '64 substitutions' '' "x=$(times64 '$('):$(times64 ')')~" '' ''
}

# ---- one line; lines of two bytes; commands, words, operators

lines() {
    repeated 'one line' ': ' 'a' '' ''
    repeated 'one word' '' 'a' '' ''
    yes aa | head -c "$most" | script 'lines of two bytes alone'
    for two in ':;' ':~' ': ' 'a=' 'x=' '##' '!~' '\~' '""' '$x' '$1' '$@' '$#' "''" '\a' '~~' 'a~' \
        '  ' '()' '{}' '[]' ';;' '&&' '||' '>a' '<<' '*/' '?a' '/a' '.~'; do
        repeated "two bytes: $two" '' "$two" '' ''
        repeated "two bytes behind a colon: $two" ': ' "$two" '' ''
        repeated "lines of two bytes: $two" '' "$two~" 349521 ''
    done
}

words() {
    repeated 'commands' '' ':~' '' ''
    repeated 'and-or list' ':' ' && :' '' ''
    repeated 'pipe' ':' ' | :' '' ''
    repeated 'elif' 'if false; then :' '~elif false; then :' '' '~fi'
    repeated 'case arms' 'case a in ' 'b) ;; ' '' 'esac'
    repeated 'patterns' 'case a in b' '|b' '' ') ;; esac'
    repeated 'pattern of stars' 'x=aaaaaaaaaaaaaaaa; case $x$x$x$x in ' '*a' '' 'b) ;; esac'
    repeated 'words of for' 'for i in' ' a' '' '; do :; done'
    repeated 'for over all' 'for i in a; do :; done' '~for i in a; do :; done' '' ''
    repeated 'assignments' '' 'x=a ' '' ''
    repeated 'assignments in lines' '' 'x=a~' '' ''
    repeated 'doubled text' 'x=a' '~x=$x$x' '' ''
    repeated 'parameters of one word' 'x=a; y=' '$x' '' ''
    repeated 'empty parameters' ': ' '"$1"' '' ''
    repeated 'fields' 'set -e~x="a b c"~: ' '$x ' '' ''
    repeated 'redirections out' ':' ' >/dev/null' '' ''
    repeated 'redirections of two kinds' ':' ' >/dev/null 2>&1' '' ''
    repeated 'redirections of a group' '{ :; }' ' 2>&1 >/dev/null' '' ''
    repeated 'redirections in front' '' '>/dev/null 2>&1 ' '' ':'
    repeated 'tests' '' 'test -e /srv/a~' '' ''
    repeated 'directories of one call' 'mkdir' ' /srv/a' '' ''
    repeated 'names of a path' 'mkdir ' '/a' '' ''
    repeated 'prints' '' 'echo a~' '' ''
    repeated 'captured prints' 'x=$(' 'echo a~' '' ')'
    repeated 'substitutions' '' 'x=$(:)~' '' ''
    repeated 'bound loop' 'while :; do :; done' '~while :; do :; done' '' ''
}

# ---- what takes longer: changes, of which each is told by all clauses behind it, and functions

long() {
    repeated 'removals' '' 'rm -f /srv/a~' '' ''
    {
        printf '#!/bin/sh\nf0() { :; }\n'
        numbered 200000 'f%d() { f%d; }' | sed 1d
    } | head -c "$((most - 100))" | sed '$d' >chain
    tail -n 1 chain | sed 's/().*//' >>chain
    script 'functions, each calling the one before' <chain
    {
        echo '#!/bin/sh'
        numbered 200000 'f%d() { :; }'
    } | head -c "$((most - 100))" | sed '$d' | script 'functions'
}

# ---- a list, a list of configuration files, a base and a tree

# package_file NAME FILE: standard input, cut at the most bytes, as that file of a package without scripts.
package_file() {
    rm -rf p
    mkdir p
    cp list p/list
    head -c "$most" >"p/$2"
    try "$2: $1" check p --scenario install --brief
}

lists() {
    for file in list conffiles control; do
        for byte in a / . '\n' ' ' '\0' '\377'; do
            filled x | tr x "$byte" | package_file "all of $byte" "$file"
        done
    done
    numbered 2000000 /a | package_file 'one path' list
    numbered 200000 /%d | package_file 'files of the root' list
    numbered 200000 /d/%d | package_file 'files of a directory' list
    deep 64 '' | package_file 'one path of 64 names' list
    awk 'BEGIN {
        for (n = 0; n < 20000; n++) {
            path = ""
            for (m = n + 32768; m > 1; m = int(m / 2)) path = path "/" (m % 2)
            print path "/f"
        }
    }' | package_file 'a binary tree' list
    numbered 200000 /etc/%d | package_file 'files that are not listed' conffiles
    rm -rf p
    mkdir p
    numbered 200000 /etc/%06d | tee p/list >p/conffiles
    try 'list and conffiles: all files' check p --scenario install --brief
    try 'list and conffiles: all files, purge' check p --scenario purge --brief
    rm -rf p
    mkdir p
    cp list p/list
    for line in 'dir /a' 'file /a' 'absent /a' a '#' '' 'dir /%d' 'file /%d'; do
        numbered 2000000 "$line" >base
        try "base: $line" check p --base base --scenario install --brief
    done
}

# tree_file NAME: standard input, cut at the most bytes, as the tree of a run.
tree_file() {
    head -c "$most" >tree
    try "tree: $1" run p --scenario install --tree tree
}

trees() {
    rm -rf p
    mkdir p
    cp list p/list
    printf '#!/bin/sh\nmkdir /srv\n' >p/postinst
    for byte in a / . '\n' ' ' '\0' '\377' d; do
        filled x | tr x "$byte" | tree_file "all of $byte"
    done
    numbered 2000000 'd /a' | tree_file 'one path'
    numbered 200000 'f /%06d' | tree_file 'files of the root'
    numbered 200000 'f /%06d' | tac | tree_file 'falling names'
    deep 1020 'd ' | tree_file 'a chain of directories'
    deep 4096 'd ' | tail -n 1 | tree_file 'one path of 4,096 names without those above'
    numbered 200000 'l /%06d a' | tree_file 'links'
}

for group in ${*:-bytes nests lines words lists trees}; do
    case $group in
    bytes) bytes ;;
    nests | lines | words | lists | trees | long)
        "$group"
        summary "$group"
        ;;
    *)
        echo "usage: bench/hostile.sh [bytes] [nests] [lines] [words] [lists] [trees] [long]" >&2
        exit 1
        ;;
    esac
done
[ ! -e wrong ]
