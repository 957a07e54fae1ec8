#!/bin/sh
# Runs the built program with each allocation refused in turn, with each file that is opened failing, and with each read
# and each write failing after 0, 1 and 10 bytes, on six calls and a refused one. Prints how often each was tried, and
# the statuses that came, by how often they came.
#
# With an allocation refused the status is 6, with a beginning of the text and of the line `colis: out of memory`, or
# all is as without. Of a failed read the status is 4, and the line names a file. Of a failed write it is 5: what was
# taken is written, and of the text also the line `colis: write failed`. Each other answer is printed as WRONG, and the
# script then ends with 1. It needs a C compiler (CC, or else cc).
here=$(dirname "$(readlink -f "$0")")
. "$here/common.sh"
${CC:-cc} -O2 -shared -fPIC -o "$folder/faults.so" "$here/faults.c" || exit 1
cd "$folder" || exit 1

# ---- packages

package three_ways <<'EOF'
#!/bin/sh
set -e
[ -e /srv/a ] || mkdir /srv/a
EOF
package wrong <<'EOF'
#!/bin/sh
echo 'a
EOF
for name in old new; do
    mkdir "$name"
    echo '/.' >"$name/list"
done
echo 'Version: 1' >old/control
printf '#!/bin/sh\nexit 1\n' >old/prerm
echo 'Version: 2' >new/control
printf '#!/bin/sh\n[ "$1" = failed-upgrade ]\n' >new/prerm
cp -r new failing
cp -r old older
printf '#!/bin/sh\nexit 1\n' | tee failing/prerm >older/postinst
mkdir foreign
printf '/.\n/etc\n/etc/foo\n/etc/foo/a.conf\n' >foreign/list
echo '/etc/foo/a.conf' >foreign/conffiles
: >tree
printf 'colis: out of memory\n' >memory_line
printf 'colis: write failed\n' >write_line

# ---- one run

# run KIND AT TAKEN WORD ..: the program on these words with that call failing; `status`, the files out, err and count.
run() {
    fault=$1
    fault_at=$2
    fault_taken=$3
    shift 3
    FAULT=$fault FAULT_AT=$fault_at FAULT_TAKEN=$fault_taken LD_PRELOAD=$folder/faults.so \
        "$program" "$@" >out 2>err 9>count
    status=$?
}

# begins FILE WHOLE: the file holds a beginning of the other.
begins() {
    [ "$(wc -c <"$1")" -le "$(wc -c <"$2")" ] && cmp -s -n "$(wc -c <"$1")" "$1" "$2"
}

# same_as_before: the status, the text and the line are those of the run without a fault.
same_as_before() {
    [ "$status" -eq "$wanted" ] && cmp -s out wanted_out && cmp -s err wanted_err
}

# names_a_file: the line says that a file was not read.
names_a_file() {
    [ "$(wc -l <err)" -eq 1 ] && grep -q '^colis: [a-z_]*\(/[a-z]*\)\{0,1\}: read failed$' err
}

# is_right KIND: the answer of a run with a fault of this kind is one that it may have.
is_right() {
    case $1 in
    alloc) same_as_before || { [ "$status" -eq 6 ] && begins out wanted_out && begins err memory_line; } ;;
    open | read) [ "$status" -eq 4 ] && [ ! -s out ] && names_a_file ;;
    write)
        [ "$status" -eq 5 ] && begins out wanted_out && if [ -s wanted_out ]; then
            cmp -s err write_line
        else
            begins err wanted_err
        fi
        ;;
    esac
}

# taken_is K: of a write that failed after K bytes the first K bytes were taken, or all.
taken_is() {
    if [ -s wanted_out ]; then written=out whole=wanted_out; else written=err whole=wanted_err; fi
    size=$(wc -c <"$whole")
    [ "$1" -gt "$size" ] || size=$1
    [ "$(wc -c <"$written")" -eq "$size" ]
}

# ---- every fault of a call

# each KIND TAKEN WORD ..: every call of that kind fails in turn.
each() {
    kind=$1
    taken=$2
    shift 2
    run "$kind" 0 0 "$@"
    tries=$(cat count)
    : >statuses
    n=1
    while [ "$n" -le "$tries" ]; do
        run "$kind" "$n" "$taken" "$@"
        echo "$status" >>statuses
        if ! is_right "$kind" || { [ "$kind" = write ] && ! taken_is "$taken"; }; then
            echo "WRONG: $kind $n of $tries, after $taken bytes: status $status, $(head -n 1 err)"
            wrong=1
        fi
        n=$((n + 1))
    done
    sort statuses | uniq -c | awk -v what="$kind after $taken bytes: $tries tried; statuses:" '
        BEGIN { printf "%s", what } { printf " %d times %s", $1, $2 } END { print "" }'
}

# all WORD ..: every fault of the program on these words.
all() {
    echo "$*"
    run none 0 0 "$@"
    wanted=$status
    cp out wanted_out
    cp err wanted_err
    each alloc 0 "$@"
    each open 0 "$@"
    for bytes in 0 1 10; do
        each read "$bytes" "$@"
        each write "$bytes" "$@"
    done
}

wrong=0
all check three_ways --scenario install --brief
all check three_ways --scenario install
all check three_ways --scenario install --json
all run new --old old --scenario upgrade --tree tree
all run failing --old older --scenario upgrade --tree tree
all check foreign --scenario purge --brief
all check wrong
exit "$wrong"
