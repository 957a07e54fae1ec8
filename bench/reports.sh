#!/bin/sh
# Times the built program on six installations.
#
# 1. The usual template of a postinst, beside `dash -n` on the same file: 200 runs of each, at most ten times as long.
# 2. 500 times `mkdir -p /srv/kNNN`: 1,001 outcomes in under ten seconds and 1 GB.
# 3. 14 `if [ -e .. ]` inside one another, each with both branches: more than 10,000 outcomes, so status 3.
# 4. 10,000 outcomes, as many as the limit where none is given, in under 60 seconds and 4 GB.
# 5. 10,001 outcomes: the limit's line, and status 3.
# 6. 40 `if` in a row over different paths, so 2^40 paths: the same in about the time of the fifth.
. "$(dirname "$(readlink -f "$0")")/common.sh"

package template <<'EOF'
#!/bin/sh
set -e
case "$1" in
  configure)
    mkdir -p /var/lib/foo
  ;;
  abort-upgrade|abort-remove|abort-deconfigure)
  ;;
  *)
    echo "postinst called with unknown argument \`$1'" >&2
    exit 1
  ;;
esac
exit 0
EOF
install template

# runs COMMAND ..: the nanoseconds that 200 runs take.
runs() {
    begin=$(date +%s%N)
    i=0
    while [ "$i" -lt 200 ]; do
        "$@" >/dev/null 2>&1
        i=$((i + 1))
    done
    end=$(date +%s%N)
    echo $((end - begin))
}
if command -v dash >/dev/null 2>&1; then
    ours=$(runs "$program" check "$folder/template" --scenario install)
    theirs=$(runs dash -n "$folder/template/postinst")
    awk -v a="$ours" -v b="$theirs" \
        'BEGIN { printf "template: %.2f ms a run, dash -n %.2f ms, ratio %.2f\n", a / 2e8, b / 2e8, a / b }'
fi

{
    printf '#!/bin/sh\nset -e\n'
    i=0
    while [ "$i" -lt 500 ]; do
        printf 'mkdir -p /srv/k%03d\n' "$i"
        i=$((i + 1))
    done
} | package directories
install directories

# nested LEVEL PATH: an `if` with both branches at each level, of different paths.
nested() {
    if [ "$1" -eq 0 ]; then
        echo :
        return
    fi
    echo "if [ -e /srv/$2 ]; then"
    nested $(($1 - 1)) "${2}y"
    echo else
    nested $(($1 - 1)) "${2}n"
    echo fi
}
{
    echo '#!/bin/sh'
    nested 14 p
} | package nested
install nested
cat "$folder/line"

# tests COUNT: so many questions in a row, which have 2^(COUNT + 1) - 1 outcomes, since a link ends each.
tests() {
    i=0
    while [ "$i" -lt "$1" ]; do
        echo "[ -e /srv/t$i ] || :"
        i=$((i + 1))
    done
}
# many: 10,000 outcomes: two of `mkdir -p`, and behind its success, for each of the two answers of `rmdir`, 4,999: a
# question has one, and those of both branches.
many() {
    printf 'mkdir -p /srv/q\nrmdir /srv/q || :\n'
    for count in 11 8 7 6; do
        echo "if [ -e /srv/q$count ]; then"
        tests "$count"
        echo else
    done
    tests 2
    printf 'fi\nfi\nfi\nfi\n'
}
{
    printf '#!/bin/sh\nset -e\n'
    many
} | package many
install many

# One outcome more: `mkdir` fails, or the others follow.
{
    printf '#!/bin/sh\nset -e\nmkdir /srv/r\n'
    many
} | package one_more
install one_more
cat "$folder/line"

{
    echo '#!/bin/sh'
    i=0
    while [ "$i" -lt 40 ]; do
        echo "if [ -e /srv/t$i ]; then :; fi"
        i=$((i + 1))
    done
} | package forty
install forty
cat "$folder/line"
