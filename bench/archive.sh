#!/bin/sh
# Many packages through colis-archive: its lines, its summary, its status, and what it leaves behind, with a checker in
# place of the program that answers by the names of packages, and at last with the program. Each call is to answer as it
# stands here; any other is printed as WRONG, and the script then ends with 1. dpkg-deb is needed.
# `bench/archive.sh SHELL` runs the scripts in another shell than sh.
here=$(dirname "$(readlink -f "$0")")
. "$here/common.sh"
repository=$(dirname "$here")
shell=$(command -v "${1:-sh}")
trap 'exit 1' HUP INT TERM
cd "$folder" || exit 1
export LC_ALL=C
: >wrong
mkdir -p top/share tmp
for name in colis-archive colis-unpack share/archive-line.sh; do
    { echo "#!$shell" && tail -n +2 "$repository/$name"; } >"top/$name"
    chmod +x "top/$name"
done
cp "$repository/share/escaped.sed" top/share
TMPDIR=$folder/tmp
export TMPDIR

# The checker that answers by names: a word and its number `w:N` for some of the scenarios.
cat >top/colis <<'EOF'
#!/bin/sh
[ "$1" != load ] || exit "${BUILD:-0}"
for name in "$@"; do :; done
scenario=$*
scenario=${scenario#*--scenario }
scenario=${scenario%% *}
printf '%s\n' "$*" >>"$CALLS"
case $1:$2:$name in
explain:--html:mute*) kill -9 $$ ;;
explain:--html:*) printf 'page of %s\n' "$name" && exit 2 ;;
esac
case $1:$name:$scenario in
explain:*:remove | explain:mute*) kill -9 $$ ;;
explain:fails*) printf '%s/postinst:4:1: note: a link (%s, 1 outcome)\n%s/postrm:2:3: error: rm fails (x, 1 outcome)\n' \
    "$name" "$scenario" "$name" && exit 1 ;;
explain:*) printf '%s: dpkg unpacks the files, act 2: note: a link (%s, 1 outcome)\n' "$name" "$scenario" && exit 2 ;;
*:p:*) ! grep -q wrong ../../base 2>/dev/null || { echo 'colis: ../../base: line 1: fault 1' >&2 && exit 3; } ;;
*:well*) printf 'outcome 1 done Installed\n' ;;
*:mute1:*) printf 'outcome 1 done Installed\noutcome 2 failed Half-Configured\n' && exit 1 ;;
*:mute2:*) printf 'outcome 1 done Installed\noutcome 2 incomplete run 3:57\n' && exit 2 ;;
*:fails*:purge) printf 'outcome 1 incomplete link 1:2\noutcome 2 failed Config-Files\noutcome 3 done Installed\n' && exit 1 ;;
*:fails*:* | *:open*:upgrade) printf 'outcome 1 bound 1:2\noutcome 2 incomplete link 1:2\n' && exit 2 ;;
*:open*) printf 'outcome 1 done Installed\n' ;;
*:refused*) echo "colis: $name/postinst: unsupported redirect at 420" >&2 && exit 3 ;;
*:start:purge) echo "colis: no start tree for $scenario" >&2 && exit 3 ;;
*:many:remove) echo "colis: more than 10000 outcomes in $scenario" >&2 && exit 3 ;;
*:start:* | *:many:*) printf 'outcome 1 done Installed\n' ;;
*:unread:*) echo "colis: unread/list: read failed" >&2 && exit 4 ;;
*:memory:*) echo "colis: out of memory" >&2 && exit 6 ;;
*:killed:*) kill -9 $$ ;;
*:crash:*) kill -SEGV $$ ;;
*:slow*:install) exec "$SLEEP" 60 ;;
*:slow*) printf 'outcome 1 done Installed\n' ;;
*:second*) sleep 1 && printf 'outcome 1 done Installed\n' ;;
*:base:*) printf 'outcome 1 done Installed\n' ;;
*) printf 'outcome 1 done Installed\n' ;;
esac
EOF
chmod +x top/colis
cp "$(command -v sleep)" top/sleep
CALLS=$folder/calls SLEEP=$folder/top/sleep
export CALLS SLEEP
for name in well fails open refused start many unread memory killed crash slow mute1 mute2 second1 second2 second3 second4; do
    mkdir "$name"
    echo /. >"$name/list"
done

# same NAME GOT: the file has what stands on standard input.
same() {
    cat >expected
    if cmp -s expected "$2"; then
        printf 'ok %s\n' "$1"
    else
        printf 'WRONG %s\n' "$1"
        diff -a expected "$2"
        echo WRONG >>wrong
    fi
}

# archive WORD ..: a call; `said` has its status, its standard output and its standard error.
archive() {
    : >calls
    top/colis-archive "$@" >out 2>err </dev/null
    status=$?
    { echo "status $status" && cat out err; } >said
}

# lines STATUS: the table with the lines on standard input, the last of which is the summary.
lines() {
    echo "status $1"
    echo 'package               install         upgrade         remove          purge           first thing in the way'
    sed '$s/^/\n/'
}

# clean NAME: no folder of an earlier call is left, and no call.
clean() {
    ls -A tmp >left
    pgrep -f "$folder/" >>left
    same "$1: nothing is left" left </dev/null
}

# ---- lines

archive well fails open refused
lines 1 <<'EOF' | same 'four packages' said
well                  ends well       ends well       ends well       ends well
fails                 open 2/2        open 2/2        open 2/2        FAILS 1/3       purge: postrm:2:3: rm fails
open                  ends well       open 2/2        ends well       ends well       upgrade: dpkg unpacks the files, act 2: a link
refused               refused                                                         refused: postinst: unsupported redirect at 420
install: 2 ends, 1 open; upgrade: 1 ends, 2 open; remove: 2 ends, 1 open; purge: 1 FAILS, 2 ends; 1 package refused
EOF
archive start many unread memory killed crash
lines 2 <<'EOF' | same 'calls without an answer' said
start                 ends well       ends well       ends well       no start        purge: no start tree for purge
many                  ends well       ends well       too many        ends well       remove: more than 10000 outcomes in remove
unread                no answer       no answer       no answer       no answer       install: unread/list: read failed
memory                no answer       no answer       no answer       no answer       install: out of memory
killed                killed          killed          killed          killed          install: ended by signal 9
crash                 killed          killed          killed          killed          install: ended by signal 11
install: 2 ends, 4 not checked; upgrade: 2 ends, 4 not checked; remove: 1 ends, 5 not checked; purge: 1 ends, 5 not checked
EOF
archive mute1 mute2
lines 1 <<'EOF' | same 'places that are not told' said
mute1                 FAILS 1/2       FAILS 1/2       FAILS 1/2       FAILS 1/2       install: failed Half-Configured
mute2                 open 1/2        open 1/2        open 1/2        open 1/2        install: incomplete run 3:57
install: 1 FAILS, 1 open; upgrade: 1 FAILS, 1 open; remove: 1 FAILS, 1 open; purge: 1 FAILS, 1 open
EOF
archive slow well --seconds 1
lines 2 <<'EOF' | same 'a call in too long a time' said
slow                  timed out       ends well       ends well       ends well       install: not ended in 1 seconds
well                  ends well       ends well       ends well       ends well
install: 1 ends, 1 not checked; upgrade: 2 ends; remove: 2 ends; purge: 2 ends
EOF
clean 'a call in too long a time'
archive well
lines 0 <<'EOF' | same 'all end well' said
well                  ends well       ends well       ends well       ends well
install: 1 ends; upgrade: 1 ends; remove: 1 ends; purge: 1 ends
EOF
archive refused
lines 2 <<'EOF' | same 'none is checked' said
refused               refused                                                         refused: postinst: unsupported redirect at 420
install: none; upgrade: none; remove: none; purge: none; 1 package refused
EOF
archive --scenario purge-later --scenario=install well fails
{
    echo 'status 2'
    echo 'package               purge-later     install         first thing in the way'
    echo 'well                  ends well       ends well'
    echo 'fails                 open 2/2        open 2/2        purge-later: postinst:4:1: a link'
    echo
    echo 'purge-later: 1 ends, 1 open; install: 1 ends, 1 open'
} | same 'two scenarios' said
clean 'lines'

# ---- names, and the order of the lines

mkdir names
tab=$(printf '\t')
newline=$(printf 'a\nb')
for name in 'with blanks' "$newline" -dash "tab$tab" "it's" 'back\slash' "$(printf '\303\251\377')" '*'; do
    mkdir "names/$name"
    echo /. >"names/$name/list"
done
(cd names && ../top/colis-archive -j 3 -- 'with blanks' "$newline" -dash "tab$tab" "it's" 'back\slash' \
    "$(printf '\303\251\377')" '*' . >../out 2>../err)
cut -d ' ' -f 1 out | sed -e 1d -e '/^$/,$d' >said
printf '%s\n' 'with\x20blanks' 'a\x0ab' -dash 'tab\x09' "it's" 'back\x5cslash' '\xc3\xa9\xff' '*' . | same names said
cat err >said
same 'names: no word on standard error' said </dev/null
(cd names && ../top/colis-archive "it's/" "$folder/well///" >../out)
cut -d ' ' -f 1 out | sed -e 1d -e '/^$/,$d' >said
printf '%s\n' "it's" well | same 'slashes behind names' said
begin=$(date +%s%N)
archive second1 well second2 refused second3 second4
took=$((($(date +%s%N) - begin) / 1000000))
cut -d ' ' -f 1 out | sed -e 1d -e '/^$/,$d' >said
printf '%s\n' second1 well second2 refused second3 second4 | same 'the order of the words' said
# (twenty seconds of calls, of which four packages make four each)
[ "$took" -lt 14000 ] && took=few
echo "$took" >said
echo few | same 'four at a time' said
archive -j 1 second1 second2 --scenario install
archive -j1 --scenario install well
sed -n 2p out | cut -c 1-31 >said
echo 'well                  ends well' | same -j1 said
clean names

# ---- package files

# deb NAME: a package file of this name and path.
deb() {
    rm -rf made
    mkdir -p made/DEBIAN "$(dirname "$1")"
    printf '%s\n' 'Package: p' 'Version: 1' 'Architecture: all' 'Maintainer: p <p@example.org>' 'Description: p' \
        >made/DEBIAN/control
    dpkg-deb --build --root-owner-group made "$1" >/dev/null
}

deb well_1.0-1_all.deb
deb 'pool/o/open_2%3a1_all.deb'
deb 'pool/f/fails_1_all.deb'
deb 'pool/f/fails_2_all.deb'
deb "pool/with blanks.deb"
: >empty.deb
ln -s nothing.deb link.deb
mkdir none
echo text >none/text
archive well_1.0-1_all.deb empty.deb missing.deb link.deb none pool
lines 1 <<'EOF' | same 'package files' said
well                  ends well       ends well       ends well       ends well
empty                 not unpacked                                                    this is no package file
missing               not unpacked                                                    there is no such file or folder
link                  not unpacked                                                    there is no such file or folder
none                  ends well       ends well       ends well       ends well
fails_1_all           open 2/2        open 2/2        open 2/2        FAILS 1/3       purge: postrm:2:3: rm fails
fails_2_all           open 2/2        open 2/2        open 2/2        FAILS 1/3       purge: postrm:2:3: rm fails
open                  ends well       open 2/2        ends well       ends well       upgrade: dpkg unpacks the files, act 2: a link
with\x20blanks        ends well       ends well       ends well       ends well
install: 4 ends, 2 open; upgrade: 3 ends, 3 open; remove: 4 ends, 2 open; purge: 2 FAILS, 4 ends; 3 not unpacked
EOF
archive pool/f/fails_1_all.deb ./pool/f/fails_1_all.deb --scenario install
cut -d ' ' -f 1 out | sed -e 1d -e '/^$/,$d' >said
printf '%s\n' 'fails_1_all#1' 'fails_1_all#2' | same 'a file that is named twice' said
(cd pool/f && cp fails_1_all.deb ./-x.deb && ../../top/colis-archive --scenario install -- -x.deb) >out
cut -c 1-31 out | sed -n 2p >said
echo '-x                    ends well' | same 'a file with a dash' said
rm pool/f/-x.deb
clean 'package files'

# ---- reports, the words of a call, the base

archive --reports kept/below fails open well --turns 7 --limit=9
(cd kept/below && echo *) >said
echo 'fails.install fails.purge fails.upgrade open.upgrade' | same 'reports' said
cat kept/below/open.upgrade >said
echo 'open: dpkg unpacks the files, act 2: note: a link (upgrade, 1 outcome)' | same 'a report' said
grep ' well$' calls | head -n 1 >said
echo 'check --brief --scenario install --turns 7 --limit 9 -- well' | same 'the words of a call' said
echo 'dir /srv' >'a base'
archive --base 'a base' well
grep ' well$' calls | head -n 1 >said
echo 'check --brief --scenario install --base ../../base -- well' | same 'a base' said
# shellcheck disable=SC2016
sh -c 'cat "a base" | top/colis-archive --base /dev/stdin well >/dev/null; echo $?' >said
echo 0 | same 'a base from a pipe' said
echo wrong >'a base'
archive --base 'a base' well
{ echo 'status 3' && echo 'colis-archive: base: line 1: fault 1'; } | same 'a base with a fault' said
archive --base nowhere well
{ echo 'status 3' && echo 'colis-archive: nowhere: the base cannot be read'; } >expected_text
tail -n 1 err >>said
{ head -n 1 said && tail -n 1 err; } >short
same 'no base' short <expected_text
BUILD=70 top/colis-archive well >out 2>err
{ echo "status $?" && cat out err; } >said
echo 'status 70' | same 'a program that is not built' said
clean 'the base'

# ---- pages

# rows_of FILE: the rows of the table in an index, without the seconds.
rows_of() {
    sed -n '/^<tbody>/,/^<\/tbody>/{/tbody>/d;s,<td>[0-9]*</td></tr>$,,;p;}' "$1"
}

odd="<b>&\"%'"
mkdir "$odd"
echo /. >"$odd/list"
archive --html pages/below refused well "$odd" open fails start mute1 missing.deb
head -n 1 said >short
echo 'status 1' | same 'pages: the status' short
sed -e 1d -e '/^$/,$d' out | cut -d ' ' -f 1 >said
printf '%s\n' refused well "$odd" open fails start mute1 missing | same 'pages: the lines' said
(cd pages/below && printf '%s\n' *) >said
printf '%s\n' "$odd.html" fails.html index.html open.html start.html well.html | same 'pages: files' said
cat "pages/below/$odd.html" >said
echo "page of $odd" | same 'pages: a page' said
rows_of pages/below/index.html >said
same 'pages: the table' said <<'EOF'
<tr class="failing"><th scope="row"><a href="./fails.html">fails</a></th><td>open 2/2</td><td>open 2/2</td><td>open 2/2</td><td>FAILS 1/3</td><td>purge: postrm:2:3: rm fails</td>
<tr class="failing"><th scope="row">mute1</th><td>FAILS 1/2</td><td>FAILS 1/2</td><td>FAILS 1/2</td><td>FAILS 1/2</td><td>install: failed Half-Configured</td>
<tr class="undecided"><th scope="row"><a href="./open.html">open</a></th><td>ends well</td><td>open 2/2</td><td>ends well</td><td>ends well</td><td>upgrade: dpkg unpacks the files, act 2: a link</td>
<tr class="undecided"><th scope="row"><a href="./start.html">start</a></th><td>ends well</td><td>ends well</td><td>ends well</td><td>no start</td><td>purge: no start tree for purge</td>
<tr class="well"><th scope="row"><a href="./well.html">well</a></th><td>ends well</td><td>ends well</td><td>ends well</td><td>ends well</td><td></td>
<tr class="well"><th scope="row"><a href="./%3cb%3e%26%22%25%27.html">&lt;b&gt;&amp;&quot;%&#39;</a></th><td>ends well</td><td>ends well</td><td>ends well</td><td>ends well</td><td></td>
<tr class="refused"><th scope="row">refused</th><td colspan="4">refused</td><td>refused: postinst: unsupported redirect at 420</td>
<tr class="refused"><th scope="row">missing</th><td colspan="4">not unpacked</td><td>there is no such file or folder</td>
EOF
grep -e '^<html' -e '^<title' -e 'Content-Security-Policy' -e '^<caption' -e 'scope="col"' pages/below/index.html >said
same 'pages: the head of the table' said <<'EOF'
<html lang="en">
<meta http-equiv="Content-Security-Policy" content="default-src 'none'; style-src 'unsafe-inline'">
<title>colis: packages</title>
<caption>Packages that fail, that are undecided, that end well, and that were not checked</caption>
<thead><tr><th scope="col">Package</th>
<th scope="col">install</th>
<th scope="col">upgrade</th>
<th scope="col">remove</th>
<th scope="col">purge</th>
<th scope="col">First thing in the way</th><th scope="col">Seconds</th></tr></thead>
EOF
if command -v tidy >/dev/null; then
    tidy -q -e -utf8 pages/below/index.html >said 2>&1
    same 'pages: tidy' said </dev/null
fi
archive --html=pages/one --scenario purge well
grep ' --html ' calls >said
echo 'explain --html --scenario purge -- well' | same 'pages: of one scenario' said
rows_of pages/one/index.html >said
echo '<tr class="well"><th scope="row"><a href="./well.html">well</a></th><td>ends well</td><td></td>' |
    same 'pages: the table of one scenario' said
for name in well open refused; do
    archive --html pages/again "$name"
    head -n 1 said
done >short
printf 'status %d\n' 0 2 2 | same 'pages: each status' short
archive --html well/list/below well
{ head -n 1 said && tail -n 1 err; } >short
printf 'status 3\ncolis-archive: %s/well/list/below: this folder cannot be made\n' "$folder" |
    same 'pages: a folder that cannot be made' short
mkdir -p pages/taken/index.html
archive --html pages/taken well
{ head -n 1 said && tail -n 1 err; } >short
printf 'status 5\ncolis-archive: write failed\n' | same 'pages: a table that cannot be written' short
clean pages

# ---- words

# wrong_words LINE WORD ..: the call is refused with this line.
wrong_words() {
    line=$1
    shift
    archive "$@"
    printf 'status 3\ncolis-archive: %s (colis-archive --help)\n' "$line" | same "words: $*" said
}
wrong_words 'a package file or a folder is wanted'
wrong_words 'a package file or a folder is wanted' -j 3
wrong_words 'a package file or a folder is wanted' --
wrong_words '--all is no option' --all well
wrong_words '-j takes a number' well -j 0
wrong_words '-j takes a number' -jx well
wrong_words '-j takes a number of 3 digits at most' -j 1000 well
wrong_words '-j takes a word more' well -j
wrong_words '--seconds takes a number' --seconds 1.5 well
wrong_words '--turns takes a number' --turns= well
wrong_words '--base takes a name' --base '' well
wrong_words '--html takes a name' --html= well
wrong_words 'purge stands there twice' --scenario purge --scenario purge well
wrong_words '--scenario takes one of install, install-again, upgrade, remove, purge and purge-later' well --scenario all
wrong_words 'a word is empty' well ''
for word in -h --help; do
    archive "$word"
    grep -e '^status' -e '^    colis-archive \[' said | cut -c 1-40 >short
    printf '%s\n' 'status 0' '    colis-archive [OPTION ..] WORD ..   ' | same "$word" short
done
clean words

# ---- interrupted runs, closed pipes, full disks, killed workers

for signal in INT TERM HUP; do
    case $signal in
    INT) status=130 ;;
    TERM) status=143 ;;
    HUP) status=129 ;;
    esac
    timeout --preserve-status -s "$signal" 1 top/colis-archive slow slow well_1.0-1_all.deb --seconds 50 >out 2>err
    { echo "status $?" && cat err; } >said
    echo "status $status" | same "$signal" said
    clean "$signal"
    # (to the script alone, and not to its group)
    setsid top/colis-archive slow slow >out 2>err &
    sleep 1
    kill -s "$signal" "$!" 2>/dev/null
    [ "$signal" = INT ] && kill -s TERM "$!"
    wait "$!"
    clean "$signal to the script alone"
done
archive_status() {
    echo "$?" >status
}
{ top/colis-archive slow well --seconds 2 2>err; archive_status; } | true
cat status err >said
printf '5\ncolis-archive: write failed\n' | same 'a closed pipe' said
top/colis-archive well >/dev/full 2>err
{ echo "status $?" && tail -n 1 err; } >said
{ echo 'status 5' && echo 'colis-archive: write failed'; } | same 'a full disk' said
clean 'a closed pipe, a full disk'
top/colis-archive -j 1 well slow open >out 2>err &
for turn in 1 1 1 1 1 1 1 1; do
    sleep "$turn"
    ! pgrep -f "^$folder/top/sleep" >left || break
done
pgrep -f "$folder/top/share/archive-line.sh 2 slow" >>left
# shellcheck disable=SC2046
kill -KILL $(cat left)
wait "$!"
{ echo "status $?" && cat out; } >said
lines 2 <<'EOF' | same 'a killed worker' said
well                  ends well       ends well       ends well       ends well
slow                  killed
open                  killed
install: 1 ends; upgrade: 1 ends; remove: 1 ends; purge: 1 ends; 2 killed
EOF
clean 'a killed worker'

# ---- the program: its lines of places count as the table does

cp "$repository/colis" top/colis
cp "$repository/share/colours.sed" "$repository/share/explain.sh" top/share
mkdir -p top/crates/colis_checker/out
: >top/crates.txt
cp "$program" top/crates/colis_checker/out/colis_checker
for name in "$repository"/examples/*; do
    printf '%-21s' "${name##*/}"
    for scenario in install upgrade remove purge; do
        top/colis check "$name" --scenario "$scenario" | awk '
        /^scenario / { all = $4 }
        /^place failed / { failed += $4 }
        /^place (incomplete|bound) / { open += $4 }
        END {
            cell = failed ? "FAILS " failed "/" all : open ? "open " open "/" all : "ends well"
            printf " %-15s", cell
        }'
    done
    echo
done | sed 's/ *$//' >counted
top/colis-archive "$repository"/examples/* | sed -e 1d -e '/^$/,$d' | cut -c 1-86 | sed 's/ *$//' >said
same 'the examples' said <counted
(cd "$repository/examples" && "$folder/top/colis" explain web-data --html) >page
top/colis-archive --html pages/real "$repository/examples/web-data" "$repository/examples/web-log" >/dev/null
same 'the page of an example' pages/real/web-data.html <page
sed -n 's/.*<a href="\([^"]*\)".*/\1/p' pages/real/index.html >said
printf './%s.html\n' web-data web-log | sort >expected_text
sort said | (cd pages/real && xargs ls) >short
same 'the links of the table' short <expected_text

[ ! -s wrong ]
