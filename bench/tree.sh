#!/bin/sh
# Real folders through colis-tree: what each call prints, says and ends with, and that the program reads it. Each call
# is to answer as it stands here; any other is printed as WRONG, and the script then ends with 1. Cases of a device, and
# of folders that may not be read, are left out where the caller is not root; the program's, where it is not built.
#
#     bench/tree.sh
top=$(readlink -f "$(dirname "$0")/..")
program=$top/crates/colis_checker/out/colis_checker
folder=$(mktemp -d) || exit 1
trap 'rm -rf "$folder"' EXIT
trap 'exit 1' HUP INT TERM
cd "$folder" || exit 1
chmod 755 .
export LC_ALL=C
: >wrong
mkdir none
printf 'Version: 1\n' >none/control
echo '/.' >none/list

# same NAME GOT: GOT is what stands on standard input.
same() {
    cat >expected
    if cmp -s expected "$2"; then
        echo "ok $1"
    else
        echo "WRONG $1"
        diff -a expected "$2"
        echo "$1" >>wrong
    fi
}

# begin: an empty folder `real`.
begin() {
    rm -rf real
    mkdir real
}

# tree WORD ..: a call; `said` has its status, what it said, and what it printed.
tree() {
    "$top/colis-tree" "$@" >out 2>err </dev/null
    status=$?
    {
        echo "status $status"
        cat err out
    } >said
}

# whole NAME WORD ..: the call with these words prints the lines on standard input, and no more; the program reads these
# lines, and prints them as they are.
whole() {
    name=$1
    shift
    cat >lines
    tree "$@"
    { echo 'status 0' && cat lines; } | same "$name" said
    [ -x "$program" ] || return
    "$program" run none --scenario install --tree out | sed '1,/^after$/d' >again
    same "$name, read again" again <lines
}

# refused NAME LINE WORD ..: the call with these words prints nothing but this line, and ends with 1.
refused() {
    name=$1 line=$2
    shift 2
    tree "$@"
    printf 'status 1\ncolis-tree: %s\n' "$line" | same "$name" said
}

# of NAME: the tree of `real` is that on standard input.
of() {
    whole "$1" real
}

# ---- kinds

begin
of 'an empty folder' </dev/null
mkdir real/a
touch real/f
ln -s f real/l
ln -s /etc/passwd real/m
ln -s nowhere real/n
ln -s a real/o
mkfifo real/p
of 'each kind, links that lead nowhere and to a folder' <<'END'
d /a
f /f
l /l f
l /m /etc/passwd
l /n nowhere
l /o a
p /p
END
begin
if command -v python3 >/dev/null; then
    python3 -c 'import socket; socket.socket(socket.AF_UNIX).bind("real/s")'
    echo 's /s' | of 'a socket'
fi
begin
if [ "$(id -u)" -eq 0 ] && mknod real/c c 1 3 2>/dev/null && mknod real/b b 7 0 2>/dev/null; then
    printf 'b /b\nc /c\n' | of 'devices'
fi
begin
mkdir -p real/a/b/c real/a/d
of 'empty folders' <<'END'
d /a
d /a/b
d /a/b/c
d /a/d
END
ln -s . real/a/self
ln -s .. real/a/up
whole 'links to the folders above' real <<'END'
d /a
d /a/b
d /a/b/c
d /a/d
l /a/self .
l /a/up ..
END

# ---- names and targets

begin
touch 'real/a b' 'real/ ' "real/$(printf 'a\tb')" 'real/"' "real/'" 'real/*' 'real/?' "real/\$x" 'real/;' 'real/~' \
    'real/-x'
of 'blanks, quotes and signs of the shell' <<'END'
f /\x20
f /"
f /$x
f /'
f /*
f /-x
f /;
f /?
f /a\x09b
f /a\x20b
f /~
END
begin
newline='
'
touch "real/a${newline}b" "real/$newline"
mkdir "real/d$newline"
touch "real/d$newline/x"
of 'newlines' <<'END'
f /\x0a
f /a\x0ab
d /d\x0a
f /d\x0a/x
END
begin
touch 'real/\' 'real/\x41' 'real/\e' 'real/a,b' 'real/{}' 'real/()' 'real/\n'
of 'what is spelled by digits' <<'END'
f /\x28\x29
f /\x5c
f /\x5ce
f /\x5cn
f /\x5cx41
f /a\x2cb
f /\x7b\x7d
END
begin
touch "real/$(printf '\377')" "real/$(printf '\303\251')" "real/$(printf '\200')" "real/$(printf '\177')" real/~ real/z
of 'bytes that are no ASCII, and no text' <<'END'
f /z
f /~
f /\x7f
f /\x80
f /\xc3\xa9
f /\xff
END
begin
touch "real/$(printf '\001')" "real/$(printf '\002')" "real/$(printf '\003')" "real/$(printf '\037')" 'real/!'
mkdir "real/$(printf 'a\001')" real/a
touch "real/$(printf 'a\001')/x" real/a/x
of 'control bytes' <<'END'
f /\x01
f /\x02
f /\x03
f /\x1f
f /!
d /a
f /a/x
d /a\x01
f /a\x01/x
END
begin
ln -s ' ' real/a
ln -s "b${newline}c" real/b
ln -s 'a//b/' real/c
ln -s '\' real/d
ln -s "$(printf '\377')" real/e
ln -s '//x' real/f
of 'targets' <<'END'
l /a \x20
l /b b\x0ac
l /c a//b/
l /d \x5c
l /e \xff
l /f //x
END

# ---- order

begin
mkdir real/a real/a! real/a-b real/a.d real/ab real/b
touch real/a/z real/a!/z real/a-b/z real/a.d/z real/A 'real/a x' 'real/a,x'
of 'a folder stands before its entries, and these before a longer name' <<'END'
f /A
d /a
f /a/z
f /a\x20x
d /a!
f /a!/z
f /a\x2cx
d /a-b
f /a-b/z
d /a.d
f /a.d/z
d /ab
d /b
END
begin
touch 'real/[' 'real/\' 'real/]' 'real/z' 'real/{' 'real/|' 'real/}' 'real/~' 'real/+' 'real/,' 'real/-' "real/'" \
    'real/(' 'real/)' 'real/*'
of 'names by their bytes, not by how these are spelled' <<'END'
f /'
f /\x28
f /\x29
f /*
f /+
f /\x2c
f /-
f /[
f /\x5c
f /]
f /z
f /\x7b
f /|
f /\x7d
f /~
END
begin
seq -f 'real/%04g' 1 3000 | xargs touch
seq -f 'f /%04g' 1 3000 | of '3,000 files'

# ---- the folder

begin
touch real/x
ln -s real link
for word in real real/ ./real "$folder/real" link link/ real/../real; do
    echo 'f /x' | whole "the name $word" "$word"
done
mkdir ./-real "./a$newline"
touch ./-real/x "./a$newline/x"
echo 'f /x' | whole 'a name with a dash' -- -real
echo 'f /x' | whole 'a name with a newline' "a$newline"
CDPATH=$folder/none tree real
printf 'status 0\nf /x\n' | same 'CDPATH' said
touch file
ln -s nowhere dangling
refused 'no folder' 'nothing: there is no such folder' nothing
refused 'a file' 'file: this is no folder' file
refused 'a link that leads nowhere' 'dangling: this is no folder' dangling

# nothing is changed
find real -printf '%p %y %m %s %t %c\n' >before
tree real
find real -printf '%p %y %m %s %t %c\n' | same 'nothing is changed' before

# ---- what cannot be read

# by_nobody WORD ..: as `tree`, where the user is nobody.
by_nobody() {
    setpriv --reuid=65534 --regid=65534 --clear-groups "$top/colis-tree" "$@" >out 2>err </dev/null
    status=$?
    {
        echo "status $status"
        cat err out
    } >said
}
if [ "$(id -u)" -eq 0 ] && setpriv --reuid=65534 --regid=65534 --clear-groups test -x "$top/colis-tree"; then
    begin
    mkdir real/a real/b
    touch real/a/x real/b/x
    chmod 700 real/a
    by_nobody real
    printf '%s\n' 'status 1' 'colis-tree: /a: Permission denied' 'd /a' 'd /b' 'f /b/x' |
        same 'a folder that may not be read' said
    # (its names may be read, and not what they are)
    chmod 744 real/a
    by_nobody real
    head -n 2 said >first
    printf '%s\n' 'status 1' 'colis-tree: /a/x: Permission denied' | same 'a folder that may not be entered' first
    chmod 700 real
    by_nobody real
    printf '%s\n' 'status 1' 'colis-tree: real: this folder may not be entered' | same 'the folder itself' said
    chmod 711 real
    by_nobody real
    printf '%s\n' 'status 1' 'colis-tree: /: Permission denied' | same 'the folder itself may be entered alone' said
    begin
    touch real/f
    chmod 000 real/f
    by_nobody real
    printf '%s\n' 'status 0' 'f /f' | same 'a file that may not be read is one' said
fi

# ---- limits

begin
way=real
for turn in 1 2 3 4 5 6 7 8 9 10 11 12 13; do
    way=$way/a/b/c/d/e
    [ "$turn" -lt 13 ] || mkdir -p "$way"
done
awk 'BEGIN { for (i = 1; i <= 65; i++) { path = path "/" substr("abcde", (i - 1) % 5 + 1, 1); print "d " path } }' |
    of '65 folders inside one another'
begin
long=$(awk 'BEGIN { for (i = 1; i <= 255; i++) printf "," }')
touch "real/$long"
awk 'BEGIN { printf "f /"; for (i = 1; i <= 255; i++) printf "\\x2c"; print "" }' | of 'a name of 255 bytes'
begin
mkdir real/a
awk 'BEGIN {
    for (i = 1000; i < 1241; i++) {
        print "d /" i >"long"
        print "real/" i >"folders"
        for (k = 1; k < 256; k++) { printf "f /%d/%08d\n", i, k >"long"; printf "real/%d/%08d\n", i, k >"files" }
    }
}'
xargs mkdir <folders
xargs touch <files
printf 'd /a\nl /x ' >>long
ln -s "$(printf '%0*d' "$((1048575 - $(wc -c <long)))" 0)" real/x
{ readlink real/x; } >>long
[ "$(wc -c <long)" -eq 1048576 ] || echo 'WRONG length' | tee -a wrong
whole 'a tree of 1,048,576 bytes' real <long
touch real/z
tree real
head -n 2 said >first
printf '%s\n' 'status 1' 'colis-tree: the tree has 1048581 bytes, and 1048576 at most are read' |
    same 'a tree of 1,048,581 bytes' first
{ cat long && echo 'f /z'; } | same 'a tree of 1,048,581 bytes is printed' out
# names and paths that no usual file system has: by a find that tells of them
mkdir tools
cat >tools/find <<'END'
#!/bin/sh
awk 'BEGIN {
    path = "."
    for (i = 1; i <= 4097; i++) { path = path "/n"; printf "%s//d%c", path, 0 }
    printf "./"
    for (i = 1; i <= 256; i++) printf "\\"
    printf "//f%c", 0
}'
END
chmod +x tools/find
begin
PATH=$folder/tools:$PATH tree real
sed 's,^colis-tree: [^:]*\([^:]\{8\}\):,\1:,' err >short
printf '%s\n' '\x5c\x5c: its name has more than 255 bytes, which no name of a tree can have' \
    '/n/n/n/n: more than 4096 names, which no path of a tree can have' \
    'colis-tree: the tree has 16802825 bytes, and 1048576 at most are read' |
    same 'names and paths that are too long' short

# ---- reports

# report CLAUSE SHOWN: a report with one outcome, that has these literals, shows this tree and leaves the same. Members
# of a list are divided by `;`.
report() {
    clause=$1 shown=$2 awk '
    function list(text,    part, n, i, all) {
        n = split(text, part, ";")
        for (i = 1; i <= n; i++) all = all (i > 1 ? "," : "") "\"" part[i] "\""
        return "[" all "]"
    }
    function quoted(text) {
        gsub(/\\/, "&&", text)
        gsub(/"/, "\\\"", text)
        return text
    }
    BEGIN {
        clause = quoted(ENVIRON["clause"])
        shown = quoted(ENVIRON["shown"])
        printf "{\"colis\":2,\"scenarios\":[{\"name\":\"install\",\"outcomes\":[{\"after\":%s,", list(shown)
        printf "\"calls\":[],\"clause\":{\"literals\":%s,\"now\":9,\"start\":0},\"confirmed\":true,\"number\":1,", list(clause)
        printf "\"result\":\"done Installed\",\"shown\":%s,\"trace\":\"\"}]}],\"verdict\":0}\n", list(shown)
    }' </dev/null >report
}

begin
mkdir -p real/etc/foo/deep real/etc/bar real/usr/bin real/var/lib
touch real/etc/foo/a real/etc/foo/b real/etc/passwd real/usr/bin/x real/usr/bin/y
ln -s etc real/lib
report 'kind v0 dir' ''
whole 'a report that speaks of no place' real --for report </dev/null
report 'entry v0 etc v1;kind v1 dir;entry v1 foo v2;kind v2 dir' ''
whole 'paths of a clause' real --for report <<'END'
d /etc
d /etc/foo
END
report 'entry v0 etc v1;entry v1 none v2;kind v2 absent;entry v2 x v3' ''
whole 'what is not there' real --for report <<'END'
d /etc
END
report 'entry v0 etc v1;entry v1 foo v2;notempty v2' ''
whole 'a folder with an entry' real --for report <<'END'
d /etc
d /etc/foo
f /etc/foo/a
END
report 'entry v0 etc v1;entry v1 foo v2;notempty v2;entry v2 a v3;kind v3 absent' ''
whole 'a folder with an entry beside one that is named' real --for report <<'END'
d /etc
d /etc/foo
f /etc/foo/a
f /etc/foo/b
END
report 'entry v0 etc v1;entry v1 foo v2;fence v2 {b,deep}' ''
whole 'a folder with certain entries' real --for report <<'END'
d /etc
d /etc/foo
f /etc/foo/a
f /etc/foo/b
d /etc/foo/deep
END
report 'entry v0 etc v1;entry v1 foo v2;similar v3 {a} v2;notempty v3' ''
whole 'an entry of a value that is made from a folder' real --for report <<'END'
d /etc
d /etc/foo
f /etc/foo/a
f /etc/foo/b
END
report 'fence v0 {etc}' ''
whole 'the entries of the root' real --for report <<'END'
d /etc
l /lib etc
END
report 'entry v0 lib v1;entry v1 passwd v2;notempty v1;entry v0 usr v3;entry v3 bin v4;entry v4 x v5;entry v5 y v6' ''
whole 'nothing is looked at behind a link and a file' real --for report <<'END'
l /lib etc
d /usr
d /usr/bin
f /usr/bin/x
END
report 'entry v9 var v1;entry v1 lib v2' 'd /usr;d /usr/bin;f /usr/bin/y;l /etc/none x'
whole 'paths of the tree after, and of those that are shown' real --for report <<'END'
d /etc
d /usr
d /usr/bin
f /usr/bin/y
d /var
d /var/lib
END
report 'entry v0 etc v1;kind v1 dir' ''
whole 'the option with an equals sign, and before the folder' --for=report real <<'END'
d /etc
END
sed 's/,/,\n  /g; s/:/ : /g' report >spaced
whole 'a report with blanks' --for spaced -- real <<'END'
d /etc
END
begin
mkdir "real/a${newline}b" 'real/x,y'
touch "real/a${newline}b/\\" 'real/x,y/"' 'real/x,y/[' "real/x,y/$(printf '\377')" 'real/x,y/]}'
report 'entry v0 a\x0ab v1;entry v1 \x5c v2;entry v0 x\x2cy v3;entry v3 " v4;entry v3 [ v5;fence v3 {]\x7d,\xff}' ''
whole 'names that are spelled by digits' real --for report <<'END'
d /a\x0ab
f /a\x0ab/\x5c
d /x\x2cy
f /x\x2cy/"
f /x\x2cy/[
f /x\x2cy/]\x7d
f /x\x2cy/\xff
END
begin
mkdir -p real/a real/b
touch real/b/x
if [ "$(id -u)" -eq 0 ] && setpriv --reuid=65534 --regid=65534 --clear-groups test -x "$top/colis-tree"; then
    chmod 700 real/b
    report 'entry v0 a v1;entry v0 b v2' ''
    by_nobody real --for report
    printf '%s\n' 'status 0' 'd /a' 'd /b' | same 'a folder that is not looked into may be closed' said
    report 'entry v0 a v1;entry v0 b v2;entry v2 x v3' ''
    by_nobody real --for report
    printf '%s\n' 'status 1' 'colis-tree: /b: Permission denied' 'd /a' 'd /b' |
        same 'one that is looked into may not' said
fi
refused 'no report' 'absent: there is no such file' real --for absent
refused 'a folder in place of a report' 'none: this file cannot be read' real --for none
echo '{}' >report
refused 'another text' 'report: no report of colis check --json' real --for report
: >report
refused 'an empty file' 'report: no report of colis check --json' real --for report
echo '{"colis":1,"scenarios":[],"verdict":0}' >report
whole 'a report of the first version' real --for report </dev/null
echo '{"colis":3,"scenarios":[]}' >report
refused 'another version' 'report: a version that is not known' real --for report
report 'entry v0 etc v1;other v1' ''
refused 'another literal' 'report: a literal that is not known: other v1' real --for report

# ---- reports of the program: the run from the places of the report is the run from all

if [ -x "$program" ]; then
    begin
    mkdir -p real/etc/logwatcher real/srv real/tmp real/usr/bin real/usr/sbin real/usr/lib real/var/log \
        real/var/cache real/var/lib/logwatcher real/usr/share/doc/logwatcher
    touch real/var/lib/logwatcher/old.log real/var/lib/logwatcher/other real/etc/logwatcher/logwatcher.conf \
        real/usr/sbin/logwatcher real/usr/share/doc/logwatcher/copyright real/usr/bin/x real/srv/y
    "$program" check "$top/examples/logwatcher" --scenario purge --json >report
    "$top/colis-tree" real >all
    whole 'the places of a report on a package' real --for report <<'END'
d /etc
d /etc/logwatcher
f /etc/logwatcher/logwatcher.conf
d /srv
d /tmp
d /usr
d /usr/bin
d /usr/lib
d /usr/sbin
f /usr/sbin/logwatcher
d /usr/share
d /usr/share/doc
d /usr/share/doc/logwatcher
f /usr/share/doc/logwatcher/copyright
d /var
d /var/cache
d /var/lib
d /var/lib/logwatcher
f /var/lib/logwatcher/old.log
d /var/log
END
    for tree in all out; do
        "$program" run "$top/examples/logwatcher" --scenario purge --tree "$tree" | sed '/^after$/,$d' >"run.$tree"
    done
    same 'the run from these places' run.out <run.all
    { echo 'tree all' && cat all && echo 'tree some' && cat out; } >trees
    for name in all some; do
        echo "$name outcome $(sed -n 's/^result //p' run.all)"
    done >wanted
    "$program" predict report trees | sed -n '3,$s/ outcome [0-9]* / outcome /p' |
        same 'the outcomes of both, by the report' wanted
fi

# ---- words

usage='usage: colis-tree DIR [--for REPORT]'
refused 'no word' "$usage"
refused 'an empty word' "$usage" ''
refused 'a word too many' "$usage" real none
refused 'another option' "$usage" real --other
refused 'no report behind --for' "$usage" real --for
refused 'an empty report' "$usage" real --for ''
refused 'two reports' "$usage" real --for report --for report
refused 'an option behind --' 'report: this is no folder' -- report
for word in -h --help; do
    tree "$word"
    grep -e '^status' -e '^    colis-tree [^-]' said | cut -c 1-18 >short
    printf '%s\n' 'status 0' '    colis-tree DIR' '    colis-tree DIR' | sed 's/DIR$/&/' >wanted
    sed 's/ *$//' short | same "$word" wanted
done
"$top/colis-tree" real >/dev/full 2>err
echo "status $?" | cat - err >said
{ echo 'status 1' && tail -n 1 said; } >first
printf '%s\n' 'status 1' 'colis-tree: the tree could not be written' | same 'a full disk' first

[ ! -s wrong ]
