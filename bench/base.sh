#!/bin/sh
# Package databases through colis-base: what each call prints, says and ends with, and that the program reads it. Each
# call is to answer as it stands here; any other is printed as WRONG, and the script then ends with 1. dpkg-query is
# needed; cases of what may not be read are left out where the caller is not root; the program's, where it is not built.
#
#     bench/base.sh
top=$(readlink -f "$(dirname "$0")/..")
program=$top/crates/colis_checker/out/colis_checker
folder=$(mktemp -d) || exit 1
trap 'rm -rf "$folder"' EXIT
trap 'exit 1' HUP INT TERM
cd "$folder" || exit 1
chmod 755 .
folder=$(pwd -P)
export LC_ALL=C
: >wrong
mkdir none
printf 'Version: 1\n' >none/control
echo '/.' >none/list

# same NAME GOT: GOT is what stands on standard input.
same() {
    cat >expected
    if cmp -s expected "$2"; then
        echo "ok $1"
    else
        echo "WRONG $1"
        diff -a expected "$2"
        echo "$1" >>wrong
    fi
}

# begin: a package database without packages, and an empty folder `real`.
begin() {
    rm -rf database real
    mkdir -p database/info database/updates real
    : >database/status
    export DPKG_ADMINDIR="$folder/database"
}

# package NAME [ARCHITECTURE [STATE]]: a package more, whose list is on standard input: paths below the folder `real`.
package() {
    name=$1
    [ "${2:-all}" = all ] || name=$1:$2
    {
        printf 'Package: %s\nStatus: install ok %s\nMaintainer: p <p@example.org>\n' "$1" "${3:-installed}"
        printf 'Architecture: %s\nVersion: 1.0\nDescription: p\n' "${2:-all}"
        [ "${2:-all}" = all ] || echo 'Multi-Arch: same'
        echo
    } >>database/status
    sed "s,^/real,$folder/real," >"database/info/$name.list"
}

# base WORD ..: a call; `said` has its status, what it said, and its lines on folders, links and files, without the path
# of the folder of this script.
base() {
    "$top/colis-base" "$@" >out 2>err </dev/null
    status=$?
    {
        echo "status $status"
        sed "s,$folder/real,/real,g" err
        grep -e '^dir ' -e '^link ' -e '^nodir ' out | sed "s,$folder/real,/real,g"
    } >said
}

# whole NAME WORD ..: the call with these words gives the lines on standard input, and no fault.
whole() {
    name=$1
    shift
    base "$@"
    { echo 'status 0' && cat; } | same "$name" said
    [ -x "$program" ] || return
    "$program" check none --scenario install --brief --base out >/dev/null 2>answer
    same "$name, read by the program" answer </dev/null
}

# lacking NAME: the call gives the lines on standard input, faults among them.
lacking() {
    base
    { echo 'status 1' && cat; } | same "$1" said
}

# refused NAME LINE WORD ..: the call prints nothing, says this line last, and ends with 1.
refused() {
    name=$1 line=$2
    shift 2
    "$top/colis-base" "$@" >out 2>err </dev/null
    status=$?
    { echo "status $status" && cat out && tail -n 1 err; } >said
    printf 'status 1\ncolis-base: %s\n' "$line" | same "$name" said
}

# ---- folders

begin
whole 'no package' </dev/null
mkdir -p real/a/b real/c real/d
touch real/c/file real/e
printf '%s\n' /. /real /real/a /real/a/b /real/c /real/c/file /real/e /real/gone | package p
printf '%s\n' /. /real /real/a /real/a/b /real/c/file /real/e /real/gone | package q
printf '%s\n' /. /real /real/c /real/d | package r
whole 'folders of two packages' <<'END'
dir /real
dir /real/a
dir /real/a/b
dir /real/c
END
whole 'folders of three' --min 3 <<'END'
dir /real
END
whole 'folders of one' --min=1 <<'END'
dir /real
dir /real/a
dir /real/a/b
dir /real/c
dir /real/d
END
whole 'folders of more than there are' --min 999999 </dev/null
mkdir 'real/f g' 'real/h ' 'real/#'
printf '%s\n' '/real/f g' '/real/h ' '/real/#' | tee list | package s
package t <list
whole 'names with blanks' <<'END'
dir /real
dir /real/#
dir /real/a
dir /real/a/b
dir /real/c
dir /real/f g
dir /real/h 
END
begin
mkdir -p real/a real/b real/c
printf '%s\n' /real /real/a /real/a | package p amd64
printf '%s\n' /real /real/a | package p i386
printf '%s\n' /real /real/b | package q
printf '%s\n' /real /real/b | package r all config-files
whole 'one package of two architectures, and one that was removed' <<'END'
dir /real
END
begin
mkdir -p real/run/lock real/a
printf '%s\n' /real /real/run /real/run/lock | package base-files
printf '%s\n' /real /real/a | package p
whole 'folders that base-files alone has' <<'END'
dir /real
dir /real/run
dir /real/run/lock
END

# ---- links

begin
mkdir -p real/usr/lib/x real/usr/bin
ln -s usr/lib real/lib
ln -s "$folder/real/usr/bin" real/bin
printf '%s\n' /real /real/lib /real/lib/x /real/bin /real/usr/bin | tee list | package p
package q <list
whole 'a merged /usr' <<'END'
dir /real
dir /real/usr/bin
dir /real/usr/lib
dir /real/usr/lib/x
link /real/bin /real/usr/bin
link /real/lib usr/lib
END
begin
mkdir -p real/z/y
ln -s b real/a
ln -s c/y real/b
ln -s z real/c
ln -s nothing real/d
printf '%s\n' /real/a /real/d | tee list | package p
package q <list
whole 'links to links, and one that leads nowhere' <<'END'
dir /real/z/y
link /real/a b
link /real/b c/y
link /real/c z
END
begin
mkdir -p real/x/y real/z
ln -s ../z real/x/up
ln -s z/ real/slash
ln -s z//. real/dot
printf '%s\n' /real/x/up /real/slash /real/dot | tee list | package p
package q <list
lacking 'links that no line can state' <<'END'
colis-base: /real/dot: this link cannot be stated, since it leads to z//.
colis-base: /real/slash: this link cannot be stated, since it leads to z/
colis-base: /real/x/up: this link cannot be stated, since it leads to ../z
dir /real/z
END
begin
mkdir real/z
ln -s z 'real/a b'
ln -s 'c d' real/e
mkdir 'real/c d'
printf '%s\n' '/real/a b' /real/e | tee list | package p
package q <list
lacking 'links with blanks' <<'END'
colis-base: /real/a b: this link cannot be stated, since its path has a blank
dir /real/c d
dir /real/z
link /real/e c d
END
begin
mkdir real/9
for at in 1 2 3 4 5 6 7 8; do ln -s $((at + 1)) real/$at; done
printf '%s\n' /real/1 | tee list | package p
package q <list
whole 'eight links' <<'END'
dir /real/9
link /real/1 2
link /real/2 3
link /real/3 4
link /real/4 5
link /real/5 6
link /real/6 7
link /real/7 8
link /real/8 9
END
ln -s 1 real/0
printf '%s\n' /real/0 | tee list | package r
package s <list
base
sed -n 2p said >first
echo 'colis-base: /real/0: more than eight links are on the way there' | same 'nine links' first
begin
ln -s a real/a
printf '%s\n' /real/a | tee list | package p
package q <list
whole 'a link to itself' </dev/null
if [ -L /lib ] && [ "$(readlink /lib)" = usr/lib ]; then
    begin
    printf '%s\n' /lib | package p
    echo 'link /lib usr/lib' | whole 'a link of the root directory that one package lists'
fi

# ---- configuration files that scripts name

begin
mkdir -p real/etc/conf.d real/etc/there.conf real/usr real/etc/own
printf '%s\n' /real/etc /real/etc/conf.d /real/usr | tee list | package p
package q <list
sed "s,/real,$folder/real,g" >database/info/p.postrm <<'END'
#!/bin/sh
# rm -f /real/etc/comment.conf
CONF=/real/etc/p.conf
DIR=/real/etc/conf.d/
for name in 10-one.conf 20-two.conf; do rm -f "$DIR/$name"; done
rm -f "${DPKG_ROOT:-}/real/etc/root.conf" /real/etc/there.conf /real/etc/own/own.conf /real/usr/usr.conf
rm -f /real/etc/plain /real/etc/p.conf.dpkg-old /real/etc/conf.d/../up.conf /real/etc//twice.conf
mv "$CONF" "$CONF".dpkg-new
dpkg-maintscript-helper rm_conffile /real/etc/helper.conf -- "$@"
END
sed "s,/real,$folder/real,g" >database/info/q.preinst <<'END'
rm -f /real/etc/q.conf 30-alone.conf
END
sed "s,/real,$folder/real,g" >database/info/r.preinst <<'END'
rm -f /real/etc/not-installed.conf
END
whole 'configuration files' <<'END'
dir /real/etc
dir /real/etc/conf.d
dir /real/usr
nodir /real/etc/conf.d/10-one.conf
nodir /real/etc/conf.d/20-two.conf
nodir /real/etc/p.conf
nodir /real/etc/p.conf.dpkg-new
nodir /real/etc/p.conf.dpkg-old
nodir /real/etc/p.conf.dpkg-old.dpkg-new
nodir /real/etc/plain.dpkg-new
nodir /real/etc/q.conf
nodir /real/etc/root.conf
nodir /real/etc/root.conf.dpkg-new
nodir /real/etc/there.conf.dpkg-new
END

# ---- what cannot be read

begin
mkdir real/a
printf '%s\n' /real/a | tee list | package p
package q <list
package r </dev/null
rm database/info/r.list
lacking 'no list' <<'END'
colis-base: r: this installed package has no list of files
dir /real/a
END
# by_nobody: as `base`, where the user is nobody.
by_nobody() {
    setpriv --reuid=65534 --regid=65534 --clear-groups "$top/colis-base" >out 2>err </dev/null
    status=$?
    {
        echo "status $status"
        sed "s,$folder/real,/real,g" err
        grep -e '^dir ' -e '^link ' -e '^nodir ' out | sed "s,$folder/real,/real,g"
    } >said
}
if [ "$(id -u)" -eq 0 ] && setpriv --reuid=65534 --regid=65534 --clear-groups test -x "$top/colis-base"; then
    begin
    mkdir -p real/a/b/c real/d
    printf '%s\n' /real/a /real/a/b /real/a/b/c /real/d | tee list | package p
    package q <list
    package r <list
    chmod 600 database/info/r.list
    chmod 700 real/a
    by_nobody
    same 'what may not be looked at' said <<'END'
status 1
colis-base: /real/a/b/c: this place may not be looked at
colis-base: /real/a/b: this place may not be looked at
colis-base: r: its list of files may not be read
dir /real/a
dir /real/d
END
    begin
    mkdir -p real/etc/closed
    printf '%s\n' /real/etc /real/etc/closed | tee list | package p
    package q <list
    echo "rm -f $folder/real/etc/p.conf $folder/real/etc/closed/p.conf" >database/info/p.postrm
    echo "rm -f $folder/real/etc/q.conf" >database/info/q.postrm
    chmod 600 database/info/q.postrm
    chmod 700 real/etc/closed
    by_nobody
    same 'scripts and places of files that may not be looked at' said <<'END'
status 1
colis-base: /real/etc/closed/p.conf: this place may not be looked at
colis-base: q: a script of it may not be read
dir /real/etc
dir /real/etc/closed
nodir /real/etc/p.conf
END
fi
DPKG_ADMINDIR=$folder/absent refused 'no database' "$folder/absent/info: there is no such folder, so no package database"
DPKG_ADMINDIR=$folder/broken
mkdir -p broken/info
echo x >broken/status
refused 'a broken database' 'the packages of this machine cannot be read'

# ---- the further lines, and words

begin
base
sed -n '/^# ---- /,$p' "$top/share/debian.base" >further
sed -n '/^# ---- /,$p' out | same 'the lines of share/debian.base' further
grep -c -e '^dir' -e '^link' -e '^nodir' further >count
echo 0 | same 'none of these on folders, links and files' count
find real database -printf '%p %y %m %s %t %c\n' >before
base
find real database -printf '%p %y %m %s %t %c\n' | same 'nothing is changed' before
mkdir copy && cp "$top/colis-base" copy
copy/colis-base >out 2>err
tail -n 1 err >said
echo "colis-base: $folder/copy/share/debian.base: this file cannot be read" | same 'no share/debian.base' said
usage='usage: colis-base [--min N]'
refused 'a word' "$usage" real
refused 'an empty word' "$usage" ''
refused 'another option' "$usage" --other
refused 'no number' "$usage" --min
for number in '' 0 00 01 -1 +1 1x x 1.5 1000000 ' 1'; do
    refused "the number \`$number'" "$usage" --min "$number"
    refused "the number \`$number', behind =" "$usage" "--min=$number"
done
refused 'two numbers' "$usage" --min 1 --min 2
for word in -h --help; do
    base "$word"
    sed -n 's/^\(    colis-base [^ ]*\).*/\1/p' out >short
    printf '    colis-base %s\n' '' --min --help | sed 's/^    colis-base $/    colis-base /' | same "$word" short
done
"$top/colis-base" >/dev/full 2>err
{ echo "status $?" && tail -n 1 err; } >said
printf '%s\n' 'status 1' 'colis-base: the base could not be written' | same 'a full disk' said

# Under share/debian.base the examples' daemon can be removed from each start tree, and its purge fails, since a folder
# that its script takes away may hold a further file.
if [ -x "$program" ]; then
    for scenario in remove purge; do
        "$program" check "$top/examples/logwatcher" --base "$top/share/debian.base" --scenario $scenario --brief |
            grep -c '^outcome [0-9]* failed' >said
        [ "$(cat said)" -eq 0 ] || echo some >said
        case $scenario in remove) echo 0 ;; purge) echo some ;; esac | same "a daemon, $scenario" said
    done
fi

[ ! -s wrong ]
