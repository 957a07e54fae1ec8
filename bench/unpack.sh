#!/bin/sh
# Package files, whole ones and hostile ones, through colis-unpack: what each call says, its status, and the folder that
# it makes. Each call is to answer as it stands here; any other is printed as WRONG, and the script then ends with 1.
# dpkg-deb, ar and tar are needed; the cases of an installed package are left out where dpkg knows no base-files.
#
#     bench/unpack.sh
top=$(readlink -f "$(dirname "$0")/..")
folder=$(mktemp -d) || exit 1
trap 'rm -rf "$folder"' EXIT
trap 'exit 1' HUP INT TERM
cd "$folder" || exit 1
export LC_ALL=C
: >wrong

# deb NAME: a package file of the control files in `control` and the files in `data`. It is put together by hand, since
# dpkg-deb makes none of most of these.
deb() {
    printf '2.0\n' >debian-binary
    tar -C control -czf control.tar.gz .
    tar -C data -czf data.tar.gz .
    rm -f "$1"
    ar qc "$1" debian-binary control.tar.gz data.tar.gz
}

# begin: the control files and the files of a package without a fault.
begin() {
    rm -rf control data
    mkdir -p control data/usr/share/doc/p data/var/lib/p data/usr/bin
    printf '%s\n' 'Package: p' 'Version: 1.0-1' 'Architecture: all' 'Maintainer: p <p@example.org>' 'Description: p' \
        >control/control
    printf '#!/bin/sh\nset -e\nmkdir -p /var/lib/p\n' >control/postinst
    printf 'text\n' >data/usr/share/doc/p/copyright
    ln -s true data/usr/bin/p
}

# same NAME GOT: GOT is what stands on standard input.
same() {
    cat >expected
    if cmp -s expected "$2"; then
        echo "ok $1"
    else
        echo "WRONG $1"
        diff expected "$2"
        echo "$1" >>wrong
    fi
}

# unpack WORD ..: a call; `said` has its status, its standard output and the last line on standard error. (Lines before
# that one are those of dpkg-deb, whose words are its own.)
unpack() {
    "$top/colis-unpack" "$@" >out 2>err </dev/null
    status=$?
    {
        echo "status $status"
        cat out
        tail -n 1 err
    } >said
}

# refused NAME LINE: the call that was made ended with 1 and this line, and made no folder `made`.
refused() {
    ! [ -e made ] || echo "made is there" >>said
    printf 'status 1\ncolis-unpack: %s\n' "$2" | same "$1" said
    rm -rf made
}

# whole NAME: the call that was made said nothing, and left the folder `made` with the list on standard input.
whole() {
    [ -e made/list ] && cat made/list >>said
    { echo 'status 0'; cat; } >with_status
    same "$1" said <with_status
    rm -rf made
}

# ---- whole packages

list() {
    printf '%s\n' /. /usr /usr/bin '/usr/bin/p -> true' /usr/share /usr/share/doc /usr/share/doc/p \
        /usr/share/doc/p/copyright /var /var/lib /var/lib/p/
}

begin
deb p.deb
unpack p.deb made
sort made/list >sorted && mv sorted made/list
(cd made && echo *) >files
echo 'control list postinst' | same 'files of a folder' files
list | whole 'a package file'
unpack -- p.deb made
sort made/list >sorted && mv sorted made/list
list | whole 'a package file behind --'
cp p.deb ./-p.deb
unpack -- -p.deb made
sort made/list >sorted && mv sorted made/list
list | whole 'a name with a dash'

# ---- control files that are none

for name in control conffiles preinst postinst prerm postrm; do
    begin
    echo secret >outside
    rm -f "control/$name"
    ln -s "$folder/outside" "control/$name"
    deb p.deb
    unpack p.deb made
    refused "$name is a link" "p.deb: its control file $name is a link, which is not followed"
    rm "control/$name"
    ln -s "nothing" "control/$name"
    deb p.deb
    unpack p.deb made
    refused "$name is a link to nothing" "p.deb: its control file $name is a link, which is not followed"
    rm "control/$name"
    mkfifo "control/$name"
    deb p.deb
    unpack p.deb made
    refused "$name is a pipe" "p.deb: its control file $name is no regular file"
    rm "control/$name"
    mkdir "control/$name"
    deb p.deb
    unpack p.deb made
    refused "$name is a folder" "p.deb: its control file $name is no regular file"
done

# spelled MEMBER: the package of a link to a file outside, in the control archive under this spelling of its name.
spelled() {
    begin
    rm -f control/control
    ln -s "$folder/outside" control/control
    printf '2.0\n' >debian-binary
    tar -C control -czf control.tar.gz --transform "s,^control\$,$1," -P control
    tar -C data -czf data.tar.gz .
    rm -f p.deb
    ar qc p.deb debian-binary control.tar.gz data.tar.gz
    unpack p.deb made
}
for member in control ./control .//control ././control; do
    spelled "$member"
    refused "the spelling $member" 'p.deb: its control file control is a link, which is not followed'
done

# a hard link to a link, and a name behind a link to a folder outside
begin
ln -s "$folder/outside" control/x
ln control/x control/conffiles
deb p.deb
unpack p.deb made
refused 'a hard link to a link' 'p.deb: its control file conffiles is a link, which is not followed'

# ---- what is no package file

unpack none.deb made
refused 'no file' 'none.deb: there is no such file'
unpack control made
refused 'a folder' 'control: this is a folder, and no package file'
echo text >text
unpack text made
refused 'a text' 'text: this is no package file'
: >empty
unpack empty made
refused 'an empty file' 'empty: this is no package file'
head -c 300 p.deb >cut.deb
unpack cut.deb made
refused 'a file that is cut' 'cut.deb: this is no package file'
begin
deb p.deb
mkdir there
for there in there there/ text; do
    unpack p.deb "$there"
    refused "$there is there" "$there: this is there already"
done
ln -s nothing dangling
unpack p.deb dangling
refused 'a link is there' 'dangling: this is there already'
unpack p.deb text/below
refused 'a folder in a file' 'text/below: this folder cannot be made'

# ---- words

usage='usage: colis-unpack FILE.deb DIR, or colis-unpack --installed NAME DIR'
unpack
refused 'no word' "$usage"
unpack p.deb
refused 'one word' "$usage"
unpack --installed p
refused 'no folder' "$usage"
unpack --other p.deb made
refused 'another option' "$usage"
unpack p.deb made more
refused 'a word too many' "$usage"
unpack '' made
refused 'an empty word' "$usage"
for word in -h --help; do
    unpack "$word"
    grep -e '^status' -e '^    colis-unpack [^-]' said | cut -c 1-29 >short
    printf '%s\n' 'status 0' '    colis-unpack FILE.deb DIR' | same "$word" short
done

# ---- installed packages

unpack --installed no-such-package made
refused 'no such package' 'no-such-package: no such package is installed'
if dpkg-query -s base-files >/dev/null 2>&1; then
    for words in '--installed' '--installed --'; do
        # shellcheck disable=SC2086
        unpack $words base-files made
        { echo 'status 0'; } | same "$words base-files" said
        # no line of the root directory is a link's
        grep '^/[^/]* -> ' made/list >links
        same "links of $words base-files" links </dev/null
        rm -rf made
    done
fi

[ ! -s wrong ]
