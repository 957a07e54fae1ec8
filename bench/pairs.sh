#!/bin/sh
# Pairs of packages, and configuring twice, beside real dpkg in a root of its own: each outcome of a report that has an
# end is tried from the tree that it shows. The calls with their words and ends, the state of the new package and the
# tree that is left are to be those of the report. Each script calls `log`, a program of the root, whose calls the base
# states; it fails where its marker stands below /srv/m, which tells of the script and its first two words.
#
# A line for each run: `ok`, or `differs` and why dpkg does otherwise (manual page, KNOWN DIFFERENCES), or `WRONG`, and
# the script then ends with 1. It takes some three minutes, and needs dpkg, ar, and the user root, since dpkg calls the
# scripts in its root by chroot.
#
#     bench/pairs.sh
. "$(dirname "$(readlink -f "$0")")/common.sh"
top=$(readlink -f "$(dirname "$0")/..")
cd "$folder" || exit 1
export LC_ALL=C

# ---- a root for dpkg

[ "$(id -u)" -eq 0 ] || { echo 'bench: the user has to be root' >&2; exit 1; }
mkdir -p root/bin root/tmp none/info none/updates
: >none/status
: >none/available
for tool in sh mkdir rmdir rm touch mv; do
    file=$(readlink -f "$(command -v "$tool")")
    cp "$file" "root/bin/$tool"
    ldd "$file" | grep -o '/[^ ]*' | while read -r library; do
        mkdir -p "root${library%/*}"
        cp -n "$library" "root$library"
    done
done
cat >root/bin/log <<'END'
#!/bin/sh
line=
for word; do line="$line${word:-\\e} "; done
printf '%s\n' "$line" >>/log
END
chmod 755 root/bin/log

# real_dpkg WORD ..: a call of dpkg in the root, which may fail.
real_dpkg() {
    dpkg --root="$folder/root" --force-unsafe-io --force-bad-path --force-confnew "$@" >>said 2>&1 </dev/null || :
}

# plant FILE: the root has this tree below /srv.
plant() {
    rm -rf root/srv
    mkdir root/srv
    while read -r kind path target; do
        case $kind in
        d) mkdir -p "root$path" ;;
        f) : >"root$path" ;;
        l) ln -s "$target" "root$path" ;;
        p) mkfifo "root$path" ;;
        *) echo "WRONG $kind $path: this is not made here" | tee -a wrong ;;
        esac
    done <"$1"
}

# state: that of the new package.
state() {
    awk '/^Package: / { is_new = $2 == "new" } /^Status: / && is_new { state = $4 }
        END { print "state " (state == "" ? "not-installed" : state) }' root/var/lib/dpkg/status
}

# found: the calls with their ends, the state of the new package, and the tree.
found() {
    touch root/log
    awk '$1 == "ok" { print call "ok"; call = ""; next }
        { if (call != "") print call "failed"; call = $0 }
        END { if (call != "") print call "failed" }' root/log
    state
    find root/srv -printf '%y %p %l\n' | sed 's, root/, /,; s/ $//' | sort
}

# ---- packages: `new` of version 2 in the folder n, `old` of version 1 in o

# control FOLDER NAME VERSION RELATION
control() {
    rm -rf "$1"
    mkdir -p "$1/DEBIAN" "$1/srv"
    printf 'Package: %s\nVersion: %s\nArchitecture: all\nMaintainer: x <x@y>\nDescription: x\n%b' "$2" "$3" "$4" \
        >"$1/DEBIAN/control"
}

# script SIDE NAME COMMAND: a script that executes this command too, and fails where its marker stands.
script() {
    case $1 in new) file=n/DEBIAN/$2 ;; *) file=o/DEBIAN/$2 ;; esac
    {
        printf '#!/bin/sh\nset -e\nlog %s %s "$@"\n' "$1" "$2"
        # (the old package is installed before the tree is made)
        [ "$1 $2" != 'old postinst' ] || printf 'if [ "$1" = configure ]; then exit 0; fi\n'
        [ -z "$3" ] || printf '%s\n' "$3"
        printf '[ ! -h "/srv/m/%s-%s-$1$2" ]\nlog ok\n' "$1" "$2"
    } >"$file"
    chmod 755 "$file"
}

# scripts NEW_PREINST NEW_POSTINST NEW_POSTRM OLD_PRERM OLD_POSTINST OLD_POSTRM: what they execute beside.
scripts() {
    script new preinst "$1"
    script new postinst "$2"
    script new postrm "$3"
    script old prerm "$4"
    script old postinst "$5"
    script old postrm "$6"
}

# files FILE ..: empty files of packages.
files() {
    for file; do
        mkdir -p "${file%/*}"
        : >"$file"
    done
}

# build FOLDER: the package file, and the folder of it that the program reads.
build() {
    rm -rf "$1.deb" "$1.read"
    dpkg-deb --root-owner-group -Znone --build "$1" "$1.deb" >/dev/null
    "$top/colis-unpack" "$1.deb" "$1.read"
}

# without_folders FOLDER: its package file is to list files alone.
without_folders() {
    (
        cd "$1" || exit 1
        find . -path ./DEBIAN -prune -o ! -type d -print | tar --owner=0 --group=0 -cf ../data.tar -T -
        cd DEBIAN && tar --owner=0 --group=0 -cf ../../control.tar .
    )
    echo 2.0 >debian-binary
    rm -rf "$1.deb" "$1.read"
    ar qc "$1.deb" debian-binary control.tar data.tar 2>/dev/null
    "$top/colis-unpack" "$1.deb" "$1.read"
}

# relation SCENARIO: what the new package says of the old one.
relation() {
    case $1 in
    in-favour) printf 'Conflicts: old\nReplaces: old\n' ;;
    deconfigure) printf 'Breaks: old\nReplaces: old\n' ;;
    disappear) printf 'Replaces: old\n' ;;
    esac
}

# pair SCENARIO: begins two packages with a file each, and one that both have.
pair() {
    control n new 2 "$(relation "$1")\n"
    control o old 1 ''
    files n/srv/a/f n/srv/both o/srv/b/g o/srv/both
    [ "$1" != disappear ] || files n/srv/b/g
    scripts
}

# ---- why dpkg does otherwise: each changes what the report says, in the file `want`, into what dpkg does, where it
# ---- applies, and then names itself in `why`

# instead WHY: the file `instead` is wanted now.
instead() {
    mv instead want
    why="$why${why:+, }$1"
}

# Where the new postrm fails to undo, dpkg still calls the postinst of the old package; its own command here is
# `rm /srv/b/state`, or none.
cleaning_goes_on() {
    case $scenario in in-favour) word=abort-remove ;; deconfigure) word=abort-deconfigure ;; *) return ;; esac
    grep -q '^new postrm abort-install failed$' want || return 0
    end=ok
    ! grep -q "^l /srv/m/old-postinst-${word}in-favour" want || end=failed
    if grep -q '^rm ' o/DEBIAN/postinst; then
        grep -q '^[flp] /srv/b/state$' want || end=failed
        sed -i '/^[flp] \/srv\/b\/state$/d' want
    fi
    sed "/^new postrm abort-install/a old postinst $word in-favour new 2 $end" want >instead
    instead 'cleaning goes on'
}

# A package disappears where the new one has its folders too, and not its files alone.
folders_count() {
    [ "$scenario" = disappear ] && grep -q '^old postrm disappear' want || return 0
    { cat n.read/list && sed -n 's,/\([^/]*\)$,,p' n.read/list; } | sed 's,/$,,' | sort -u >has
    sed 's,/$,,' o.read/list | grep -vxF -f has >kept || return 0
    end='ok state installed'
    ! grep -q '^l /srv/m/new-postinst-configure' want || end='failed state half-configured'
    sed -e '/^old postrm/d' -e '/^new postinst/d' \
        -e "s/^state .*/new postinst configure \\\\e ${end% state*}\nstate ${end#* state }/" want >instead
    instead 'folders count'
}

# Where the old postrm fails at the disappearance, the new package is Half-Installed, and what its files replaced stays
# beside them.
nothing_is_put_back() {
    grep -q '^old postrm disappear new 2 failed$' want || return 0
    {
        sed 's/^state .*/state half-installed/' want
        awk -v conffiles="n.read/conffiles" 'BEGIN { while ((getline path <conffiles) > 0) is_conf[path] = 1 }
            FILENAME == ARGV[1] { if ($1 != "d") shown[$2] = $0; next }
            $1 in shown && !($1 in is_conf) { sub(/ \/[^ ]*/, "&.dpkg-tmp", shown[$1]); print shown[$1] }' \
            shown n.read/list
    } >instead
    instead 'nothing is put back'
}

# The configuration files of a package that is not configured stand beside their places.
conffiles_wait() {
    [ -f n.read/conffiles ] && grep -q '^new preinst install ok$' want || return 0
    ! grep -q '^new post' want || return 0
    awk 'FILENAME == ARGV[1] { shown[$2] = 1; next }
        FILENAME == ARGV[2] { is_conf[$0] = 1; next }
        $2 in is_conf { print "f " $2 ".dpkg-new"; if (!($2 in shown)) next }
        { print }' shown n.read/conffiles want >instead
    instead 'conffiles wait'
}

# Where a file stands at a folder on the way to a file of the old package, and no list has that folder, it cannot be
# removed.
removal_fails() {
    grep -q '^old postrm remove' want && grep -q '^f /srv/b$' shown && grep -q '^/srv/b/' o.read/list || return 0
    sed -e '/^old postrm/d' -e '/^new postinst/d' -e 's/^state .*/state unpacked/' want >instead
    instead 'a removal fails'
}

# A file goes where a folder of the package stands that is removed; what is below it can then not be removed.
file_for_a_folder() {
    [ "$scenario" = in-favour ] && [ -f n/srv/x ] && [ -d o/srv/x ] || return 0
    grep -q '^new preinst install ok$' want && grep -q '^new postrm abort-install' want || return 0
    {
        sed -e '/^new postrm/d' -e '/^old postinst/d' -e '/^d \/srv\/x$/d' -e '/^f \/srv\/x\//d' \
            -e 's/^state .*/state unpacked/' want
        find n/srv -printf '%y %p\n' | sed 's, n/, /,'
    } >instead
    instead 'a file for a folder'
}

# sorted: the tree in `want` is sorted, each line once.
sorted() {
    { grep -v '^[a-z] /' want; grep '^[a-z] /' want | sort -u; } >again
    mv again want
}

# ---- runs

# outcomes: for each of the report the files want.K, with its sort of end in a line of its own, and shown.K.
outcomes() {
    rm -f want.* shown.*
    awk '
    function put(line) { print line >("want." number) }
    /^outcome / { number = $2; shows = 0; last = tolower($4); put("#" $3); next }
    /^call / { put(substr($0, 6)); next }
    /^shown$/ { shows = 1; printf "" >("shown." number); next }
    /^after$/ { shows = 2; put("state " last); next }
    /^place / { shows = 0 }
    /^[a-z] \/srv/ && shows == 1 { print >("shown." number) }
    /^[a-z] \/srv/ && shows == 2 { put($0) }' report
}

# compare NAME: what was found beside what is wanted.
compare() {
    runs=$((runs + 1))
    why=
    cleaning_goes_on
    folders_count
    nothing_is_put_back
    conffiles_wait
    file_for_a_folder
    removal_fails
    sorted
    if ! cmp -s want got; then
        echo "WRONG $1 ($why)" | tee -a wrong
        diff want got
        cat shown
    elif [ -n "$why" ]; then
        echo "differs $1: $why"
        echo "$why" >>differences
    else
        echo "ok $1"
        equal=$((equal + 1))
    fi
}

# each NAME: dpkg from each tree that the report shows, by the command `act`.
each() {
    outcomes
    for number in $(ls want.* | sed 's/want.//' | sort -n); do
        sed 1d "want.$number" >want
        cp "shown.$number" shown
        case $(head -n 1 "want.$number") in
        '#done' | '#failed') ;;
        *)
            undecided=$((undecided + 1))
            continue
            ;;
        esac
        rm -rf root/var/lib/dpkg root/log
        cp -a before root/var/lib/dpkg
        plant shown
        : >said
        act
        found >got
        compare "$1 $number"
        [ "$scenario" != twice ] || again "$1 $number"
    done
}

# begin: dpkg knows of no package.
begin() {
    rm -rf root/var root/srv root/log before
    # (a package may lack the folders of its files)
    mkdir -p root/var/lib root/srv/a root/srv/b
    cp -a none root/var/lib/dpkg
    : >said
}

# pair_runs NAME SCENARIO: the old package is installed; then the new one is.
pair_runs() {
    scenario=$2
    begin
    real_dpkg --install o.deb
    grep -q '^Status: install ok installed$' root/var/lib/dpkg/status || tee -a wrong <said
    cp -a root/var/lib/dpkg before
    "$program" pair n.read --with o.read --scenario "$scenario" --base base >report
    act() { real_dpkg --install --auto-deconfigure n.deb; }
    each "$scenario: $1"
}

# twice_runs NAME: the new package is unpacked; then it is configured, is deconfigured since the package `breaker`
# breaks it, and is configured.
twice_runs() {
    scenario=twice
    build n
    begin
    real_dpkg --unpack n.deb
    cp -a root/var/lib/dpkg before
    "$program" twice n.read --base base >report
    act() {
        real_dpkg --configure new
        [ "$(state)" = 'state installed' ] || return
        real_dpkg --unpack --auto-deconfigure breaker.deb
        real_dpkg --purge breaker
        real_dpkg --configure new
    }
    each "twice: $1"
}

# again NAME: a package whose postinst failed is configured again, beside `run` of a package that has the same postinst
# and places nothing, from the tree that was left.
again() {
    [ "$(state)" = 'state half-configured' ] && grep -q 'configure .e failed' got || return 0
    grep '^[a-z] /' got >tree
    cp tree shown
    rm -rf alone root/log
    mkdir alone
    cp n.read/control n.read/postinst alone
    echo '/.' >alone/list
    "$program" run alone --base base --scenario install --tree tree >ran
    awk '/^result / { if ($2 !~ /done|failed/) exit 1; last = tolower($3) } /^call / { print substr($0, 6) }
        /^after$/ { print "state " last } /^[a-z] \// { print }' ran >want || return 0
    real_dpkg --configure new
    found >got
    compare "$1, again"
}

: >wrong
: >differences
runs=0 equal=0 undecided=0
printf 'dir /srv\ndir /srv/m\nfits\ncall log ok\n' >base
control b breaker 1 'Breaks: new\n'
dpkg-deb --root-owner-group -Znone --build b breaker.deb >/dev/null

for scenario in in-favour deconfigure disappear; do
    # both NAME: the packages that were begun.
    both() {
        build n
        build o
        pair_runs "$1" "$scenario"
    }

    pair "$scenario"
    both files

    pair "$scenario"
    scripts 'mkdir /srv/made' 'mv /srv/made /srv/kept' 'rmdir /srv/made' 'touch /srv/b/state' 'rm /srv/b/state' \
        'rm -f /srv/b/state'
    both commands

    pair "$scenario"
    files n/srv/etc/c n/srv/etc/both o/srv/etc/both o/srv/etc/d
    printf '/srv/etc/c\n/srv/etc/both\n' >n/DEBIAN/conffiles
    printf '/srv/etc/both\n/srv/etc/d\n' >o/DEBIAN/conffiles
    if [ "$scenario" = disappear ]; then
        files n/srv/etc/d
        echo /srv/etc/d >>n/DEBIAN/conffiles
    fi
    both 'configuration files'
    echo 'absent /srv/etc/c' >>base
    both 'a new configuration file'
    sed -i '$d' base

    pair "$scenario"
    ln -s a n/srv/l
    ln -s b o/srv/k
    [ "$scenario" != disappear ] || ln -s b n/srv/k
    both links

    pair "$scenario"
    mkdir n/srv/y o/srv/z
    both 'empty folders'

    pair "$scenario"
    files n/srv/x/f
    scripts 'mkdir /srv/x' '' 'rmdir /srv/x'
    without_folders n
    build o
    pair_runs 'a folder that is missing' "$scenario"
    without_folders o
    pair_runs 'folders that no list has' "$scenario"
done

for relation in 'deconfigure Breaks' 'in-favour Conflicts'; do
    scenario=${relation% *}
    control n new 2 "${relation#* }: old\nReplaces: older\n"
    control o old 1 ''
    files n/srv/a/f n/srv/x o/srv/x/y
    [ "$scenario" = deconfigure ] || sed -i 's/older/old/' n/DEBIAN/control
    scripts
    build n
    build o
    pair_runs 'a file where a folder is' "$scenario"
done

while read -r command; do
    control n new 2 ''
    files n/srv/a/f
    script new postinst "$command"
    twice_runs "$command"
done <<'END'
true
mkdir /srv/made
mkdir -p /srv/made
[ -d /srv/made ] || mkdir /srv/made
mv /srv/a/f /srv/a/g
rm /srv/a/f
rm -f /srv/a/g; touch /srv/a/g
if [ -z "$2" ]; then mkdir /srv/first; else rmdir /srv/first; fi
END

echo "$runs runs, $equal as reported, $(wc -l <differences) otherwise; $undecided outcomes have no end"
sort differences | uniq -c
[ ! -s wrong ]
