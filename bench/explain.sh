#!/bin/sh
# What `explain` says: texts of the examples, byte for byte as bench/explained/ has them by hand; lines of hostile scripts
# with the command that they mark; a group that no one list of facts tells; scenarios beyond the limit; and each place of
# --places, which is opened (places.py). Anything else than stands here is printed as WRONG, and the script then ends
# with 1.
here=$(dirname "$(readlink -f "$0")")
. "$here/common.sh"
repository=$(dirname "$here")
cd "$folder" || exit 1
export LC_ALL=C
: >wrong

# same NAME GOT: the file has what stands on standard input.
same() {
    cat >expected
    if cmp -s expected "$2"; then
        printf 'ok %s\n' "$1"
    else
        printf 'WRONG %s\n' "$1"
        diff -a expected "$2"
        echo WRONG >>wrong
    fi
}

# script_of FOLDER: a package that places nothing, whose postinst is `#!/bin/sh` and what comes on standard input.
script_of() {
    { printf '#!/bin/sh\n' && cat; } | package "$1"
}

# told FOLDER PLACE: the first group at a place of the postinst on an installation: the line there, and its mark.
told() {
    "$program" explain "$1" --scenario install >text
    sed -n "\\,^$1/postinst:$2: ,{n;p;n;p;q;}" text >said
}

# ---- texts of the examples, each of one scenario, without what a run changes (shown_systems.py makes these systems)

for text in "$here"/explained/*; do
    name=${text##*/}
    (cd "$repository" && "$program" explain "examples/${name%.*}" --scenario "${name##*.}") |
        awk '/^  One such system/ { left = 1 } /^$/ || /^  The same at/ { left = 0 } !left' >said
    same "examples: $name" said <"$text"
done

# ---- lines, columns and marks: a tab goes to each fourth column, a character of several bytes is one column, bytes that
# are not seen are spelled; of a long line 40 columns stand before the place and 60 from it on

printf 'set -e\n\tmkdir\t/srv/a\t# x\n' | script_of p
told p 3:2
same 'tabs' said <<'EOF'
        mkdir   /srv/a  # x
        ^^^^^^^^^^^^^^
EOF
printf '# a comment\r\n# another\r\nset -e\nmkdir /srv/a # c\r\n' | script_of p
told p 5:1
same 'carriage returns in comments' said <<'EOF'
    mkdir /srv/a # c\x0d
    ^^^^^^^^^^^^
EOF
printf 'set -e\necho \303\251\342\202\254\360\237\230\200; mkdir "/srv/\303\251\342\202\254"; :\n' | script_of p
told p 3:11
printf '    echo \303\251\342\202\254\360\237\230\200; mkdir "/srv/\303\251\342\202\254"; :\n              ^^^^^^^^^^^^^^^\n' |
    same 'characters of two, three and four bytes' said
printf 'set -e\necho \033\377\342\200\256; mkdir /srv/a; :\n' | script_of p
told p 3:11
same 'an escape, a byte that is no character, a change of direction' said <<'EOF'
    echo \x1b\xff\xe2\x80\xae; mkdir /srv/a; :
                               ^^^^^^^^^^^^
EOF
many=$(printf '%09982d' 0 | tr 0 a)
printf 'set -e\n: %s; mkdir /srv/a\n' "$many" | script_of p
told p 3:9987
same 'the end of a line of 9,998 bytes' said <<'EOF'
    [..] aaaaaaaaaaaaaaaaaaaaaaaaaaaaaaaaaaaaaa; mkdir /srv/a
                                                 ^^^^^^^^^^^^
EOF
printf 'set -e\nmkdir /srv/a; : %s\n' "$many" | script_of p
told p 3:1
same 'the begin of a line of 9,998 bytes' said <<'EOF'
    mkdir /srv/a; : aaaaaaaaaaaaaaaaaaaaaaaaaaaaaaaaaaaaaaaaaaaa [..]
    ^^^^^^^^^^^^
EOF
printf 'set -e\n\\\nmkdir \\\n  /srv/a && \\\n  rmdir /srv/a/b\n' | script_of p
told p 4:1
same 'a command on two lines that are joined' said <<'EOF'
    mkdir \
    ^^^^^^^
EOF
told p 6:3
same 'a command behind joined lines' said <<'EOF'
      rmdir /srv/a/b
      ^^^^^^^^^^^^^^
EOF
printf 'set -e\nif true; then :; fi; { mkdir "/srv/a;b" >/dev/null 2>&1; }; (rmdir /srv/c)\n' | script_of p
told p 3:24
same 'a command in braces, with an operator in quotes' said <<'EOF'
    if true; then :; fi; { mkdir "/srv/a;b" >/dev/null 2>&1; }; (rmdir /srv/c)
                           ^^^^^^^^^^^^^^^^^^^^^^^^^^^^^^^^
EOF
told p 3:62
same 'a command in parentheses' said <<'EOF'
    if true; then :; fi; { mkdir "/srv/a;b" >/dev/null 2>&1; }; (rmdir /srv/c)
                                                                 ^^^^^^^^^^^^
EOF
printf 'set -e\nmkdir /srv/a' | script_of p
told p 3:1
same 'a script without a newline at its end' said <<'EOF'
    mkdir /srv/a
    ^^^^^^^^^^^^
EOF

# ---- what would decide a command without a meaning, by its first word; the stated commands that stand where one can begin

for command in 'foo a' '"foo" a' 'rm -rv /srv/a' 'readonly A' '[ a -nt b ]'; do
    printf 'set -e\n%s\n' "$command" | script_of p
    "$program" explain p --scenario install | sed -n 's/^  What would decide it: //p'
done >said
same 'what would decide commands' said <<'EOF'
a base line `call foo ok` or `call foo fails`, where it is true and the command changes no file that matters
where the name of the command is written out and its calls can be stated, a base line `call NAME ok` or `call NAME fails` that is true, if the command changes no file that matters
calls of rm cannot be stated (docs/FORMATS.md has the uses with a meaning); base lines on what stands at the places above may keep runs from here
calls of readonly cannot be stated (docs/FORMATS.md has the uses with a meaning); base lines on what stands at the places above may keep runs from here
calls of [ cannot be stated (docs/FORMATS.md has the uses with a meaning); base lines on what stands at the places above may keep runs from here
EOF
script_of p <<'EOF'
set -e
# one is told
echo "two; three" four
if ! "five" -a; then A='six seven' eight 2>/dev/null; fi
nine() { >&2 ten eleven || return 1; }
case $1 in
twelve | thirteen) x="$(fourteen)" ;;
esac
EOF
for name in one two three four six seven eleven; do
    echo "call $name ok"
done >base
printf 'call five asks /srv/five\ncall eight ok\ncall ten fails\ncall thirteen ok\ncall fourteen ok\n' >>base
"$program" explain p --scenario install --base base | sed -n '/Stated commands/p' >said
same 'stated commands' said <<'EOF'
  Stated commands that the scripts name: five (asks /srv/five: succeeds where something stands at this place, which is its answer) eight ten (fails) thirteen fourteen
EOF
printf 'set -e\nfoo\ntrue\n' | script_of p
"$program" explain p --scenario install | sed -n '/^Not reached/p' >said
same 'lines that are not reached' said <<'EOF'
Not reached in any outcome of install: p/postinst, line 4
EOF

# ---- a group that no one list of facts tells

printf 'set -e\nfor name in a b; do\nmkdir /srv/$name\ndone\n' | script_of p
"$program" explain p --scenario install >text
sed -n '/^p.postinst:4:1: failure/,/  How/{/^  On/p;/^    or$/p;/^    and/p;/^      .srv/p;}' text >said
same 'two lists of facts' said <<'EOF'
  On exactly these systems, where
      /srv/a is there
    or
      /srv/b is there
EOF
python3 "$here/exact.py" "$program" p || echo WRONG >>wrong

# ---- scenarios that pass the limit, and that have no start tree: the first lines, by what `check` says of each alone

# heads FOLDER WORD ..: the first line of each scenario, and the status of the whole.
heads() {
    whole=0
    for scenario in install install-again upgrade remove purge purge-later; do
        "$program" check "$@" --scenario "$scenario" --brief >report 2>line
        status=$?
        case $status:$(cat line) in
        0:*) verdict='ends well' ;;
        1:*) verdict='FAILS on some systems' && whole=1 ;;
        2:*) verdict=UNDECIDED ;;
        3:*'more than '* | 3:*'no start tree '*) verdict='NOT EXAMINED' ;;
        *) verdict=wrong ;;
        esac
        case $whole:$status in
        0:[23]) whole=2 ;;
        esac
        echo "$1 $(sed -n 's/^Version: //p' "$1/control"), $scenario: $verdict"
    done
    echo "$whole"
}
ln -s "$repository/examples" examples
echo 'absent /srv/www' >no_folder
script_of folder <<'EOF'
:
EOF
echo /srv/www/ >>folder/list
for words in 'examples/logwatcher --limit 15' 'examples/logwatcher --limit 4' 'examples/doc-link --limit 3' \
    'folder --base no_folder' 'folder'; do
    # shellcheck disable=SC2086
    heads $words >wanted
    # shellcheck disable=SC2086
    "$program" explain $words >text
    status=$?
    { grep -e ', [a-z-]*: [A-Za-z ]*$' text && echo "$status"; } >said
    same "the scenarios of $words" said <wanted
    cut -d : -f 2 wanted | sort -u | tr -d '\n' >kinds
    [ "$words" = folder ] || grep -q EXAMINED kinds || echo "WRONG $words: no scenario that is not examined" | tee -a wrong
done

# ---- places, each of which is opened

for case in tabs joined; do
    mkdir -p "$case"
done
printf 'set -e\n# \303\251\r\n\tmkdir\t/srv/a\necho \303\251\377; touch /srv/\303\251\n' | script_of tabs
printf 'set -e\nmkdir \\\n  /srv/a && \\\n  rmdir /srv/a/b\nfor x in a b; do [ -e /srv/$x ] || touch /srv/$x; done\n' |
    script_of joined
printf 'set -e\n: %s; mkdir /srv/a\n' "$many" | script_of long
python3 "$here/places.py" "$program" "$repository"/examples/* tabs joined long || echo WRONG >>wrong

[ ! -s wrong ]
