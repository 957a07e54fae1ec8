#!/bin/sh
# The launcher with the built program: its help, each sort of refusal with standard error in a file and on a terminal,
# closed pipes, signals, pipes in place of files, and names of any bytes. What comes is to be as it stands here, byte
# for byte; anything else is printed as WRONG, and the script then ends with 1. script (of util-linux) makes the
# terminals; without it their rows are left out. `bench/launcher.sh SHELL` runs the launcher in another shell than sh.
here=$(dirname "$(readlink -f "$0")")
. "$here/common.sh"
shell=${1:-/bin/sh}
repository=$(dirname "$here")
# (the launcher beside a program that is newer than all its sources, and so is not built again)
mkdir -p "$folder/top/docs" "$folder/top/share" "$folder/top/crates/colis_checker/out"
cp "$repository/docs/help.txt" "$folder/top/docs"
cp "$repository/share/explain.sh" "$repository/share/colours.sed" "$repository/share/build.sh" "$folder/top/share"
: >"$folder/top/crates.txt"
{ echo "#!$(command -v "$shell")" && tail -n +2 "$repository/colis"; } >"$folder/top/colis"
chmod +x "$folder/top/colis"
cp "$program" "$folder/top/crates/colis_checker/out/colis_checker"
PATH=$folder/top:$PATH
export PATH LC_ALL=C.UTF-8
cd "$folder" || exit 1
: >wrong
terminals=
command -v script >/dev/null && terminals=yes

# same NAME GOT: the file has what stands on standard input.
same() {
    cat >expected
    if cmp -s expected "$2"; then
        printf 'ok %s\n' "$1"
    else
        printf 'WRONG %s\n' "$1"
        diff -a expected "$2"
        echo WRONG >>wrong
    fi
}

# piped CALL: a call for a shell, without a terminal: standard output, standard error and the status in `said`.
piped() {
    sh -c "$1" >out 2>err </dev/null
    status=$?
    { cat out err && echo "status $status"; } >said
}

# typed CALL: the same on a terminal.
typed() {
    script -qec "$1" /dev/null </dev/null >out
    status=$?
    { tr -d '\r' <out && echo "status $status"; } >said
}

# refused CALL STATUS LINE: the call ends so, with this line, and on a terminal with what stands on standard input below
# it; a call of `explain` has that without a terminal too.
refused() {
    cat >words
    case $1 in
    *'colis explain'*) { printf '%s\n' "$3" && cat words; } >wanted ;;
    *) printf '%s\n' "$3" >wanted ;;
    esac
    piped "$1"
    { cat wanted && printf 'status %d\n' "$2"; } | same "$1" said
    [ -n "$terminals" ] || return
    typed "$1"
    { printf '%s\n' "$3" && cat words && printf 'status %d\n' "$2"; } | same "$1 (terminal)" said
}

# script_of FOLDER: a package that places nothing, whose postinst is `#!/bin/sh` and what comes on standard input.
script_of() {
    { echo '#!/bin/sh' && cat; } | package "$1"
}

# ---- the kit

# (README's line on the kit is that of the `rt` at hand, where there is one)
if command -v rt >/dev/null; then
    sed -n 's/^Proved with the kit `\([^`]*\)`.*/\1/p' "$repository/README.md" >said
    rt version | same 'README: kit' said
fi

# ---- help

for words in help -h --help 'check --help' 'run --help' 'translate --help' 'load --help' 'check -h' 'help check'; do
    piped "colis $words"
    { cat top/docs/help.txt && echo 'status 0'; } | same "$words" said
done
piped 'colis --version'
{ head -n 1 top/docs/help.txt && echo 'status 0'; } | same --version said

# ---- scripts: each unsupported form, and each other fault. The first line is `#!/bin/sh` in ten bytes.

# unsupported FORM SCRIPT COLUMN WHAT ACCEPTED: line 2 of a script has the form in this column, which is ASCII.
unsupported() {
    printf '%s\n' "$2" | script_of p
    refused 'colis translate p/postinst' 3 "colis: p/postinst: unsupported $1 at $((9 + $3))" <<EOF
p/postinst:2:$3: $4
    2 | $2
      | $(printf '%*s' "$(($3 - 1))" '')^ $5
EOF
}

redirections='only >/dev/null and 2>/dev/null (or >>), </dev/null, >&2 and 2>&1 are read'
unsupported redirect 'echo >x' 6 'a redirection to a file is not supported' "$redirections"
unsupported redirect 'a </dev/null 2>>/dev/null 2>|/dev/null' 28 'a redirection to a file is not supported' "$redirections"
unsupported arith "x=\$((1))" 3 "arithmetic, \$((..)) or ((..)), is not supported" \
    'write the number itself; where subshells are meant, put a blank between the two ('
unsupported arith '((a))' 1 "arithmetic, \$((..)) or ((..)), is not supported" \
    'write the number itself; where subshells are meant, put a blank between the two ('
unsupported background 'true &' 6 'a command in the background, &, is not supported' \
    'end the command by ; or a newline, or quote the &, if it is part of a text'
unsupported backquote "x=\`a\`" 3 'a substitution in backquotes is not supported' "write \$(..)"
for word in "\${x%a}" "\${x:-\$y}" "\$?" "\${10}" "\$*"; do
    unsupported param "x $word" 3 'this parameter is not supported' \
        "\$x, \$1 to \$9 and \$# are read, these in braces, \${x:-text}, \${1:-text}, and \"\$@\" as a whole word"
done
for line in "echo \$@" "case \"\$@\" in a) ;; esac" "echo a\"\$@\""; do
    case $line in *'a"'*) column=8 ;; *) column=6 ;; esac
    unsupported all-args "$line" "$column" "\$@ is not supported here" \
        "write \"\$@\" as a whole word, but not as the word or a pattern of a case"
done
unsupported tilde 'echo ~' 6 'a ~ that shells replace is not supported' 'write the path, or quote the ~'
unsupported tilde 'x=~/a' 3 'a ~ that shells replace is not supported' 'write the path, or quote the ~'
unsupported brace 'echo {a,b}' 6 'braces that some shells expand are not supported' 'write each word, or quote the braces'
unsupported subst-case "x=\$(case)" 5 "the word case within \$(..) is not supported" \
    "quote it, if it is part of a text, or put the case into a function that the \$(..) calls"
unsupported option 'a; set -u' 4 'this use of set is not supported' 'only set -e and set +e are read'
for line in 'IFS=x' 'for IFS in a; do b; done'; do
    unsupported ifs "$line" 1 'a change of IFS is not supported' \
        'leave IFS as it is: fields are cut at blanks, tabs and newlines'
done
for line in 'x=1 set -e' "x=\$(a) b" "x=1 \$y"; do
    unsupported prefix "$line" 1 'an assignment before this command is not supported' \
        'write it as a command of its own, as x=1; f'
done
unsupported export "export \$x" 1 'export with an expansion outside quotes is not supported' \
    "quote it, as in export \"x=\$y\""
for line in 'break' 'continue'; do
    unsupported loop-exit "$line" 1 'this break or continue is not supported' \
        "write it without a number, in a loop of the same function, subshell or \$(..)"
done
unsupported loop-exit 'while a; do break 2; done' 13 'this break or continue is not supported' \
    "write it without a number, in a loop of the same function, subshell or \$(..)"
for line in 'return 1' 'f() { (return); }'; do
    case $line in return*) column=1 ;; *) column=8 ;; esac
    unsupported return "$line" "$column" 'this return is not supported' \
        "it may stand in a function, but not in a subshell or \$(..) there; exit ends a script"
done
unsupported function-place 'true && f() { true; }' 9 'a function that is defined within another command is not supported' \
    'define it by itself: not within if, case, a loop, a function or a subshell, nor behind && or ||'
unsupported function-twice 'f() { a; }; f() { a; }' 13 'a second function of this name is not supported' \
    'give it another name'
unsupported function-name 'rm() { true; }' 1 'a function of this name is not supported' \
    'take another name: commands that have a meaning here, as rm and test, keep theirs'
unsupported call-order 'f() { f; }' 7 'this call of a function is not supported' \
    'within a function call those functions alone that are defined before it'

script_of p <<'EOF'
cat <<EOT
x
EOT
EOF
for call in 'colis check p' 'colis explain p' 'colis explain p --places' 'colis twice p' 'colis translate p/postinst' \
    'colis run p --scenario install --tree none' 'colis pair p --with p --scenario disappear'; do
    refused "$call" 3 'colis: p/postinst: unsupported heredoc at 14' <<'EOF'
p/postinst:2:5: a here-document is not supported
    2 | cat <<EOT
      |     ^ only >/dev/null and 2>/dev/null (or >>), </dev/null, >&2 and 2>&1 are read
EOF
done
refused 'cat p/postinst | colis translate /dev/stdin' 3 'colis: /dev/stdin: unsupported heredoc at 14' <<'EOF'
/dev/stdin: a here-document is not supported; only >/dev/null and 2>/dev/null (or >>), </dev/null, >&2 and 2>&1 are read
EOF

# (characters of two and four bytes are one column, an unseen one, and bytes that are in none, four for each byte)
printf "\techo '\303\251\033\377\302\205\360\237\230\200' \`true\`\n" | script_of q
refused 'colis explain q' 3 'colis: q/postinst: unsupported backquote at 29' <<'EOF'
q/postinst:2:15: a substitution in backquotes is not supported
    2 |  echo 'é\x1b\xff\xc2\x85😀' `true`
      |                            ^ write $(..)
EOF
refused 'LC_ALL=C colis explain q' 3 'colis: q/postinst: unsupported backquote at 29' <<'EOF'
q/postinst:2:15: a substitution in backquotes is not supported
    2 |  echo '\xc3\xa9\x1b\xff\xc2\x85\xf0\x9f\x98\x80' `true`
      |                                                  ^ write $(..)
EOF
# (a character that is begun and not ended, an overlong one, and half of a pair)
printf ": '\342\202 \300\200 \355\240\200 \342\202\254'; a &\n" | script_of q
refused 'colis check q' 3 'colis: q/postinst: unsupported background at 31' <<'EOF'
q/postinst:2:20: a command in the background, &, is not supported
    2 | : '\xe2\x82 \xc0\x80 \xed\xa0\x80 €'; a &
      |                                         ^ end the command by ; or a newline, or quote the &, if it is part of a text
EOF
many=$(printf '%09970d' 0 | tr 0 a)
printf ': %s; cat <x\n' "$many" | script_of q
refused 'colis check q' 3 'colis: q/postinst: unsupported redirect at 9988' <<'EOF'
q/postinst:2:9979: a redirection to a file is not supported
    2 | ..aaaaaaaaaaaaaaaaaaaaaaaaaaaaaaaaaa; cat <x
      |                                           ^ only >/dev/null and 2>/dev/null (or >>), </dev/null, >&2 and 2>&1 are read
EOF
printf 'cat <x; : %s\n' "$many" | script_of q
refused 'colis check q' 3 'colis: q/postinst: unsupported redirect at 14' <<'EOF'
q/postinst:2:5: a redirection to a file is not supported
    2 | cat <x; : aaaaaaaaaaaaaaaaaaaaaaaaaaaaaaaaaaaaaaaaaaaaaaaaaaaaaa..
      |     ^ only >/dev/null and 2>/dev/null (or >>), </dev/null, >&2 and 2>&1 are read
EOF
for times in 409 410 411 412; do
    { printf ': ' && printf "%0$((times - 6))d" 0 | sed "s/0/$(printf '\303\251')/g" && echo '; a &'; } | script_of q
    refused 'colis check q' 3 "colis: q/postinst: unsupported background at $((10 + 2 + 2 * (times - 6) + 4))" <<EOF
q/postinst:2:$((2 + times - 6 + 5)): a command in the background, &, is not supported
    2 | ..éééééééééééééééééééééééééééééééééééé; a &
      |                                           ^ end the command by ; or a newline, or quote the &, if it is part of a text
EOF
done
{ printf '\n\n\n' && printf '%099996d' 0 | sed 's/0/\n/g' && printf 'a\n\n\n' && echo 'b &'; } | script_of q
refused 'colis check q' 3 'colis: q/postinst: unsupported background at 100015' <<'EOF'
q/postinst:100004:3: a command in the background, &, is not supported
100004 | b &
       |   ^ end the command by ; or a newline, or quote the &, if it is part of a text
EOF

echo '  fi' | script_of p
refused 'colis check p' 3 'colis: p/postinst: syntax at 12' <<'EOF'
p/postinst:2:3: no script goes on like this
    2 |   fi
      |   ^ what POSIX's grammar has here is read: a command, or the then, do, fi, done, esac, } or ) that is due
EOF
echo 'if true; then' | script_of p
refused 'colis check p' 3 'colis: p/postinst: syntax at 24' <<'EOF'
p/postinst:3:1: the script ends where more has to come
    3 | 
      | ^ a command, or the then, do, fi, done, esac, } or ) that is due
EOF
printf 'if true; then' | script_of p
refused 'colis check p' 3 'colis: p/postinst: syntax at 23' <<'EOF'
p/postinst:2:14: the script ends where more has to come
    2 | if true; then
      |              ^ a command, or the then, do, fi, done, esac, } or ) that is due
EOF
echo "x=\$(if a)" | script_of p
refused 'colis check p' 3 'colis: p/postinst: syntax at 12' <<'EOF'
p/postinst:2:3: this $(..) ends where more has to come, or cannot stand here
    2 | x=$(if a)
      |   ^ a command, or the then, do, fi, done, esac, } or ) that is due
EOF
echo "echo 'a" | script_of p
refused 'colis check p' 3 'colis: p/postinst: open quote at 15' <<'EOF'
p/postinst:2:6: this quote is not closed
    2 | echo 'a
      |      ^ a second one has to follow
EOF
echo "echo \$(a" | script_of p
refused 'colis check p' 3 'colis: p/postinst: open substitution at 15' <<'EOF'
p/postinst:2:6: this substitution is not closed
    2 | echo $(a
      |      ^ a ) has to follow
EOF
printf 'echo \000 a\n' | script_of p
refused 'colis check p' 3 'colis: p/postinst: NUL byte at 15' <<'EOF'
p/postinst:2:6: this is a NUL byte
    2 | echo \x00 a
      |      ^ a script is a text, which has none
EOF
{ printf '%065d' 0 | sed 's/0/{ /g' && printf ':' && printf '%065d' 0 | sed 's/0/; }/g' && echo; } | script_of p
refused 'colis check p' 3 'colis: p/postinst: nested too deep at 138' <<'EOF'
p/postinst:2:129: this is nested too deep
    2 | ..{ { { { { { { { { { { { { { { { { { { { { :; }; }; }; }; }; }; }; }; }; }; }; }; }; }; }; }; }; }; }..
      |                                           ^ commands and substitutions nest 64 deep at most
EOF
for line in '#!/bin/sh -eu' '#!/usr/bin/perl -w' '#! /usr/bin/env sh' 'set -e'; do
    printf '%s\nexit 0;\n' "$line" | package p
    refused 'colis check p' 3 'colis: p/postinst: interpreter not accepted' <<EOF
p/postinst:1:1: \`$line\`: /bin/sh, /bin/dash or /bin/bash are accepted, with -e or without an option
EOF
done
printf '#!/bin/sh\r\nexit 0;\r\n' | package p
refused 'colis check p' 3 'colis: p/postinst: interpreter not accepted' <<'EOF'
p/postinst:1:1: `#!/bin/sh\x0d`: /bin/sh, /bin/dash or /bin/bash are accepted, with -e or without an option
EOF
printf '\n#!/bin/sh\n' | package p
refused 'colis check p' 3 'colis: p/postinst: interpreter not accepted' <<'EOF'
p/postinst:1:1: the first line is empty: behind #! /bin/sh, /bin/dash or /bin/bash are accepted, with -e or without an option
EOF
head -c 1048577 /dev/zero >p/postinst
refused 'colis check p' 3 'colis: p/postinst: longer than 1048576 bytes' <<'EOF'
p/postinst: files of 1048576 bytes at most are read
EOF

# ---- the lines of other files

# at_fault CALL FILE NUMBER WHY LINE WHAT ACCEPTED: the line of this number in the file is at fault.
at_fault() {
    refused "$1" 3 "colis: $2: line $3: fault $4" <<EOF
$2:$3: $6
    $3 | $5
      | $7
EOF
}

# bad_version CALL NUMBER LINE WHAT ACCEPTED: that line of a control file is.
bad_version() {
    refused "$1" 3 "colis: p/control: bad version in line $2" <<EOF
p/control:$2: $4
    $2 | $3
      | $5
EOF
}

echo 'exit 0' | script_of p
printf 'Package: A\nVersion: 1\n' >p/control
bad_version 'colis twice p' 1 'Package: A' 'no name of a package' \
    'a name has a to z, 0 to 9 and + - . alone, and one of them at least'
for line in 'Version: 1_0' 'Version:' 'Version: 1 2'; do
    printf 'Package: p\n%s\n' "$line" >p/control
    bad_version 'colis check p' 2 "$line" 'no version' \
        'a version has letters, digits and . + - : ~ alone, and one of them at least'
done
rm p/control

for line in srv '/srv//a' '/srv -> '; do
    printf '/.\n%s\n' "$line" >p/list
    at_fault 'colis explain p' p/list 2 1 "$line" 'no line of a list' \
        'a line is a path of 1 to 64 names, as /usr/bin/foo, of a folder /var/lib/foo/, of a link /etc/foo -> bar'
done
printf '/srv\n/srv/a\n/srv/a\n' >p/list
at_fault 'colis check p' p/list 3 2 /srv/a 'an earlier line names this path' 'each path stands once'
printf '/srv/a -> b\n/srv/a/c\n' >p/list
at_fault 'colis check p' p/list 2 3 /srv/a/c 'a link and a path below it' \
    'list a folder there, without an arrow, or leave out what is below the link'
echo /etc/bar >p/list
echo etc/foo >p/conffiles
at_fault 'colis check p' p/conffiles 1 1 etc/foo 'no line of conffiles' \
    'a line is a path alone, as /etc/foo: / and 1 to 64 names with one / between each two, none of them . or ..'
printf '/etc/bar\n/etc/bar\n' >p/conffiles
at_fault 'colis check p' p/conffiles 2 2 /etc/bar 'an earlier line names this path' 'each path stands once'
echo /etc/foo >p/conffiles
at_fault 'colis check p' p/conffiles 1 3 /etc/foo 'the list has no file of this name' \
    'a conffile is one of the files in list'
echo 'remove-on-upgrade /etc/bar' >p/conffiles
at_fault 'colis check p' p/conffiles 1 4 'remove-on-upgrade /etc/bar' 'flags are not supported' \
    'a line is a path alone, as /etc/foo'
rm p/conffiles
echo /. >p/list

path='/ and 1 to 64 names with one / between each two, none of them . or ..'
deep=$(printf '%065d' 0 | sed 's,0,/a,g')
while IFS='|' read -r line accepted; do
    printf '# a base\n%s\n' "$line" >mine
    case $line in
    'call rm ok' | 'call cd asks /a' | 'call  ok') what='the calls of this command cannot be stated' ;;
    *) what='no line of a base' ;;
    esac
    case $line in
    *"$deep") shown=$(echo "$line" | cut -c 1-100) && [ "$shown" = "$line" ] || shown=$shown.. ;;
    *) shown=$line ;;
    esac
    at_fault 'colis check p --base mine' mine 2 1 "$shown" "$what" "$accepted"
done <<EOF
call foo okay|write call NAME ok, call NAME fails or call NAME asks PATH
call foo|write call NAME ok, call NAME fails or call NAME asks PATH
call foo asks a|write call NAME asks PATH, where PATH is $path
call foo asks /a/./b|write call NAME asks PATH, where PATH is $path
call rm ok|NAME is 1 to 255 bytes without blanks, and of no command that has a meaning here, as rm, or changes the shell, as cd
call cd asks /a|NAME is 1 to 255 bytes without blanks, and of no command that has a meaning here, as rm, or changes the shell, as cd
call  ok|NAME is 1 to 255 bytes without blanks, and of no command that has a meaning here, as rm, or changes the shell, as cd
link /bin|write link PATH TARGET, where PATH is $path, without a blank
link bin usr/bin|write link PATH TARGET, where PATH is $path, without a blank
dir etc|write dir PATH, where PATH is $path
file /etc/|write file PATH, where PATH is $path
absent /|write absent PATH, where PATH is $path
nodir $deep|write nodir PATH, where PATH is $path
own usr|write own PATH, where PATH is $path
 fits|write fits, and nothing before or behind it
plain |write plain, and nothing before or behind it
directory /etc|a line is dir, file, absent or nodir PATH, link PATH TARGET, fits, own, own PATH, removed, runs, plain, versions, or call NAME ok, fails or asks PATH
EOF
printf 'fits\r\n' >mine
at_fault 'colis explain p --base=mine' mine 1 1 'fits\x0d' 'no line of a base' 'write fits, and nothing before or behind it'
printf 'call foo ok\ncall foo fails\n' >mine
at_fault 'colis check p --base mine' mine 2 2 'call foo fails' 'an earlier line states the calls of this command' \
    'each command is stated once'
echo 'link /bin usr//bin' >mine
at_fault 'colis check p --base mine' mine 1 2 'link /bin usr//bin' 'this link leads to no path' \
    'TARGET is 1 to 64 names with one / between each two, none of them . or .., perhaps with one / first'

for line in 'x /srv/a' 'd srv' 'f /srv/a,b' 'l /srv/a' 'tree a'; do
    echo "$line" >mine
    at_fault 'colis run p --scenario install --tree mine' mine 1 1 "$line" 'no line of a tree' \
        'a line is d, f, p, s, b or c and a path, or l, a path and a target, with other bytes than text as \xHH'
done
printf 'd /srv\nf /srv\n' >mine
at_fault 'colis run p --scenario install --tree=mine' mine 2 2 'f /srv' 'an earlier line names this path' \
    'each path of a tree stands once'
echo 'd /srv/a' >mine
at_fault 'colis run p --scenario install --tree mine' mine 1 3 'd /srv/a' 'what holds this path is no directory' \
    'a line d PATH comes before those of the entries of that directory'

echo '{' >report
refused 'colis predict report none' 3 'colis: report: report fault 1' <<'EOF'
report: this is no JSON; predict takes a report that check --json wrote
EOF
echo '{}' >report
refused 'colis predict report none' 3 'colis: report: report fault 2' <<'EOF'
report: this is no whole report; predict takes one that check --json wrote
EOF
# (what is known of a variable comes before how it is defined)
colis check p --scenario install --json | sed 's/\("entry v0 [a-z]* v1"\),\("kind v1 dir"\)/\2,\1/' >report
refused 'colis predict report none' 3 'colis: report: report fault 3' <<'EOF'
report: a clause of this report is not in solved order, as those that check --json writes are
EOF
echo '{"colis":2,"scenarios":[],"verdict":0}' >report
for line in tree 'tree ' 'x /srv'; do
    printf 'tree a\n%s\n' "$line" >mine
    at_fault 'colis predict report mine' mine 2 1 "$line" 'no line of trees' \
        'a line is tree and a NAME of 1 to 255 bytes, or d, f, p, s, b or c and a path, or l, a path and a target'
done
printf 'tree a\nd /srv\nd /srv\n' >mine
at_fault 'colis predict report mine' mine 3 2 'd /srv' 'an earlier line names this path' 'each path of a tree stands once'
printf 'tree a\nd /srv/a\n' >mine
at_fault 'colis predict report mine' mine 2 3 'd /srv/a' 'what holds this path is no directory' \
    'a line d PATH comes before those of the entries of that directory'
echo 'd /srv' >mine
at_fault 'colis predict report mine' mine 1 4 'd /srv' 'no tree has begun' \
    'a line tree NAME comes before the lines of a tree'
printf 'tree a\nd /srv\ntree a\n' >mine
at_fault 'colis predict report mine' mine 3 5 'tree a' 'an earlier tree has this name' 'each tree has a name of its own'

# ---- files that are not there, or not read

# whole CALL STATUS LINE WORDS: one line of words.
whole() {
    refused "$1" "$2" "$3" <<EOF
$4
EOF
}

for words in 'check none' 'explain none' 'explain p --old none' 'twice none'; do
    whole "colis $words" 3 'colis: none/list: missing' \
        'there is no folder none; ./colis-unpack FILE.deb DIR makes one of a package'
done
mkdir -p empty
for name in empty empty/ empty//; do
    whole "colis explain $name" 3 "colis: $name/list: missing" \
        'empty has no list of its files, which a package has here: ./colis-unpack FILE.deb DIR writes it'
done
: >foo_1.0-1_all.deb
: >foo
: >'a b.deb'
whole 'colis check foo_1.0-1_all.deb' 3 'colis: foo_1.0-1_all.deb/list: missing' \
    'foo_1.0-1_all.deb is a file, and a package is a folder here: ./colis-unpack foo_1.0-1_all.deb foo'
whole 'colis explain ./foo_1.0-1_all.deb' 3 'colis: ./foo_1.0-1_all.deb/list: missing' \
    './foo_1.0-1_all.deb is a file, and a package is a folder here: ./colis-unpack ./foo_1.0-1_all.deb foo'
whole 'colis check foo' 3 'colis: foo/list: missing' \
    'foo is a file, and a package is a folder here: ./colis-unpack FILE.deb DIR'
whole 'colis check "a b.deb"' 3 'colis: a b.deb/list: missing' \
    'a b.deb is a file, and a package is a folder here: ./colis-unpack FILE.deb DIR'
whole 'colis translate none' 3 'colis: none: missing' 'none: there is no such file'
ln -s nothing leads
whole 'colis explain p --base leads' 3 'colis: leads: missing' 'leads: this is a link to nothing'
whole 'colis predict report none' 3 'colis: none: missing' 'none: there is no such file'
whole 'colis translate p' 4 'colis: p: read failed' 'p: this is a folder, and a file is read here'
whole 'colis explain p --base p' 4 'colis: p: read failed' 'p: this is a folder, and a file is read here'

# ---- words

# misused WORDS NUMBER SAID: the word of this number is refused.
misused() {
    whole "colis${1:+ $1}" 3 "colis: usage: word $2" "$3 (colis --help)"
}

commands='check, explain, run, predict, translate, pair, twice or load'
misused '' 1 "a command is missing: $commands"
misused 'chek p' 1 "\`chek\` is no command: $commands"
misused "'\\033[31m'" 1 "\`\\033[31m\` is no command: $commands"
misused "\"\$(printf '\\033[31m')\"" 1 "\`\\x1b[31m\` is no command: $commands"
misused '--json' 1 "\`--json\` is no command: $commands"
misused "check \$(printf 'p\\377')" 1 'a word has bytes that are no UTF-8 text'
for command in check explain twice; do
    misused "$command" 2 "$command takes a folder"
    misused "$command p q" 3 '`q` is one word too many'
    misused "$command p --tree" 3 "\`--tree\` is no option of $command, but of run"
    misused "$command p --limit 0" 4 '`0`: --limit takes a number from 1 to 100000'
    misused "$command p -- --" 4 '-- stands there twice'
    misused "$command --" 3 "$command takes a folder"
done
misused "check p '\\033'" 3 '`\033` is one word too many'
misused 'check p --help' 3 'colis --help stands alone'
misused 'check p -x' 3 '`-x` is no option of check'
misused 'check p --turns' 4 '--turns takes a number from 1 to 10000'
misused 'check p --turns x' 4 '`x`: --turns takes a number from 1 to 10000'
misused 'check p --turns -1' 4 '`-1`: --turns takes a number from 1 to 10000'
misused 'explain p --turns=10001' 3 '`--turns=10001`: --turns takes a number from 1 to 10000'
misused 'check --turns 1 p --turns=2' 5 '--turns stands there twice'
misused 'check p --scenario installs' 4 \
    '`installs`: --scenario takes one of install, install-again, upgrade, remove, purge and purge-later'
misused 'check p --base' 4 '--base takes a file'
misused 'explain p --base --old q' 4 '`--old`: --base takes a file; one that begins with - is written --base=--old'
misused 'check p --old' 4 '--old takes a folder'
misused 'check p --json --brief' 4 'check takes --brief or --json, and not both'
misused 'check p --json --json' 4 '--json stands there twice'
misused 'check p --json=yes' 3 '--json takes no value'
misused 'check p --places' 3 '`--places` is no option of check, but of explain'
misused 'check p --outcome=1' 3 '`--outcome` is no option of check, but of explain'
misused 'explain p --json' 3 '`--json` is no option of explain, but of check'
misused 'explain p --places --outcome 1' 4 'explain takes --places or --outcome, and not both'
misused 'explain p --outcome 1 --places' 5 'explain takes --places or --outcome, and not both'
misused 'explain p --places --html' 4 'explain takes --places or --html, and not both'
misused 'explain p --html --places' 4 'explain takes --places or --html, and not both'
misused 'explain p --html --outcome 1' 4 'explain takes --html or --outcome, and not both'
misused 'explain p --outcome 1 --html' 5 'explain takes --html or --outcome, and not both'
misused 'explain p --html --html' 4 '--html stands there twice'
misused 'explain p --html=yes' 3 '--html takes no value'
misused 'check p --html' 3 '`--html` is no option of check, but of explain'
misused 'explain p --outcome' 4 '--outcome takes a number from 1 to 100000'
misused 'explain p --with q' 3 '`--with` is no option of explain, but of pair'
misused 'pair' 2 'pair takes a folder, --with DIR and --scenario NAME'
misused 'pair p' 3 'pair takes a folder, --with DIR and --scenario NAME'
misused 'pair p --with q' 5 'pair takes a folder, --with DIR and --scenario NAME'
misused 'pair p --with' 4 '--with takes a folder'
misused 'pair p --with q --scenario install' 6 \
    '`install`: --scenario takes one of in-favour, deconfigure and disappear'
misused 'run p --scenario install' 5 'run takes a folder, --scenario NAME and --tree FILE'
misused 'run -- p' 2 '-- ends the options, and run takes a folder, --scenario NAME and --tree FILE'
misused 'run p --limit 5' 3 '`--limit` is no option of run, but of check, explain, pair, twice, load'
misused 'predict report' 3 'predict takes a report of check --json and a file of trees'
misused 'predict report mine more' 4 '`more` is one word too many'
misused 'predict --base mine' 2 '`--base` is no option of predict, but of check, explain, run, pair, twice'
misused 'translate' 2 'translate takes a file'
misused 'translate a b' 3 '`b` is one word too many'
misused 'load' 2 'load takes a number from 1 to 500'
misused 'load 501' 2 '`501`: load takes a number from 1 to 500'
misused 'load 1 2' 3 '`2` is one word too many'

# ---- scenarios

printf '/.\n/srv\n/srv/a/\n' >p/list
echo 'absent /srv' >mine
start="No tree is both as the base says and as the package's files are before"
manual='(START CONDITIONS in the manual): leave out the line of the base that contradicts them'
others='The other five scenarios were not reported (explain goes on with them): take one at a time, as by --scenario install'
more='say more of the system in a base (share/debian.base has own, fits and plain)'
whole 'colis check p --scenario remove --base mine' 3 'colis: no start tree for remove' "$start remove $manual"
whole 'colis check p --base mine' 3 'colis: no start tree for upgrade' "$start upgrade $manual
$others"
whole 'colis twice p --base mine' 3 'colis: no start tree for twice' "$start twice $manual"
echo 'mkdir -p /srv/a/b/c' | script_of p
whole 'colis check p --scenario install --limit 1' 3 'colis: more than 1 outcomes in install' \
    "Nothing was reported: allow more by --limit (100000 at most), or $more"
whole 'colis check p --limit 1' 3 'colis: more than 1 outcomes in install' \
    "$others, allow more by --limit (100000 at most), or $more"
whole 'colis twice p --limit 1' 3 'colis: more than 1 outcomes in twice' \
    "Nothing was reported: allow more by --limit (100000 at most), or $more"
whole 'colis load 2 --limit 1' 3 'colis: more than 1 outcomes in install' \
    'The other five scenarios were not reported: allow more by --limit (100000 at most), or take a smaller number'
sh top/share/explain.sh 'colis: more than 100000 outcomes in purge' check p >said
echo "$others, $more" | same 'more than 100000 outcomes' said

echo 'exit 0' | script_of o
echo /srv/o >>o/list
whole 'colis pair p --with o --scenario disappear' 3 'colis: other package keeps /srv/o' \
    'The other package has /srv/o, and the new one does not: a package disappears only where the new one lists each of its files'

# ---- names

name=$(printf 'd: x\n\033[31m')
export name
echo "a \`b\`" | script_of "$name"
for command in check explain; do
    refused "colis $command \"\$name\"" 3 "colis: $name/postinst: unsupported backquote at 12" <<'EOF'
d: x\x0a\x1b[31m/postinst:2:3: a substitution in backquotes is not supported
    2 | a `b`
      |   ^ write $(..)
EOF
done
printf '/.\n\033[31m\n' >"$name/list"
refused "colis check \"\$name\"" 3 "colis: $name/list: line 2: fault 1" <<'EOF'
d: x\x0a\x1b[31m/list:2: no line of a list
    2 | \x1b[31m
      | a line is a path of 1 to 64 names, as /usr/bin/foo, of a folder /var/lib/foo/, of a link /etc/foo -> bar
EOF
: >"$name.deb"
whole "colis check \"\$name.deb\"" 3 "colis: $name.deb/list: missing" \
    'd: x\x0a\x1b[31m.deb is a file, and a package is a folder here: ./colis-unpack FILE.deb DIR'
whole "colis explain \"\$name.no\"" 3 "colis: $name.no/list: missing" \
    'there is no folder d: x\x0a\x1b[31m.no; ./colis-unpack FILE.deb DIR makes one of a package'
whole "colis explain o --base \"--\$name\"" 3 'colis: usage: word 4' \
    '`--d: x\x0a\x1b[31m`: --base takes a file; one that begins with - is written --base=--d: x\x0a\x1b[31m (colis --help)'
whole "colis explain \"--\$name\"" 3 'colis: usage: word 2' \
    '`--d: x\x0a\x1b[31m` is no option of explain (colis --help)'
for word in '*' '?' '[a]' "\$(x)" '%s' '\' '!' '(' '-'; do
    export word
    whole "colis explain \"\$word\" \"\$word\"" 3 'colis: usage: word 3' "\`$word\` is one word too many (colis --help)"
    whole "colis explain \"\$word\"" 3 "colis: $word/list: missing" \
        "there is no folder $word; ./colis-unpack FILE.deb DIR makes one of a package"
done

# ---- answers

echo 'exit 0' | script_of p
echo '(program lax (exit 10 (word (p =0))))' >answer
{ cat answer && echo 'status 0'; } >wanted
for call in 'colis translate p/postinst' 'colis translate /dev/stdin <p/postinst' \
    'cat p/postinst | colis translate /dev/stdin'; do
    piped "$call"
    same "$call" said <wanted
    [ -n "$terminals" ] || continue
    typed "$call"
    same "$call (terminal)" said <wanted
done
mkfifo fifo
cat p/postinst >fifo &
piped 'colis translate fifo'
same 'a pipe in place of a file' said <wanted

# ---- closed pipes, full disks, signals

for call in '{ sleep 1; colis translate p/postinst; echo "status $?" >status; } | true' \
    'colis translate p/postinst >&-; echo "status $?" >status' \
    'colis translate p/postinst >/dev/full; echo "status $?" >status'; do
    piped "$call"
    cat err status >said
    printf 'colis: write failed\nstatus 5\n' | same "$call" said
    [ -n "$terminals" ] || continue
    typed "$call"
    tr -d '\r' <out | cat - status >said
    printf 'colis: write failed\nstatus 5\n' | same "$call (terminal)" said
done
call='timeout --preserve-status -s INT 1 colis translate fifo'
piped "$call"
echo 'status 130' | same "$call" said
if [ -n "$terminals" ]; then
    typed "$call"
    echo 'status 130' | same "$call (terminal)" said
fi

# ---- colours: of a program that prints what it is given, ends as it is told, and of the real one

unset NO_COLOR
TERM=xterm
export TERM
escape=$(printf '\033')
mkdir -p shown/docs
cp -r top/share top/colis top/crates.txt shown
mkdir -p shown/crates/colis_checker/out
cat >shown/crates/colis_checker/out/colis_checker <<'EOF'
#!/bin/sh
cat text
case $2 in
killed) kill -9 $$ ;;
said) echo 'colis: s/postinst: syntax at 10' >&2 && exit 3 ;;
*) exit "$2" ;;
esac
EOF
chmod +x shown/crates/colis_checker/out/colis_checker
cat >text <<'EOF'
p:x 1, install: FAILS on some systems
3 outcomes: 1 failing, 1 undecided, 1 ending well

p:x/postinst:3:1: failure; the package is left unpacked, but its configuration failed (dpkg: half-configured) (1 outcome)
    echo ': failure' # p 1, install: UNDECIDED
    ^^^^^^^^^^^^^^^^
p:x: unpacking the files, act 3: undecided: a link stands there (1 outcome)
p:x: ends well; the package is left installed (1 outcome)
p 1 over 0, upgrade: UNDECIDED
p 1, remove: ends well
p 1, purge: NOT EXAMINED
EOF
printf 'Not looked at: \303\251\377, a tab\t, no end of the line' >>text
cat >coloured <<EOF
${escape}[1mp:x 1, install: ${escape}[31mFAILS on some systems${escape}[m
3 outcomes: 1 failing, 1 undecided, 1 ending well

${escape}[31mp:x/postinst:3:1: failure; the package is left unpacked, but its configuration failed (dpkg: half-configured) (1 outcome)${escape}[m
    echo ': failure' # p 1, install: UNDECIDED
    ^^^^^^^^^^^^^^^^
${escape}[33mp:x: unpacking the files, act 3: undecided: a link stands there (1 outcome)${escape}[m
${escape}[32mp:x: ends well; the package is left installed (1 outcome)${escape}[m
${escape}[1mp 1 over 0, upgrade: ${escape}[33mUNDECIDED${escape}[m
${escape}[1mp 1, remove: ${escape}[32mends well${escape}[m
${escape}[1mp 1, purge: ${escape}[33mNOT EXAMINED${escape}[m
EOF
tail -n 1 text >>coloured

# ends TEXT END ..: what a call says that prints this file and ends with these lines.
ends() {
    cat "$1"
    shift
    printf '%s\n' "$@"
}

for end in 0 1 2 3 4 5 6 70; do
    piped "shown/colis explain $end"
    ends text "status $end" | same "explain $end" said
    [ -n "$terminals" ] || continue
    typed "shown/colis explain $end"
    ends coloured "status $end" | same "explain $end (terminal)" said
    typed "shown/colis explain $end 2>err"
    cat err >>said
    ends coloured "status $end" | same "explain $end (terminal, and a file for standard error)" said
done
if [ -n "$terminals" ]; then
    for words in 'NO_COLOR=1 shown/colis explain 1' 'TERM=dumb shown/colis explain 1' 'shown/colis explain 1 --places' \
        'shown/colis explain 1 --html' 'shown/colis check 1' 'shown/colis explain 1 | cat; (exit 1)' \
        'shown/colis explain 1 >file; cat file; (exit 1)'; do
        typed "$words"
        ends text 'status 1' | same "no colours: $words (terminal)" said
    done
    typed 'NO_COLOR= shown/colis explain 1'
    ends coloured 'status 1' | same 'colours: NO_COLOR= (terminal)' said
    echo >>text
    echo >>coloured
    script_of s <<EOF
fi
EOF
    typed 'shown/colis explain said'
    cat >words <<'EOF'
colis: s/postinst: syntax at 10
s/postinst:2:1: no script goes on like this
    2 | fi
      | ^ what POSIX's grammar has here is read: a command, or the then, do, fi, done, esac, } or ) that is due
EOF
    ends coloured "$(cat words)" 'status 3' | same 'explain, refused (terminal)' said
    typed 'shown/colis explain said 2>err'
    cat err >>said
    ends coloured 'status 3' "$(cat words)" |
        same 'explain, refused (terminal, and a file for standard error)' said
    typed 'shown/colis explain killed 2>err'
    cat err >>said
    ends coloured 'status 137' | same 'explain, killed (terminal, and a file for standard error)' said
fi
script_of r <<'EOF'
mkdir /srv/a
EOF
call='colis explain r'
piped "$call"
cp said expected_text
! grep -q "$escape" said || { echo 'WRONG colours in a pipe' && echo WRONG >>wrong; }
if [ -n "$terminals" ]; then
    typed "$call"
    sed "s/$escape\\[[0-9]*m//g" said | same "$call (terminal, without the colours)" expected_text
    grep "^$escape\\[1m" said >heads
    wc -l <heads >count
    echo 6 | same "$call (terminal): a head for each scenario" count
fi
rm s/list
mkfifo s/list
for signal in HUP:129 INT:130 QUIT:131 TERM:143; do
    call="timeout --preserve-status -s ${signal%:*} 1 colis explain s"
    piped "$call"
    echo "status ${signal#*:}" | same "$call" said
    # (a signal to the launcher alone ends the program too: nobody reads the pipe then)
    call="timeout --foreground --preserve-status -s ${signal%:*} 1 colis explain s; echo \"\$?\"; timeout 1 sh -c ': >s/list'"
    piped "$call"
    printf '%s\nstatus 124\n' "${signal#*:}" | same "$call" said
done
if [ -n "$terminals" ]; then
    call='timeout --preserve-status -s INT 1 colis explain s'
    typed "$call"
    echo 'status 130' | same "$call (terminal)" said
fi
for call in 'colis explain s/none' 'colis explain s/none <&-' 'colis explain s/none >&-' \
    'TMPDIR=/none colis explain s/none'; do
    piped "$call"
    {
        echo 'colis: s/none/list: missing'
        case $call in
        TMPDIR*) ;;
        *) echo 'there is no folder s/none; ./colis-unpack FILE.deb DIR makes one of a package' ;;
        esac
        echo 'status 3'
    } | same "$call" said
done
piped 'colis explain s/none 2>&-'
echo 'status 3' | same 'standard error closed' said

# ---- building: by an rt that tells how it was called, and whose program prints `built`

mkdir -p tools
cat >tools/rt <<'EOF'
#!/bin/sh
echo "$(basename "$PWD") $1 $2" >>"$CALLS"
case $1 in
run)
    [ -z "$REFUSED" ] || { echo 'not proved'; exit 1; }
    mkdir -p out
    printf '#!/bin/sh\necho built\n' >out/colis_checker
    chmod +x out/colis_checker
    ;;
ci)
    [ -z "${CI-}" ] && [ -d .git ] && cat HANDLES >/dev/null && ! grep _tests crates.txt || exit 1
    find crates -type f | sort >>"$CALLS"
    echo 'rt: low is kept: an earlier run on this machine proved the same files over the same libraries'
    [ -z "$REFUSED" ] || { printf '%s\n' 'rt: high NOT PROVED' '1 passed, 1 failed' && exit 1; }
    mkdir -p crates/colis_checker/out
    printf '#!/bin/sh\necho built\n' >crates/colis_checker/out/colis_checker
    chmod +x crates/colis_checker/out/colis_checker
    printf '%s\n' '== high' 'rt: high: its tests proved' 'rt: high proved' 'rt: colis_checker proved' '4 passed, 0 failed'
    ;;
esac
EOF
chmod +x tools/rt
CALLS=$folder/calls REFUSED=
export CALLS REFUSED
PATH=$folder/tools:$PATH
mkdir -p top/crates/low/src top/crates/low/specs top/crates/high/src top/crates/colis_checker/src top/crates/other/src
mkdir -p top/crates/low/must-fail top/crates/high/out top/crates/low_tests/src
printf '%s\n' '# crates' 'low:' 'high: low' 'colis_checker: high low std' 'low_tests: low' >top/crates.txt
echo 'Handles allowed: Threads.' >top/HANDLES
touch -d '1 hour ago' old
cp -p old top/crates/low_tests/src/lib.rt
cp -p old top/crates/low/must-fail/one.txt
cp -p old top/crates/high/out/made
cp -p old top/crates/low/src/lib.rt
cp -p old top/crates/low/src/more.rt
cp -p old top/crates/high/src/lib.rt

# builds NAME: a call builds, and the next ones don't.
builds() {
    : >calls
    piped 'colis load 1 2>/dev/null'
    cat calls >>said
    printf '%s\n' built 'status 0' 'colis_checker run ' | same "$1" said
    : >calls
    for turn in 1 2 3; do
        piped 'colis load 1'
        cat calls >>said
        printf '%s\n' built 'status 0' | same "$1, and then $turn" said
    done
    sleep 0.1
}

# first WORD ..: what the first call prints, whose libraries are not built, and how it calls rt.
first() {
    rm -f top/crates/colis_checker/out/colis_checker
    : >calls
    piped "$*"
    sed 's/^colis-build[^ ]* /COPY /' calls >>said
    {
        echo built
        echo 'colis: building the program, which proves it first: this may take an hour'
        printf 'colis: %s\n' 'low was proved before, 2 left' 'high is proved, 1 left' 'colis_checker is proved, 0 left'
        printf '%s\n' 'status 0' 'COPY ci ' crates/high/src/lib.rt crates/low/src/lib.rt crates/low/src/more.rt
    } | same "$*" said
    find . -name 'colis-build*' | same 'nothing is left of the copy' /dev/null
}

mkdir own
TMPDIR=$folder/own
export TMPDIR
first 'colis load 1'
first 'CI=true colis load 1'
mkdir top/.git
first 'colis load 1'
REFUSED=1
rm top/crates/colis_checker/out/colis_checker
piped 'colis load 1 2>&1 | tail -n 5'
{
    echo 'colis: high could not be proved, 1 left'
    echo 'rt: low is kept: an earlier run on this machine proved the same files over the same libraries'
    printf '%s\n' 'rt: high NOT PROVED' '1 passed, 1 failed' 'colis: the program could not be built' 'status 0'
} | same 'a first call that fails' said
find . -name 'colis-build*' | same 'nothing is left of its copy' /dev/null
REFUSED=
# (from here on a library stands)
mkdir -p top/crates/low/out/rlib
cp -p old top/crates/low/out/rlib/stamp
piped 'colis load 1'
{
    echo built
    echo 'colis: building the program, which proves it first: this may take an hour'
    echo 'status 0'
} | same 'a call over built libraries' said
rm top/crates/colis_checker/out/colis_checker
builds 'no program'
echo x >>top/crates/low/src/lib.rt
builds 'a source that was changed'
echo x >>top/crates.txt
builds 'crates.txt that was changed'
rm top/crates/low/src/more.rt
builds 'a source that was removed'
cp -p old top/crates/high/src/more.rt
builds 'an old file that was added'
mv top/crates/high/src/more.rt top/crates/high/src/other.rt
builds 'a source that was renamed'
mkdir -p top/crates/high/proofs/a/b
builds 'folders that were added'
cp -p old top/crates/high/proofs/a/b/Answers.antt
builds 'a file in them'
mkdir top/crates/high/specs
builds 'a folder of a crate that was added'
: >calls
touch top/crates/high/out/x top/crates/colis_checker/out/y
echo x >>top/crates/low_tests/src/lib.rt
echo x >>top/crates/high/proofs/a/b/Answers.antt
for call in 'colis load 1' 'touch top/crates/colis_checker/out/colis_checker; colis load 1' \
    'cp -a top moved; moved/colis load 1' 'rm -f top/crates/colis_checker/out/sources; colis load 1' \
    'echo x >top/crates/colis_checker/out/sources; colis load 1' 'colis load 1'; do
    piped "$call"
    cat calls >>said
    printf '%s\n' built 'status 0' | same "$call" said
done
REFUSED=1
sleep 0.1
echo x >>top/crates/low/src/lib.rt
piped 'colis load 1 2>&1 | tail -n 2'
printf '%s\n' 'not proved' 'colis: the program could not be built' 'status 0' | same 'a build that fails' said
piped 'colis load 1 2>/dev/null'
echo 'status 70' | same 'its status' said
piped 'colis --version'
{ head -n 1 top/docs/help.txt && echo 'status 0'; } | same 'the version without a program' said

[ ! -s wrong ]
