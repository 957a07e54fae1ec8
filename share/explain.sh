#!/bin/sh
# Says in words what the program's line on standard error is about: the place and what is wrong there, the line of the
# script or file with the byte marked, and what is accepted in its place. The launcher prints it below that line. It is
# help for a reader, and no part of what is proved.
#
#     explain.sh LINE WORD ..     the program's line without its newline, and the words of the call
#
# It prints some lines or none. Columns count characters. A tab is shown as a blank, and bytes that are not printable in
# the terminal's locale as \xHH.
case ${LC_ALL:-${LC_CTYPE:-${LANG:-}}} in
*[Uu][Tt][Ff]8* | *[Uu][Tt][Ff]-8*) utf8=1 ;;
*) utf8=0 ;;
esac
export LC_ALL=C

# ---- bytes as they are shown

# shown AT BEFORE BEHIND: the bytes of standard input as columns, with how many of them stand before byte AT (from 0) in
# front, and a blank. Of more than 100 columns there are so many before the byte at most, and so many from it on.
shown() {
    od -An -v -tu1 | awk -v utf8="$utf8" -v at="$1" -v before="$2" -v behind="$3" '
    # how many bytes the character that begins at byte i has, and its number in `code`; 0 where none begins there
    function character(i,    size, k) {
        if (byte[i] < 194 || byte[i] > 244) return 0
        size = byte[i] < 224 ? 2 : byte[i] < 240 ? 3 : 4
        code = byte[i] - (size == 2 ? 192 : size == 3 ? 224 : 240)
        for (k = 1; k < size; k++) {
            if (byte[i + k] < 128 || byte[i + k] > 191) return 0
            code = code * 64 + byte[i + k] - 128
        }
        if (size == 3 && (code < 2048 || code >= 55296 && code < 57344)) return 0
        if (size == 4 && (code < 65536 || code > 1114111)) return 0
        return size
    }
    # whether a character beyond ASCII is one that is seen: no control, no change of direction, none without a width,
    # none for private use
    function is_seen() {
        if (code < 160 || code == 173 || code == 1564 || code == 6158 || code == 65279) return 0
        if (code >= 8203 && code <= 8207 || code >= 8232 && code <= 8238 || code >= 8288 && code <= 8303) return 0
        if (code >= 57344 && code <= 63743 || code >= 65529 && code <= 65531 || code >= 917504) return 0
        return code % 65536 < 65534
    }
    # one more part of what is shown, of so many columns
    function add(text, columns) {
        part[parts] = text
        wide[parts++] = columns
        all += columns
    }
    BEGIN { count = parts = all = here = 0 }
    { for (field = 1; field <= NF; field++) byte[count++] = $field + 0 }
    END {
        for (i = 0; i < count; i += size) {
            if (i <= at) here = parts
            size = byte[i] < 128 ? 0 : character(i)
            text = ""
            for (k = 0; k < size; k++) text = text sprintf("%c", byte[i + k])
            if (byte[i] == 9) add(" ", 1)
            else if (byte[i] >= 32 && byte[i] < 127) add(sprintf("%c", byte[i]), 1)
            else if (size && utf8 && is_seen()) add(text, 1)
            else for (k = 0; k < (size ? size : 1); k++) add(sprintf("\\x%02x", byte[i + k]), 4)
            if (!size) size = 1
        }
        if (at >= count) here = parts
        first = 0
        last = parts
        if (all > 100) {
            for (first = here; first > 0 && before >= wide[first - 1]; first--) before -= wide[first - 1]
            for (last = here; last < parts && behind >= wide[last]; last++) behind -= wide[last]
        }
        columns = first ? 2 : 0
        for (i = first; i < here; i++) columns += wide[i]
        printf "%d %s", columns, first ? ".." : ""
        for (i = first; i < last; i++) printf "%s", part[i]
        if (last < parts) printf ".."
    }'
}

# text WORD: the word, shown whole.
text() {
    printf '%s' "$1" | shown 0 0 1000000 | sed '1s/^0 //'
}

# are_texts WORD ..: whether the words are UTF-8 texts, which alone the program takes.
are_texts() {
    command -v iconv >/dev/null || return 0
    printf '%s\n' "$@" | iconv -f UTF-8 -t UTF-8 >/dev/null 2>&1
}

# column AT: in which column byte AT (from 0) of the line on standard input stands: one more than the characters of UTF-8
# that end before it, where a byte that is in none counts as one.
column() {
    head -c "$(($1 + 3))" | od -An -v -tu1 | awk -v at="$1" '
    # a byte of which no character begins, or one that is not gone on with: each byte is a character
    function broken(end) {
        if (end > at) end = at
        if (end > begin) characters += end - begin
    }
    # a byte that may begin a character, and the bounds of the next one
    function lead(b) {
        begin = i
        left = b < 194 || b > 244 ? 0 : b < 224 ? 1 : b < 240 ? 2 : 3
        low = b == 224 ? 160 : b == 240 ? 144 : 128
        high = b == 237 ? 159 : b == 244 ? 143 : 191
        if (!left) broken(i + 1)
    }
    function next_byte(b) {
        if (!left) lead(b)
        else if (b < low || b > high) { broken(i); left = 0; lead(b) }
        else {
            low = 128
            high = 191
            if (!--left && i < at) characters++
        }
        i++
    }
    BEGIN { i = left = characters = 0 }
    { for (field = 1; field <= NF; field++) next_byte($field + 0) }
    END {
        if (left) broken(i)
        print characters + 1
    }'
}

# ---- what is printed

# is_read_again FILE: whether it is a file that can be read a second time, and no pipe.
is_read_again() {
    [ -f "$1" ] && [ -r "$1" ]
}

# numbered NUMBER SHOWN ACCEPTED: a line by its number, and what is accepted below it; where that begins with the mark
# `^`, it stands below the byte.
numbered() {
    case $3 in
    '^'*) indent=${2%% *} ;;
    *) indent=0 ;;
    esac
    printf '%5d | %s\n' "$1" "${2#* }"
    printf '%*s | %*s%s\n' "$((${#1} > 5 ? ${#1} : 5))" '' "$indent" '' "$3"
}

# at_byte FILE AT WHAT ACCEPTED: where the byte of this number (from 0) stands, what is wrong there, the line, and what
# is accepted in its place.
at_byte() {
    if ! is_read_again "$1"; then
        say "$1" "$3; $4"
        return
    fi
    before=$(head -c "$2" <"$1" | wc -l)
    offset=$(head -c "$2" <"$1" | tail -n "+$((before + 1))" | wc -c)
    # (of a very long line the bytes near the place are looked at)
    from=$((offset > 410 ? offset - 410 : 0))
    line=$(tail -n "+$((before + 1))" <"$1" | head -n 1 | tail -c "+$((from + 1))" | head -c 900 | tr -d '\n' |
        shown "$((offset - from))" 40 60)
    printf '%s:%d:%d: %s\n' "$(text "$1")" "$((before + 1))" \
        "$(tail -n "+$((before + 1))" <"$1" | head -n 1 | column "$offset")" "$3"
    numbered "$((before + 1))" "$line" "^ $4"
}

# at_line FILE NUMBER WHAT ACCEPTED: what is wrong with the line of this number, the line, and what is accepted.
at_line() {
    if ! is_read_again "$1"; then
        say "$1" "line $2: $3; $4"
        return
    fi
    line=$(tail -n "+$2" <"$1" | head -n 1 | head -c 900 | tr -d '\n' | shown 0 0 100)
    printf '%s:%d: %s\n' "$(text "$1")" "$2" "$3"
    numbered "$2" "$line" "$4"
}

# say FILE WHY: why, of a whole file.
say() {
    printf '%s: %s\n' "$(text "$1")" "$2"
}

# ---- what is wrong, and what is accepted

# tell WHAT ACCEPTED: the two.
tell() {
    what=$1 accepted=$2
}

redirections='only >/dev/null and 2>/dev/null (or >>), </dev/null, >&2 and 2>&1 are read'

# form NAME: of an unsupported form.
form() {
    case $1 in
    heredoc) tell 'a here-document is not supported' "$redirections" ;;
    arith)
        tell "arithmetic, \$((..)) or ((..)), is not supported" \
            'write the number itself; where subshells are meant, put a blank between the two ('
        ;;
    background)
        tell 'a command in the background, &, is not supported' \
            'end the command by ; or a newline, or quote the &, if it is part of a text'
        ;;
    redirect) tell 'a redirection to a file is not supported' "$redirections" ;;
    backquote) tell 'a substitution in backquotes is not supported' "write \$(..)" ;;
    param)
        tell 'this parameter is not supported' \
            "\$x, \$1 to \$9 and \$# are read, these in braces, \${x:-text}, \${1:-text}, and \"\$@\" as a whole word"
        ;;
    all-args)
        tell "\$@ is not supported here" "write \"\$@\" as a whole word, but not as the word or a pattern of a case"
        ;;
    tilde) tell 'a ~ that shells replace is not supported' 'write the path, or quote the ~' ;;
    brace) tell 'braces that some shells expand are not supported' 'write each word, or quote the braces' ;;
    subst-case)
        tell "the word case within \$(..) is not supported" \
            "quote it, if it is part of a text, or put the case into a function that the \$(..) calls"
        ;;
    option) tell 'this use of set is not supported' 'only set -e and set +e are read' ;;
    ifs) tell 'a change of IFS is not supported' 'leave IFS as it is: fields are cut at blanks, tabs and newlines' ;;
    prefix)
        tell 'an assignment before this command is not supported' 'write it as a command of its own, as x=1; f'
        ;;
    export) tell 'export with an expansion outside quotes is not supported' "quote it, as in export \"x=\$y\"" ;;
    loop-exit)
        tell 'this break or continue is not supported' \
            "write it without a number, in a loop of the same function, subshell or \$(..)"
        ;;
    return)
        tell 'this return is not supported' \
            "it may stand in a function, but not in a subshell or \$(..) there; exit ends a script"
        ;;
    function-place)
        tell 'a function that is defined within another command is not supported' \
            'define it by itself: not within if, case, a loop, a function or a subshell, nor behind && or ||'
        ;;
    function-twice) tell 'a second function of this name is not supported' 'give it another name' ;;
    function-name)
        tell 'a function of this name is not supported' \
            'take another name: commands that have a meaning here, as rm and test, keep theirs'
        ;;
    call-order)
        tell 'this call of a function is not supported' \
            'within a function call those functions alone that are defined before it'
        ;;
    *) tell 'this form is not supported' 'docs/FORMATS.md (Scripts) has what is' ;;
    esac
}

# syntax FILE AT: of a fault of syntax there.
syntax() {
    due='a command, or the then, do, fi, done, esac, } or ) that is due'
    tell 'no script goes on like this' "what POSIX's grammar has here is read: $due"
    if is_read_again "$1"; then
        case $(tail -c "+$(($2 + 1))" <"$1" | head -c 2 | tr -d '\000') in
        '') tell 'the script ends where more has to come' "$due" ;;
        "\$(") tell "this \$(..) ends where more has to come, or cannot stand here" "$due" ;;
        esac
    fi
}

a_path='/ and 1 to 64 names with one / between each two, none of them . or ..'

# is_path WORD: whether that is a path.
is_path() (
    case $1/ in
    *//* | */./* | */../*) exit 1 ;;
    /*) ;;
    *) exit 1 ;;
    esac
    IFS=/
    set -f
    # shellcheck disable=SC2086
    set -- ${1#/}
    [ $# -le 64 ] || exit 1
    for name in "$@"; do
        [ ${#name} -le 255 ] || exit 1
    done
)

# base_line LINE: of a line that no base has, by its first word.
base_line() {
    what='no line of a base'
    word=$(printf '%s' "$1" | tr -d ' \t\r')
    case $1 in
    call\ *)
        accepted='write call NAME ok, call NAME fails or call NAME asks PATH'
        end=${1#call } && end=${end#* }
        case $end in
        'asks '*) is_path "${end#asks }" || accepted="write call NAME asks PATH, where PATH is $a_path" ;;
        esac
        case $end in
        ok | fails | 'asks '*)
            case $accepted in
            *where*) ;;
            *)
                what='the calls of this command cannot be stated'
                accepted='NAME is 1 to 255 bytes without blanks, and of no command that has a meaning here, as rm, or '
                accepted=${accepted}'changes the shell, as cd'
                ;;
            esac
            ;;
        esac
        ;;
    link\ *) accepted="write link PATH TARGET, where PATH is $a_path, without a blank" ;;
    dir\ * | file\ * | absent\ * | nodir\ * | own\ *) accepted="write ${1%% *} PATH, where PATH is $a_path" ;;
    *)
        case $word in
        fits | own | runs | removed | versions | plain) accepted="write $word, and nothing before or behind it" ;;
        *)
            accepted='a line is dir, file, absent or nodir PATH, link PATH TARGET, fits, own, own PATH, removed, runs, '
            accepted=${accepted}'plain, versions, or call NAME ok, fails or asks PATH'
            ;;
        esac
        ;;
    esac
}

# fault KIND WHY LINE: of a line, by the kind of the file and the number of the fault.
fault() {
    case $1:$2 in
    list:1)
        tell 'no line of a list' \
            'a line is a path of 1 to 64 names, as /usr/bin/foo, of a folder /var/lib/foo/, of a link /etc/foo -> bar'
        ;;
    list:2 | conffiles:2) tell 'an earlier line names this path' 'each path stands once' ;;
    list:3)
        tell 'a link and a path below it' \
            'list a folder there, without an arrow, or leave out what is below the link'
        ;;
    conffiles:1) tell 'no line of conffiles' "a line is a path alone, as /etc/foo: $a_path" ;;
    conffiles:3) tell 'the list has no file of this name' 'a conffile is one of the files in list' ;;
    conffiles:4) tell 'flags are not supported' 'a line is a path alone, as /etc/foo' ;;
    base:1) base_line "$3" ;;
    base:2)
        case $3 in
        link\ *)
            tell 'this link leads to no path' \
                'TARGET is 1 to 64 names with one / between each two, none of them . or .., perhaps with one / first'
            ;;
        *) tell 'an earlier line states the calls of this command' 'each command is stated once' ;;
        esac
        ;;
    tree:1)
        tell 'no line of a tree' \
            'a line is d, f, p, s, b or c and a path, or l, a path and a target, with other bytes than text as \xHH'
        ;;
    trees:1)
        tell 'no line of trees' \
            'a line is tree and a NAME of 1 to 255 bytes, or d, f, p, s, b or c and a path, or l, a path and a target'
        ;;
    tree:2 | trees:2) tell 'an earlier line names this path' 'each path of a tree stands once' ;;
    tree:3 | trees:3)
        tell 'what holds this path is no directory' 'a line d PATH comes before those of the entries of that directory'
        ;;
    trees:4) tell 'no tree has begun' 'a line tree NAME comes before the lines of a tree' ;;
    trees:5) tell 'an earlier tree has this name' 'each tree has a name of its own' ;;
    *) tell 'this line is not of the form' 'docs/FORMATS.md has the lines' ;;
    esac
}

# version LINE: of a line of a control file that has no version, or no name.
version() {
    case $1 in
    Package:*) tell 'no name of a package' 'a name has a to z, 0 to 9 and + - . alone, and one of them at least' ;;
    *) tell 'no version' 'a version has letters, digits and . + - : ~ alone, and one of them at least' ;;
    esac
}

# report_fault WHY: of a report, by the number of the fault.
report_fault() {
    case $1 in
    1) echo 'this is no JSON; predict takes a report that check --json wrote' ;;
    2) echo 'this is no whole report; predict takes one that check --json wrote' ;;
    *) echo 'a clause of this report is not in solved order, as those that check --json writes are' ;;
    esac
}

# ---- files

# line_of FILE NUMBER: the line of this number, where the file can be read again.
line_of() {
    ! is_read_again "$1" || tail -n "+$2" <"$1" | head -n 1 | head -c 20000 | tr -d '\000'
}

# is_value OPTION FILE WORD ..: whether the words give the option this file.
is_value() {
    given=$1 file=$2 option=
    shift 2
    for word in "$@"; do
        [ "$option$word" != "$given$file" ] && [ "$word" != "$given=$file" ] || return 0
        option=
        [ "$word" != "$given" ] || option=$word
    done
    return 1
}

# kind FILE WORD ..: what a file with faults in lines is: the base or the tree that the words name (the base is read
# first), the trees of a prediction, else by its name.
kind() {
    if [ "${2-}" = predict ]; then
        echo trees
    elif is_value --base "$@"; then
        echo base
    elif is_value --tree "$@"; then
        echo tree
    else
        printf '%s\n' "${1##*/}"
    fi
}

# unpacked FILE: how a folder is made of a package file.
unpacked() {
    name=${1##*/}
    name=${name%.deb}
    name=${name%%_*}
    case $1:$name in
    *[!A-Za-z0-9:/._+~-]* | -* | *:) echo './colis-unpack FILE.deb DIR' ;;
    *.deb:*) printf './colis-unpack %s %s\n' "$1" "$name" ;;
    *) echo './colis-unpack FILE.deb DIR' ;;
    esac
}

# missing FILE: why it may be that a file is not there.
missing() {
    folder=${1%/*}
    folder=${folder%"${folder##*[!/]}"}
    case $1 in
    */list)
        if [ -d "$folder" ]; then
            printf '%s has no list of its files, which a package has here: %s writes it\n' "$(text "$folder")" \
                "$(unpacked '')"
        elif [ -e "$folder" ]; then
            printf '%s is a file, and a package is a folder here: %s\n' "$(text "$folder")" "$(unpacked "$folder")"
        else
            printf 'there is no folder %s; %s makes one of a package\n' "$(text "$folder")" "$(unpacked '')"
        fi
        ;;
    *)
        if [ -L "$1" ]; then
            say "$1" 'this is a link to nothing'
        else
            say "$1" 'there is no such file'
        fi
        ;;
    esac
}

# unread FILE: why it may be that a file was not read.
unread() {
    if [ -d "$1" ]; then
        echo 'this is a folder, and a file is read here'
    elif [ -e "$1" ] && ! [ -r "$1" ]; then
        echo 'this file may not be read'
    else
        echo 'the system could not read this file'
    fi
}

# interpreter FILE: what is wrong with the first line of a script.
interpreter() {
    accepted='/bin/sh, /bin/dash or /bin/bash are accepted, with -e or without an option'
    first=$(line_of "$1" 1)
    if ! is_read_again "$1"; then
        say "$1" "in the first line, behind #!, $accepted"
    elif [ -z "$first" ]; then
        printf '%s:1:1: the first line is empty: behind #! %s\n' "$(text "$1")" "$accepted"
    else
        first=$(printf '%s' "$first" | head -c 900 | shown 0 0 100)
        # shellcheck disable=SC2016
        printf '%s:1:1: `%s`: %s\n' "$(text "$1")" "${first#* }" "$accepted"
    fi
}

# ---- words

# values COMMAND OPTION: what an option of the command takes.
values() {
    case $1:$2 in
    *:--old | *:--with) echo 'a folder' ;;
    *:--base | *:--tree) echo 'a file' ;;
    pair:--scenario) echo 'one of in-favour, deconfigure and disappear' ;;
    *:--scenario) echo 'one of install, install-again, upgrade, remove, purge and purge-later' ;;
    *:--turns) echo 'a number from 1 to 10000' ;;
    *:--limit | *:--outcome) echo 'a number from 1 to 100000' ;;
    esac
}

# options COMMAND: the options of a command.
options() {
    case $1 in
    check) echo ' --old --base --scenario --turns --limit --brief --json ' ;;
    explain) echo ' --old --base --scenario --turns --limit --places --html --outcome ' ;;
    run) echo ' --scenario --tree --old --base --turns ' ;;
    pair) echo ' --with --scenario --base --turns --limit ' ;;
    twice) echo ' --base --turns --limit ' ;;
    load) echo ' --limit ' ;;
    esac
}

# takes COMMAND: what a line of the command has to have.
takes() {
    case $1 in
    check | explain | twice) printf '%s takes a folder\n' "$1" ;;
    pair) echo 'pair takes a folder, --with DIR and --scenario NAME' ;;
    run) echo 'run takes a folder, --scenario NAME and --tree FILE' ;;
    predict) echo 'predict takes a report of check --json and a file of trees' ;;
    translate) echo 'translate takes a file' ;;
    load) echo 'load takes a number from 1 to 500' ;;
    esac
}

# quoted WORD: the word, shown, as it is told of.
quoted() {
    # shellcheck disable=SC2016
    printf '`%s`' "$(text "$1")"
}

# begun COUNT WORD ..: of the first so many words, behind the command's: the options (`seen`), the one whose value is to
# follow (`awaited`), whether `--` ended them (`ended`), and how many other words there are (`named`).
begun() {
    seen=' ' awaited='' ended='' named=0
    left=$(($1 - 1))
    shift 2
    while [ "$left" -gt 0 ]; do
        left=$((left - 1))
        if [ -n "$awaited" ]; then
            awaited=
        else
            case $ended$1 in
            --) ended=yes ;;
            --brief | --json | --places | --html | --*=*) seen="$seen${1%%=*} " ;;
            --*) seen="$seen$1 " awaited=$1 ;;
            *) named=$((named + 1)) ;;
            esac
        fi
        shift
    done
}

# option COMMAND WORD: why an option may not stand here.
option() {
    name=${2%%=*}
    case $2 in
    --brief=* | --json=* | --places=* | --html=*) printf '%s takes no value\n' "$name" && return ;;
    esac
    case $name in
    -h | --help | --version)
        printf 'colis %s stands alone\n' "$name"
        return
        ;;
    esac
    case $(options "$1"):$seen:$name in
    *" $name "*:*" $name "*:*) printf '%s stands there twice\n' "$name" ;;
    *" $name "*:*' --brief '*:--json | *" $name "*:*' --json '*:--brief)
        echo 'check takes --brief or --json, and not both'
        ;;
    *" $name "*:*' --places '*:--outcome | *" $name "*:*' --outcome '*:--places)
        echo 'explain takes --places or --outcome, and not both'
        ;;
    *" $name "*:*' --places '*:--html | *" $name "*:*' --html '*:--places)
        echo 'explain takes --places or --html, and not both'
        ;;
    *" $name "*:*' --html '*:--outcome | *" $name "*:*' --outcome '*:--html)
        echo 'explain takes --html or --outcome, and not both'
        ;;
    *" $name "*:*) printf '%s: %s takes %s\n' "$(quoted "$2")" "$name" "$(values "$1" "$name")" ;;
    *)
        others=
        for other in check explain run pair twice load; do
            case $(options "$other") in *" $name "*) others="$others, $other" ;; esac
        done
        printf '%s is no option of %s%s\n' "$(quoted "$name")" "$1" "${others:+, but of ${others#, }}"
        ;;
    esac
}

# usage N WORD ..: why no line begins with the first N words.
usage() {
    number=$1
    shift
    command=${1-}
    commands='check, explain, run, predict, translate, pair, twice'
    if [ $# -eq 0 ]; then
        printf 'a command is missing: %s or load\n' "$commands"
    elif ! are_texts "$@"; then
        echo 'a word has bytes that are no UTF-8 text'
    elif [ "$number" -eq 1 ]; then
        printf '%s is no command: %s or load\n' "$(quoted "$command")" "$commands"
    else
        begun "$((number - 1))" "$@"
        if [ "$number" -gt $# ]; then
            if [ -n "$awaited" ]; then
                printf '%s takes %s\n' "$awaited" "$(values "$command" "$awaited")"
            else
                takes "$command"
            fi
            return
        fi
        shift "$((number - 1))"
        word "$command" "$1"
    fi
}

# word COMMAND WORD: why this word may not stand here.
word() {
    if [ -n "$awaited" ]; then
        printf '%s: %s takes %s' "$(quoted "$2")" "$awaited" "$(values "$1" "$awaited")"
        case $awaited in
        --old | --with | --base | --tree)
            printf '; one that begins with - is written %s=%s\n' "$awaited" "$(text "$2")"
            ;;
        *) echo ;;
        esac
        return
    fi
    case $ended:$2 in
    yes:--) echo '-- stands there twice' ;;
    :--) printf '%s ends the options, and %s\n' -- "$(takes "$1")" ;;
    :-?*) option "$1" "$2" ;;
    *)
        if [ "$1" = load ] && [ "$named" -eq 0 ]; then
            printf '%s: %s\n' "$(quoted "$2")" "$(takes load)"
        else
            printf '%s is one word too many\n' "$(quoted "$2")"
        fi
        ;;
    esac
}

# ---- the line

# are_all COMMAND WORD ..: whether all six scenarios were to be reported.
are_all() {
    case $1 in
    check | load) ;;
    *) return 1 ;;
    esac
    for word in "$@"; do
        case $word in
        --scenario | --scenario=*) return 1 ;;
        --) return 0 ;;
        esac
    done
}

# unreported COMMAND WORD ..: what is told of the other scenarios.
unreported() {
    if [ "$1" = load ]; then
        echo 'The other five scenarios were not reported'
    elif are_all "$@"; then
        printf 'The other five scenarios were not reported (explain goes on with them): '
        echo 'take one at a time, as by --scenario install'
    else
        echo 'Nothing was reported'
    fi
}

# no_start SCENARIO WORD ..: what is told where no tree meets the start conditions.
no_start() {
    printf "No tree is both as the base says and as the package's files are before %s " "$1"
    echo '(START CONDITIONS in the manual): leave out the line of the base that contradicts them'
    shift
    ! are_all "$@" || unreported "$@"
}

# too_many LIMIT WORD ..: what is told where there are too many outcomes.
too_many() {
    limit=$1
    shift
    case $1 in
    load) more='take a smaller number' ;;
    *) more='say more of the system in a base (share/debian.base has own, fits and plain)' ;;
    esac
    [ "$limit" -ge 100000 ] || more="allow more by --limit (100000 at most), or $more"
    if are_all "$@" && [ "$1" != load ]; then
        printf '%s, %s\n' "$(unreported "$@")" "$more"
    else
        printf '%s: %s\n' "$(unreported "$@")" "$more"
    fi
}

line=${1#colis: }
shift
# What is wrong stands behind the last ": ", since a name may have one too.
why=${line##*: }
name=${line%: *}
place=${why##* }
case $why in
'fault '[0-9]*)
    number=${name##*: line }
    name=${name%: line *}
    fault "$(kind "$name" "$@")" "$place" "$(line_of "$name" "$number")"
    at_line "$name" "$number" "$what" "$accepted"
    ;;
'report fault '[0-9]*) say "$name" "$(report_fault "$place")" ;;
'word '[0-9]*) printf '%s (colis --help)\n' "$(usage "$place" "$@")" ;;
'unsupported '*' at '[0-9]*)
    why=${why#unsupported }
    form "${why% at *}"
    at_byte "$name" "$place" "$what" "$accepted"
    ;;
'NUL byte at '[0-9]*) at_byte "$name" "$place" 'this is a NUL byte' 'a script is a text, which has none' ;;
'open quote at '[0-9]*) at_byte "$name" "$place" 'this quote is not closed' 'a second one has to follow' ;;
'open substitution at '[0-9]*)
    at_byte "$name" "$place" 'this substitution is not closed' 'a ) has to follow'
    ;;
'syntax at '[0-9]*)
    syntax "$name" "$place"
    at_byte "$name" "$place" "$what" "$accepted"
    ;;
'nested too deep at '[0-9]*)
    at_byte "$name" "$place" 'this is nested too deep' 'commands and substitutions nest 64 deep at most'
    ;;
'bad version in line '[0-9]*)
    version "$(line_of "$name" "$place")"
    at_line "$name" "$place" "$what" "$accepted"
    ;;
'interpreter not accepted') interpreter "$name" ;;
missing) missing "$name" ;;
'longer than '*' bytes') say "$name" "files of ${why#longer than } at most are read" ;;
'read failed') say "$name" "$(unread "$name")" ;;
'no start tree for '*) no_start "$place" "$@" ;;
'other package keeps '*)
    printf 'The other package has %s, and the new one does not: ' "$(text "$place")"
    echo 'a package disappears only where the new one lists each of its files'
    ;;
'more than '*' outcomes in '*)
    more=${why#more than }
    too_many "${more%% *}" "$@"
    ;;
esac
exit 0
