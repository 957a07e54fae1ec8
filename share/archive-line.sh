#!/bin/sh
# One package of those of colis-archive, whose words are in the environment: its line goes to lines/NUMBER in the folder
# `work`, what the summary counts to the end of the file `tally` there, and NUMBER is printed at last.
#
#     archive-line.sh NUMBER PATH     the number of the package, and its file or folder
number=$1 path=$2 begun=$(date +%s) page=''
# (where the run was ended its folder is gone)
# shellcheck disable=SC2154
mkdir "$work/p/$number" 2>/dev/null && cd "$work/p/$number" || exit 0
out=$work/tmp/$number.out said=$work/tmp/$number.said
folder=$(sed -n "${number}p" "$work/names" | cut -c 1-200)
case $folder in . | .. | */*) folder=package ;; esac

# escaped TEXT: the text in a page.
# shellcheck disable=SC2154
escaped() {
    printf '%s\n' "$1" | sed -f "$top/share/escaped.sed"
}

# row RANK CLASS CELLS WAY: the row of the package in the table of a page, behind its rank and its number.
row() {
    # shellcheck disable=SC2154
    [ -n "$html" ] || return 0
    name=$(escaped "$folder")
    if [ -n "$page" ]; then
        # (a name has no byte but those that are seen)
        link=$(printf '%s\n' "$folder" | sed "s/%/%25/g;s/[\\]/%5c/g;s/#/%23/g;s/?/%3f/g;s/\"/%22/g;s/</%3c/g;s/>/%3e/g;s/&/%26/g;s/'/%27/g")
        name="<a href=\"./$link.html\">$name</a>"
    fi
    printf '%d %d <tr class="%s"><th scope="row">%s</th>%s<td>%s</td><td>%d</td></tr>\n' "$1" "$number" "$2" "$name" \
        "$3" "$(escaped "$4")" "$(($(date +%s) - begun))" >"$work/rows/$number"
}

# ended LINE: the line of the package.
ended() {
    printf '%s\n' "$1" >"$work/tmp/$number.line"
    mv "$work/tmp/$number.line" "$work/lines/$number"
    rm -rf "$work/p/$number" "$work/in/$number.deb" "$out" "$said"
    # (where the lines cannot be written nobody reads this)
    trap '' PIPE
    printf '%d\n' "$number" 2>/dev/null
    exit 0
}

# not_checked WORD TALLY WHY: the line of a package that is not checked.
not_checked() {
    printf 'package %s\n' "$2" >>"$work/tally"
    page=''
    # shellcheck disable=SC2154
    row 3 refused "<td colspan=\"$(printf '%s\n' "$scenarios" | wc -w)\">$1</td>" "$3"
    # shellcheck disable=SC2154
    ended "$(printf '%-*s%s' "$((16 * $(printf '%s\n' "$scenarios" | wc -w)))" "$1" "$3")"
}

# call COMMAND WORD ..: a call of the checker on the package, in its time; what it writes is in the files `out` and
# `said`. Prints its status.
call() {
    # shellcheck disable=SC2086,SC2154
    { ${seconds:+timeout --foreground "$seconds"} "$top/colis" "$@" $options -- "$folder" >"$out"; } 2>"$said"
    echo "$?"
}

# counted WORD ..: how many outcomes have a result that begins with one of the words, of how many.
counted() {
    awk -v words=" $* " '/^outcome / { all++; if (index(words, " " $3 " ")) some++ } END { print some "/" all }' "$out"
}

# first WORD ..: the first of these results.
first() {
    awk -v words=" $* " '/^outcome / && index(words, " " $3 " ") { sub(/^outcome [0-9]* /, ""); print; exit }' "$out"
}

# place SCENARIO SEVERITY RESULT: the first place at which outcomes end so, and what is there; the result, where the
# checker does not tell it in its time.
place() {
    if [ "$(call explain --places --scenario "$1")" -gt 2 ]; then
        printf '%s\n' "$3"
        return
    fi
    # (the folder comes first, in which no blank is)
    sed -n "/: $2: /{s,^[^ ]*/,,;t cut
        s/^[^ ]*: //
        : cut
        s/: $2: /: /;s/ ([^()]*)\$//;p;q}" "$out"
}

# shellcheck disable=SC2154
[ "${path#/}" != "$path" ] || path=$here/$path
if ! [ -e "$path" ]; then
    not_checked 'not unpacked' unpacked 'there is no such file or folder'
elif [ -d "$path" ]; then
    ln -s "$path" "./$folder"
else
    ln -s "$path" "$work/in/$number.deb"
    # shellcheck disable=SC2154
    if ! "$top/colis-unpack" "$work/in/$number.deb" "./$folder" >/dev/null 2>"$said"; then
        why=$(tail -n 1 "$said")
        why=${why#colis-unpack: }
        not_checked 'not unpacked' unpacked "${why#"$work/in/$number.deb: "}"
    fi
fi

cells='' columns='' failing='' failed='' other='' open='' why=''
for scenario in $scenarios; do
    status=$(call check --brief --scenario "$scenario")
    case $status in
    0) cell='ends well' tally=ends ;;
    1) cell="FAILS $(counted failed)" tally=FAILS ;;
    2) cell="open $(counted incomplete bound)" tally=open ;;
    *)
        cell='no answer' tally=none said_why=$(tail -n 1 "$said")
        case $status:$said_why in
        "3:colis: no start tree for $scenario") cell='no start' ;;
        "3:colis: more than "*" outcomes in $scenario") cell='too many' ;;
        3:*) not_checked refused refused "refused: ${said_why#"colis: $folder/"}" ;;
        124:*) cell='timed out' said_why="not ended in $seconds seconds" ;;
        12[89]:* | 1[3-9]?:*) cell=killed said_why="ended by signal $((status - 128))" ;;
        esac
        ;;
    esac
    printf '%s %s\n' "$scenario" "$tally" >>"$work/tally"
    cells=$cells$(printf '%-16s' "$cell") columns=$columns'<td>'$cell'</td>'
    case $tally in
    FAILS) [ -n "$failing" ] || { failing=$scenario && failed=$(first failed); } ;;
    open) [ -n "$other" ] || { other=$scenario && open=$(first incomplete bound); } ;;
    none) [ -n "$other" ] || { other=$scenario && why=${said_why#colis: }; } ;;
    esac
    # shellcheck disable=SC2154
    case $reports:$tally in
    ?*:FAILS | ?*:open) [ "$(call explain --scenario "$scenario")" -gt 2 ] || cp "$out" "$reports/$folder.$scenario" ;;
    esac
done
if [ -n "$html" ]; then
    # (of one scenario alone, or of all)
    case $scenarios in
    ' '*' '*) wanted='' ;;
    *) wanted=" --scenario$scenarios" ;;
    esac
    # shellcheck disable=SC2086
    [ "$(call explain --html $wanted)" -gt 2 ] || { cp "$out" "$html/$folder.html" && page=yes; }
fi
rank=2 class=well way=''
if [ -n "$failing" ]; then
    rank=0 class=failing
    way="$failing: $(place "$failing" error "$failed")"
elif [ -n "$other" ]; then
    rank=1 class=undecided
    way="$other: ${why:-$(place "$other" note "$open")}"
fi
row "$rank" "$class" "$columns" "$way"
ended "$cells$way"
