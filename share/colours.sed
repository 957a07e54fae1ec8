# Colours the text of `explain` for a terminal: the first line of a scenario is bold, and red, yellow and green are what
# fails, is undecided and ends well. A line that begins with a blank, as one of a script, is left as it is.
/^[^ ]/!b
/, [a-z-]*: \(FAILS on some systems\|UNDECIDED\|NOT EXAMINED\|ends well\)$/b head
s/^.*: failure.*$/\x1b[31m&\x1b[m/
t
s/^.*: undecided.*$/\x1b[33m&\x1b[m/
t
s/^.*: ends well.*$/\x1b[32m&\x1b[m/
b
: head
s/FAILS on some systems$/\x1b[31m&/
s/\(UNDECIDED\|NOT EXAMINED\)$/\x1b[33m&/
s/ends well$/\x1b[32m&/
s/^.*$/\x1b[1m&\x1b[m/
