# shellcheck shell=bash disable=SC2154,SC2016
# The launcher with several captures: lines with names, totals and statuses; files of every kind; grammars that are refused; failures in the middle. Sourced by tests/launcher, whose functions and files it uses.

# totals ACCEPTED ENDED STUCK LOOPING HALTED REFUSED READINGS: the last line
totals() { printf 'totals accepted %s ended %s stuck %s looping %s halted %s refused %s readings %s' "$@"; }
broken=$here/examples/broken.capture
a=$work/a.capture
printf 'b' >"$work/b.capture"
b=$work/b.capture
feed=$'\n'

# lines in the order given, and statuses
says 'several accepted' 0 "accepted 4 2 2 0 $a${feed}accepted 4 2 2 0 $a$feed$(totals 2 0 0 0 0 0 8)" '' "$judge" "$work/a.grammar" "$a" "$a"
says 'several in order' 1 "stuck 105 2 13 0 $broken${feed}accepted 174 2 25 0 $formed${feed}stuck 13 3 1 0 $work/none$feed$(totals 1 0 2 0 0 0 292)" '' \
    "$judge" "$ring" "$broken" "$formed" "$work/none"
says 'several looping' 1 "looping 2 1 1 1 $work/none${feed}looping 2 1 1 1 $a$feed$(totals 0 0 0 2 0 0 4)" '' "$judge" "$work/endless.grammar" "$work/none" "$a"
says 'several, typed' 1 "accepted 174 2 25 0 $formed${feed}stuck 105 2 13 0 $broken$feed$(totals 1 0 1 0 0 0 279)" '' "$judge" "$typed" "$formed" "$broken"
says 'one of several refused' 2 "accepted 3 2 1 0 $work/none${feed}refused 8 16395 $work/1091.capture${feed}stuck 3 2 1 0 $a$feed$(totals 1 0 1 0 0 1 6)" '' \
    "$judge" "$work/empty.grammar" "$work/none" "$work/1091.capture" "$a"
says 'others accepted, the last refused' 2 "accepted 3 2 1 0 $work/none${feed}refused 8 16395 $work/1091.capture$feed$(totals 1 0 0 0 0 1 3)" '' \
    "$judge" "$work/empty.grammar" "$work/none" "$work/1091.capture"
says 'several too long' 2 "refused 14 0 $work/65517.capture${feed}accepted 3 2 1 0 $work/none${feed}refused 14 0 /dev/zero$feed$(totals 1 0 0 0 0 2 3)" '' \
    "$judge" "$work/empty.grammar" "$work/65517.capture" "$work/none" /dev/zero
more=()
lines=
for _ in {1..70}; do
    more+=("$work/none")
    lines+="accepted 3 2 1 0 $work/none$feed"
done
says 'more than a bundle holds' 0 "$lines$(totals 70 0 0 0 0 0 210)" '' "$judge" "$work/empty.grammar" "${more[@]}"

# names: what is not printed is #, and nothing in a name is taken for more than a byte
mkdir "$work/names"
names=('with space' ' around ' $'line\naccepted 4 2 2 0 x' $'end\n\n' $'\x1b[2J\r' $'\x7f\xc3\xa9\xff' -n --help 'totals accepted 9' '%s\n' '*' '$(echo)' '#')
shown=('with space' ' around ' 'line#accepted 4 2 2 0 x' 'end##' '#[2J#' '####' -n --help 'totals accepted 9' '%s\n' '*' '$(echo)' '#')
lines=
for i in "${!names[@]}"; do
    cp "$a" "$work/names/${names[i]}"
    lines+="accepted 4 2 2 0 ${shown[i]}$feed"
done
says 'names' 0 "$lines$(totals 13 0 0 0 0 0 52)" '' env -C "$work/names" "$judge" "$work/a.grammar" "${names[@]}"
says 'names in another locale' 0 "$lines$(totals 13 0 0 0 0 0 52)" '' env -C "$work/names" LC_ALL=C.UTF-8 "$judge" "$work/a.grammar" "${names[@]}"

# every file is read, once, before a line is written
says 'missing among several' 2 '' "judge: no such file: $work/missing" "$judge" "$work/a.grammar" "$a" "$work/missing" "$a"
says 'no name among several' 2 '' 'judge: no such file: ' "$judge" "$work/a.grammar" "$a" '' "$a"
says 'directory at the end' 2 '' "judge: is a directory: $work" "$judge" "$work/a.grammar" "$a" "$a" "$work"
says 'unreadable among several' 2 '' "judge: cannot be read: $work/secret" "${other[@]}" "$stand/launcher/program" "$work/a.grammar" "$a" "$work/secret" "$a"
says 'read error among several' 2 '' "judge: cannot be read to its end: $formed" \
    env READS=44f LD_PRELOAD="$work/calls.so" "$judge" "$work/a.grammar" "$a" "$formed" "$a"
says 'missing among several, and a wrong text' 2 '' "judge: no such file: $work/missing" "$judge" "$work/short.peg" "$a" "$work/missing"
mkfifo "$work/one" "$work/two" "$work/both.peg"
from_pipes() {
    printf "a='a-a';" >"$work/both.peg" &
    printf a >"$work/one" &
    printf b >"$work/two" &
    printf a | "$judge" "$work/both.peg" "$work/two" "$work/a.capture" /dev/stdin "$work/one"
}
export -f from_pipes
says 'several from pipes' 1 "stuck 3 3 1 0 $work/two${feed}accepted 4 2 2 0 $a${feed}accepted 4 2 2 0 /dev/stdin${feed}accepted 4 2 2 0 $work/one$feed$(totals 3 0 1 0 0 0 15)" '' \
    bash -c from_pipes
says 'temporary files of several' 0 "accepted 4 2 2 0 $a${feed}accepted 4 2 2 0 $a$feed$(totals 2 0 0 0 0 0 8)" '' \
    env TMPDIR="$work/temporary" "$judge" "$work/a.grammar" "$a" "$a"
same 'temporary files of several removed' 0 '' ls -A "$work/temporary"

# a grammar that is refused by itself: once, as with one capture
for i in {0..30}; do
    printf '%b' "$(printf '\\x05\\x%02x\\x%02x\\x00' $((1 + 8 * i)) $((4 + 8 * i)))"
done >"$work/classes.grammar"
says 'no grammar for several' 2 'refused 11 0' '' "$judge" "$work/none" "$a" "$b"
says 'bad rule for several' 2 'refused 12 0' '' "$judge" "$work/bad.grammar" "$a" "$b"
says 'bad rule, and the first capture too long' 2 'refused 12 0' '' "$judge" "$work/bad.grammar" "$work/65536.capture" "$a"
says 'an image too large for the program' 2 'refused 13 82188' '' "$judge" "$work/classes.grammar" "$a" "$b"
says 'endless grammar for several' 2 'refused 14 0' '' "$judge" /dev/zero "$a" "$b"
says 'longest input of a grammar alone' 2 'refused 11 65516' '' "$judge" "$work/65516.capture" "$formed" "$a"
says 'wrong text for several' 2 'refused 15 3' '       ^' "$judge" "$work/short.peg" "$a" "$b"
same 'wrong text for several, shown' 0 "judge: the grammar, line 1, column 4: the text ends early$feed    a=.$feed       ^" cat "$work/err"
says 'text that is too long for several' 2 'refused 14 0' '' "$judge" "$work/long.peg" "$a" "$b"

# beside another program, which answers by the last byte of its input: that of the capture, or the grammar's where it is empty
printf 'c' >"$work/c.capture"
c=$work/c.capture
program 'echo accepted 4294967295 2 2 0'
says 'a sum past 32 bits' 0 "accepted 4294967295 2 2 0 $a${feed}accepted 4294967295 2 2 0 $a${feed}accepted 4294967295 2 2 0 $a$feed$(totals 3 0 0 0 0 0 12884901885)" '' \
    "$stand/launcher/program" "$work/a.grammar" "$a" "$a" "$a"
printf 'd' >"$work/d.capture"
d=$work/d.capture
program 'case $(tail -c 1) in a) echo ended 5 0 0 0 ;; b) echo looping 7 0 0 0 ;; c) echo refused 9 1000 ;; d) echo halted 13 0 0 0 ;; *) echo stuck 11 0 0 0 ;; esac'
says 'every kind of line' 2 \
    "ended 5 0 0 0 $a${feed}looping 7 0 0 0 $b${feed}refused 9 1000 $c${feed}halted 13 0 0 0 $d${feed}stuck 11 0 0 0 $work/1090.capture${feed}ended 5 0 0 0 $a${feed}halted 13 0 0 0 $d${feed}halted 13 0 0 0 $d$feed$(totals 0 2 1 1 3 1 67)" '' \
    "$stand/launcher/program" "$work/a.grammar" "$a" "$b" "$c" "$d" "$work/1090.capture" "$a" "$d" "$d"
says 'several halted' 1 "halted 13 0 0 0 $d${feed}halted 13 0 0 0 $d$feed$(totals 0 0 0 0 2 0 26)" '' "$stand/launcher/program" "$work/a.grammar" "$d" "$d"
reader 'printf x >>"${0%/*}/reads"; printf "\004\000\000\000"'
says 'a text for several' 1 "ended 5 0 0 0 $a${feed}looping 7 0 0 0 $b$feed$(totals 0 1 0 1 0 0 12)" '' "$stand/launcher/program" "$work/short.peg" "$a" "$b"
same 'a text for several is read once' 0 x cat "$stand/target/bin/reads"
rm "$stand/target/bin/reads"

# one that is halted passes no shift
program 'case $(tail -c 1) in d) echo halted 13 0 0 0 ;; *) echo accepted 4 2 2 0 ;; esac'
says 'others accepted, the last halted' 1 "accepted 4 2 2 0 $a${feed}halted 13 0 0 0 $d$feed$(totals 1 0 0 0 1 0 17)" '' "$stand/launcher/program" "$work/a.grammar" "$a" "$d"

# failures in the middle: the lines before are there, and no totals
program 'case $(tail -c 1) in b) exit 3 ;; c) echo accepted 12345678901 2 2 0 ;; *) echo accepted 4 2 2 0 ;; esac'
says 'a failure in the middle' 2 "accepted 4 2 2 0 $a" 'judge: the program failed with status 3' "$stand/launcher/program" "$work/a.grammar" "$a" "$b" "$a"
says 'readings of more than 32 bits' 2 "accepted 4 2 2 0 $a" 'judge: the program gave no answer' "$stand/launcher/program" "$work/a.grammar" "$a" "$c" "$a"
program 'case $(tail -c 1) in a) echo accepted 4 2 2 0 ;; esac'
says 'no answer for the grammar alone' 2 '' 'judge: the program gave no line' "$stand/launcher/program" "$work/a.grammar" "$a" "$a"

# output that is full: from the start, or a file of 1,024 bytes at most, which four lines with names of 238 bytes fill
program 'echo accepted 4 2 2 0'
printf -v long '%238s' '' && long=${long// /n}
cp "$a" "$work/names/$long"
line="accepted 4 2 2 0 $long"
several_to_full() { "$stand/launcher/program" "$work/a.grammar" "$work/a.capture" "$work/a.capture" >/dev/full; }
several_to_closed() { "$stand/launcher/program" "$work/a.grammar" "$work/a.capture" "$work/a.capture" >&-; }
fill() { ulimit -f 1 && cd "$work/names" && "$stand/launcher/program" "$work/a.grammar" "$@"; }
export stand
export -f several_to_full several_to_closed fill
says 'several, output full' 2 '' "$unwritten" bash -c several_to_full
says 'several, output closed' 2 '' 'judge: standard output is closed' bash -c several_to_closed
says 'output full in the middle' 2 "$line$feed$line$feed$line$feed$line" "$unwritten" bash -c 'fill "$@"' fill "$long" "$long" "$long" "$long" "$long"
says 'output full before the totals' 2 "$line$feed$line$feed$line$feed$line" "$unwritten" bash -c 'fill "$@"' fill "$long" "$long" "$long" "$long"
# a reader that takes one line; the program waits for its end before the second
program "case \$(tail -c 1) in b) until [ -e '$work/closed' ]; do sleep 0.05; done ;; esac; echo accepted 4 2 2 0"
to_short_reader() {
    ("$stand/launcher/program" "$work/a.grammar" "$work/a.capture" "$work/b.capture" "$work/a.capture"; printf '%s' "$?" >"$work/code") |
        { IFS= read -r first; printf '%s\n' "$first"; exec <&-; : >"$work/closed"; }
    return "$(cat "$work/code")"
}
export -f to_short_reader
says 'output closed in the middle' 2 "accepted 4 2 2 0 $a" "$unwritten" bash -c to_short_reader
