# shellcheck shell=bash disable=SC2154,SC2016
# The launcher's check of a typed grammar: warnings, what they leave as it is, where there is none, and programs that give no answer. Sourced by tests/launcher, whose functions and files it uses, after launcher_several.sh.

# warning WHERE SHOWN CARET: all that a warning is; WHERE ends with the name
warning() {
    printf 'judge: warning: the grammar, %s has an expression that leads back to itself before anything is consumed: a capture may be judged looping\n    %s\n    %s' "$@"
}
# warns NAME TEXT STATUS LINE WHERE SHOWN CARET: by this text the capture a has this line, after a warning. By the grammar's bytes, which are not checked, line and status are the same.
warns() {
    printf '%b' "$2" >"$work/warned.peg"
    says "$1" "$3" "$4" "    $7" "$judge" "$work/warned.peg" "$a"
    same "$1, shown" 0 "$(warning "$5" "$6" "$7")" cat "$work/err"
    "$here/target/bin/read_text" <"$work/warned.peg" >"$work/warned.grammar"
    says "$1, by bytes" "$3" "$4" '' "$judge" "$work/warned.grammar" "$a"
}
printf -v name '%100s' '' && name=${name// /n}
warns 'a name alone' 'a=a;' 1 'looping 2 1 1 1' 'line 1, column 1: a' 'a=a;' '^'
warns 'a list that begins with a list' "list = list comma item / item;\\ncomma = ',-,';\\nitem = 'a-z';" 1 'looping 3 1 1 1' 'line 1, column 1: list' 'list = list comma item / item;' '^'
warns 'after blanks and line feeds' '\n\n  item = item /\n .;' 1 'looping 2 1 1 1' 'line 3, column 3: item' '  item = item /' '  ^'
warns 'on a second line, and accepted' 'a = . / b;\nb = b;\n' 0 'accepted 6 2 2 0' 'line 2, column 1: b' 'b = b;' '^'
warns 'a line that is never met' 'a = .;  b = b;' 0 'accepted 4 2 2 0' 'line 1, column 9: b' 'a = .;  b = b;' '        ^'
warns 'a part that is never tried' 'a = empty / a;' 1 'stuck 5 2 1 0' 'line 1, column 1: a' 'a = empty / a;' '^'
warns 'a helper rule' 'list = . (item?)*;\nitem = .;' 1 'looping 16 1 2 11' 'line 1, column 1: list' 'list = . (item?)*;' '^'
warns 'a helper rule of a second line' 'a = b;\n b = . (.?)*;' 1 'looping 17 1 2 15' 'line 2, column 2: b' ' b = . (.?)*;' ' ^'
warns 'after a range of line feeds' "a = '\\n-\\n' / 'a-a'; b = b;" 0 'accepted 9 2 2 0' 'line 3, column 12: b' "' / 'a-a'; b = b;" '           ^'
warns 'bytes that are not printed' "a = '\\0-\\xff' / b; b = b;" 0 'accepted 6 2 2 0' 'line 1, column 16: b' "a = '#-#' / b; b = b;" '               ^'
warns 'far to the right' "a=.;$blank${blank:0:10}item=item;" 0 'accepted 4 2 2 0' 'line 1, column 65: item' "<${blank}item=item;" " $blank^"
warns 'a long name' "$name=$name;" 1 'looping 2 1 1 1' "line 1, column 1: $name" "${name:0:76}>" '^'

# what passes, and what is not checked: standard error is empty, or the refusal's alone
# no_warning TEXT STATUS LINE
no_warning() {
    printf '%s' "$1" >"$work/passes.peg"
    says "no warning: $1" "$2" "$3" '' "$judge" "$work/passes.peg" "$a"
}
no_warning "a='a-a'a/'a-a';" 0 'accepted 22 2 2 0'
no_warning 'a=b*;b=.;' 0 'accepted 18 2 2 0'
no_warning 'a=(!. b/b)+;b=.;' 0 'accepted 37 2 2 0'
no_warning 'a=(.?.)*;' 1 'stuck 18 2 1 0'
printf 'a=a;b=c;' >"$work/wrong.peg"
says 'a refused text, and a line that leads back' 2 'refused 15 6' '          ^' "$judge" "$work/wrong.peg" "$a"
same 'no warning of a refused text' 1 '' grep warning "$work/err"
says 'a missing capture, and a line that leads back' 2 '' "judge: no such file: $work/missing" "$judge" "$work/loop.peg" "$work/missing"
same 'no warning before every file is taken' 1 '' grep warning "$work/err"

# several captures: one warning
says 'a warning for several' 1 "looping 2 1 1 1 $a${feed}looping 2 1 1 1 $work/none${feed}looping 2 1 1 1 $a$feed$(totals 0 0 0 3 0 0 6)" '    ^' \
    "$judge" "$work/loop.peg" "$a" "$work/none" "$a"
same 'one warning for several' 0 "$(warning 'line 1, column 1: a' 'a=a;' '^')" cat "$work/err"
printf 'a=./b;b=b;' >"$work/back.peg"
says 'a warning, and all accepted' 0 "accepted 6 2 2 0 $a${feed}accepted 6 2 2 0 $b$feed$(totals 2 0 0 0 0 0 12)" '          ^' "$judge" "$work/back.peg" "$a" "$b"

# a warning that cannot be written changes nothing; a line that cannot is a failure as before
warned_to_full() { "$judge" "$work/loop.peg" "$work/a.capture" 2>/dev/full; }
warned_to_closed() { "$judge" "$work/loop.peg" "$work/a.capture" 2>&-; }
warned_to_no_reader() { { (sleep 0.2 && "$judge" "$work/loop.peg" "$work/a.capture") 2>&1 >&3 | true; return "${PIPESTATUS[0]}"; } 3>&1; }
line_to_full() { "$judge" "$work/loop.peg" "$work/a.capture" >/dev/full; }
export -f warned_to_full warned_to_closed warned_to_no_reader line_to_full
says 'a warning, errors full' 1 'looping 2 1 1 1' '' bash -c warned_to_full
says 'a warning, errors closed' 1 'looping 2 1 1 1' '' bash -c warned_to_closed
says 'a warning, errors with no reader' 1 'looping 2 1 1 1' '' bash -c warned_to_no_reader
says 'a warning, output full' 2 '' "$unwritten" bash -c line_to_full
says 'temporary files of a warning' 1 'looping 2 1 1 1' '    ^' env TMPDIR="$work/temporary" "$judge" "$work/loop.peg" "$a"
same 'temporary files of a warning removed' 0 '' ls -A "$work/temporary"

# beside another program: it checks the text once, if the text is read and is not refused
# check_instead NAME SCRIPT STATUS LINE LAST-ERROR: of the text a=. for which the others give an answer
check_instead() {
    reader "$grammar" "$2"
    says "$1" "$3" "$4" "$5" "$stand/launcher/program" "$work/short.peg" "$a"
}
program 'echo "ended 1 0 0 0"'
grammar='printf "\004\000\000\000"'
check_instead 'the text is checked' 'cat >&2; echo >&2; echo passes' 1 'ended 1 0 0 0' 'a=.'
reader "$grammar" 'printf x >>"${0%/*}/checks"; echo passes'
says 'a text for several is checked' 1 "ended 1 0 0 0 $a${feed}ended 1 0 0 0 $b$feed$(totals 0 2 0 0 0 0 2)" '' "$stand/launcher/program" "$work/short.peg" "$a" "$b"
same 'and checked once' 0 x cat "$stand/target/bin/checks"
rm "$stand/target/bin/checks"
says 'bytes are not checked' 1 'ended 1 0 0 0' '' "$stand/launcher/program" "$work/a.grammar" "$a"
reader 'echo refused 15 3' 'printf x >>"${0%/*}/checks"; echo passes'
says 'a refused text is not checked' 2 'refused 15 3' '       ^' "$stand/launcher/program" "$work/short.peg" "$a"
same 'not checked' 1 '' test -e "$stand/target/bin/checks"

# the program that checks gives no answer: nothing is judged
no_line='judge: the program read_text gave no line'
no_check='judge: the program read_text gave no answer'
more='judge: the program read_text gave more than its line'
no_name='judge: the program read_text gave no name of the text'
check_instead 'it passes' 'echo passes' 1 'ended 1 0 0 0' ''
check_instead 'the first rule' 'echo refused 19 0 0' 1 'ended 1 0 0 0' '    ^'
check_instead 'the last rule' 'echo refused 19 30 0' 1 'ended 1 0 0 0' '    ^'
check_instead 'a rule too many' 'echo refused 19 31 0' 2 '' "$no_check"
check_instead 'nothing checked' ':' 2 '' "$no_line"
check_instead 'passes, without a line feed' 'printf passes' 2 '' "$no_line"
check_instead 'no word' 'echo' 2 '' "$no_check"
check_instead 'another word' 'echo passed' 2 '' "$no_check"
check_instead 'a word more' 'echo passes 0' 2 '' "$no_check"
check_instead 'passes twice' 'echo passes; echo passes' 2 '' "$more"
check_instead 'passes, then a warning' 'echo passes; echo refused 19 0 0' 2 '' "$more"
check_instead 'passes, with a zero byte' 'printf "passes\0\n"' 2 '' "$more"
check_instead 'a refusal of the text' 'echo refused 15 2' 2 '' "$no_check"
check_instead 'another refusal with an offset' 'echo refused 15 0 0' 2 '' "$no_check"
check_instead 'no offset' 'echo refused 19 0' 2 '' "$no_check"
check_instead 'an offset more' 'echo refused 19 0 0 0' 2 '' "$no_check"
check_instead 'a rule with a zero before it' 'echo refused 19 00 0' 2 '' "$no_check"
check_instead 'an offset with a zero before it' 'echo refused 19 0 00' 2 '' "$no_check"
check_instead 'an offset below 0' 'echo refused 19 0 -1' 2 '' "$no_check"
check_instead 'an offset past the text' 'echo refused 19 0 4' 2 '' 'judge: the program read_text gave no place of the text'
check_instead 'an offset past 64 bits' 'echo refused 19 0 18446744073709551616' 2 '' 'judge: the program read_text gave no place of the text'
check_instead 'an offset at the end' 'echo refused 19 0 3' 2 '' "$no_name"
check_instead 'an offset of no letter' 'echo refused 19 0 1' 2 '' "$no_name"
check_instead 'passes, and a bad status' 'echo passes; exit 3' 2 '' 'judge: the program read_text failed with status 3'
check_instead 'a warning, and a signal' 'echo refused 19 0 0; kill -9 $$' 2 '' 'judge: the program read_text failed with status 137'
