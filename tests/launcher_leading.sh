# shellcheck shell=bash disable=SC2154,SC2016
# The launcher with --leading: lines, statuses and totals by the library, the option and its place, programs accept that give no answer, and building accept. Sourced by tests/launcher, whose functions and files it uses, after all else. Needs target/staticlib/libsejimakpu.a.

# leads NAME STATUS LINE LAST-ERROR WORD..: with --leading before these words
leads() {
    local name=$1 status=$2 line=$3 error=$4
    shift 4
    says "leading: $name" "$status" "$line" "$error" "$judge" --leading "$@"
}
banner=$work/banner.capture
{ cat "$formed" && printf -- '-- end of dump, firmware 4.2 --\n'; } >"$banner"
head -c 65535 /dev/zero >"$work/65535.capture"

# what follows the match does not count, and what is matched does; without the option it is as before
leads accepted 0 'accepted 174 2 25 0' '' "$ring" "$formed"
leads 'a banner after the dump' 0 'accepted 206 2 57 0' '' "$ring" "$banner"
says 'whole: a banner after the dump' 1 'stuck 174 2 25 0' '' "$judge" "$ring" "$banner"
leads 'a dump that is broken after two lines' 0 'accepted 117 2 25 0' '' "$ring" "$broken"
leads 'an empty capture' 1 'stuck 13 3 1 0' '' "$ring" "$work/none"
leads 'no dump' 1 'stuck 13 3 1 0' '' "$ring" "$a"
leads 'nothing, on an empty capture' 0 'accepted 3 2 1 0' '' "$work/empty.grammar" "$work/none"
leads 'nothing, before a byte' 0 'accepted 4 2 2 0' '' "$work/empty.grammar" "$b"
leads looping 1 'looping 2 1 1 1' '' "$work/endless.grammar" "$b"

# the library's limits, and not the program's; a refusal is its line alone
leads 'cells that the program has not' 0 'accepted 1094 2 1092 0' '' "$work/empty.grammar" "$work/1091.capture"
leads 'the longest capture' 0 'accepted 65538 2 65536 0' '' "$work/empty.grammar" "$work/65535.capture"
for file in "$work/65536.capture" "$work/100000.capture" /dev/zero; do
    leads "a longer capture, ${file##*/}" 2 'refused 7 65536' '' "$work/empty.grammar" "$file"
done
leads 'an image that the program has no room for' 1 'stuck 3 3 1 0' '' "$work/classes.grammar" "$a"
leads 'no grammar' 2 'refused 11 0' '' "$work/none" "$a"
leads 'an endless grammar' 2 'refused 11 125' '' /dev/zero "$a"
leads 'a bad rule' 2 'refused 12 0' '' "$work/bad.grammar" "$a"
little_memory() { ulimit -v 150000 && "$judge" --leading "$work/classes.grammar" "$work/65535.capture"; }
export -f little_memory
says 'leading: too little memory' 2 '' 'judge: the program accept gave no line' bash -c little_memory
same 'leading: too little memory, said' 0 'accept: no memory for 20644155 cells' head -n 1 "$work/err"

# typed grammars: read, checked and shown as without the option
leads 'typed, a banner' 0 'accepted 206 2 57 0' '' "$typed" "$banner"
says 'leading: typed, from a pipe' 0 'accepted 4 2 2 0' '' \
    bash -c "printf 'a=empty;' >'$work/pipe.peg' & exec '$judge' --leading '$work/pipe.peg' '$b'"
leads 'typed, looping' 1 'looping 2 1 1 1' '    ^' "$work/loop.peg" "$b"
same 'leading: typed, looping, shown' 0 "$(warning 'line 1, column 1: a' 'a=a;' '^')" cat "$work/err"
leads 'typed, a warning, and accepted' 0 'accepted 7 2 3 0' '          ^' "$work/back.peg" <(printf ab)
leads 'a wrong text' 2 'refused 15 3' '       ^' "$work/short.peg" "$a"
same 'leading: a wrong text, shown' 0 "judge: the grammar, line 1, column 4: the text ends early$feed    a=.$feed       ^" cat "$work/err"
leads 'a text that is too long' 2 'refused 14 0' '' "$work/long.peg" "$a"

# files, and lines that cannot be written
leads 'both from processes' 0 'accepted 5 2 3 0' '' <(cat "$work/a.grammar") <(printf ab)
leads 'missing capture' 2 '' "judge: no such file: $work/missing" "$ring" "$work/missing"
leads directory 2 '' "judge: is a directory: $work" "$ring" "$work"
leading_to_full() { "$judge" --leading "$work/a.grammar" "$work/a.capture" >/dev/full; }
export -f leading_to_full
says 'leading: output full' 2 '' "$unwritten" bash -c leading_to_full
says 'leading: temporary files' 0 'accepted 206 2 57 0' '' env TMPDIR="$work/temporary" "$judge" --leading "$typed" "$banner"
same 'leading: temporary files removed' 0 '' ls -A "$work/temporary"

# the option stands first; elsewhere, or with a path, it is a file's name, and so is another option
cp "$work/empty.grammar" "$work/--leading"
in_work() { says "$1" "$2" "$3" "$4" env -C "$work" "$judge" "${@:5}"; }
in_work 'a grammar of that name, by a path' 1 'stuck 3 2 1 0' '' ./--leading b.capture
in_work 'the option, and a grammar of that name' 0 'accepted 4 2 2 0' '' --leading --leading b.capture
in_work 'a capture of that name' 1 'stuck 3 2 1 0' '' empty.grammar --leading
in_work 'another option' 2 '' 'judge: no such file: --whole' --whole empty.grammar b.capture
in_work 'the option in capitals' 2 '' 'judge: no such file: --Leading' --Leading empty.grammar b.capture
in_work 'the option with more' 2 '' 'judge: no such file: --leading=1' --leading=1 empty.grammar b.capture
leads 'no file' 2 '' "$usage"
leads 'one file' 2 '' "$usage" "$ring"
same 'leading: in the usage' 0 "usage: $judge [--leading] GRAMMAR-FILE CAPTURE-FILE.." head -n 1 "$work/err"

# several captures
leads 'several accepted' 0 "accepted 206 2 57 0 $banner${feed}accepted 174 2 25 0 $formed$feed$(totals 2 0 0 0 0 0 380)" '' "$ring" "$banner" "$formed"
leads 'several in order' 1 "stuck 13 3 1 0 $work/none${feed}accepted 206 2 57 0 $banner${feed}stuck 13 3 1 0 $a$feed$(totals 1 0 2 0 0 0 232)" '' \
    "$typed" "$work/none" "$banner" "$a"
leads 'several looping, one warning' 1 "looping 2 1 1 1 $a${feed}looping 2 1 1 1 $b$feed$(totals 0 0 0 2 0 0 4)" '    ^' "$work/loop.peg" "$a" "$b"
same 'leading: one warning for several' 0 1 grep -c warning "$work/err"
leads 'one of several refused' 2 "accepted 4 2 2 0 $a${feed}refused 7 65536 $work/65536.capture${feed}accepted 3 2 1 0 $work/none$feed$(totals 2 0 0 0 0 1 7)" '' \
    "$work/empty.grammar" "$a" "$work/65536.capture" "$work/none"
leads 'a bad rule for several' 2 'refused 12 0' '' "$work/bad.grammar" "$a" "$b"
leads 'a wrong text for several' 2 'refused 15 3' '       ^' "$work/short.peg" "$a" "$b"
leads 'missing among several' 2 '' "judge: no such file: $work/missing" "$ring" "$formed" "$work/missing"
says 'leading: names' 0 "$(printf 'accepted 4 2 2 0 %s\n' "${shown[@]}")$feed$(totals 13 0 0 0 0 0 52)" '' \
    env -C "$work/names" "$judge" --leading "$work/a.grammar" "${names[@]}"

# beside another accept, and a program judge that is not to be asked; an accept without the library is taken as it is
program 'exit 3'
reader 'printf "\004\000\000\000"'
# accept_instead NAME SCRIPT STATUS LINE LAST-ERROR
accept_instead() {
    stand_in accept "$2"
    says "accept: $1" "$3" "$4" "$5" "$stand/launcher/program" --leading "$work/a.grammar" "$a"
}
no_accept='judge: the program accept gave no answer'
no_accept_line='judge: the program accept gave no line'
accept_instead 'accepted' 'echo accepted 4 2 2 0' 0 'accepted 4 2 2 0' ''
for verdict in ended stuck looping halted; do
    accept_instead "$verdict" "echo $verdict 4 2 2 0; exit 1" 1 "$verdict 4 2 2 0" ''
    accept_instead "$verdict, status 0" "echo $verdict 4 2 2 0" 2 '' "$no_accept"
    accept_instead "$verdict, status 2" "echo $verdict 4 2 2 0; exit 2" 2 '' "$no_accept"
done
accept_instead 'refused, and its words' 'echo words >&2; echo refused 8 45; exit 2' 2 'refused 8 45' ''
accept_instead 'refused, status 0' 'echo refused 8 45' 2 '' "$no_accept"
accept_instead 'refused, status 1' 'echo refused 8 45; exit 1' 2 '' "$no_accept"
accept_instead 'accepted, status 1' 'echo accepted 4 2 2 0; exit 1' 2 '' "$no_accept"
accept_instead 'accepted, status 2' 'echo accepted 4 2 2 0; exit 2' 2 '' "$no_accept"
accept_instead 'accepted, status 3' 'echo accepted 4 2 2 0; exit 3' 2 '' 'judge: the program accept failed with status 3'
accept_instead 'accepted, status 255' 'echo accepted 4 2 2 0; exit 255' 2 '' 'judge: the program accept failed with status 255'
accept_instead 'accepted, and a signal' 'echo accepted 4 2 2 0; kill -9 $$' 2 '' 'judge: the program accept failed with status 137'
for code in 0 1 2; do
    accept_instead "no line, status $code" "echo words >&2; exit $code" 2 '' "$no_accept_line"
    same "accept: its words, status $code" 0 words head -n 1 "$work/err"
done
accept_instead 'an empty line' 'echo' 2 '' "$no_accept"
accept_instead 'part of a line' 'printf "accepted 4 2 2 0"' 2 '' "$no_accept_line"
accept_instead 'a shorter line' 'echo accepted 4 2 2' 2 '' "$no_accept"
accept_instead 'a longer line' 'echo accepted 4 2 2 0 0' 2 '' "$no_accept"
accept_instead 'a word of the plain run alone' 'echo spent 4 2 2 0; exit 1' 2 '' "$no_accept"
accept_instead 'two lines' 'echo accepted 4 2 2 0; echo accepted 4 2 2 0' 2 '' 'judge: the program accept gave more than its line'
accept_instead 'a zero byte' 'printf "accepted 4 2 2 0\0\n"' 2 '' 'judge: the program accept gave more than its line'
accept_instead 'words, and accepted' 'echo words >&2; echo accepted 4 2 2 0' 0 'accepted 4 2 2 0' words
# three words, and no input: the option, the grammar's bytes, the capture
given='echo $# "$1" $(od -An -tx1 <"$2") $(od -An -tx1 <"$3") $(wc -c) >&2; echo accepted 4 2 2 0'
accept_instead 'what it is given' "$given" 0 'accepted 4 2 2 0' '3 --leading 05 61 61 00 61 0'
says 'accept: given the bytes of a text' 0 'accepted 4 2 2 0' '3 --leading 04 00 00 00 61 0' "$stand/launcher/program" --leading "$work/short.peg" "$a"
says "accept: not given the launcher's input" 0 'accepted 4 2 2 0' '3 --leading 05 61 61 00 61 0' \
    bash -c 'printf more | "$@"' - "$stand/launcher/program" --leading "$work/a.grammar" "$a"
# it answers by its capture, of which the first is empty: that of the grammar alone
stand_in accept 'case $(cat "$3") in b) exit 1 ;; c) echo accepted 12345678901 2 2 0 ;; *) echo accepted 4 2 2 0 ;; esac'
says 'accept: a failure in the middle' 2 "accepted 4 2 2 0 $a" "$no_accept_line" "$stand/launcher/program" --leading "$work/a.grammar" "$a" "$b" "$a"
says 'accept: readings of more than 32 bits' 2 "accepted 4 2 2 0 $a" "$no_accept" "$stand/launcher/program" --leading "$work/a.grammar" "$a" "$c" "$a"
stand_in accept 'case $(cat "$3") in a) echo accepted 4 2 2 0 ;; *) exit 1 ;; esac'
says 'accept: no answer for the grammar alone' 2 '' "$no_accept_line" "$stand/launcher/program" --leading "$work/a.grammar" "$a" "$a"
program 'echo ended 1 0 0 0'
stand_in accept 'exit 3'
says 'accept is not asked without the option' 1 'ended 1 0 0 0' '' "$stand/launcher/program" "$work/a.grammar" "$a"

# building accept: first the library by rt, then accept by a C compiler, each where it is not there
mkdir "$stand/include"
cp "$here/include/sejimakpu.h" "$stand/include"
rm -f "$stand/target/bin/"* "$stand/bin/"*
library=$stand/target/staticlib/libsejimakpu.a
# tool NAME: standard input is the script of rt or of a compiler
tool() { { printf '#!/bin/sh\n' && cat; } >"$stand/bin/$1" && chmod +x "$stand/bin/$1"; }
# builds NAME STATUS LINE LAST-ERROR [CAPTURE]: with the tools that are there now, of the capture a, and of another too
builds() { says "building: $1" "$2" "$3" "$4" env PATH="$stand/bin:$stand/tools" "$stand/launcher/program" --leading "$work/a.grammar" "$a" "${@:5}"; }
unbuilt='judge: the program accept could not be built; where the library is older than include/sejimakpu.h, build it again: ./make_proved library'
no_library='judge: the library could not be built'
no_compiler='judge: the program accept is not built, and no C compiler (cc or gcc) is here to build it'
builds 'no rt' 2 '' "judge: the library is not built, and the toolchain's rt is not here to build it"
tool rt <<<'echo rt built nothing'
builds 'rt builds nothing' 2 '' "$no_library"
tool rt <<<'mkdir -p out; echo library >out/libsejimakpu_c.a; exit 1'
builds 'rt fails' 2 '' "$no_library"
same 'building: no library is left' 1 '' test -e "$library"
tool rt <<<'mkdir -p out; echo library >out/libsejimakpu_c.a; echo "rt $* in ${PWD##*/}"'
builds 'no compiler' 2 '' "$no_compiler"
same 'building: the library first, and said' 0 "judge: the library is not built yet: it is now proved and built, which takes some minutes${feed}rt lib in sejimakpu_c$feed$no_compiler" cat "$work/err"
builds 'no compiler, and the library is there' 2 '' "$no_compiler"
same 'building: the library is built once' 0 "$no_compiler" cat "$work/err"
tool cc <<<'echo compiled >&2; exit 1'
builds 'the compiler fails' 2 '' "$unbuilt"
tool cc <<<'while [ "$1" != -o ]; do shift; done; echo part >"$2"; exit 1'
builds 'the compiler fails after a part' 2 '' "$unbuilt"
same 'building: a part is not left' 0 '' ls "$stand/target/bin"
tool cc <<<':'
builds 'the compiler makes nothing' 2 '' "$unbuilt"
tool cc <<'END'
echo "$*" >>"${0%/*}/compiled"
while [ "$1" != -o ]; do shift; done
printf '#!/bin/sh\necho accepted 4 2 2 0\n' >"$2"
chmod +x "$2"
END
builds 'by cc' 0 'accepted 4 2 2 0' ''
same 'building: nothing but accept' 0 accept ls "$stand/target/bin"
same 'building: from these files' 0 "-std=c99 -O2 -I $stand/include $stand/examples/accept.c $library -o $stand/target/bin/accept" sed 's/\.[0-9]*$//' "$stand/bin/compiled"
builds 'there already' 0 'accepted 4 2 2 0' ''
same 'building: once' 0 1 grep -c . "$stand/bin/compiled"
# again where one of the three is newer, and not where it is older
for file in "$library" "$stand/examples/accept.c" "$stand/include/sejimakpu.h"; do
    touch -d 2000-01-01 "$library" "$stand/examples/accept.c" "$stand/include/sejimakpu.h"
    touch -d 2001-01-01 "$stand/target/bin/accept"
    : >"$stand/bin/compiled"
    builds 'all older' 0 'accepted 4 2 2 0' ''
    same "building: all older than accept, ${file##*/} too" 0 0 wc -l <"$stand/bin/compiled"
    touch -d 2002-01-01 "$file"
    builds "newer ${file##*/}" 0 "accepted 4 2 2 0 $a${feed}accepted 4 2 2 0 $b$feed$(totals 2 0 0 0 0 0 8)" '' "$b"
    same "building: once for several, newer ${file##*/}" 0 1 wc -l <"$stand/bin/compiled"
done
rm "$stand/target/bin/accept"
mv "$stand/bin/cc" "$stand/bin/gcc"
echo 'echo "what the compiler prints"' >>"$stand/bin/gcc"
builds 'by gcc' 0 'accepted 4 2 2 0' 'what the compiler prints'
rm "$library" "$stand/bin/rt" "$stand/bin/gcc"
builds 'accept alone is taken as it is' 0 'accepted 4 2 2 0' ''
rm "$stand/target/bin/accept"
builds 'nothing is there' 2 '' "judge: the library is not built, and the toolchain's rt is not here to build it"
