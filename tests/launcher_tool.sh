# shellcheck shell=bash disable=SC2154,SC2016
# The launcher ./judge and tool/build_tool: statuses by the tool itself; then, beside a cargo and a tool that stand in for them, what the tool is given, when it is built, and when the proved program judges instead. Sourced by tests/launcher, whose functions and files it uses, after all else.

# the tool itself, of this repository; built first, so that no test has what building says
launcher=$here/judge
tool=$here/tool/target/release/sejimakpu
"$here/tool/build_tool" 2>"$work/built" || cat "$work/built"
"$launcher" "$ring" "$formed" >"$work/built" 2>&1 || cat "$work/built"

# alike NAME STATUS WORD..: the launcher gives what the tool gives, byte for byte on both outputs; the tool's words are its own tests' matter
alike() {
    local name=$1 status=$2 options=()
    shift 2
    local words=("$@")
    [ "$1" != --leading ] || { options=(--leading) && shift; }
    "$tool" judge "${options[@]}" --grammar="$1" -- "${@:2}" >"$work/tool.out" 2>"$work/tool.err"
    gives "tool: $name" "$status" "$work/tool.out" "$(tail -n 1 "$work/tool.err")" timeout 60 "$launcher" "${words[@]}"
    same "tool: $name, errors" 0 '' diff "$work/tool.err" "$work/err"
}
alike accepted 0 "$typed" "$formed"
alike stuck 1 "$typed" "$broken"
alike looping 1 "$work/endless.grammar" "$a"
alike 'a bad rule' 2 "$work/bad.grammar" "$a"
alike 'a missing capture' 2 "$typed" "$work/missing"
alike 'a missing grammar' 2 "$work/missing" "$a"
alike 'leading, and stuck without it' 0 --leading "$typed" "$broken"
alike several 1 "$typed" "$formed" "$broken"
alike 'several, one refused' 2 "$work/empty.grammar" "$work/none" "$work/65536.capture" "$a"
on_full() { "$@" >/dev/full; }
tool_to_closed() { "$here/judge" "$work/a.grammar" "$work/a.capture" >&-; }
export here
export -f tool_to_closed
same 'tool: output full' 2 "$(on_full "$tool" judge -g "$work/a.grammar" "$a" 2>&1)" on_full "$launcher" "$work/a.grammar" "$a"
says 'tool: output closed' 2 '' 'judge: standard output is closed' bash -c tool_to_closed

# no arguments: what the sample call gives, after the selftest
{ "$tool" selftest && cd "$here" && "$tool" judge -g examples/ring.peg examples/formed.capture examples/broken.capture; } >"$work/samples" 2>"$work/hint"
cd "$work" || exit 1
gives 'tool: samples' 0 "$work/samples" "$(tail -n 1 "$work/hint")" "$launcher"
same 'tool: samples, what must come out' 0 $'judge: selftest must find every example as it must be\njudge: examples/formed.capture must be accepted, and examples/broken.capture stuck' grep '^judge:' "$work/err"
cd "$here" || exit 1

# a stand with a cargo that makes a tool which tells its words; both leave with what a file says
bench=$work/bench
calls=$bench/bin/calls
mkdir -p "$bench"/{bin,tools,launcher,target/staticlib,tool/src,rust/sejimakpu/src,crates/sejimakpu_c}
cp "$launcher" "$bench/judge"
cp "$here/make_proved" "$bench"
cp "$here/launcher/program" "$bench/launcher"
cp "$here/tool/build_tool" "$bench/tool"
cp -r "$here/examples" "$bench/examples"
mkdir "$bench/target/bin"
cp "$here"/target/bin/{judge,read_text} "$bench/target/bin"
library=$bench/target/staticlib/libsejimakpu.a
sources=("$bench"/tool/{src/main.rs,Cargo.toml,build.rs} "$bench"/rust/sejimakpu/{src/lib.rs,Cargo.toml,build.rs} "$library")
touch "${sources[@]}"
for word in bash sh env dirname readlink mktemp head tail tr od wc cat cmp cp mv mkdir chmod rm tee find touch date id grep; do
    ln -s "$(command -v "$word")" "$bench/tools/$word"
done
# fake NAME: standard input is the script of a command
fake() { { printf '#!/bin/sh\n' && cat; } >"$bench/bin/$1" && chmod +x "$bench/bin/$1"; }
working_cargo() {
    fake cargo <<'END'
echo "$*" >>"${0%/*}/calls"
[ "$1" != generate-lockfile ] || exit 0
echo built
mkdir -p target/release
cat >target/release/sejimakpu <<'TOOL'
#!/bin/sh
printf '[%s]' "$@"
echo
exit "$(cat "${0%/*}/$1")"
TOOL
chmod +x target/release/sejimakpu
END
}
working_cargo
bench_tool=$bench/tool/target/release/sejimakpu
mkdir -p "${bench_tool%/*}"
echo 0 >"${bench_tool%/*}/selftest"
echo 1 >"${bench_tool%/*}/judge"
# on NAME STATUS LINES LAST-ERROR WORD..: the launcher of the stand
on() { says "stand: $1" "$2" "$3" "$4" env -C "$work" PATH="$bench/bin:$bench/tools" "$bench/judge" "${@:5}"; }
plain="[judge][--grammar=g][--][c]"
built='judge: the tool is missing or older than its sources: it is now built'
unbuilt='judge: the tool could not be built: the proved program judges, and its lines are others (with SEJIMAKPU_LAUNCHER=program at once)'
# compiled NUMBER NAME: cargo was to build so many times since this was asked last
compiled() {
    same "stand: built $1 times, $2" 0 "$1" bash -c 'grep -c "^build" "$1" || :' - "$calls"
    : >"$calls"
}

# the tool is built where it is missing or a source is newer, and not where it is there
: >"$calls"
on 'built first' 1 "$plain" built g c
same 'stand: said first' 0 "$built" head -n 1 "$work/err"
compiled 1 missing
on 'there already' 1 "$plain" '' g c
compiled 0 there
for file in "${sources[@]}"; do
    touch -d 2000-01-01 "${sources[@]}"
    touch -d 2001-01-01 "$bench_tool"
    on 'all older' 1 "$plain" '' g c
    compiled 0 "all older, ${file#"$bench/"} too"
    touch -d 2002-01-01 "$file"
    on "newer ${file#"$bench/"}" 1 "$plain" built g c
    compiled 1 "newer ${file#"$bench/"}"
done
# where cargo finds nothing to do the tool stays as it is, and is not built at every call
touch -d 2001-01-01 "$bench_tool"
fake cargo <<<'echo "$*" >>"${0%/*}/calls"'
on 'nothing to do' 1 "$plain" "$built" g c
compiled 1 'nothing to do'
on 'nothing to do, again' 1 "$plain" '' g c
compiled 0 'nothing to do'

# words reach the tool as they are, and statuses come back
: >"$work/--whole"
: >"$work/-g"
on 'spaces, dashes and signs' 1 '[judge][--grammar= a  b ][--][-][--][--leading][-q][*][$(echo)][]' '' ' a  b ' - -- --leading -q '*' '$(echo)' ''
on 'leading' 1 '[judge][--leading][--grammar=g][--][c][d]' '' --leading g c d
on 'a grammar with the name of an option' 1 '[judge][--grammar=--whole][--][c]' '' --whole c
on 'leading, and such a grammar' 1 '[judge][--leading][--grammar=-g][--][--leading]' '' --leading -g --leading
on 'an equals sign' 1 '[judge][--grammar==x][--][=]' '' =x =
for code in 0 1 2 3 101; do
    echo "$code" >"${bench_tool%/*}/judge"
    on "status $code" "$code" "$plain" '' g c
done
ln -s "$bench/judge" "$work/link to it"
says 'stand: by a link' 101 "$plain" '' env -C / PATH="$bench/bin:$bench/tools" "$work/link to it" g c
says 'stand: by a relative path' 101 "$plain" '' env -C "$bench/tool" CDPATH="$work" PATH="$bench/bin:$bench/tools" ../judge g c

# no arguments: 0 for a selftest that passes and samples with status 1, and nothing else
selftest_line='[selftest]'
samples_line='[judge][-g][examples/ring.peg][examples/formed.capture][examples/broken.capture]'
# samples SELFTEST JUDGE STATUS LINES LAST-ERROR
samples() {
    echo "$1" >"${bench_tool%/*}/selftest"
    echo "$2" >"${bench_tool%/*}/judge"
    on "samples, selftest $1 and judge $2" "$3" "$4" "$5"
}
samples 0 1 0 "$selftest_line$feed$samples_line" 'judge: examples/formed.capture must be accepted, and examples/broken.capture stuck'
for code in 0 2 101; do
    samples 0 "$code" 2 "$selftest_line$feed$samples_line" "judge: the samples gave status $code, and must give 1"
done
for code in 1 2 101; do
    samples "$code" 1 2 "$selftest_line" 'judge: selftest did not pass'
done

# usage
usage='status: 0 all accepted, 1 any other verdict, 2 one refused or anything failed; with no arguments 0 where selftest and samples came out as they must'
on 'one file' 2 '' "$usage" g
on 'leading, no file' 2 '' "$usage" --leading
on 'leading, one file' 2 '' "$usage" --leading g
on 'help' 2 '' "$usage" --help
on 'a wrong option' 2 '' "$usage" --Leading g c
on 'leading, and a wrong option' 2 '' "$usage" --leading -x c
same 'stand: usage' 0 "usage: $bench/judge [--leading] GRAMMAR-FILE CAPTURE-FILE.." head -n 1 "$work/err"
same 'stand: the variable is in the usage' 0 1 grep -c SEJIMAKPU_LAUNCHER=program "$work/err"

# the proved program judges: where the variable says so, without cargo, and where the tool cannot be built
program_line='accepted 174 2 25 0'
# by_program NAME LAST-ERROR [SETTING]
by_program() { says "program: $1" 0 "$program_line" "$2" env PATH="$bench/bin:$bench/tools" "${@:3}" "$bench/judge" "$ring" "$formed"; }
by_program 'by the variable' '' SEJIMAKPU_LAUNCHER=program
says 'program: by the variable, leading is handed on' 2 '' "judge: no such file: $work/missing" \
    env SEJIMAKPU_LAUNCHER=program "$bench/judge" --leading "$ring" "$work/missing"
says 'program: by the variable, samples' 0 "$program_line${feed}stuck 105 2 13 0" 'judge: examples/broken.capture must give: stuck 105 2 13 0' \
    env SEJIMAKPU_LAUNCHER=program "$bench/judge"
says 'program: another value' 2 '' 'judge: SEJIMAKPU_LAUNCHER is tool: it may be program, or not set' env SEJIMAKPU_LAUNCHER=tool "$bench/judge" "$ring" "$formed"
rm "$bench/bin/cargo"
by_program 'no cargo, and a tool' ''
says 'program: no cargo, of the repository' 0 "$program_line" '' env PATH="$bench/tools" "$launcher" "$ring" "$formed"
fake cargo <<<'echo no >&2; exit 101'
touch -d 2000-01-01 "$bench_tool"
by_program 'cargo fails, and the tool is older' "$unbuilt"
rm "$bench_tool"
by_program 'cargo fails, and no tool' "$unbuilt"
same 'program: said before' 0 "$built" head -n 1 "$work/err"
fake cargo <<<':'
by_program 'cargo makes no tool' "$unbuilt"
fake cargo <<<'[ "$1" = generate-lockfile ] || { echo part >target/release/sejimakpu; kill -9 $$; }'
by_program 'cargo is ended within' "$unbuilt"
rm -r "$bench/launcher"
on 'nothing is there' 2 '' "judge: cannot be run: $bench/launcher/program" g c

# a tool that cannot be run
printf '\177ELF' >"$bench_tool"
chmod +x "$bench_tool"
on 'no program for this machine' 2 '' "judge: cannot be run: $bench_tool" g c

# the library is built by rt where it is missing, and nothing else is done where it cannot be
working_cargo
echo 0 >"${bench_tool%/*}/judge"
rm -f "$library" "$bench_tool"
on 'no library, and no rt' 2 '' "judge: the library is not built, and the toolchain's rt is not here to build it" g c
fake rt <<<'echo rt built nothing'
on 'rt builds nothing' 2 '' 'judge: the library could not be built' g c
fake rt <<<'mkdir -p out; echo part >out/libsejimakpu_c.a; exit 1'
on 'rt fails' 2 '' 'judge: the library could not be built' g c
same 'stand: no library is left' 1 '' test -e "$library"
fake rt <<<'mkdir -p out; echo library >out/libsejimakpu_c.a; echo "rt $* in ${PWD##*/}"'
on 'both built first' 0 "$plain" built g c
same 'stand: the library first, and said' 0 "judge: the library is not built yet: it is now proved and built, which takes some minutes${feed}rt lib in sejimakpu_c$feed$built${feed}built" cat "$work/err"
fake rt <<<'exit 1'
on 'the library is there' 0 "$plain" '' g c

# tool/build_tool: from the packages where their folder has all, else from packages that it installs, else from the registry
. "$here/tests/launcher_build_tool.sh"
