# shellcheck shell=bash
# Counting tests of commands: what each prints and leaves with. Sourced by the tests beside it.
passed=0
failed=0

# count NAME WRONG: one test more; it passed where nothing is said to be wrong
count() {
    if [ -z "$2" ]; then
        passed=$((passed + 1))
    else
        failed=$((failed + 1))
        printf '%s: %s: %s\n' "${0##*/}" "$1" "$2"
    fi
}

# same NAME EXPECTED-STATUS EXPECTED-OUTPUT COMMAND..: both outputs together, without the last line feeds
same() {
    local name=$1 status=$2 expected=$3 got code=0 wrong=''
    shift 3
    got=$("$@" 2>&1) || code=$?
    if [ "$got" != "$expected" ] || [ "$code" != "$status" ]; then
        wrong=$(printf 'expected status %s and %q, got status %s and %q' "$status" "$expected" "$code" "$got")
    fi
    count "$name" "$wrong"
}

# gives NAME EXPECTED-STATUS OUTPUT-FILE LAST-ERROR COMMAND..: standard output byte for byte, and the last line of standard error ('' for none at all).
# It leaves both in $work/out and $work/err.
gives() {
    local name=$1 status=$2 output=$3 error=$4 code=0 told wrong=''
    shift 4
    # shellcheck disable=SC2154 # the test that sources this has a folder $work
    "$@" >"$work/out" 2>"$work/err" || code=$?
    told=$(tail -n 1 "$work/err")
    if [ "$code" != "$status" ]; then
        wrong="expected status $status, got $code"
    elif ! cmp -s "$output" "$work/out"; then
        wrong=$(printf 'expected the output %q, got %q' "$(cat "$output")" "$(cat "$work/out")")
    elif [ "$told" != "$error" ] || { [ -z "$error" ] && [ -s "$work/err" ]; }; then
        wrong=$(printf 'expected the error %q, got %q' "$error" "$(cat "$work/err")")
    fi
    count "$name" "$wrong"
}

# told: the last line, 'N passed, M failed'
told() {
    printf '%s passed, %s failed\n' "$passed" "$failed"
    [ "$failed" = 0 ]
}
