# shellcheck shell=bash disable=SC2154
# Running the parts of the gate and counting their tests. Sourced by .ci/run and tests/gate, which have a folder $logs and a table $least: the least count of tests of each part.
# A part is a command whose last line is 'N passed, M failed'. What it writes goes to $logs/NAME, its status to NAME.status, its milliseconds to NAME.time.
passed=0
failed=0

# clean_environment: no variable stays that has a part test less, or test something else than what stands here
clean_environment() {
    local name
    for name in "${!SEJIMAKPU_@}" "${!CARGO_BUILD_@}" "${!CARGO_PROFILE_@}" "${!CARGO_TARGET_@}" "${!CLIPPY_@}" "${!RUST_TEST_@}"; do unset "$name"; done
    unset TRANSCRIPTS READS WRITES LD_PRELOAD RUSTFLAGS CARGO_ENCODED_RUSTFLAGS RUSTDOCFLAGS RUSTC RUSTDOC RUSTC_WRAPPER RUSTC_WORKSPACE_WRAPPER
    unset BASH_ENV CDPATH GLOBIGNORE RT_ALLOW_C RT_BACKEND RT_SECONDS RT_STATUS
    # git's own, which a hook sets: a test that commits in a copy would do so here
    # shellcheck disable=SC2046
    unset $(git rev-parse --local-env-vars)
}

now() { printf '%s' $((${EPOCHREALTIME/[.,]/} / 1000)); }

# seconds MILLISECONDS
seconds() { printf '%d.%d' $(($1 / 1000)) $(($1 % 1000 / 100)); }

# part NAME COMMAND..: runs one. Several may run at a time: what one has written is printed whole, when it has ended.
part() {
    local name=$1 began status=0
    shift
    began=$(now)
    "$@" </dev/null >"$logs/$name" 2>&1 || status=$?
    echo $(($(now) - began)) >"$logs/$name.time"
    echo "$status" >"$logs/$name.status"
    {
        flock 9
        printf '== %s, %s s\n' "$name" "$(seconds "$(<"$logs/$name.time")")"
        cat "$logs/$name"
    } 9>"$logs/.lock"
}

# row NAME..: tests that need one another, one after the other
row() {
    local name
    for name; do part "$name" "tests/$name"; done
}

# one COMMAND..: a command that counts as one test
one() {
    if "$@"; then
        echo '1 passed, 0 failed'
    else
        echo '0 passed, 1 failed'
        return 1
    fi
}

# counted NAME: adds what a part has counted. A part that shows too little is one failure more, and it is said why.
counted() {
    local name=$1 want=${least[$1]:-1} last status good=0 bad=0 wrong=''
    [ "$want" -ge 1 ] || want=1
    last=$(tail -n 1 "$logs/$name" 2>/dev/null | tr -d '\0')
    status=$(cat "$logs/$name.status" 2>/dev/null)
    if [[ $last =~ ^([0-9]{1,9})\ passed,\ ([0-9]{1,9})\ failed$ ]]; then
        good=$((10#${BASH_REMATCH[1]}))
        bad=$((10#${BASH_REMATCH[2]}))
    else
        wrong="its last line is not 'N passed, M failed'"
    fi
    if [ -z "$status" ]; then
        wrong='it was not run to its end'
    elif [ -z "$wrong" ] && [ "$((good + bad))" -lt "$want" ]; then
        wrong="it has $((good + bad)) tests, and should have $want or more"
    elif [ -z "$wrong" ] && [ "$status" != 0 ] && [ "$bad" = 0 ]; then
        wrong="its status is $status, and no test failed"
    fi
    if [ -n "$wrong" ]; then
        printf '%s FAILED: %s\n' "$name" "$wrong"
        bad=$((bad + 1))
    fi
    passed=$((passed + good))
    failed=$((failed + bad))
    printf '%s %s %s\n' "$name" "$good" "$bad" >>"$logs/.table"
}

# skipped NAME..: what parts could not test here and said so
skipped() {
    local name
    for name; do grep -h 'SKIPPED' "$logs/$name" 2>/dev/null; done
}

# table BEGAN NAME..: the seconds of what is no test, by name; seconds and tests of each part; the sum of the seconds, and the time since it began
table() {
    local began=$1 name good bad spent sum=0
    shift
    printf '%-12s %8s %8s %8s\n' part seconds passed failed
    while read -r name good bad; do
        spent=$(cat "$logs/$name.time" 2>/dev/null || echo 0)
        sum=$((sum + spent))
        printf '%-12s %8s %8s %8s\n' "$name" "$(seconds "$spent")" "$good" "$bad"
    done < <(for name; do echo "$name - -"; done && cat "$logs/.table")
    printf '%-12s %8s\n' sum "$(seconds "$sum")" 'wall time' "$(seconds $(($(now) - began)))"
}
