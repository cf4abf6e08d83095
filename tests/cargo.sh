# shellcheck shell=bash
# Counting what cargo's commands do. Sourced by the tests of Rust's crates, after same.sh.
log=$(mktemp)
trap 'rm -f "$log"' EXIT

# succeeds NAME COMMAND..: one test by the command's status; what it prints is also in $log
succeeds() {
    local name=$1 code
    shift
    "$@" 2>&1 | tee "$log"
    code=${PIPESTATUS[0]}
    count "$name" "$([ "$code" = 0 ] || printf 'status %s' "$code")"
}

# add PASSED FAILED
add() {
    passed=$((passed + $1))
    failed=$((failed + $2))
}

# results: cargo prints one for each program of tests
results() {
    local good bad
    while read -r good bad; do add "$good" "$bad"; done < <(sed -n 's/^test result: .* \([0-9]*\) passed; \([0-9]*\) failed.*/\1 \2/p' "$log")
}
