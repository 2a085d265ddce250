# shellcheck shell=bash
# How tests are counted, for tests/run and, through test.sh, for every test: `passed` and `failed` are the counts so
# far.

# shellcheck disable=SC2034 # read by whoever sources this file
passed=0 failed=0

# Adds the counts of a run, whose last line is 'N passed, M failed'. One that broke off before that line, one that
# ended badly without a failure and one that tested nothing count as one failure.
add_counts() { # FILE STATUS
    local ok=0 bad=0
    if [[ $(tail -n 1 "$1") =~ ^([0-9]+)\ passed,\ ([0-9]+)\ failed$ ]]; then
        ok=${BASH_REMATCH[1]} bad=${BASH_REMATCH[2]}
    fi
    if [ "$bad" -eq 0 ] && { [ "$2" -ne 0 ] || [ "$ok" -eq 0 ]; }; then
        bad=1
    fi
    passed=$((passed + ok)) failed=$((failed + bad))
}

# Prints the counts as the last line, and says whether nothing failed.
finish() {
    echo "$passed passed, $failed failed"
    [ "$failed" -eq 0 ]
}
