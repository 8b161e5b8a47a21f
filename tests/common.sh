# Sourced by the suites.

# Builds the archive of a crate, the library's if none is named, anew where it is missing or a source is newer. (.ci/run takes it away first.)
archive() {
    ./build "${1:-ropeclover}" 2>&1
}

# Runs a cargo test command: a line for each of its suites, what failed in full, and the closing line 'N passed, M failed'.
suites() {
    local log status passed failed
    log=$(mktemp)
    "$@" >"$log" 2>&1
    status=$?
    awk '/^ *Running / { suite = $2 == "unittests" ? $3 : $2 }
         /^ *Doc-tests / { suite = "examples in the documentation" }
         /^test result: / { printf "%s: %d passed, %d failed\n", suite, $4, $6 }' "$log"
    [ "$status" -eq 0 ] || grep -vE '^test .* \.\.\. ok$|^ *(Compiling|Running|Finished)' "$log" | tail -n 200
    passed=$(awk '/^test result: / { n += $4 } END { print n + 0 }' "$log")
    failed=$(awk '/^test result: / { n += $6 } END { print n + 0 }' "$log")
    if [ "$status" -ne 0 ] && [ "$failed" -eq 0 ]; then failed=1; fi
    rm -f "$log"
    echo "$passed passed, $failed failed"
    [ "$failed" -eq 0 ]
}
