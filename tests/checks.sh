# Shared by the tests on files: a folder of their own, and checks that are counted. Sourced, not run.
set -u
root=$(dirname "$(dirname "$(readlink -f "$0")")")
script=$(basename "$0")
work=$(mktemp -d)
trap 'rm -rf "$work"' EXIT
failed=0
passed=0

check() { # NAME CONDITION..
    name=$1
    shift
    if "$@"; then passed=$((passed + 1)); else failed=$((failed + 1)); echo "$script: failed: $name"; fi
}

skip() { # REASON
    echo "$script: skipped: $1"
}

finish() {
    echo "$passed passed, $failed failed"
    test "$failed" -eq 0
}
