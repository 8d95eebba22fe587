#!/bin/sh
# The scripts that a person runs, over what is proved already: what each prints at its end. One line for each, and how many passed.
cd "$(dirname "$0")/.." || exit 2
room=$(mktemp -d) || exit 2
trap 'rm -rf "$room"' EXIT
passed=0 failed=0

# The end of what a script prints, compared with what is expected, a file; then the script and its arguments.
ends() {
    expected=$1
    shift
    if "$@" </dev/null >"$room/said" 2>&1 && tail -n "$(wc -l <"$expected")" "$room/said" | cmp - "$expected"; then
        passed=$((passed + 1)) verdict=ok
    else
        failed=$((failed + 1)) verdict=FAILED
        tail -n 20 "$room/said"
    fi
    echo "script $*: $verdict"
}

# The answer to a line that the caretaker's page shows.
shown() {
    sed -n "/^    $1\$/,/^    type instead/p" docs/CARETAKER.md | sed -e 1d -e 's/^    //' >"$room/shown"
    [ -s "$room/shown" ] || echo 'docs/CARETAKER.md shows no answer' >"$room/shown"
}

ends crates/watch/stdout ./watch
shown '8 1 32768'
ends "$room/shown" ./settings 8 1 32768
shown '8 8 320 m'
ends "$room/shown" ./settings 8 8 320 m
ends crates/day/stdout ./day crates/day/stdin
head -n 4 crates/picture/stdout >"$room/drawn"
ends "$room/drawn" ./picture $(head -n 1 crates/picture/stdin)
echo "$passed passed, $failed failed"
[ "$failed" -eq 0 ]
