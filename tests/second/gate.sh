#!/bin/sh
# The fixed sessions of the gate: the second program's own checks, the proved library against the second program, wrong
# second programs that the sessions must tell apart, the caretakers' program against the second program's setup and the
# hobbyist's program against its frames. One line for each, and how many passed.
#
#   tests/second/gate.sh [FOLDER]      FOLDER has the programs `compared`, `settings` and `picture` (default: as `rt ci` leaves them,
#                                      each in the out/ of its crate)
here=$(cd "$(dirname "$0")" && pwd)
built=${1:-}
page=$here/../../docs/CARETAKER.md
room=$(mktemp -d) || exit 2
trap 'rm -rf "$room"' EXIT
passed=0 failed=0

# One step: its name, then its command; what the command says is printed.
step() {
    name=$1
    shift
    if "$@" >"$room/said" 2>&1; then
        passed=$((passed + 1)) verdict=ok
    else
        failed=$((failed + 1)) verdict=FAILED
    fi
    cat "$room/said"
    echo "$name: $verdict"
}

# Runs a program on a text, both named; what it prints goes to a third file.
play() {
    "${built:-$here/../../crates/$1/out}/$1" <"$room/$2" >"$room/$3" && echo "$(wc -l <"$room/$3") lines printed"
}

# A program on short texts that end in different ways: its name, the checker of its answers and what that reads besides.
endings() {
    program=$1 checker=$here/$2
    shift 2
    last=$(python3 "$checker" --last) || return 1
    while [ "$last" -gt 0 ]; do
        last=$((last - 1))
        python3 "$checker" --last "$last" "$room/short" && play "$program" short ended >"$room/lines" || return 1
        python3 "$checker" --check "$room/short" "$room/ended" "$@" --some || return 1
    done
}

# The wrong programs take longest and read nothing that another step writes: they are tried beside the other steps.
python3 "$here/mutants.py" --quiet >"$room/mutants" 2>&1 &
trying=$!

# What they came to.
tried() {
    wait "$trying"
    status=$?
    cat "$room/mutants"
    return "$status"
}

step 'second program by itself' python3 "$here/test_second.py"
step 'fixed sessions written' python3 "$here/run_second.py" --text "$room/text" --expected "$room/expected"
step 'proved library plays them' play compared text got
step 'proved library agrees' python3 "$here/compare.py" "$room/text" "$room/expected" "$room/got"
step 'settings written' python3 "$here/settings2.py" --write "$room/settings"
step 'caretakers program reads them' play settings settings told
step 'caretakers program agrees' python3 "$here/settings2.py" --check "$room/settings" "$room/told" "$page"
step 'caretakers program ends well' endings settings settings2.py "$page"
step 'pictures written' python3 "$here/picture2.py" --write "$room/pictures"
step 'picture program reads them' play picture pictures drawn
step 'picture program agrees' python3 "$here/picture2.py" --check "$room/pictures" "$room/drawn"
step 'picture program ends well' endings picture picture2.py
step 'wrong programs told apart' tried
echo "$passed passed, $failed failed"
[ "$failed" -eq 0 ]
