#!/bin/sh
# Proves a program and all that it stands on, the lowest crate first, and builds it: crates/PROGRAM/out/PROGRAM. The checker's own words go to
# target/PROGRAM.log. A program that target/PROGRAM.proved notes as proved and built from just these files is not proved again.
#
#   tests/prove.sh PROGRAM
#   tests/prove.sh --note START PROGRAM..     for the gate, after `rt ci` has proved everything: notes these programs; START is a file that was made before
cd "$(dirname "$0")/.." && mkdir -p target || exit 1

# The crates: those that the program's line in crates.txt names and that have a line of their own, and the program.
crates_of() {
    for crate in $(sed -n "s/^$1://p" crates.txt) "$1"; do
        if grep -q "^$crate:" crates.txt; then echo "$crate"; fi
    done
}

# What the proofs of a program's crates are made from.
sources_of() {
    echo crates.txt
    for crate in $(crates_of "$1"); do
        for part in src specs proofs; do
            if [ -d "crates/$crate/$part" ]; then echo "crates/$crate/$part"; fi
        done
    done
}

# A checksum of the toolchain's name, of every source and of the program as it is built.
sum_of() {
    { rt version && find $(sources_of "$1") -type f -exec sha256sum {} + | LC_ALL=C sort && sha256sum "crates/$1/out/$1"; } | sha256sum
}

# Notes a program as proved and built, unless one of its sources has changed since a file was made.
note() {
    if [ -x "crates/$2/out/$2" ] && [ -z "$(find $(sources_of "$2") -newer "$1")" ]; then sum_of "$2" >"target/$2.proved"; fi
}

if [ "$1" = --note ]; then
    start=$2
    shift 2
    for program in "$@"; do note "$start" "$program"; done
    exit
fi

program=$1 log=$PWD/target/$1.log
total=$(crates_of "$program" | wc -l) told=0
echo "This proves the program $program and the crates that it stands on, $total in all, and then runs it; the first time that takes minutes."
if [ -x "crates/$program/out/$program" ] && sum_of "$program" | cmp -s - "target/$program.proved"; then
    echo "All $total crates are proved already, and unchanged since."
    echo
    exit
fi

# One crate: a library is proved and built, the program is proved, built and run once on nothing.
prove() {
    if [ "$1" = "$program" ]; then verb=run; else verb=lib; fi
    (cd "crates/$1" && rt "$verb") </dev/null >"$log.part" 2>&1
    ended=$?
    cat "$log.part" >>"$log"
    return "$ended"
}

: >"$log"
start=$(mktemp) || exit 1
trap 'rm -f "$start" "$log.part"' EXIT
for crate in $(crates_of "$program"); do
    told=$((told + 1)) began=$(date +%s)
    printf '[%2d of %d] %s: ' "$told" "$total" "$crate"
    if ! prove "$crate"; then
        echo 'NOT PROVED'
        echo "Not proved. All that the checker said is in $log; the last of it that tells why:"
        grep -i 'error\|not proved\|failed\|not built' "$log.part" | cut -c 1-300 | tail -n 12
        exit 1
    fi
    if [ -s "$log.part" ]; then echo "proved, $(($(date +%s) - began)) s"; else echo 'proved already'; fi
done
note "$start" "$program"
echo
