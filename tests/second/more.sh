#!/bin/sh
# As many more sessions as one likes, from any seed, a part at a time; stops at the first difference.
#
#   tests/second/more.sh SEED SESSIONS [FOLDER]      FOLDER as for gate.sh
[ $# -ge 2 ] || { sed -n '2,4p' "$0"; exit 2; }
here=$(cd "$(dirname "$0")" && pwd)
seed=$1 left=$2 built=${3:-$here/../../crates/compared/out}
room=$(mktemp -d) || exit 2
trap 'rm -rf "$room"' EXIT

while [ "$left" -gt 0 ]; do
    part=$((left < 50 ? left : 50))
    python3 "$here/run_second.py" --quiet --seed "$seed" --sessions "$part" --text "$room/text" --expected "$room/expected" >"$room/said" || exit 1
    "$built/compared" <"$room/text" >"$room/got" || exit 1
    echo "seed $seed: $(head -n 1 "$room/said")"
    python3 "$here/compare.py" "$room/text" "$room/expected" "$room/got" || exit 1
    left=$((left - part)) seed=$((seed + 1))
done
