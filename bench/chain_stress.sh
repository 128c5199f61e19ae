#!/bin/sh
# A stress of chains: seven lanes and four sessions in threads over the generated recording of a seed, eight
# chains one after another and a million queries in all. Prints what was counted, and ends with 1 where an
# answer was not as it should be. The word is the seed, 1 where there is none. Outside the gate: wants a copy
# of the repository in TMPDIR, which `rt run` proves and builds. The files of chain_stress/ have a further
# ending, since the gate refuses sources that no crate has.
set -e
home=$(cd "$(dirname "$0")/.." && pwd)
work=$(mktemp -d)
trap 'rm -rf "$work"' EXIT
mkdir -p "$work/crates"
cp -r "$home"/crates/* "$work/crates"
cp "$home/HANDLES" "$work"
line=$(grep '^query_session:' "$home/crates.txt")
{
    cat "$home/crates.txt"
    echo "chain_stress: ${line#query_session: } query_session pq_generate"
} >"$work/crates.txt"
(cd "$home/bench" && find chain_stress -type f) | while read -r file; do
    mkdir -p "$work/crates/$(dirname "$file")"
    cp "$home/bench/$file" "$work/crates/${file%.txt}"
done
cd "$work/crates/chain_stress"
rt run -- "${1:-1}"
