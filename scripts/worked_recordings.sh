#!/bin/sh
# The worked recordings of examples/ through the shipped program, by one thread and by lanes, outside the gate: each
# report, byte for byte. Prints a line a recording and command, and ends with 0 where each was as expected.
home=$(cd "$(dirname "$0")/.." && pwd)
work=$(mktemp -d)
trap 'rm -rf "$work"' EXIT
failed=0

for wanted in "$home"/examples/*.csv; do
    recording=${wanted%.csv}
    name=$(basename "$recording")
    for command in intervals analyse; do
        if "$home/pqa" $command --udin 230000 "$recording.cfg" "$recording.dat" >"$work/out" && cmp "$work/out" "$wanted"; then
            echo "ok      $name by $command"
        else
            echo "FAILED  $name by $command"
            failed=1
        fi
    done
done
exit $failed
