#!/bin/sh
# The worked schedules of examples/ through the shipped program, outside the gate: the answers, byte for byte, and
# the exit code and the sentence of one that is refused. Prints a line a schedule, and ends with 0 where each was
# as expected.
home=$(cd "$(dirname "$0")/.." && pwd)
examples=$home/examples
work=$(mktemp -d)
trap 'rm -rf "$work"' EXIT
failed=0

# replay RECORDING SCHEDULE
replay() {
    "$home/pqa" replay --udin 230000 "$examples/$1.cfg" "$examples/$1.dat" "$examples/$2.schedule" >"$work/out" 2>"$work/err"
}

told() {
    if [ "$1" = 0 ]; then
        echo "ok      $2"
    else
        echo "FAILED  $2"
        failed=1
    fi
}

while read -r recording schedule; do
    replay "$recording" "$schedule" && cmp "$work/out" "$examples/$schedule.answers"
    told $? "$schedule"
done <<'END'
two_intervals withheld_then_given
halved_half_cycles split_and_busy
two_intervals look_grab_halt
END

replay two_intervals post_of_an_idle_lane
[ $? = 10 ] && [ ! -s "$work/out" ] && [ "$(cat "$work/err")" = 'schedule line 2: not allowed' ]
told $? post_of_an_idle_lane
exit $failed
