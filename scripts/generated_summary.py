"""The summaries of generated recordings, worked out apart from the program: python3 generated_summary.py SEED..

It takes for granted what holds of these recordings alone: each disturbance begins and ends with a cycle, so boundaries lie at
24, 36, 48 and so on; no two disturbances meet; a tick of ten minutes lies at samples 1,200 and 721,200.
"""
import sys
from math import isqrt

SAMPLES = 722_400
SINE = [0, 2588, 5000, 7071, 8660, 9659, 10000, 9659, 8660, 7071, 5000, 2588]
SINE += [-count for count in SINE]
KINDS = "freq", "basic", "short", "ten", "two", "dip", "swell", "interruption"


def changed(count, manner):
    """Nothing, a half or six fifths of a count, toward zero."""
    size = abs(count)
    size = [0, size // 2, 6 * size // 5][manner]
    return size if count >= 0 else -size


def disturbances(seed):
    """First cycle, cycles, channel and manner of each."""
    for index in range(10):
        seed = (6364136223846793005 * seed + 1442695040888963407) % 2**64
        yield 3000 * index + 100 + (seed >> 33) % 2000, 1 + (seed >> 20) % 50, 1 + (seed >> 10) % 3, (seed >> 5) % 3


def squares(channel, disturbed):
    """The sum of squares of each half cycle of a channel."""
    manners = [None] * (SAMPLES // 24)
    for first, cycles, at, manner in disturbed:
        if at == channel:
            manners[first : first + cycles] = [manner] * cycles
    halves = []
    for manner in manners:
        cycle = SINE if manner is None else [changed(count, manner) for count in SINE]
        halves += [sum((32_500 * count) ** 2 for count in half) for half in (cycle[:12], cycle[12:])]
    return halves


def event(halves, first, cycles):
    """The one event of a disturbance: whether it is a swell, its span and its worst value."""
    low = high = start = worst = None
    for half in range(2 * first - 3, 2 * (first + cycles) + 3):
        value = isqrt((halves[half] + halves[half + 1]) // 24)
        if start is None and (value < 207_000_000 or value > 253_000_000):
            start, worst, high = 12 * half, value, value > 253_000_000
        elif start is not None and (value <= 248_400_000 if high else value >= 211_600_000):
            return high, start, 12 * half + 24, worst
        elif start is not None:
            worst = max(worst, value) if high else min(worst, value)


def mean(values):
    return isqrt(sum(value**2 for value in values) // len(values))


def items(seed):
    """End, rank of the kind, start, channel, value and mark of each item, in order."""
    disturbed = list(disturbances(seed))
    halves = {channel: squares(channel, disturbed) for channel in (1, 2, 3)}
    events = [(channel, *event(halves[channel], first, cycles)) for first, cycles, channel, _ in disturbed]
    found = [(end, 6 if swell else 5, start, channel, worst, False) for channel, swell, start, end, worst in events]

    def is_flagged(start, end):
        return any(begun < end and start < ended for _, _, begun, ended, _ in events)

    for start in range(1200, 721_200, 12_000):
        found.append((start + 12_000, 0, start, 0, 50_000_000, is_flagged(start, start + 12_000)))
    starts = [24 + 240 * k for k in range(5)] + [1200 + 240 * k for k in range(3000)] + [721_200 + 240 * k for k in range(4)]
    groups = [starts[:15]] + [starts[5 + 15 * k : 20 + 15 * k] for k in range(200)]
    for channel, own in halves.items():
        values = {start: isqrt(sum(own[start // 12 : start // 12 + 20]) // 240) for start in starts}
        flags = {start: is_flagged(start, start + 240) for start in starts}
        found += [(start + 240, 1, start, channel, values[start], flags[start]) for start in starts]
        for rank, some in [(2, group) for group in groups] + [(3, starts[5:3005])]:
            marked = any(flags[start] for start in some)
            found.append((some[-1] + 240, rank, some[0], channel, mean([values[start] for start in some]), marked))
    return sorted(found)


for seed in map(int, sys.argv[1:]):
    all_items = items(seed)
    print(f"seed {seed}\nsamples {SAMPLES}")
    for rank, kind in enumerate(KINDS):
        marks = [item[5] for item in all_items if item[1] == rank]
        print(kind, len(marks), "open" if rank > 4 else "flagged", sum(marks))
    fold = 0
    for end, _, _, _, value, _ in all_items:
        fold = (31 * fold + value + end) % 2**64
    print("fold", fold)
