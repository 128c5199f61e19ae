#!/usr/bin/env python3
"""Loads a report with pandas, with no option but the columns of dates, and plots the values of a channel.

usage: scripts/pandas_report.py REPORT [CHANNEL [PICTURE]]

Prints how many items of each kind there are. CHANNEL is 1 where it isn't given; PICTURE, as report.png, is
written where matplotlib is installed. Outside the gate: nothing else needs pandas (Debian: python3-pandas).
"""

import sys

DATES = ["from", "to", "tick"]


def load(pandas, path):
    """The report as a table: places and values are whole numbers, from, to and tick moments in UTC."""
    report = pandas.read_csv(path, parse_dates=DATES)
    for column in ["start", "end", "value", "count"]:
        if len(report) and report[column].dtype != "int64":
            raise SystemExit(f"{path}: column {column} isn't read as whole numbers")
    for column in DATES[:2]:
        if len(report) and str(report[column].dtype) != "datetime64[ns, UTC]":
            raise SystemExit(f"{path}: column {column} isn't read as moments")
    return report


def plot(report, channel, picture):
    """The values of the channel over time: its records and events in volts, of channel 0 the frequency in hertz."""
    try:
        import matplotlib
    except ImportError:
        print("matplotlib is not installed, so nothing is plotted")
        return
    matplotlib.use("Agg")
    from matplotlib import pyplot

    figure, axes = pyplot.subplots()
    rows = report[report["channel"] == channel]
    for index, (kind, group) in enumerate(rows.groupby("kind", sort=False)):
        axes.hlines(group["value"] / 1e6, group["from"], group["to"], colors=f"C{index}", linewidth=2, label=kind)
    axes.set_ylabel("V" if channel else "Hz")
    axes.set_title(f"channel {channel}")
    axes.legend(loc="upper left", bbox_to_anchor=(1, 1))
    figure.autofmt_xdate()
    figure.savefig(picture, bbox_inches="tight")
    print(f"plotted into {picture}")


def main():
    if len(sys.argv) not in (2, 3, 4):
        raise SystemExit(__doc__)
    try:
        import pandas
    except ImportError:
        print("pandas is not installed, so the report is not loaded (Debian: python3-pandas)")
        return
    report = load(pandas, sys.argv[1])
    print(report.groupby(["kind", "mark"], sort=False).size().to_string() if len(report) else "no items")
    if len(sys.argv) == 4:
        plot(report, int(sys.argv[2]), sys.argv[3])
    elif len(sys.argv) == 3:
        plot(report, int(sys.argv[2]), "report.png")


if __name__ == "__main__":
    main()
