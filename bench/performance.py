#!/usr/bin/env python3
"""Writes docs/PERFORMANCE.md and docs/performance.svg anew from a run of `make bench` and `make bench-instructions`.

Only the standard library. bench/notes.md, what was tried and found, is put at the end as it stands.
"""
import math
import os
import platform
import subprocess

ROOT = os.path.dirname(os.path.dirname(os.path.abspath(__file__)))
CALLS = ["soundness", "insert", "delete", "locate 1", "locate 100", "locate 10000"]
KINDS = ["below 10000", "none 10000"]
WINDOWS = ["window 2000", "window 8000", "window all"]
FIELDS = ["fields10", "fields100", "fields300", "fields1000"]


def output_of(target):
    print("make", target, "..", flush=True)
    done = subprocess.run(["make", "-s", target], cwd=ROOT, check=True, capture_output=True, text=True)
    return done.stdout


def read_times(text):
    """{map: {call: row}}; a row has lines, the library's quartiles, twin, naive."""
    times = {}
    for line in text.splitlines()[1:]:
        name, lines = line[:11].strip(), int(line[12:17])
        call, rest = line[19:31].strip(), line[31:].split()
        number = [None if word == "-" else float(word) for word in rest]
        keys = ["quarter", "library", "three", "twin", "naive", "of_twin", "faster"]
        times.setdefault(name, {})[call] = dict(zip(keys, number), lines=lines)
    return times


def read_instructions(text):
    rows, shares, scans = [[line.split() for line in part.splitlines()[1:]] for part in text.strip().split("\n\n")]
    counts = {(r[0], r[1]): (int(r[2]), int(r[3])) for r in rows}
    shares = [(r[0], int(r[2]), int(r[3]), float(r[4])) for r in shares]
    return counts, shares, [(r[0], r[1], *map(int, r[2:6]), float(r[6])) for r in scans]


def processor():
    try:
        with open("/proc/cpuinfo") as info:
            for line in info:
                if line.startswith("model name"):
                    return line.split(":", 1)[1].strip()
    except OSError:
        pass
    return platform.machine()


def short(t):
    """Microseconds, three figures or so."""
    return f"{t:,.1f}" if t < 100 else f"{t:,.0f}"


def per_point(calls, way="library", call="locate 10000"):
    """Nanoseconds a point, the check of the map taken off."""
    return (calls[call][way] - calls["soundness"][way]) / 10000 * 1000


def cell(figure, good):
    return figure if good else f"**{figure}, missed**"


def must_show(times, counts, scans):
    """The demands are for about 1,000 lines: each is told for every map of that size, not for fields alone."""
    names = [name for name, calls in times.items() if calls["insert"]["lines"] >= 900]
    rows = ["| Asked at about 1,000 lines | " + " | ".join(names) + " |", "|---|" + "---|" * len(names)]

    def row(asked, figure, good, style):
        cells = [cell(format(figure(times[n]), style), good(figure(times[n]))) for n in names]
        rows.append(f"| {asked} | " + " | ".join(cells) + " |")

    for call in ["insert", "delete", "locate 1"]:
        row(f"{call} over the twin: at most 1.1", lambda m: m[call]["of_twin"], lambda r: r <= 1.1, ".2f")
    row("soundness, times faster than naive: at least 60", lambda m: m["soundness"]["faster"], lambda r: r >= 60, ".0f")
    row("locate of 10,000 points, whole call, times faster than plain search: at least 8",
        lambda m: m["plain search"]["faster"], lambda r: r >= 8, ".1f")
    row("one point of many, ns: 150", per_point, lambda r: r <= 150, ".0f")
    grows = times["fields1000"]["insert"]["library"] / times["fields100"]["insert"]["library"]
    rows.append("| insert over one at 100 lines of fields: at most 12 | " + cell(f"{grows:.1f}", grows <= 12) +
                " | - " * (len(names) - 1) + "|")
    most = {n: max([scan[-1] for scan in scans if scan[0] == n], default=None) for n in names}
    rows.append("| a window's scan, percent of the call's instructions: at most 10 | " +
                " | ".join("-" if most[n] is None else cell(f"{most[n]:.1f}", most[n] <= 10) for n in names) + " |")
    counted = ", ".join(f"{call} {library / twin:.3f}" for (name, call), (library, twin) in counts.items()
                        if name == "fields1000")
    return "\n".join(rows) + f"\n\nLibrary over twin in instructions, fields1000: {counted}."


def elsewhere(times):
    """What all maps, small ones too, say to the demands on the twin and on plain search."""
    dear = [f"{name} {call} {calls[call]['of_twin']:.2f}" for name, calls in times.items()
            for call in ["insert", "delete", "locate 1"] if calls[call]["of_twin"] > 1.1]
    slow = [f"{name} {1 / calls['plain search']['faster']:.2f} times" for name, calls in times.items()
            if calls["plain search"]["faster"] < 0.8]
    twin = per_point(times["fields1000"], "twin")
    return ("- Insert, delete or locate 1 above 1.1 times the twin, on any map: " + (", ".join(dear) or "none") + ".\n"
            "- Locate of 10,000 points slower than plain search by more than a quarter: " + (", ".join(slow) or "none") +
            f".\n- One point of many costs the twin {twin:.0f} ns at 1,000 lines of fields.")


def time_table(times, names):
    rows = ["| Map | Lines | " + " | ".join(CALLS) + " | ns a point |", "|---|---|" + "---|" * 7]
    for name in names:
        calls = times[name]
        cells = [short(calls[c]["library"]) for c in CALLS]
        rows.append(f"| {name} | {calls['insert']['lines']} | " + " | ".join(cells) + f" | {per_point(calls):.0f} |")
    return "\n".join(rows)


def spread_table(times):
    rows = ["| Call at 1,000 lines of fields | a quarter below | median | three quarters below | twin | naive |",
            "|---|---|---|---|---|---|"]
    for call in CALLS:
        r = times["fields1000"][call]
        rows.append(f"| {call} | " + " | ".join(short(r[k]) for k in ["quarter", "library", "three", "twin", "naive"]) + " |")
    return "\n".join(rows)


def ratio_table(times, key, style):
    rows = ["| Map | " + " | ".join(CALLS) + " |", "|---|" + "---|" * 6]
    for name, calls in times.items():
        rows.append(f"| {name} | " + " | ".join(format(calls[c][key], style) for c in CALLS) + " |")
    return "\n".join(rows)


def search_table(times):
    rows = ["| Map | locate 10,000, whole call, µs | plain search alone, µs | times faster |", "|---|---|---|---|"]
    for name, calls in times.items():
        r = calls["plain search"]
        rows.append(f"| {name} | {short(r['library'])} | {short(r['naive'])} | {r['faster']:.1f} |")
    return "\n".join(rows)


def kind_table(times):
    rows = ["| Map | " + " | ".join(f"{k}, ns a point | the twin's | whole call over twin | times faster than naive" for k in KINDS) + " |",
            "|---|" + "---|" * 8]
    for name, calls in times.items():
        cells = [cell for k in KINDS for cell in [f"{per_point(calls, call=k):.0f}", f"{per_point(calls, 'twin', k):.0f}",
                                                  f"{calls[k]['of_twin']:.2f}", f"{calls[k]['faster']:,.1f}"]]
        rows.append(f"| {name} | " + " | ".join(cells) + " |")
    return "\n".join(rows)


def window_table(times):
    rows = ["| Map | Lines | soundness | " + " | ".join(WINDOWS) + " | " + " | ".join(f"{w} over twin" for w in WINDOWS) + " |",
            "|---|---|---|" + "---|" * 6]
    for name, calls in times.items():
        cells = [short(calls[c]["library"]) for c in ["soundness"] + WINDOWS] + [f"{calls[w]['of_twin']:.2f}" for w in WINDOWS]
        rows.append(f"| {name} | {calls['insert']['lines']} | " + " | ".join(cells) + " |")
    return "\n".join(rows)


def scan_table(scans):
    rows = ["| Map | window | instructions of the call | of these not in the check | percent | a walk | a walk with an index |",
            "|---|---|---|---|---|---|---|"]
    for name, window, call, scan, walk, indexed, percent in scans:
        rows.append(f"| {name} | {window} | {call:,} | {scan:,} | {percent:.1f} | {walk:,} | {indexed:,} |")
    return "\n".join(rows)


def instruction_table(counts):
    rows = ["| Map | Call | library | twin | of twin |", "|---|---|---|---|---|"]
    for (name, call), (library, twin) in counts.items():
        rows.append(f"| {name} | {call} | {library:,} | {twin:,} | {library / twin:.3f} |")
    return "\n".join(rows)


def share_table(shares):
    rows = ["| Map | instructions of a soundness check | in `conflict`, called for pairs of one leaf | percent |",
            "|---|---|---|---|"]
    for name, whole, pairs, percent in shares:
        rows.append(f"| {name} | {whole:,} | {pairs:,} | {percent:.1f} |")
    return "\n".join(rows)


COLOURS = ["#1b6ca8", "#c0392b", "#e08e0b", "#2e7d32", "#7b4fa3", "#444444"]


def picture(times):
    """Both axes by powers of ten: lines across, microseconds up."""
    wide, high, left, top, bottom = 800, 440, 70, 30, 50
    width, height = 520, high - top - bottom
    low, most = 1, 4

    def x(lines):
        return left + width * (math.log10(lines) - 1) / 2

    def y(t):
        return top + height * (1 - (math.log10(t) - low) / (most - low))

    out = [f'<svg xmlns="http://www.w3.org/2000/svg" viewBox="0 0 {wide} {high}" font-family="sans-serif" font-size="13">',
           f'<rect width="{wide}" height="{high}" fill="#ffffff"/>',
           f'<text x="{left}" y="18" fill="#222">The library\'s calls on maps of fields: microseconds by lines</text>']
    for power in range(low, most + 1):
        at = y(10 ** power)
        out.append(f'<line x1="{left}" y1="{at:.1f}" x2="{left + width}" y2="{at:.1f}" stroke="#ddd"/>')
        out.append(f'<text x="{left - 8}" y="{at + 4:.1f}" text-anchor="end" fill="#444">{10 ** power:,}</text>')
    for lines in [10, 100, 300, 1000]:
        at = x(lines)
        out.append(f'<line x1="{at:.1f}" y1="{top}" x2="{at:.1f}" y2="{top + height}" stroke="#eee"/>')
        out.append(f'<text x="{at:.1f}" y="{top + height + 20}" text-anchor="middle" fill="#444">{lines:,}</text>')
    out.append(f'<text x="{left + width / 2}" y="{high - 8}" text-anchor="middle" fill="#444">lines on the map</text>')
    ends = []
    for colour, call in zip(COLOURS, CALLS):
        dots = [(x(times[n][call]["lines"]), y(times[n][call]["library"])) for n in FIELDS]
        out.append(f'<polyline fill="none" stroke="{colour}" stroke-width="2" points="' +
                   " ".join(f"{a:.1f},{b:.1f}" for a, b in dots) + '"/>')
        out += [f'<circle cx="{a:.1f}" cy="{b:.1f}" r="3" fill="{colour}"/>' for a, b in dots]
        ends.append([dots[-1][1], dots[-1][1], colour, call, times["fields1000"][call]["library"]])
    ends.sort()
    for i in range(len(ends) - 2, -1, -1):           # labels pushed up where they would overlap
        ends[i][0] = min(ends[i][0], ends[i + 1][0] - 17)
    for at, dot, colour, call, t in ends:
        out.append(f'<line x1="{left + width + 5}" y1="{dot:.1f}" x2="{left + width + 20}" y2="{at:.1f}" stroke="{colour}"/>')
        out.append(f'<text x="{left + width + 24}" y="{at + 4:.1f}" fill="{colour}">{call}: {short(t)} µs</text>')
    out.append("</svg>")
    return "\n".join(out) + "\n"


PAGE = """# Performance

Written by `make performance` (bench/performance.py): do not edit here. `make bench` prints the times, `make
bench-instructions` the counts; both are in bench/, and neither is part of a test.

The library stands beside two others in one run. The **twin** (bench/twin.c) is the same algorithm in plain C, gcc -O2. The
**naive way** (bench/naive.c) tests all pairs of lines for conflicts, asks all lines at every block, and all lines at every
lookup. The three take turns call by call, and their answers and tables are compared as it goes: a difference stops the run.

Times are microseconds of processor time, whole calls, medians, the largest tables lent (1,024 slots, 16,384 nodes and
listings), on {processor}, a machine with other work on it. Ratios, each the median of the turns' own, say more than times;
instructions, counted by callgrind, are the same in every run. Soundness is a locate of no points: it has the
clearing and making of the lookup's index in it too. A line chosen by chance is deleted and inserted again. Points are
spread evenly over the whole map, but for ditches: there all points stand in the ditches.

## What was asked

{must}

Ratios of times differ by some hundredths from run to run; the instructions do not.

{elsewhere}

## How time grows with lines

![Each call's time on maps of 10, 100, 300 and 1,000 lines](performance.svg)

{growth}

The ns a point are those of locate 10000 without its check of the map.

## Spread

{spread}

## Other maps

slivers: long thin wedges. furrows: plots of ten parallels, 24 steps apart. fences: loose, up to 300 steps. fans: wheels of
16 spokes. ditches: three long upright ones of two banks, over whose points hundreds of leaves stand, and loose fences. hub250
to hub1000: one fan whose leaf lists all its spokes.

{others}

Library over twin (below 1: the library is faster):

{twin}

Times faster than the naive way, whole calls, each with its own check of the map:

{naive}

Against a plain search of all lines for each point, with no check of the map at all, while the library's call has its check:

{search}

## Points by kind

Below: all points have a line that counts below them, and are on no line. None: no line counts below, and the nearest above
answers, or 0. Both kinds are drawn over the whole map, in ditches too; where one is rare its points are repeated (below, on the hubs).

{kinds}

## Windows

A window reads every live line once, after the check of the map. Microseconds of squares of side 2,000 and 8,000 in the middle of the
map and of the whole map; soundness has the clearing and making of the lookup's index in it, which a window does not need:

{windows}

Beside the scan the least that a walk of the tree would take in its place (bench/window.c, no line of a leaf tested), without an
index of the node table and with one that is made first:

{scans}

## Instructions

Refused is an insert of the map's last line once more: every other line is tested before it, and then how it conflicts.

{instructions}

## Pairs in a leaf

A soundness check tests for conflict each two lines of one leaf, in a fan those on one side. In `conflict` alone, without the
loops around it:

{shares}

{notes}"""


def main():
    times = read_times(output_of("bench"))
    counts, shares, scans = read_instructions(output_of("bench-instructions"))
    with open(os.path.join(ROOT, "bench/notes.md")) as f:
        notes = f.read()
    others = [name for name in times if name not in FIELDS]
    page = PAGE.format(processor=processor(), must=must_show(times, counts, scans), elsewhere=elsewhere(times), growth=time_table(times, FIELDS),
                       spread=spread_table(times), others=time_table(times, others),
                       twin=ratio_table(times, "of_twin", ".2f"), naive=ratio_table(times, "faster", ",.1f"),
                       search=search_table(times), kinds=kind_table(times), windows=window_table(times), scans=scan_table(scans),
                       instructions=instruction_table(counts), shares=share_table(shares), notes=notes)
    with open(os.path.join(ROOT, "docs/PERFORMANCE.md"), "w") as f:
        f.write(page)
    with open(os.path.join(ROOT, "docs/performance.svg"), "w") as f:
        f.write(picture(times))
    print("docs/PERFORMANCE.md and docs/performance.svg are written")


if __name__ == "__main__":
    main()
