#!/usr/bin/env python3
"""Writes an edge list of good frames, of at least so many bytes, to standard output.

    bench/edge_lists.py FORM BYTES

FORM is narrow, wide2 or wide8 (so many columns, the frames in the first), absolute or steps (version 2 in
units of 1,000 ns), or lines16 (narrow rows with the same frames on each of sixteen lines). Ticks of 3,000 ns,
six data nibbles that count up, no pause pulse, the recommended CRC-4. Each falling edge is followed by a rise
15,000 ns later.

Three more forms have narrow rows of another link on line 0, which hold only whole frames: psi5 has bursts at
125 kbit/s of a parity and ten data bits that count up, with the least quiet between; spc has triggers of each width
in turn and answers as the frames above; tooth has short frames that count up, after five missing pulses and one.
"""
import itertools
import sys

from readings import psi5, tooth

TABLE = [0, 13, 7, 10, 14, 3, 9, 4, 1, 12, 6, 11, 15, 2, 8, 5]


def crc4(nibbles):
    check = 5
    for nibble in nibbles + [0]:
        check = nibble ^ TABLE[check]
    return check


def edges():
    """The times in ns and the levels, without end."""
    time = 300_000
    value = 0
    yield 0, 1
    yield time, 0
    yield time + 15_000, 1
    while True:
        nibbles = [value >> shift & 15 for shift in (20, 16, 12, 8, 4, 0)]
        value = (value + 1) % (1 << 24)
        for ticks in [56, 12] + [12 + nibble for nibble in nibbles] + [12 + crc4(nibbles)]:
            time += 3_000 * ticks
            yield time, 0
            yield time + 15_000, 1


def narrow(toggles, level):
    """Rows of a line that has a level and then changes at these times."""
    return "".join(f"{time},0,{(level + place) % 2}\n" for place, time in enumerate(toggles, 1))


def bursts():
    """The rows of each burst."""
    setup = psi5.Setup(line=0)
    places = [psi5.changes(psi5.frame_bits(setup, [0, 0, 0, 0, code])) for code in range(1024)]
    start = 100_000
    yield "0,0,0\n"
    for code in itertools.cycle(places):
        yield narrow([start + 4_000 * place for place in code], 0)
        start += 8_000 * setup.size() + 9_000


def answers():
    """The rows of each trigger and its answer."""
    time = 300_000
    yield "0,0,1\n"
    for value in itertools.count():
        nibbles = [value >> shift & 15 for shift in (20, 16, 12, 8, 4, 0)]
        rise = time + 3_000 * (13, 25, 40, 59)[value % 4]
        times, time = [time, rise], rise + 60_000
        for ticks in [56, 12] + [12 + nibble for nibble in nibbles] + [12 + crc4(nibbles), 9]:
            times += [time, time + 15_000]
            time += 3_000 * ticks
        yield narrow(times, 1)
        time = times[-1] + 250_000


def downlinks():
    """The rows of each frame, with the pulse before its start."""
    time = 0
    yield "0,0,0\n"
    for value in itertools.count():
        bits = [1, 0, 0, 0, 0, 0, 1] + tooth.down_bits("short", [value >> 3 & 7, value & 7, 0, 0])
        rises = [time + 500_000 * place for place, bit in enumerate(bits, 1) if bit]
        yield narrow([edge for rise in rises for edge in (rise, rise + 50_000)], 0)
        time = rises[-1]


def rows(form):
    """The text of a list of SENT frames, row by row."""
    before = 0
    if form.startswith("wide"):
        columns = int(form[4:])
        yield "Time [s]" + ",LINE" * columns + "\n"
    elif form in ("absolute", "steps"):
        yield "# version 2 unit=1000ns\n"
    for time, level in edges():
        if form == "narrow":
            yield f"{time},0,{level}\n"
        elif form == "absolute":
            yield f"{time // 1000},0,{level}\n"
        elif form == "steps":
            yield f"+{(time - before) // 1000},0,{level}\n"
            before = time
        elif form == "lines16":
            yield "".join(f"{time},{line},{level}\n" for line in range(16))
        else:
            yield f"{time // 10**9}.{time % 10**9:09d},{level}" + ",0" * (columns - 1) + "\n"


def main():
    form, wanted = sys.argv[1], int(sys.argv[2])
    written = 0
    others = {"psi5": bursts, "spc": answers, "tooth": downlinks}
    for row in others[form]() if form in others else rows(form):
        sys.stdout.write(row)
        written += len(row)
        if written >= wanted:
            break


main()
