#!/usr/bin/env python3
"""Reads random captures a second way, and compares with what the program writes.

    bench/second_reading.py [--kinds KINDS] [CAPTURES [SEED]]      1000 captures of all kinds unless said
    bench/second_reading.py --alone [--kinds KINDS] [CAPTURES [SEED]]
    bench/second_reading.py --self-test

KINDS are some of sent, psi5, spc and tooth, parted by commas. The reading, in bench/readings/, is slow and plain:
it looks at whole lists, tries all sixteen values of a pulse and divides polynomials bit by bit, and shares no code
with the program. The captures have one to three sensors, each on lines of its own, and one to sixteen channels with
all keys, drift and jitter within and beyond the bounds, broken pulses and bursts, wrong CRCs, messages and phases
with wrong bits, repeated levels and edges of other lines. Both commands, decode and check, are run. Ends with
status 1 at the first capture that differs, says where, and keeps its list.

With --alone the program isn't run: what the captures hold is counted, and the rules that none breaks are named.
With --program PATH another program is compared.
With --self-test the reading is compared with captures whose reports were worked out by hand, and programs that answer
wrongly have to be told.
"""
import argparse
import pathlib
import random
import subprocess
import sys
import tempfile

from readings import psi5, sent, spc, stubs, tooth, worked

PROGRAM = pathlib.Path(__file__).parent.parent / ".built" / "pulselink"
KINDS = {"sent": sent, "psi5": psi5, "spc": spc, "tooth": tooth}
RULES = {
    "sent": "NoCalibration Drift NibbleRange Check PauseRange Copy Restart Zero13 Zero18 SerialCheck",
    "psi5": "FirstFall TooShort Phase StartBit TooLong TooFew EndsHigh Psi5Check NoSync NoSlot SlotTwice InitOrder "
    "InitRepeat",
    "spc": "NoCalibration NibbleRange Check TriggerWidth Delay",
    "tooth": "SyncBit DownCheck StartPattern",
}
COUNTED = {
    "good": ("frame", "answer", "psi5", "down"),
    "bad": ("bad", "counter", "noanswer"),
    "messages": ("short", "enhanced4", "enhanced8", "init"),
}


def kind_of(setup):
    return sys.modules[type(setup).__module__]


def edges_of(rows):
    """The edges of a list: the number of the row, its line, a time and a level each."""
    edges, levels = [], {}
    for row, (time, line, level) in enumerate(rows):
        if levels.get(line) != level:
            edges.append((row, line, time, level))
        levels[line] = level
    return edges


def read_all(setups, rows):
    """The report lines of all channels in the order of the list's edges, the total lines, and the status."""
    reports, totals, status = [], [], 0
    for channel, setup in enumerate(setups):
        own = [edge for edge in edges_of(rows) if edge[1] in setup.lines()]
        said = kind_of(setup).read(setup, [edge[1:] for edge in own])
        # A report comes at the edge that completes it: by the row of that edge, then by channel. The end is last.
        row_of = [row for row, *_ in own] + [len(rows)]
        reports += [(row_of[told], channel, f"{channel:02} {place} {text}") for told, place, text in said]
        first = [text.split()[0] for _, _, text in said]
        good, bad, messages = (sum(word in names for word in first) for names in COUNTED.values())
        totals.append(f"{channel:02} total good {good} bad {bad} messages {messages} gaps 0 lost 0")
        status = 1 if bad else status
    return [text for _, _, text in sorted(reports, key=lambda report: report[:2])], totals, status


def random_setup(rng, kinds):
    kind = rng.choice(kinds) if len(kinds) > 1 else kinds[0]
    return KINDS[kind].random_setup(rng)


def another(rng, sensors, kinds):
    """One more channel: as one of the sensors, or another one, which may be on their lines."""
    known, other = rng.choice(sensors), random_setup(rng, kinds)
    used = [line for sensor in sensors for line in sensor.lines()]
    if kind_of(other) is not sent and len(used) >= len(other.lines()):
        other.use(rng.sample(used, len(other.lines())))
    return rng.choice([known, other])


def part_of(rng, rows):
    """The rows of a capture that begins or ends within a train, or that has a late time, now and then."""
    if rng.random() < 0.15:
        rows = rows[rng.randrange(len(rows) + 1) :]
    if rng.random() < 0.3:
        rows = rows[: rng.randrange(len(rows) + 1)]
    if rows and rng.random() < 0.05:
        late = 10**15 - rows[-1][0]
        rows = [(time + late, line, level) for time, line, level in rows]
    return rows


def random_capture(rng, kinds):
    """Channels, and the rows of a list with one to three sensors, each on lines of its own."""
    sensors = [random_setup(rng, kinds) for _ in range(rng.choice([1, 1, 1, 2, 3]))]
    lines = rng.sample(range(16), sum(len(sensor.lines()) for sensor in sensors))
    for sensor in sensors:
        sensor.use([lines.pop(0) for _ in sensor.lines()])
    rows = sorted(
        (row for sensor in sensors for row in kind_of(sensor).random_rows(rng, sensor)),
        key=lambda row: row[0],
    )
    if any(kind_of(sensor) is not sent for sensor in sensors):
        rows = part_of(rng, rows)
    setups = list(sensors)
    if rng.random() < 0.3:
        setups += [another(rng, sensors, kinds) for _ in range(rng.choice([1, 2, 13]))]
    rng.shuffle(setups)
    return setups, rows


def compare(program, command, specs, text, lines, status):
    """Where the program differs, a text."""
    run = subprocess.run([program, command, *specs], input=text.encode(), capture_output=True, check=False)
    written = run.stdout.decode().splitlines()
    for number, (one, other) in enumerate(zip(written + [None], lines + [None])):
        if one != other:
            return f"line {number + 1} is {one!r}, and {other!r} is read here {run.stderr.decode()}"
    return f"status {run.returncode}, and {status} is right" if run.returncode != status else None


def name_of(line):
    said = line.split()[2:4]
    return " ".join(said) if said[0] == "bad" else said[0]


def counts(names):
    return ", ".join(f"{names.count(name)} {name}" for name in sorted(set(names)))


def kept(text):
    """The path of a file with the text."""
    with tempfile.NamedTemporaryFile("wb", suffix=".txt", delete=False) as file:
        file.write(text.encode())
    return file.name


def unseen_stubs():
    """Which programs that answer wrongly, and which that answers rightly, are taken for another, a text each."""
    lines = ["00 19 frame 0 000000", "00 total good 1 bad 0 messages 0 gaps 0 lost 0"]
    right = "".join(f"{line}\n" for line in lines)

    def differs(program):
        return compare(program, "decode", ["sent:line=0"], "", lines, 0)

    return stubs.unseen(differs, right, "", 0) + stubs.unseen_runs(__file__, ["--kinds", "sent", "1", "1"], ["1", "1"])


def main():
    options = argparse.ArgumentParser(description=__doc__, formatter_class=argparse.RawDescriptionHelpFormatter)
    options.add_argument("captures", nargs="?", type=int, default=1000)
    options.add_argument("seed", nargs="?", type=int, default=1)
    options.add_argument("--kinds", default=",".join(KINDS), help="kinds of channels, parted by commas")
    options.add_argument("--alone", action="store_true", help="don't run the program")
    options.add_argument("--program", type=pathlib.Path, default=PROGRAM, help="the program that is compared")
    options.add_argument("--self-test", action="store_true", help="read the captures of readings/worked.py, and try wrong programs")
    given = options.parse_args()
    kinds = given.kinds.split(",")
    if not set(kinds) <= set(KINDS):
        options.error(f"the kinds are {', '.join(KINDS)}")
    if given.self_test:
        wrong = worked.wrong_rows(read_all) + unseen_stubs()
        print("\n".join(wrong) or f"{len(worked.ROWS)} captures are read as worked out")
        sys.exit(bool(wrong))
    rng = random.Random(given.seed)
    told = {kind: [] for kind in kinds}
    for capture in range(given.captures):
        setups, rows = random_capture(rng, kinds)
        text = rng.choice(["\n", "\r\n"]).join(f"{t},{line},{level}" for t, line, level in rows) + "\n"
        reports, totals, status = read_all(setups, rows)
        specs = [setup.spec() for setup in setups]
        for line in reports:
            told[specs[int(line[:2])].split(":")[0]].append(name_of(line))
        for command, lines in (("decode", reports + totals), ("check", totals)):
            differs = None if given.alone else compare(given.program, command, specs, text, lines, status)
            if differs:
                print(f"capture {capture} differs: {command} {' '.join(specs)}\n{differs}", file=sys.stderr)
                print(f"its list is {kept(text)}", file=sys.stderr)
                sys.exit(1)
    if not given.alone:
        print(f"{given.captures} captures read alike:", counts(sum(told.values(), [])))
        return
    for kind, names in told.items():
        unseen = [rule for rule in RULES[kind].split() if f"bad {rule}" not in names]
        print(f"{kind}: {counts(names)}; rules that nothing breaks: {', '.join(unseen) or 'none'}")


main()
