#!/usr/bin/env python3
"""Simulates random messages a second way, and compares with what the program writes.

    bench/second_simulation.py [--only simulate|loop] [RUNS [SEED]]      100 runs of each command unless said
    bench/second_simulation.py --self-test
    bench/second_simulation.py --realistic

The simulation, in bench/readings/simulated.py, is plain and shares no code with the program; what its rows say is read
by the second reading. The messages of `simulate` are those of a script, now and then with one that comes out of order
and with lines that are skipped. Ends with status 1 at the first run that differs, and says where.

With --program PATH another program is compared.
With --self-test the random words are compared with the published ones, and one loop with what was worked out by hand, and
programs that answer wrongly have to be told.
With --realistic 1,000 frames of SENT with enhanced messages and 1,000 bursts of PSI5 are merged into wide rows that end
by CR and LF, and the program gets them in pieces of 1, 7 and 4,096 bytes.
"""
import argparse
import pathlib
import random
import subprocess
import sys
import threading

from readings import psi5, sent, spc, stubs, tooth
from readings.simulated import Wobble, played, scripted, stretches, sums, text_of

PROGRAM = pathlib.Path(__file__).parent.parent / ".built" / "pulselink"
KINDS = [sent, spc, psi5, tooth]


def another_order(rng, messages):
    """The messages, now and then with one of them twice, left out or moved."""
    messages = list(messages)
    for _ in range(rng.choice([0, 0, 1, 2])):
        if messages:
            place = rng.randrange(len(messages))
            messages[place : place + 1] = rng.choice([[], [messages[place]] * 2, [messages[place], rng.choice(messages)]])
    return messages


def lines_of(rng, messages):
    """The lines of messages among empty lines and comments, and the number of each message's line."""
    lines, numbers = [], []
    for message in messages:
        lines += rng.choice([[]] * 9 + [[""], ["# a comment"], [""] * 3])
        lines.append(text_of(message))
        numbers.append(len(lines))
    return lines, numbers


def simulated(rng, kind):
    """The words, the input and what the program has to write: both outputs and the status."""
    setup, seed = kind.random_setup(rng), rng.randrange(2**64)
    messages = another_order(rng, scripted(setup, rng.randrange(2**64), rng.choice([0, 1, 3, 20, 60])))
    lines, numbers = lines_of(rng, messages)
    rows, refused = played(setup, seed, messages)
    text = rng.choice(["\n", "\r\n"]).join(lines) + rng.choice(["", "\n"])
    written = "".join(f"{time},{line},{level}\n" for time, line, level in rows)
    if refused is None:
        return ["simulate", str(seed), setup.spec()], text, written, "", 0
    place, fault = refused
    name = {"Order": "Order", "Late": "TooLarge"}[fault]
    return ["simulate", str(seed), setup.spec()], text, written, f"input line {numbers[place]}: {name}\n", 3


def looped(rng, kind, setup=None, seed=None, count=None):
    """The same of a loop."""
    setup = setup or kind.random_setup(rng)
    seed = rng.choice([0, 2**64 - 1, rng.randrange(2**64)]) if seed is None else seed
    count = rng.choice([0, 1, 17, 150]) if count is None else count
    rows, refused = played(setup, seed, scripted(setup, (seed + 1) % 2**64, count))
    assert refused is None, refused
    good, bad = sums(setup, kind.read, rows)
    parts = stretches(rows)
    told = [sums(setup, kind.read, part, part is parts[-1]) for part in parts]
    heard, marred = sum(one for one, _ in told), sum(one for _, one in told)
    last = rows[-1][0] if rows else 0
    line = f"sent {count} good {good} bad {bad} edges {len(rows)} last {last} thinned good {heard} bad {marred}\n"
    assert (good, bad) == (count, 0), line
    return ["loop", str(seed), str(count), setup.spec()], "", line, "", 0


def differs(program, words, text, written, errors, status):
    """Where the program differs, a text."""
    run = subprocess.run([program, *words], input=text.encode(), capture_output=True, check=False)
    ours = (written, errors, status)
    for name, one, other in zip(("output", "standard error", "status"), (run.stdout.decode(), run.stderr.decode(), run.returncode), ours):
        if one != other:
            return f"its {name} is\n{one}\nand not\n{other}"
    return None


def unseen_stubs():
    """Which programs that answer wrongly, and which that answers rightly, are taken for another, a text each."""
    right = ("0,0,1\n", "input line 2: Order\n", 3)
    ways = [["--only", "simulate", "1", "1"], ["--only", "loop", "1", "1"], ["1", "1"], ["--realistic"]]
    return stubs.unseen(lambda program: differs(program, ["simulate"], "", *right), *right) + stubs.unseen_runs(__file__, *ways)


def self_test():
    wobble = Wobble(0)
    low, high = wobble.pick(2**32), wobble.pick(2**32)
    line = looped(None, sent, sent.Setup(0, serial="enhanced", pause=True), 1, 1000)[2]
    right = "sent 1000 good 1000 bad 0 edges 20003 last 1857886805 thinned good 943 bad 0\n"
    return (high << 32 | low) == 18195738587432868099 and line == right


def merged(columns):
    """Wide rows of edges of lines 0, 1 and so on, each a list of times and levels in order, that end by CR and LF."""
    levels, rows = [0] * len(columns), {}
    for line, edges in enumerate(columns):
        for time, level in edges:
            rows.setdefault(time, {})[line] = level
    lines = ["Time [s]" + "".join(f",line {line}" for line in range(len(columns)))]
    for time in sorted(rows):
        levels = [rows[time].get(line, level) for line, level in enumerate(levels)]
        lines.append(f"{time // 10**9}.{time % 10**9:09d}," + ",".join(map(str, levels)))
    return "".join(f"{line}\r\n" for line in lines)


def in_pieces(program, words, text, size):
    """What the program writes, and its status, where it gets the text in pieces of so many bytes."""
    run = subprocess.Popen([program, *words], stdin=subprocess.PIPE, stdout=subprocess.PIPE, bufsize=0)
    told = []
    reader = threading.Thread(target=lambda: told.append(run.stdout.read()))
    reader.start()
    for start in range(0, len(text), size):
        run.stdin.write(text[start : start + size])
    run.stdin.close()
    reader.join()
    return told[0].decode(), run.wait()


def realistic(program):
    """Whether two sensors' edges are read alike in pieces of each size, with the right totals."""
    setups = [sent.Setup(0, serial="enhanced"), psi5.Setup(1)]
    edges = [played(setup, seed, scripted(setup, seed + 1, 1000))[0] for seed, setup in enumerate(setups, 20)]
    text = merged([[(time, level) for time, _, level in rows] for rows in edges]).encode()
    told = [in_pieces(program, ["decode", "sent:line=0,serial=enhanced", "psi5:line=1"], text, size) for size in (1, 7, 4096)]
    totals = "00 total good 1000 bad 0 messages 55 gaps 0 lost 0\n01 total good 1000 bad 0 messages 0 gaps 0 lost 0\n"
    return told[0] == told[1] == told[2] and told[0][0].endswith(totals) and told[0][1] == 0


def main():
    options = argparse.ArgumentParser(description=__doc__, formatter_class=argparse.RawDescriptionHelpFormatter)
    options.add_argument("runs", nargs="?", type=int, default=100)
    options.add_argument("seed", nargs="?", type=int, default=1)
    options.add_argument("--only", choices=["simulate", "loop"])
    options.add_argument("--program", type=pathlib.Path, default=PROGRAM)
    options.add_argument("--self-test", action="store_true")
    options.add_argument("--realistic", action="store_true")
    given = options.parse_args()
    if given.self_test:
        good, unseen = self_test(), unseen_stubs()
        print("\n".join(unseen) or ("the random words and the loop are right" if good else "the second simulation is wrong"))
        sys.exit(not good or bool(unseen))
    if given.realistic:
        good = realistic(given.program)
        print("two sensors are read alike in all pieces" if good else "two sensors are read otherwise")
        sys.exit(not good)
    rng = random.Random(given.seed)
    makers = {"simulate": simulated, "loop": looped}
    for run in range(given.runs):
        for name, make in makers.items():
            if given.only in (None, name):
                words, *right = make(rng, KINDS[run % len(KINDS)])
                where = differs(given.program, words, *right)
                if where:
                    print(f"run {run} differs: {' '.join(words)}\n{right[0]}\n{where}", file=sys.stderr)
                    sys.exit(1)
    print(f"{given.runs} runs of {given.only or 'each command'} are alike")


main()
