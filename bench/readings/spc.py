"""A second reading of SPC channels, and random trains of triggers and answers."""
from dataclasses import dataclass

from readings.base import at_an_end_or_inside, calibrates, crc4, line_rows, nibble_in, spans, words


@dataclass
class Setup:
    """An SPC channel: times in ns; windows, delay and quiet time in tenths of a tick."""

    line: int
    tick: int = 3000
    jitter: int = 300
    nibbles: int = 6
    crc: str = "new"
    cover: str = "data"
    windows: tuple = ((100, 160), (210, 290), (350, 450), (520, 660))
    delay: tuple = (40, 400)
    quiet: int = 800
    brief: bool = False

    def spec(self):
        keys = [("line", self.line, None), ("tick", self.tick, 3000), ("jitter", self.jitter, self.tick // 10)]
        keys += [("nibbles", self.nibbles, 6), ("crc", self.crc, "new"), ("cover", self.cover, "data")]
        keys += [("windows", spans(self.windows), "100-160/210-290/350-450/520-660")]
        keys += [("delay", spans([self.delay]), "40-400"), ("quiet", self.quiet, 800)]
        return words("spc", keys, self.brief)

    def lines(self):
        return [self.line]

    def use(self, lines):
        (self.line,) = lines

    def within(self, span, length):
        low, high = span
        return low * self.tick <= 10 * length <= high * self.tick

    def check_of(self, values):
        """The CRC of a status and nibbles."""
        return crc4(values if self.cover == "status" else values[1:], self.crc)


def answer(setup, falls):
    """What the pulses between an answer's falls say, and where; None where some are missing."""
    pulses = [(later[0] - fall[0], later[1]) for fall, later in zip(falls, falls[1:])]
    if not pulses:
        return None
    calibration, place = pulses[0]
    if not calibrates(setup, calibration):
        return "bad NoCalibration", place
    values = []
    for length, place in pulses[1:]:
        if not nibble_in(length, calibration):
            return "bad NibbleRange", place
        values += nibble_in(length, calibration)
    if len(values) < setup.nibbles + 2:
        return None
    if setup.check_of(values[:-1]) != values[-1]:
        return "bad Check", place
    digits = "".join(f"{nibble:X}" for nibble in values[1:-1])
    return f"{values[0]:X} {digits}", place


def read(setup, edges):
    """What the edges of the channel say: the edge at which it is said, the place and the text each."""
    times = [time for _, time, _ in edges]

    def after_quiet(k):
        return k > 0 and not edges[k][2] and 10 * (times[k] - times[k - 1]) >= setup.quiet * setup.tick

    said, k, end = [], 0, len(edges)
    while k < end:
        if not after_quiet(k):
            k += 1
            continue
        rise, fall = k + 1, k + 2
        if rise == end:
            return said
        codes = [code for code, window in enumerate(setup.windows) if setup.within(window, times[rise] - times[k])]
        if not codes:
            said.append((rise, rise, "bad TriggerWidth"))
            k = fall
        elif fall == end or after_quiet(fall):
            # Nobody answered, which is known at the next trigger, or at the end.
            said.append((fall, rise, f"noanswer {codes[0]}"))
            k = fall
        elif not setup.within(setup.delay, times[fall] - times[rise]):
            said.append((fall, fall, "bad Delay"))
            k = fall + 1
        else:
            found = answer(setup, [(times[place], place) for place in range(fall, end, 2)[: setup.nibbles + 4]])
            if found is None:
                return said
            text, k = found
            said.append((k, k, text if text.startswith("bad") else f"answer {codes[0]} {text}"))
    return said


def random_windows(rng):
    """One to eight windows in rising order, wide and narrow, near and far."""
    count = rng.choice([1, 2, 4, 8])
    most = (2000 - 10 - 11 * count) // (2 * count)
    windows, high = [], 9
    for _ in range(count):
        low = high + 1 + at_an_end_or_inside(rng, 0, most)
        high = low + 10 + at_an_end_or_inside(rng, 0, most)
        windows.append((low, high))
    if rng.random() < 0.2:
        windows[-1] = (windows[-1][0], 2000)
    return tuple(windows)


def random_setup(rng):
    tick = rng.choice([3000, 3000, 3019, 90000, rng.randint(3000, 90000)])
    setup = Setup(
        line=rng.randrange(16),
        tick=tick,
        jitter=rng.choice([tick // 10, at_an_end_or_inside(rng, 1, tick // 10)]),
        nibbles=rng.choice([6, 6, 1, rng.randint(1, 6)]),
        crc=rng.choice(["new", "new", "legacy"]),
        cover=rng.choice(["data", "status"]),
        brief=rng.random() < 0.5,
    )
    if rng.random() < 0.7:
        low = rng.choice([at_an_end_or_inside(rng, 10, 2000), rng.randint(10, 1000), rng.randint(10, 9989)])
        high = min(low + 10 + at_an_end_or_inside(rng, 0, 700), 9999)
        setup.windows = random_windows(rng)
        setup.delay = (low, high)
        setup.quiet = at_an_end_or_inside(rng, max(700, high + 1), max(3000, high + 1, rng.choice([0, 10000])))
    return setup


def around(rng, setup, span, right):
    """A length in ns that lies in the span, or, where it needn't, at its ends, beside it or far from it."""
    low, high = (end * setup.tick // 10 for end in span)
    if right:
        return rng.randint(low + 2 * setup.jitter, high - 2 * setup.jitter)
    return rng.choice([low, high, low - 1, high + 1, low // 2, 2 * high, rng.randint(1, 150 * setup.tick)])


def answer_pulses(rng, setup):
    """The lengths of an answer's pulses in ns, now and then with a wrong one or a wrong CRC."""
    tick = rng.uniform(0.8, 1.2) * setup.tick
    values = [rng.choice([0, 15, rng.randrange(16)]) for _ in range(setup.nibbles + 1)]
    check = setup.check_of(values) if rng.random() < 0.93 else rng.randrange(16)
    counts = [56] + [12 + value for value in values + [check]]
    lengths = [round(count * tick * (1 + (count < 56) * rng.uniform(-1, 1) / 410)) for count in counts]
    if rng.random() < 0.12:
        place = rng.choice([0, rng.randrange(len(lengths))])
        lengths[place] = round(lengths[place] * rng.choice([0.2, 0.75, 0.97, 1.03, 1.3, 3, setup.quiet / 50]))
    if rng.random() < 0.03:
        del lengths[rng.randrange(len(lengths))]
    return lengths


def random_rows(rng, setup):
    """Rows of triggers, most of them with the answer that they ask for."""
    quiet = setup.quiet * setup.tick // 10
    time, times = rng.randint(0, 2 * quiet), []
    for _ in range(rng.randint(1, 30)):
        honest = rng.random() < 0.93
        least = quiet + 2 * setup.jitter
        time += rng.randint(least, 2 * quiet) if honest else rng.choice([quiet // 3, quiet - 1, quiet])
        times.append(time)
        time += around(rng, setup, rng.choice(setup.windows), rng.random() < 0.9)
        times.append(time)
        if rng.random() < 0.15:
            continue
        time += around(rng, setup, setup.delay, rng.random() < 0.93)
        for length in answer_pulses(rng, setup) + [9 * setup.tick]:
            rise = min(rng.randint(1, 4 * setup.tick), length // 2)
            times += [time, time + rise]
            time += length
        time = times[-1]
    off = rng.choice([0, setup.jitter, setup.jitter])
    return line_rows(rng, setup.line, 1, [max(0, time + rng.randint(-off, off)) for time in times])
