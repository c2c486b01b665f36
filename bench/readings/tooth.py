"""A second reading of tooth-gap downlinks, and random frames of missing pulses."""
from dataclasses import dataclass

from readings.base import at_an_end_or_inside, bits_of, crc3, line_rows, number_of, words

# The bits of address, function, register and value, which are whole groups of three.
WIDTHS = {"short": (3, 3, 0, 0), "long": (3, 3, 6, 6), "xlong": (3, 3, 9, 9)}


@dataclass
class Setup:
    """A tooth-gap downlink: times in ns."""

    line: int
    period: int = 500_000
    jitter: int = 31_250
    form: str = "short"
    brief: bool = False

    def spec(self):
        keys = [("line", self.line, None), ("period", self.period, 500_000)]
        keys += [("jitter", self.jitter, self.period // 16), ("form", self.form, "short")]
        return words("tooth", keys, self.brief)

    def lines(self):
        return [self.line]

    def use(self, lines):
        (self.line,) = lines


def down_bits(form, parts):
    """The start's last 0 and a 1, then the groups of the fields and their CRC with a 1 after each."""
    fields = [bit for part, width in zip(parts, WIDTHS[form]) for bit in bits_of(part, width)]
    fields += bits_of(crc3(fields), 3)
    return [0, 1] + [bit for place in range(0, len(fields), 3) for bit in fields[place : place + 3] + [1]]


assert down_bits("short", [3, 2, 0, 0]) == [0, 1, 0, 1, 1, 1, 0, 1, 0, 1, 0, 1, 1, 1]


def periods(setup, length):
    """How many periods lie nearest, the greater of two; five missing pulses and more are alike."""
    return min(6, (2 * length + setup.period) // (2 * setup.period))


def judged(form, bits):
    """What the bits since a start say: a rule, a text, or nothing yet."""
    size = len(down_bits(form, [0] * 4))
    for place, bit in enumerate(bits):
        if place == 0 and bit:
            return "bad StartPattern"
        if place % 4 == 1 and not bit:
            return "bad SyncBit"
    if len(bits) < size:
        return None
    fields = [bit for place, bit in enumerate(bits) if place > 1 and place % 4 != 1]
    parts = []
    for width in WIDTHS[form]:
        parts.append(number_of(fields[:width]))
        fields = fields[width:]
    if down_bits(form, parts) != bits:
        return "bad DownCheck"
    return "down {} {} {:03X} {:03X}".format(*parts)


def read(setup, edges):
    """What the edges of the channel say: the edge at which it is said, the place and the text each."""
    rises = [(place, time) for place, (_, time, level) in enumerate(edges) if place and level]
    said, bits = [], None
    for (_, before), (place, time) in zip(rises, rises[1:]):
        count = periods(setup, time - before)
        text = None
        if bits is not None and count == 0:
            text = "bad SyncBit"
        elif bits is not None:
            bits += [0] * (count - 1) + [1]
            text = judged(setup.form, bits)
        if text:
            said.append((place, place, text))
            bits = None
        if bits is None and count == 6:
            bits = []
    return said


def random_setup(rng):
    period = rng.choice([500_000, 500_000, 333_333, 10_000, 10_000_000, rng.randint(10_000, 10_000_000)])
    return Setup(
        line=rng.randrange(16),
        period=period,
        jitter=rng.choice([period // 16, at_an_end_or_inside(rng, 1, period // 16)]),
        form=rng.choice(["short", "long", "xlong"]),
        brief=rng.random() < 0.5,
    )


def frame_to_send(rng, setup):
    """The bits of a frame, now and then with a wrong one, with a start that is too short, or with some missing."""
    bits = down_bits(setup.form, [rng.choice([0, (1 << w) - 1, rng.randrange(1 << w)]) for w in WIDTHS[setup.form]])
    if rng.random() < 0.2:
        bits[rng.choice([0, 1, -2, rng.randrange(len(bits))])] ^= 1
    if rng.random() < 0.05:
        place = rng.randrange(len(bits))
        bits[place : place + rng.randint(1, 6)] = [0] * rng.randint(0, 6)
    return [1] + [0] * (rng.randint(5, 9) if rng.random() < 0.9 else rng.randint(3, 5)) + [1] + bits


def random_rows(rng, setup):
    """Rows of a train of pulses, some of which are missing."""
    off = rng.choice([0, setup.jitter, setup.jitter])
    time, times = rng.uniform(0, 20 * setup.period), []
    for _ in range(rng.randint(1, 20)):
        period = rng.uniform(0.95, 1.05) * setup.period
        for bit in [1] * rng.randint(0, 4) + frame_to_send(rng, setup):
            time += period
            if rng.random() < 0.003:
                time += rng.choice([-0.7, -0.5, 0.5, 0.7, 5]) * period
            if rng.random() < 0.006:
                # A pulse that lies between two numbers of periods, exactly.
                before = times[-2] if times else 0
                time = before + rng.randint(0, 11) * setup.period // 2 + rng.choice([-1, 0, 0, 1])
            if bit:
                rise = max(0, round(time) + (rng.randint(-off, off)))
                times += [rise, rise + rng.choice([setup.period // 10, rng.randint(0, setup.period // 2)])]
    return line_rows(rng, setup.line, rng.choice([0] * 9 + [1]), times)
