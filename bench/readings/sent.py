"""A second reading of SENT channels, and random trains of SENT frames."""
from dataclasses import dataclass

from readings.base import bits_of, calibrates, crc4, crc6, nibble_in, number_of


@dataclass
class Setup:
    """A SENT channel: times in ns."""

    line: int
    tick: int = 3000
    jitter: int = 300
    nibbles: int = 6
    pause: bool = False
    crc: str = "new"
    layout: str = "raw"
    serial: str = "none"

    def spec(self):
        pause = "yes" if self.pause else "no"
        return (
            f"sent:line={self.line},tick={self.tick},jitter={self.jitter},nibbles={self.nibbles},"
            f"pause={pause},crc={self.crc},layout={self.layout},serial={self.serial}"
        )

    def lines(self):
        return [self.line]

    def use(self, lines):
        (self.line,) = lines


def value_bit(status):
    return status >> 2 & 1


def start_bit(status):
    return status >> 3 & 1


def short_steps(statuses):
    """The short messages and violated rules, each with its place among the statuses."""
    steps = []
    for place, status in enumerate(statuses):
        before = statuses[max(0, place - 15) : place]
        if start_bit(status) and any(map(start_bit, before)):
            steps.append((place, "bad Restart"))
        message = statuses[place - 15 : place + 1] if place >= 15 else []
        if message and start_bit(message[0]) and not any(map(start_bit, message[1:])):
            bits = list(map(value_bit, message))
            id_, high, low, check = (number_of(bits[i : i + 4]) for i in (0, 4, 8, 12))
            good = check == crc4([id_, high, low])
            steps.append((place, f"short {id_:X} {high:X}{low:X}" if good else "bad SerialCheck"))
    return steps


def enhanced_said(message):
    starts, values = list(map(start_bit, message)), list(map(value_bit, message))
    checked = [bit for pair in zip(values[6:], starts[6:]) for bit in pair]
    if number_of(values[:6]) != crc6(checked):
        return "bad SerialCheck"
    first, second, low = starts[8:12], starts[13:17], values[6:]
    if starts[7]:
        return f"enhanced4 {number_of(first):X} {number_of(second + low):04X}"
    return f"enhanced8 {number_of(first + second):02X} {number_of(low):03X}"


def enhanced_steps(statuses):
    """The same of enhanced messages."""
    starts = list(map(start_bit, statuses))
    steps, begin = [], 0
    while True:
        found = [i for i in range(begin, len(starts) - 6) if starts[i : i + 7] == [1] * 6 + [0]]
        if not found:
            return steps
        first = found[0]
        for frame, rule in ((12, "bad Zero13"), (17, "bad Zero18")):
            place = first + frame
            if place >= len(starts):
                return steps
            if starts[place]:
                steps.append((place, rule))
                begin = place
                break
        else:
            steps.append((first + 17, enhanced_said(statuses[first : first + 18])))
            begin = first + 18


def value_lines(layout, n, counter):
    """What the nibbles say in the layout, and the counter to watch from there on."""
    first = f"{n[0]:X}{n[1]:X}{n[2]:X}" if len(n) >= 3 else ""
    if layout == "one12":
        return [f"one {first}"], counter
    if layout == "two12":
        return [f"two {first} {n[5]:X}{n[4]:X}{n[3]:X}"], counter
    if layout == "split16_8":
        return [f"split {first}{n[3]:X} {n[5]:X}{n[4]:X}"], counter
    if layout == "secure12":
        if n[5] != 15 - n[0]:
            return ["bad Copy"], None
        now = 16 * n[3] + n[4]
        lines = [f"secure {first} {now:02X}"]
        if counter is not None and now != (counter + 1) % 256:
            lines.append(f"counter {counter:02X} {now:02X}")
        return lines, now
    return [], counter


def frame_reports(setup, pulses):
    """The frames and violated rules of pulses, a length and a place each, as (place, rule or values)."""
    i, due, last = 0, "nothing", 0
    while i < len(pulses):
        length, place = pulses[i]
        if due == "pause":
            if 23 * last <= 112 * length <= 1548 * last:
                i, due = i + 1, "calibration"
            else:
                yield place, "PauseRange"
                i, due = i + 1, "nothing"
            continue
        if due == "calibration" and not calibrates(setup, length):
            yield place, "NoCalibration"
            i, due = i + 1, "nothing"
            continue
        if due == "calibration" and 64 * abs(length - last) > last:
            yield place, "Drift"
            due = "nothing"
            continue
        if due == "nothing":
            if not calibrates(setup, length) or (i + 1 < len(pulses) and calibrates(setup, pulses[i + 1][0])):
                i += 1
                continue
            if i + 1 == len(pulses):
                return
        values, j = [], i + 1
        while len(values) < setup.nibbles + 2 and j < len(pulses) and nibble_in(pulses[j][0], length):
            values += nibble_in(pulses[j][0], length)
            j += 1
        if len(values) < setup.nibbles + 2:
            if j == len(pulses):
                return
            yield pulses[j][1], "NibbleRange"
            i, due = j, "nothing"
            continue
        good = crc4(values[1:-1], setup.crc) == values[-1]
        yield pulses[j - 1][1], values if good else "Check"
        i, last, due = j, length, "pause" if setup.pause else "calibration"


def read(setup, edges):
    """What the edges of the channel say: the edge at which it is said, the place and the text each."""
    falls = [(time, place) for place, (_, time, level) in enumerate(edges) if place and not level]
    pulses = [(b[0] - a[0], b[1]) for a, b in zip(falls, falls[1:])]
    steps_of = {"none": lambda _: [], "short": short_steps, "enhanced": enhanced_steps}[setup.serial]
    lines, counter, statuses = [], None, []
    for place, report in frame_reports(setup, pulses):
        if isinstance(report, str):
            said, counter, statuses = [f"bad {report}"], None, []
        else:
            status, nibbles = report[0], report[1:-1]
            values, counter = value_lines(setup.layout, nibbles, counter)
            before = len(steps_of(statuses))
            statuses = statuses + [status]
            serial = [step for _, step in steps_of(statuses)[before:]]
            digits = "".join(f"{nibble:X}" for nibble in nibbles)
            said = [f"frame {status:X} {digits}"] + values + serial
        lines += [(place, place, text) for text in said]
    return lines


def message(rng, serial):
    """The statuses of a serial message, without its bits 0 and 1."""
    if serial == "short":
        id_, value = rng.randrange(16), rng.randrange(256)
        bits = bits_of(id_, 4) + bits_of(value, 8)
        bits += bits_of(crc4([id_, value >> 4, value & 15]), 4)
        return [8 * (place == 0) + 4 * bit for place, bit in enumerate(bits)]
    starts = [1] * 6 + [0] + [rng.randrange(2) for _ in range(11)]
    starts[12] = starts[17] = 0
    values = [rng.randrange(2) for _ in range(12)]
    check = crc6([bit for pair in zip(values, starts[6:]) for bit in pair])
    return [8 * s + 4 * v for s, v in zip(starts, bits_of(check, 6) + values)]


def random_setup(rng):
    layout = rng.choice(["raw", "raw", "one12", "two12", "secure12", "split16_8"])
    tick = rng.choice([3000, 3000, 3019, 12000, 90000])
    return Setup(
        line=rng.randrange(16),
        tick=tick,
        jitter=rng.randint(1, tick // 10),
        nibbles={"raw": rng.randint(1, 6), "one12": 3}.get(layout, 6),
        pause=rng.random() < 0.4,
        crc=rng.choice(["new", "new", "legacy"]),
        layout=layout,
        serial=rng.choice(["none", "short", "enhanced", "enhanced"]),
    )


def random_falls(rng, setup):
    """The falls of a train of frames, in ns, most of it within the bounds."""
    tick = rng.uniform(0.8, 1.2) * setup.tick
    falls, statuses, counter = [rng.uniform(0, 300_000)], [], rng.randrange(256)
    for _ in range(rng.randint(1, 70)):
        if setup.serial != "none" and not statuses and rng.random() < 0.8:
            statuses = message(rng, setup.serial)
            if rng.random() < 0.2:
                place = rng.choice([12, len(statuses) - 1, rng.randrange(len(statuses))])
                statuses[place] ^= rng.choice([4, 8])
        status = statuses.pop(0) + rng.randrange(4) if statuses else rng.randrange(rng.choice([4, 16]))
        nibbles = [rng.randrange(16) for _ in range(setup.nibbles)]
        if setup.layout == "secure12":
            nibbles[3:] = [counter >> 4, counter & 15, 15 - nibbles[0]]
            counter = (counter + 1) % 256 if rng.random() < 0.9 else rng.randrange(256)
            if rng.random() < 0.05:
                nibbles[5] = rng.randrange(16)
        check = crc4(nibbles, setup.crc) if rng.random() < 0.97 else rng.randrange(16)
        tick *= 1 + rng.uniform(-1, 1) / (220 if rng.random() < 0.95 else 40)
        tick = min(max(tick, 0.8 * setup.tick), 1.2 * setup.tick)
        ticks = [56] + [12 + value for value in [status] + nibbles + [check]]
        if setup.pause:
            ticks.append(rng.choice([12, 56, 770, 775, 800] + 45 * [rng.randint(12, 768)]))
        for count in ticks:
            length = count * tick * (rng.choice([0.3, 0.7, 1.5, 2.2]) if rng.random() < 0.004 else 1)
            falls.append(falls[-1] + length)
    return falls


def random_rows(rng, setup):
    """Rows of the recorded falls, with rises, repeated levels and another line between them."""
    falls = random_falls(rng, setup)
    recorded = [int(fall + rng.uniform(-setup.jitter, setup.jitter)) for fall in falls]
    recorded = [max([0] + recorded[: i + 1]) for i in range(len(recorded))]
    other = (setup.line + 1) % 16
    rows = [(0, setup.line, 1)] if rng.random() < 0.9 else []
    for fall, after in zip(recorded, recorded[1:] + [recorded[-1] + 100_000]):
        rise = min(after, fall + rng.randrange(4 * setup.tick))
        rows += [(fall, setup.line, 0), (rise, setup.line, 1)]
        if rng.random() < 0.1:
            rows.append((rise, other, rng.randrange(2)))
        if rng.random() < 0.02:
            rows.append((rise, setup.line, 1))
    return rows
