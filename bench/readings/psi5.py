"""A second reading of PSI5 channels, and random bursts, slots and initialisation phases."""
from dataclasses import dataclass
from itertools import chain

from readings.base import at_an_end_or_inside, bits_of, crc3, line_rows, number_of, spans, words


@dataclass
class Setup:
    """A PSI5 channel: times in ns; slots where there is a sync line."""

    line: int
    rate: int = 125
    jitter: int = 500
    m: int = 0
    f: int = 0
    s: int = 0
    b: int = 0
    a: int = 10
    check: str = "parity"
    sync: int | None = None
    slots: tuple = ()
    init: int | None = None
    brief: bool = False

    def spec(self):
        keys = [("line", self.line, None), ("rate", self.rate, 125), ("jitter", self.jitter, self.bit() // 16)]
        keys += [("m", self.m, 0), ("f", self.f, 0), ("s", self.s, 0), ("b", self.b, 0), ("a", self.a, 10)]
        keys += [("check", self.check, "parity")]
        if self.sync is not None:
            keys += [("sync", self.sync, None), ("slots", spans(self.slots), None)]
        if self.init is not None:
            keys += [("init", self.init, None)]
        return words("psi5", keys, self.brief)

    def lines(self):
        return [self.line] if self.sync is None else [self.line, self.sync]

    def use(self, lines):
        self.line = lines[0]
        if self.sync is not None:
            self.sync = lines[1]

    def bit(self):
        return {125: 8000, 189: 5300}[self.rate]

    def widths(self):
        return [self.m, self.f, self.s, self.b, self.a]

    def size(self):
        """How many bits a frame has, with start and check."""
        return 2 + sum(self.widths()) + (1 if self.check == "parity" else 3)


def frame_bits(setup, parts):
    """The two start bits, the parts with the least bit first, and the check."""
    payload = list(chain(*(bits_of(part, width)[::-1] for part, width in zip(parts, setup.widths()))))
    return [0, 0] + payload + (bits_of(crc3(payload), 3) if setup.check == "crc" else [sum(payload) % 2])


def changes(bits):
    """The half-bits at which the line changes: a 0 is low then high, a 1 high then low, and it is low around."""
    levels = [0] + [level for bit in bits for level in (bit, 1 - bit)] + [0]
    return [place for place in range(len(levels) - 1) if levels[place] != levels[place + 1]]


assert frame_bits(Setup(0), [0, 0, 0, 0, 0x1E7]) == [0, 0, 1, 1, 1, 0, 0, 1, 1, 1, 1, 0, 1]
assert changes([0, 0, 1, 1, 1, 0, 0, 1, 1, 1, 1, 0, 1]) == [1, 2, 3, *range(5, 10), 11, 12, 13, *range(15, 22), 23, 25]
assert changes(frame_bits(Setup(0, check="crc"), [0] * 5)) == list(range(1, 24)) + [25, 26, 27, 29, 30]


def halves(setup, length):
    """What an interval is: too short, one half-bit, two, or quiet, where it is more."""
    quarters = 4 * length // setup.bit()
    return {0: "short", 1: 1, 2: 1, 3: 2, 4: 2}.get(quarters, "quiet")


def wrong_at(level, length, before, place, last):
    """The rule that an edge violates, so long after the one at `before`, in a frame that ends at `last`."""
    if length == "short":
        return "TooShort"
    if length == 2 and before % 2 == 0:
        return "Phase"
    if place == 3 and not level:
        return "StartBit"
    if place > last or (place == last and level):
        return "TooLong"
    return None


def burst(setup, edges):
    """What a burst of edges says: the parts, or a rule, and the number of the edge that says it."""
    number, before, level = edges[0]
    if not level:
        return "FirstFall", number
    last, places = 2 * setup.size(), [1]
    for number, time, level in edges[1:]:
        length = halves(setup, time - before)
        place = places[-1] + length if length != "short" else None
        rule = wrong_at(level, length, places[-1], place, last)
        if rule:
            return rule, number
        places.append(place)
        before = time
    if last - 1 not in places:
        return "TooFew", number
    if level:
        return "EndsHigh", number
    # At an odd place, the middle of a bit, a rise is a 0.
    bits = [1 - after for place, (_, _, after) in zip(places, edges) if place % 2]
    parts = parts_in(setup, bits[2:])
    if frame_bits(setup, parts) != bits:
        return "Psi5Check", number
    # The other way round: a good burst is the waveform of what it carries.
    assert changes(frame_bits(setup, parts)) == places
    return parts, number


def parts_in(setup, payload):
    parts = []
    for width in setup.widths():
        parts.append(number_of(payload[:width][::-1]))
        payload = payload[width:]
    return parts


def class_of(code):
    """What a code of ten bits stands for: a word, and a number where it has one."""
    if code <= 0x1E0:
        return "signal", code
    if code >= 0x220:
        return "signal", code - 0x400
    if 0x200 <= code <= 0x20F:
        return "block", code - 0x200 + 1
    if 0x210 <= code <= 0x21F:
        return "value", code - 0x210
    return {0x1E7: ("ready", None), 0x1E8: ("busy", None), 0x1F4: ("defect", None)}.get(code, ("reserved", code))


def code_text(setup, code):
    if setup.a != 10:
        return "-"
    word, number = class_of(code)
    digits = {"signal": "{}", "block": "{}", "value": "{:X}", "reserved": "{:03X}"}.get(word)
    return word if digits is None else f"{word} {digits.format(number)}"


def fresh(code):
    """The state after a code, where it isn't known whether a phase is going on."""
    word, number = class_of(code)
    if word == "value":
        return {"state": "fresh"}
    if word == "block":
        return {"state": "value", "id": number, "loose": True, "pairs": 0, "blocks": 0}
    return {"state": "idle"}


def in_phase(k, at, word, number):
    """The step and the state within a phase; a state of None is one that the code doesn't fit."""
    if at["state"] == "value":
        if word != "value":
            return "bad InitOrder", None
        if at["pairs"] and number != at["value"]:
            return "bad InitRepeat", None
        at = {**at, "state": "block", "pairs": at["pairs"] + 1, "value": number}
        if at["pairs"] < k:
            return None, at
        return f"init {at['id']} {number:X}", {**at, "blocks": at["blocks"] + 1}
    whole = at["loose"] or at["pairs"] == k
    if word == "ready":
        return (f"initdone {at['blocks']}", {"state": "idle"}) if whole else ("bad InitRepeat", None)
    if word == "block" and number == at["id"]:
        return (None, {**at, "state": "value"}) if at["pairs"] < k else ("bad InitRepeat", None)
    if word == "block" and number == at["id"] % 16 + 1:
        begun = {"state": "value", "id": number, "loose": False, "pairs": 0, "blocks": at["blocks"]}
        return (None, begun) if whole else ("bad InitRepeat", None)
    return "bad InitOrder", None


def init_steps(k, codes):
    """The step that each code makes, a text or None."""
    steps, at = [], {"state": "fresh"}
    for code in codes:
        word, number = class_of(code)
        step = None
        if at["state"] == "fresh":
            at = fresh(code)
        elif at["state"] != "idle":
            step, at = in_phase(k, at, word, number)
        elif (word, number) == ("block", 1):
            at = {"state": "value", "id": 1, "loose": False, "pairs": 0, "blocks": 0}
        elif word in ("block", "value"):
            step, at = "bad InitOrder", None
        steps.append(step)
        at = fresh(code) if at is None else at
    return steps


def bursts_in(setup, edges):
    """The bursts that are read: their edges on the data line, and the edge with which the next one begins."""
    data = [(number, time, level) for number, (line, time, level) in enumerate(edges) if line == setup.line]
    firsts = [
        place
        for place in range(1, len(data))
        if place == 1 or halves(setup, data[place][1] - data[place - 1][1]) == "quiet"
    ]
    for first, after in zip(firsts, firsts[1:] + [len(data)]):
        if halves(setup, data[first][1] - data[first - 1][1]) == "quiet":
            yield data[first:after], data[after][0] if after < len(data) else len(edges)


def syncs_in(setup, edges):
    """The rises of the sync line, a number and a time each; its first edge is none."""
    own = [(number, time, level) for number, (line, time, level) in enumerate(edges) if line == setup.sync]
    return [(number, time) for number, time, level in own[1:] if level]


def windows_at(setup, offset):
    return [slot for slot, (low, high) in enumerate(setup.slots) if low <= offset <= high]


def placed(setup, syncs, firsts, first):
    """The slot that a first edge answers, or the rule that it breaks; None before the first sync."""
    number, time, level = first
    before = [sync for sync in syncs if sync[0] < number]
    if not before:
        return None
    since, start = before[-1]
    if not level:
        return "-"  # a burst that begins with a fall is in no slot
    if time - start > setup.slots[-1][1]:
        return "NoSync"
    if not windows_at(setup, time - start):
        return "NoSlot"
    (slot,) = windows_at(setup, time - start)
    earlier = [other for other in firsts if since < other[0] < number and other[2]]
    if any(slot in windows_at(setup, other[1] - start) for other in earlier):
        return "SlotTwice"
    return slot


def read(setup, edges):
    """What the edges of the channel say: the edge at which it is said, the place and the text each."""
    found = list(bursts_in(setup, edges))
    firsts = [own[0] for own, _ in found]
    syncs = syncs_in(setup, edges)
    said, codes = [], {}
    for own, told in found:
        slot = "-" if setup.sync is None else placed(setup, syncs, firsts, own[0])
        if slot is None:
            continue
        parts, place = burst(setup, own)
        if not isinstance(parts, str) and slot in ("NoSync", "NoSlot", "SlotTwice"):
            parts, place = slot, own[0][0]
        if isinstance(parts, str):
            said.append((told, place, f"bad {parts}"))
            codes = {}
            continue
        m, f, s, b, a = parts
        said.append((told, place, f"psi5 {slot} {m:X} {f:X} {s:X} {b:03X} {a:06X} {code_text(setup, a)}"))
        if setup.init is not None:
            codes[slot] = codes.get(slot, []) + [a]
            step = init_steps(setup.init, codes[slot])[-1]
            said += [(told, place, step)] if step else []
    return said


def random_setup(rng):
    rate = rng.choice([125, 125, 189])
    bit = {125: 8000, 189: 5300}[rate]
    setup = Setup(
        line=rng.randrange(16),
        rate=rate,
        jitter=rng.choice([bit // 16, bit // 16, at_an_end_or_inside(rng, 1, bit // 16)]),
        check=rng.choice(["parity", "crc"]),
        brief=rng.random() < 0.5,
    )
    if rng.random() < 0.6:
        setup.a = rng.choice([10, 10, 16, 24, rng.randint(10, 24)])
        left = 28 - setup.a
        for part, most in rng.sample([("m", 2), ("f", 4), ("s", 2), ("b", 12)], 4):
            width = rng.choice([0, 0, at_an_end_or_inside(rng, 0, min(most, left))])
            setattr(setup, part, width // 2 * 2 if part == "m" else width)
            left -= getattr(setup, part)
    if setup.a == 10 and rng.random() < 0.6:
        setup.init = rng.choice([1, 1, 2, 2, 3, 4, 16, rng.randint(1, 16)])
    if rng.random() < 0.5:
        setup.sync = (setup.line + rng.randint(1, 15)) % 16
        setup.slots = random_slots(rng, setup)
    return setup


def random_slots(rng, setup):
    """One to eight windows that are at least so far apart that a late frame ends before the next one."""
    bit, slots = setup.bit(), []
    low = 4 * bit + at_an_end_or_inside(rng, 0, 10 * bit)
    for _ in range(rng.choice([1, 2, 3, 8, rng.randint(1, 8)])):
        high = low + bit + rng.choice([0, rng.randint(0, 3 * bit), rng.randint(0, 3 * bit), rng.randint(30, 70) * bit])
        slots.append((low, high))
        low = high + -(-21 * (setup.size() + 1) * bit // 20) + rng.choice([0, rng.randint(0, 20 * bit)])
    if rng.random() < 0.1:
        slots[-1] = (slots[-1][0], 10_000_000)
    return tuple(slots)


def random_code(rng):
    code = rng.choice([rng.randrange(1024), 0x200 + rng.randrange(32), 0x1E0 + rng.randrange(24)])
    return rng.choice([code, 0x1E7, 0x1E8, 0x1F4, 0x200, 0x20F, 0x21F, 0x220, 0x3FF, 0x1E0, rng.randrange(0x1E1)])


def phase_codes(rng, k):
    """The codes of an initialisation phase, and now and then some that don't belong there."""
    codes = []
    for block in range(rng.choice([1, 2, 3, 5, 16, 18] if k < 3 else [1, 2, 3])):
        codes += [0x200 + block % 16, 0x210 + rng.randrange(16)] * k
    codes += [0x1E7, random_code(rng)]
    for _ in range(rng.choice([0, 0, 1, 2])):
        if len(codes) < 2:
            break
        place = rng.randrange(len(codes) - 1)
        near = codes[place] + rng.choice([-1, 1])
        pair = codes[place : place + 2]
        some = rng.choice([[], [random_code(rng)], [near], pair, pair + pair])
        codes[place : place + rng.choice([0, 1, 2, 2, 4])] = some
    return codes


def codes_to_send(rng, setup):
    """The codes of a slot without end."""
    if rng.random() < 0.4:
        yield from phase_codes(rng, setup.init or 1)[rng.randrange(3) :]
    while True:
        for _ in range(rng.randint(0, 3)):
            yield random_code(rng)
        if setup.init is not None:
            yield from phase_codes(rng, setup.init)


def burst_to_send(rng, setup, code, faulty):
    """The times of a burst's edges in ns since its frame's start, and the length of its frame."""
    half = rng.uniform(0.475, 0.525) * setup.bit()
    parts = [rng.choice([0, (1 << width) - 1, rng.randrange(1 << width)]) for width in setup.widths()]
    if setup.a == 10:
        parts[4] = code
    bits = frame_bits(setup, parts)
    wrong = rng.choice(["bit", "start", "few", "many", "high", "times", "times", "threshold"]) if faulty else "nothing"
    if wrong == "bit":
        bits[rng.choice([-1, rng.randrange(2, len(bits))])] ^= 1
    elif wrong == "start":
        bits[1] = 1
    elif wrong == "few":
        del bits[-rng.randint(1, 4) :]
    elif wrong == "many":
        bits += [rng.randrange(2) for _ in range(rng.randint(1, 4))]
    off = rng.choice([0, setup.jitter, setup.jitter])
    times = [round(place * half) + rng.randint(-off, off) for place in changes(bits)]
    if wrong == "times":
        place = rng.randrange(len(times))
        near = times[place] + rng.randint(-setup.bit(), setup.bit())
        times[place : place + rng.randrange(3)] = rng.choice([[], [near], [near, near + setup.bit() // 9]])
    elif wrong == "threshold":
        # An interval that lies between two kinds of intervals, exactly.
        place = rng.randrange(1, len(times))
        length = rng.choice([1, 3, 5]) * setup.bit() // 4 + rng.randint(-1, 1)
        more = times[place - 1] + length - times[place]
        times[place:] = [time + more for time in times[place:]]
    times.sort()
    if wrong == "high":
        times[-1] += rng.choice([0, 2, 9]) * setup.bit()
    if len(times) % 2 and rng.random() < 0.95:
        times.append((times or [0])[-1] + rng.choice([1, 2, 3, 8]) * setup.bit() // 2)
    return times, round(2 * len(bits) * half)


def starts_after_sync(rng, setup, faults):
    """When the first rises of bursts come after a sync, in ns: one in each of some windows, or where they shouldn't."""
    for low, high in setup.slots:
        if rng.random() < 0.8:
            yield rng.randint(low + 2 * setup.jitter, high - 2 * setup.jitter)
        if rng.random() < faults:
            yield rng.choice([low, high, low - 1, high + 1, rng.randint(0, 3 * high)])
        if rng.random() < faults:
            yield low
            yield high


def random_rows(rng, setup):
    """Rows of the data line and, with slots, of the sync line."""
    level = rng.choice([0] * 15 + [1])
    times = slot_times(rng, setup) if setup.slots else [burst_times(rng, setup)]
    lines = rng.sample(list(zip(setup.lines(), times)), len(times))
    return [row for line, changed in lines for row in line_rows(rng, line, level if line == setup.line else 0, changed)]


def burst_times(rng, setup):
    """The changes of the data line without slots."""
    bit, codes = setup.bit(), codes_to_send(rng, setup)
    time, times = rng.randint(0, 3 * bit), []
    faults = rng.choice([0, 0.02, 0.1] if setup.init else [0, 0.1, 0.4])
    for _ in range(rng.choice([1, 20, 100, rng.randint(1, 200)] if setup.init else [1, 3, rng.randint(1, 30)])):
        time += rng.randint(bit + bit // 20, 11 * bit) if rng.random() > faults / 4 else rng.randint(0, 2 * bit)
        own, length = burst_to_send(rng, setup, next(codes), rng.random() < faults)
        times += [max(0, time + one) for one in own]
        time += length
    return times


def slot_times(rng, setup):
    """The changes of the data line and of the sync line."""
    bit, codes = setup.bit(), [codes_to_send(rng, setup) for _ in setup.slots]
    time, times, syncs = rng.randint(2 * bit, 9 * bit), [], []
    faults = rng.choice([0, 0.01, 0.05] if setup.init else [0.03, 0.1, 0.2])
    for _ in range(rng.choice([1, 20, rng.randint(1, 100)] if setup.init else [1, 3, rng.randint(1, 15)])):
        if rng.random() > faults / 2:
            pulse = rng.choice([2 * bit, 2 * bit, rng.randint(0, 8 * bit)])
            syncs += [time, time + pulse]
        for start in starts_after_sync(rng, setup, faults):
            slot = (windows_at(setup, start) + [0])[0]
            own, _ = burst_to_send(rng, setup, next(codes[slot]), rng.random() < faults)
            begin = own[0] if own else 0
            times += [max(0, time + start + one - begin) for one in own]
        time += setup.slots[-1][1] + (setup.size() + 4) * 21 * bit // 20
        time -= rng.choice([0, 0, 0, setup.slots[-1][1] // 2]) if rng.random() < faults else 0
    return times, syncs
