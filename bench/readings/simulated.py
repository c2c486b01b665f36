"""A second simulation of the sensors of all links, and a second script; times in ps until an edge is recorded."""
from readings import psi5, sent, spc, tooth
from readings.base import bits_of, crc4, crc6

LATEST = 9 * 10**17


class Wobble:
    """PCG (XSH RR, 64 bits of state, words of 32), its state and its increment expanded from a seed."""

    def __init__(self, seed):
        words, state = [], seed
        for _ in range(4):
            # An older PCG (RXS as XSH RR 32) makes the four words of the state and of the increment.
            state = (state * 6364136223846793005 + 11634580027462260723) % 2**64
            words.append(self.rotated(state))
        low, high, inc_low, inc_high = words
        self.increment = (inc_high << 32 | inc_low) | 1
        self.state = ((high << 32 | low) + self.increment) % 2**64
        self.step()

    @staticmethod
    def rotated(state):
        word, turn = ((state >> 18 ^ state) >> 27) % 2**32, state >> 59
        return (word >> turn | word << (32 - turn)) % 2**32

    def step(self):
        before = self.state
        self.state = (before * 6364136223846793005 + self.increment) % 2**64
        return before

    def pick(self, count):
        return self.rotated(self.step()) % count

    def bits(self, width):
        return self.pick(2**width) if width else 0


class Refused(Exception):
    """A message is refused: Kind, Range, Order or Late."""


def recorded(setup, wobble, time):
    return time // 1000 + wobble.pick(2 * setup.jitter) - (setup.jitter - 1)


def pulses(setup, wobble, line, times, level, width):
    """Timed edges to this level, each with the edge back so many ns later."""
    rows = []
    for time in times:
        at = recorded(setup, wobble, time)
        rows += [(at, line, level), (at + width, line, 1 - level)]
    return rows


def short_statuses(id_, value):
    bits = bits_of(id_, 4) + bits_of(value, 8) + bits_of(crc4([id_, value >> 4, value & 15]), 4)
    return [8 * (place == 0) + 4 * bit for place, bit in enumerate(bits)]


def enhanced_statuses(id_, value, wide):
    first, second, low = (id_, value >> 12, value & 0xFFF) if wide else (id_ >> 4, id_ & 15, value)
    starts = [1] * 6 + [0] + [int(wide)] + bits_of(first, 4) + [0] + bits_of(second, 4) + [0]
    values = bits_of(low, 12)
    check = crc6([bit for pair in zip(values, starts[6:]) for bit in pair])
    return [8 * s + 4 * v for s, v in zip(starts, bits_of(check, 6) + values)]


class SentSim:
    def __init__(self, setup):
        self.setup, self.last, self.tick, self.left = setup, None, 1000 * setup.tick, []

    def serial(self, statuses):
        if self.left:
            raise Refused("Order")
        self.left = statuses
        return []

    def next(self, message, wobble):
        kind, *values = message
        setup = self.setup
        if kind == "short":
            return self.serial(short_statuses(*values))
        if kind.startswith("enhanced"):
            return self.serial(enhanced_statuses(*values, kind == "enhanced4"))
        status, nibbles = values
        status += self.left[0] if self.left else 0
        most = self.tick // 200
        tick = self.tick + wobble.pick(2 * most + 1) - most
        tick = max(800 * setup.tick, min(1200 * setup.tick, tick))
        counts = [12 + value for value in [status, *nibbles, crc4(nibbles, setup.crc)]]
        counts += [12 + wobble.pick(757)] if setup.pause else []
        own = [tick + wobble.pick(2 * (tick // 400) + 1) - tick // 400 for _ in counts]
        first = 100_000 * setup.tick
        time = first if self.last is None else self.last
        times = [first] if self.last is None else []
        for length in [56 * tick] + [count * one for count, one in zip(counts, own)]:
            time += length
            times.append(time)
        if time > LATEST:
            raise Refused("Late")
        rows = [(0, setup.line, 1)] if self.last is None else []
        rows += pulses(setup, wobble, setup.line, times, 0, 4 * setup.tick)
        self.last, self.tick, self.left = time, tick, self.left[1:]
        return rows


class SpcSim:
    def __init__(self, setup):
        self.setup, self.begun = setup, False
        self.trigger = 100 * setup.tick * setup.quiet + 1000 * setup.tick + 2000 * setup.jitter

    def inside(self, wobble, span):
        low, high = span
        tick, jitter = self.setup.tick, self.setup.jitter
        return 100 * tick * low + 2000 * jitter + wobble.pick(100 * tick * (high - low) - 4000 * jitter + 1)

    def next(self, message, wobble):
        kind, code, *frame = message
        setup = self.setup
        tick = 800 * setup.tick + wobble.pick(400 * setup.tick + 1)
        rise = self.trigger + self.inside(wobble, setup.windows[code])
        end, falls, rest = rise, [], 1
        if kind == "answer":
            status, nibbles = frame
            time = rise + self.inside(wobble, setup.delay)
            counts = [12 + value for value in [status, *nibbles, setup.check_of([status, *nibbles])]]
            own = [tick + wobble.pick(2 * (tick // 400) + 1) - tick // 400 for _ in counts]
            falls = [time]
            for length in [56 * tick] + [count * one for count, one in zip(counts, own)]:
                time += length
                falls.append(time)
            end, rest = time, 5
        if end > LATEST:
            raise Refused("Late")
        rows = [] if self.begun else [(0, setup.line, 1)]
        rows.append((recorded(setup, wobble, self.trigger), setup.line, 0))
        rows.append((recorded(setup, wobble, rise), setup.line, 1))
        rows += pulses(setup, wobble, setup.line, falls, 0, 4 * setup.tick)
        self.begun = True
        self.trigger = end + 1000 * rest * setup.tick + 100 * setup.tick * setup.quiet + 2000 * setup.jitter
        return rows


class Psi5Sim:
    def __init__(self, setup):
        self.setup, self.end, self.begun, self.sync, self.slot = setup, 0, False, None, -1

    def next(self, message, wobble):
        return self.pulse(wobble) if message[0] == "sync" else self.burst(message[1], message[2], wobble)

    def pulse(self, wobble):
        setup, bit = self.setup, self.setup.bit()
        behind = 1000 * setup.slots[-1][1] + 1050 * (setup.size() + 3) * bit if setup.slots else 0
        time = 2000 * bit if self.sync is None else self.sync + behind
        if time > LATEST:
            raise Refused("Late")
        rows = [(0, line, 0) for line in sorted(setup.lines())] if self.sync is None else []
        rows += pulses(setup, wobble, setup.sync, [time], 1, 2 * bit)
        self.sync, self.slot = time, -1
        return rows

    def burst(self, slot, parts, wobble):
        setup, bit = self.setup, self.setup.bit()
        if slot is not None and (self.sync is None or slot <= self.slot):
            raise Refused("Order")
        half = 475 * bit + wobble.pick(50 * bit + 1)
        if slot is None:
            start = self.end + 1050 * bit + wobble.pick(10_000 * bit + 1)
        else:
            low, high = setup.slots[slot]
            offset = 1000 * (low + 2 * setup.jitter) + wobble.pick(1000 * (high - low - 4 * setup.jitter) + 1)
            start = self.sync + offset - half
        places = psi5.changes(psi5.frame_bits(setup, parts))
        times = [start + place * half for place in places]
        if times[-1] > LATEST:
            raise Refused("Late")
        rows = [] if self.begun or slot is not None else [(0, setup.line, 0)]
        rows += [(recorded(setup, wobble, time), setup.line, 1 - place % 2) for place, time in enumerate(times)]
        self.begun, self.slot = True, slot
        self.end = start + 2 * setup.size() * half
        return rows


class ToothSim:
    def __init__(self, setup):
        self.setup, self.last = setup, None

    def next(self, message, wobble):
        setup = self.setup
        period = 950 * setup.period + wobble.pick(100 * setup.period + 1)
        missing = 5 + wobble.pick(4)
        time = 1000 * setup.period if self.last is None else self.last + period
        times = [time, time + (missing + 1) * period]
        time = times[-1]
        for bit in tooth.down_bits(setup.form, message[1:]):
            time += period
            times += [time] if bit else []
        if times[-1] > LATEST:
            raise Refused("Late")
        rows = [(0, setup.line, 0)] if self.last is None else []
        self.last = times[-1]
        return rows + pulses(setup, wobble, setup.line, times, 1, setup.period // 10)


SIMS = {sent.Setup: SentSim, spc.Setup: SpcSim, psi5.Setup: Psi5Sim, tooth.Setup: ToothSim}


def played(setup, seed, messages):
    """The rows of the messages up to the first that is refused, and the place and the fault of that one."""
    sim, wobble, rows = SIMS[type(setup)](setup), Wobble(seed), []
    for place, message in enumerate(messages):
        try:
            rows += sim.next(message, wobble)
        except Refused as refused:
            return rows, (place, str(refused))
    return rows, None


def text_of(message):
    """The line of a message."""
    kind, *values = message

    def digits(nibbles):
        return "".join(f"{nibble:X}" for nibble in nibbles)

    if kind in ("frame", "answer"):
        return " ".join([kind, *map(str, values[:-2]), f"{values[-2]:X}", digits(values[-1])])
    if kind == "burst":
        slot, (m, f, s, b, a) = values
        return f"burst {'-' if slot is None else slot} {m:X} {f:X} {s:X} {b:03X} {a:06X}"
    widths = {"short": "X 02X", "enhanced8": "02X 03X", "enhanced4": "X 04X", "down": "d d 03X 03X", "silent": "d"}
    return " ".join([kind, *(format(value, width) for value, width in zip(values, widths.get(kind, "").split()))])


def sent_script(setup, wobble):
    left, counter = 0, 0
    while True:
        if setup.serial == "short" and not left:
            yield "short", wobble.bits(4), wobble.bits(8)
            left = 16
        if setup.serial == "enhanced" and not left:
            wide = wobble.bits(1)
            id_ = wobble.bits(4 if wide else 8)
            yield "enhanced4" if wide else "enhanced8", id_, wobble.bits(16 if wide else 12)
            left = 18
        status = wobble.bits(4 if setup.serial == "none" else 2)
        nibbles = [wobble.bits(4) for _ in range(3 if setup.layout == "secure12" else setup.nibbles)]
        if setup.layout == "secure12":
            nibbles += [counter >> 4, counter & 15, 15 - nibbles[0]]
            counter = (counter + 1) % 256
        yield "frame", status, nibbles
        left -= 1 if left else 0


def spc_script(setup, wobble):
    while True:
        code, status = wobble.pick(len(setup.windows)), wobble.bits(4)
        yield "answer", code, status, [wobble.bits(4) for _ in range(setup.nibbles)]


def psi5_script(setup, wobble):
    slots = range(len(setup.slots)) if setup.slots else [None]
    codes = {}
    for slot in slots:
        blocks = [[0x200 + j, 0x210 + (j + (slot or 0)) % 16] * setup.init for j in range(16)] if setup.init else []
        codes[slot] = [code for block in blocks for code in block] + ([0x1E7] if setup.init else [])
    while True:
        if setup.slots:
            yield ("sync",)
        for slot in slots:
            parts = [wobble.bits(width) for width in setup.widths()[:4]]
            if codes[slot]:
                parts.append(codes[slot].pop(0))
            elif setup.a == 10:
                parts.append((wobble.pick(961) - 480) % 1024)
            else:
                parts.append(wobble.bits(setup.a))
            yield "burst", slot, parts


def tooth_script(setup, wobble):
    while True:
        yield ("down", *[wobble.bits(width) for width in tooth.WIDTHS[setup.form]])


SCRIPTS = {sent.Setup: sent_script, spc.Setup: spc_script, psi5.Setup: psi5_script, tooth.Setup: tooth_script}


def scripted(setup, seed, count):
    """The messages of a script up to the one of this number that is a frame, an answer, a burst or a downlink."""
    messages, counted = [], 0
    script = SCRIPTS[type(setup)](setup, Wobble(seed))
    while counted < count:
        messages.append(next(script))
        counted += messages[-1][0] in ("frame", "answer", "burst", "down")
    return messages


def stretches(rows):
    """The rows between the lost ones: up to 50 from each thousandth on, but the first."""
    if not rows:
        return [[]]
    starts = [0] + [min(first + 50, len(rows)) for first in range(1000, len(rows), 1000)]
    ends = list(range(1000, len(rows), 1000)) + [len(rows)]
    return [rows[start:end] for start, end in zip(starts, ends)]


def sums(setup, read, rows, to_the_end=True):
    """How many good and bad reports a stretch gives, with those of the end or without."""
    said = [text.split()[0] for told, _, text in read(setup, [(line, time, level) for time, line, level in rows])
            if to_the_end or told < len(rows)]
    return sum(word in ("frame", "answer", "psi5", "down") for word in said), sum(word in ("bad", "counter", "noanswer") for word in said)
