"""What the readings of all links share: bits and checks, setups as words, and lines with edges."""


def bits_of(number, width):
    return [number >> place & 1 for place in reversed(range(width))]


def number_of(bits):
    return int("".join(map(str, bits)) or "0", 2)


def remainder(bits, divisor):
    left = list(bits)
    for start in range(len(left) - len(divisor) + 1):
        if left[start]:
            for place, bit in enumerate(divisor):
                left[start + place] ^= bit
    return number_of(left[-(len(divisor) - 1) :])


def crc3(bits):
    return remainder([1, 1, 1] + bits + [0] * 3, [1, 0, 1, 1])


def crc4(nibbles, form="new"):
    bits = [0, 1, 0, 1] + [bit for nibble in nibbles for bit in bits_of(nibble, 4)]
    return remainder(bits + [0] * 4 if form == "new" else bits, [1, 1, 1, 0, 1])


def crc6(bits):
    return remainder([0, 1, 0, 1, 0, 1] + bits + [0] * 6, [1, 0, 1, 1, 0, 0, 1])


# The vectors of docs/SENT.md's messages and of the CRCs.
assert crc4([1, 2, 3, 4, 5, 6]) == 2 and crc4([1, 2, 3, 4, 5, 6], "legacy") == 0xD
assert crc6([0] * 24) == 0b100110 and crc6(bits_of(0b000111010101101000100100, 24)) == 0b010011
assert crc3([]) == 0b010 and crc3([0] * 10) == 0b110
assert crc3([1, 1, 1, 0, 0, 1, 1, 1, 1, 0]) == 0b001 and crc3([0, 1, 1, 0, 1, 0]) == 0b011


def calibrates(setup, length):
    """Whether a pulse can be 56 ticks that are off by up to a fifth."""
    return 5 * length + 10 * setup.jitter >= 224 * setup.tick and 5 * length <= 336 * setup.tick + 10 * setup.jitter


def nibble_in(length, calibration):
    """The value that a pulse carries, a list of one or none."""
    return [
        value
        for value in range(16)
        if (2 * (12 + value) - 1) * calibration <= 112 * length < (2 * (12 + value) + 1) * calibration
    ]


def words(kind, keys, brief):
    """The SPEC of keys, each with its value and its default; a brief one leaves out what has its default."""
    return f"{kind}:" + ",".join(f"{key}={value}" for key, value, usual in keys if not (brief and value == usual))


def spans(pairs):
    return "/".join(f"{low}-{high}" for low, high in pairs)


def at_an_end_or_inside(rng, low, high):
    return rng.choice([low, high, rng.randint(low, high), rng.randint(low, high)])


def shaken(rng, times):
    """The times of a line's changes, now and then with some missing, added or moved, mostly by pairs."""
    for _ in range(rng.choice([0, 0, 0, 1, 3])):
        times = sorted(times)
        if len(times) < 4:
            break
        place = rng.randrange(1, len(times) - 2)
        between = rng.randint(times[place], times[place + 1])
        some = rng.choice([[], [between], [between, between], [times[place], between]])
        gone = 1 if len(some) == 1 else rng.choice([0, 2])
        times[place : place + (gone if rng.random() < 0.9 else 1 - gone % 2)] = some
    grid = rng.choice([1, 1, 1, 1, 1, 1, 250, 1000])  # a slow analyser sees many changes at one time
    return sorted(time // grid * grid for time in times)


def line_rows(rng, line, level, times):
    """Rows of a line that has a level at first and changes at these times, some of them with repeated levels."""
    times = shaken(rng, list(map(int, times)))
    rows = []
    if times and rng.random() < 0.9:
        rows.append((rng.choice([0, 0, 0, 0, rng.randint(0, times[0])]), line, level))
    for time, after in zip(times, times[1:] + times[-1:]):
        level = 1 - level
        rows.append((time, line, level))
        if rng.random() < 0.01:
            rows.append((rng.randint(time, after), line, level))
    return rows
