"""Captures whose reports were worked out by hand: channels, rows, the report lines, and the first channel's total."""
from readings import psi5, sent, spc, tooth

BURST = [24, 28, 32, 40, 44, 48, 52, 56, 64, 68, 72, 80, 84, 88, 92, 96, 100, 104, 112, 120]
CRC_BURST = list(range(24, 113, 4)) + [120, 124, 128, 136, 140]
PULSES = [1000, 1500, 5500, 6500, 7500, 8000, 8500, 9500, 10500, 11500, 12000, 12500]
FALLS = [300, 468, 504, 540, 576, 612, 648, 684, 720, 771]
ANSWER = [399, 567, 603, 639, 675, 711, 747, 783, 819, 870]


def changing(line, level, times, unit=1000):
    """Rows of a line that has a level at the first time and changes at the others, in us unless said."""
    return [(time * unit, line, (level + place) % 2) for place, time in enumerate(times)]


def falling(falls):
    """Rows of line 0, high at first, with a rise 15 us after each fall."""
    return changing(0, 1, [0] + [time for fall in falls for time in (fall, fall + 15)])


def pulsing(rises):
    """Rows of line 1, low at first, with a fall 20 us after each rise."""
    return changing(1, 0, [0] + [time for rise in rises for time in (rise, rise + 20)])


def later(burst, more):
    return [time + more for time in burst]


def slotted(offsets):
    """Rows of a sync at 100 us on line 2 and of bursts on line 1, so long after it."""
    rows = changing(1, 0, [0])[:1] + changing(2, 0, [0, 100, 116])
    bursts = [time for offset in offsets for time in later(BURST, 76 + offset)]
    return rows + changing(1, 1, bursts)


ANSWERED = "00 20 psi5 - 0 0 0 000 0001E7 ready"
IN_SLOT = "00 23 psi5 0 0 0 0 000 0001E7 ready"
SLOTS = psi5.Setup(1, sync=2, slots=((44_000, 60_000), (200_000, 216_000)))
WIDE_SLOT = psi5.Setup(1, sync=2, slots=((44_000, 400_000),))
TRIGGER = changing(0, 1, [0, 300, 339])
ANSWERS = [row for row in falling(ANSWER) if row[0]]

ROWS = [
    ([sent.Setup(0)], falling(FALLS), ["00 19 frame 0 000000"], (1, 0)),
    ([psi5.Setup(1)], changing(1, 0, [0] + BURST), [ANSWERED], (1, 0)),
    ([psi5.Setup(1, check="crc")], changing(1, 0, [0] + CRC_BURST), ["00 28 psi5 - 0 0 0 000 000000 signal 0"], (1, 0)),
    ([psi5.Setup(1, check="crc")], changing(1, 0, [0] + CRC_BURST[:-1]), ["00 27 bad EndsHigh"], (0, 1)),
    ([psi5.Setup(1)], changing(1, 0, [0, 24, 28, 36]), ["00 3 bad Phase"], (0, 1)),
    ([psi5.Setup(1)], changing(1, 0, [14_400] + later(BURST, 0), 1)[:1] + changing(1, 1, BURST), [], (0, 0)),
    ([psi5.Setup(1)], changing(1, 0, [14] + BURST), [ANSWERED], (1, 0)),
    ([spc.Setup(0)], changing(0, 1, [0, 300, 354]), ["00 2 bad TriggerWidth"], (0, 1)),
    ([spc.Setup(0)], TRIGGER, ["00 2 noanswer 0"], (0, 1)),
    ([spc.Setup(0)], TRIGGER + ANSWERS, ["00 21 answer 0 0 000000"], (1, 0)),
    ([tooth.Setup(1)], pulsing(PULSES), ["00 23 down 3 2 000 000"], (1, 0)),
    ([tooth.Setup(1)], pulsing(PULSES[:6] + PULSES[7:]), ["00 13 bad SyncBit"], (0, 1)),
    ([SLOTS], slotted([50]), [IN_SLOT], (1, 0)),
    ([SLOTS], slotted([70]), ["00 4 bad NoSlot"], (0, 1)),
    ([SLOTS], slotted([300]), ["00 4 bad NoSync"], (0, 1)),
    ([WIDE_SLOT], slotted([50, 190]), [IN_SLOT, "00 24 bad SlotTwice"], (1, 1)),
]

CODES = [
    ([0x200, 0x213, 0x200, 0x213, 0x201, 0x21A, 0x201, 0x21A, 0x1E7], {3: "init 1 3", 7: "init 2 A", 8: "initdone 2"}),
    ([0x200, 0x213, 0x200, 0x214], {3: "bad InitRepeat"}),
]


def wrong_rows(read_all):
    """What is read otherwise than it was worked out."""
    wrong = []
    for setups, rows, lines, (good, bad) in ROWS:
        totals = [f"00 total good {good} bad {bad} messages 0 gaps 0 lost 0"]
        if read_all(setups, rows) != (lines, totals, int(bad > 0)):
            wrong.append(f"{setups[0].spec()}: {read_all(setups, rows)} and not {lines}, {totals}")
    for codes, steps in CODES:
        if psi5.init_steps(2, codes) != [steps.get(place) for place in range(len(codes))]:
            wrong.append(f"the codes {codes} are read as {psi5.init_steps(2, codes)}")
    return wrong
