"""Cycles of a Cortex-M4, estimated from a trace of an emulated one. A model: costs of instructions as in
ARM's Technical Reference Manual (100166, sections 3.3 and 7.2.3), memory without wait states, a taken
branch three cycles, the fetch after it never late. Loads and stores are never overlapped, a division of
whole numbers takes its most, and a float operation that waits for the one before it one cycle more."""
import re

BRANCHES = re.compile(r"(b|bl|bx|blx|cbz|cbnz|beq|bne|bcs|bcc|bmi|bpl|bvs|bvc|bhi|bls|bge|blt|bgt|ble|bal)(\.[nw])?$")
REFILL = 2


def registers(operands):
    """How many registers a list such as {r4, r5-r7, pc} names."""
    count = 0
    for word in re.search(r"\{(.*)\}", operands)[1].split(","):
        ends = re.findall(r"\d+", word)
        count += int(ends[1]) - int(ends[0]) + 1 if "-" in word and len(ends) == 2 else 1
    return count


def float_cost(mnemonic, operands):
    if mnemonic.startswith(("vdiv", "vsqrt")):
        return 14
    if mnemonic.startswith(("vmla", "vmls", "vnmla", "vnmls", "vfma", "vfms", "vfnma", "vfnms")):
        return 3
    if mnemonic.startswith(("vldr", "vstr")):
        return 3 if operands.startswith("d") else 2
    if mnemonic.startswith(("vldm", "vstm", "vpush", "vpop")):
        return 1 + registers(operands)
    if mnemonic.startswith("vmov") and operands.count(",") >= 2:
        return 2
    return 1


def cost(mnemonic, operands, taken, before):
    """Of one executed instruction; `before` is the one before it, and `taken` says that it went elsewhere."""
    refill = REFILL if taken else 0
    if mnemonic.startswith("v"):
        waits = before[0].startswith(("vadd", "vsub", "vmul", "vabs", "vneg", "vcvt", "vdiv"))
        first = before[1].split(",")[0]
        return float_cost(mnemonic, operands) + (waits and first in re.split(r"[ ,]+", operands))
    if BRANCHES.match(mnemonic):
        return 1 + refill
    if mnemonic.startswith(("udiv", "sdiv")):
        return 12
    if mnemonic.startswith(("ldm", "stm", "push", "pop")):
        return 1 + registers(operands) + refill
    if mnemonic.startswith(("ldrd", "strd")):
        return 3
    if mnemonic.startswith(("ldr", "tbb", "tbh")):
        return 2 + refill
    return 1 + refill


class Listing:
    """The instructions of a program by address: mnemonic, operands, size, function."""

    def __init__(self, listing):
        self.at, self.start = {}, {}
        name = None
        for line in listing.splitlines():
            if start := re.match(r"([0-9a-f]+) <(.+)>:$", line):
                name = start[2]
                self.start[name] = int(start[1], 16)
            elif found := re.match(r"\s*([0-9a-f]+):\t([0-9a-f ]+)\t(\S+)\s*([^;<]*)", line):
                size = len(found[2].replace(" ", "")) // 2
                self.at[int(found[1], 16)] = (found[3], found[4].strip(), size, name)


def executed(trace):
    """The addresses of a trace, each with the one after it."""
    last = None
    for line in trace:
        if found := re.match(r"Trace \d+: \S+ \[[0-9a-f]+/([0-9a-f]+)/", line):
            address = int(found[1], 16)
            if last is not None:
                yield last, address
            last = address


def cycles(listing, trace, harness):
    """For each call of `mark` the cycles and instructions up to the next one, outside of the harness's own functions."""
    totals, before = [], ("", "", 0, "")
    for address, following in executed(trace):
        mnemonic, operands, size, function = here = listing.at[address]
        if address == listing.start["mark"]:
            totals.append([0, 0])
        elif totals and function not in harness:
            totals[-1][0] += cost(mnemonic, operands, following != address + size, before)
            totals[-1][1] += 1
        before = here
    return totals
