#!/usr/bin/env python3
"""judge/captures.py [--seed N] [--runs N] [--limit-kind K] [--before PROGRAM] -- PROGRAM..: the program against a second reading of
document 01, "Records for the program".

PROGRAM.. is the program, after what runs it (an emulator) if anything. Captures are made, most of them then damaged, and what the
program prints is compared with what the reader below says. It shares nothing with the library: whole numbers, and a plain table.

The tester is no writer: it goes on making limit kind 1, which document 02, Two, lets nobody write, and the reader below keeps
min-content as document 01 has it. So each run shows that the program's own reading of such captures changes no answer.
--limit-kind K makes random captures of that kind alone (before the damage); --before PROGRAM asks an older program too, run as
PROGRAM.. is, and wants the same bytes of it."""
import argparse
import functools
import random
import struct
import subprocess
import sys
import time

BODY = {1: 11, 2: 4, 3: 0}
GRID, LENGTH, SUM = 64, 262144 * 64, 16777216


class Refused(Exception):
    pass


def units(bits):
    """A float's sixty-fourths as a pair of whole numbers, over and under the bar; None where it is not finite."""
    sign, exponent, digits = bits >> 31, bits >> 23 & 0xFF, bits & 0x7FFFFF
    if exponent == 255:
        return None
    digits, power = (digits, -149) if exponent == 0 else (digits | 1 << 23, exponent - 150)
    digits = -digits if sign else digits
    power += 6
    return (digits << power, 1) if power >= 0 else (digits, 1 << -power)


def records(data):
    """The container and the sizes' bits, or Refused with the place of the broken record."""
    at, container, sizes = 0, None, []
    while True:
        if at == len(data):
            raise Refused("answer 7 place %d" % at)
        kind = data[at]
        body = data[at + 1:at + 1 + BODY.get(kind, 0)]
        wrong_turn = kind not in BODY or (kind == 1) != (container is None)
        if wrong_turn or len(body) < BODY[kind] or (kind == 1 and body[0] > 2):
            raise Refused("answer 7 place %d" % at)
        at += 1 + BODY[kind]
        if kind == 1:
            container = struct.unpack("<BIIH", body)
        elif kind == 2:
            sizes.append(struct.unpack("<I", body)[0])
        else:
            if at < len(data):
                raise Refused("answer 7 place %d" % at)
            return container, sizes


def check(container, sizes):
    limit_kind, limit, gap, _ = container
    if len(sizes) > 64:
        raise Refused("answer 1 place container")
    places = [("container", [(limit, -LENGTH)] * (limit_kind == 0) + [(gap, 0)])]
    places += [(str(i), [(size, -LENGTH)]) for i, size in enumerate(sizes)]
    tests = [
        (3, lambda u, low: u is None),
        (4, lambda u, low: u[0] % u[1] != 0),
        (5, lambda u, low: not low * u[1] <= u[0] <= LENGTH * u[1]),
    ]
    for number, fails in tests:
        for place, numbers in places:
            if any(fails(units(bits), low) for bits, low in numbers):
                raise Refused("answer %d place %s" % (number, place))
    whole = [units(bits)[0] // units(bits)[1] for bits in sizes]
    between = units(gap)[0] // units(gap)[1]
    if sum(abs(size) + between for size in whole) > SUM:
        raise Refused("answer 6 place container")
    return whole, between, None if limit_kind == 2 else -1 if limit_kind == 1 else units(limit)[0] // units(limit)[1]


def balanced(sizes, gap, most, minimum):
    """The division that the plain rule names. `most` is None under max-content; below 0 no line of several items fits."""
    xs = [max(size, 0) for size in sizes]
    n = len(xs)
    size = lambda s, t: sum(xs[s:t]) + gap * (t - s - 1)
    fits = lambda s, t: most is None or size(s, t) <= most
    lines, at = 0, 0
    while at < n:
        end = at + 1
        while end < n and fits(at, end + 1):
            end += 1
        at, lines = end, lines + 1
    k = max(lines, min(max(minimum, 1), n))

    @functools.lru_cache(None)
    def best(s, after):
        if after < 0:
            return (0, ()) if s == n else None
        found = None
        for t in range(s + 1, n - after + 1):
            if t > s + 1 and not fits(s, t):
                break
            if t < n and xs[t] == 0 and fits(s, t + 1) and not n - (t + 1) < after:
                continue
            rest = best(t, after - 1)
            if rest is not None:
                this = (size(s, t) ** 2 + rest[0], (-(t - s),) + rest[1])
                found = this if found is None or this < found else found
        return found

    return [-c for c in best(0, k - 1)[1]]


def expected(data):
    try:
        container, sizes = records(data)
        whole, gap, most = check(container, sizes)
    except Refused as refusal:
        return str(refusal) + "\n"
    counts = balanced(whole, gap, most, container[3])
    return "answer 0\nlines %d\ncounts%s\n" % (len(counts), "".join(" %d" % c for c in counts))


def f32(x):
    return struct.unpack("<I", struct.pack("<f", x))[0]


ODD = [0x7FC00000, 0x7F800001, 0xFF800000, 0x7F800000, 0x80000000, 1, 0x7F7FFFFF, f32(262144), f32(262144.03125), f32(-262144), f32(0.01), f32(1 / 128)]


def number(rng):
    return rng.choice(ODD) if rng.random() < 0.02 else f32(rng.choice([0, 0, 5, 10, 20, 30, 35, 40, -7, rng.randrange(6400) / 64]))


def capture(rng, limit_kind):
    n = rng.choice([0, 1, 2, 3, 4, 5, 6, 7, 8, 9, 20, 63, 64, 65, 70]) if rng.random() < 0.5 else rng.randrange(12)
    kind = rng.choice([0, 0, 0, 1, 2]) if limit_kind is None else limit_kind
    gap = number(rng) if rng.random() < 0.1 else f32(rng.choice([0, 0, 10, 0.5]))
    data = struct.pack("<BBIIH", 1, kind, number(rng) if rng.random() < 0.1 else f32(rng.choice([90, 100, 40, 150, 0, -5])), gap, rng.choice([0, 1, 1, 2, 3, n & 0xFFFF, 65535]))
    for _ in range(n):
        data += struct.pack("<BI", 2, number(rng))
    return bytearray(data + b"\3")


def damage(rng, data):
    for _ in range(rng.choice([0, 0, 1, 1, 2, 5])):
        at = rng.randrange(len(data) + 1)
        what = rng.randrange(5)
        if what == 0 and data:
            del data[at:]
        elif what == 1:
            data.insert(at, rng.randrange(256))
        elif what == 2 and at < len(data):
            data[at] ^= 1 << rng.randrange(8)
        elif what == 3 and at < len(data):
            del data[at]
        else:
            data += bytes([rng.choice([1, 2, 3, 4])])
    return bytes(data)


def made(kind, limit, gap, minimum, sizes, end=b"\3"):
    return struct.pack("<BBIIH", 1, kind, limit, gap, minimum) + b"".join(struct.pack("<BI", 2, size) for size in sizes) + end


def fixed():
    """What random captures seldom are: numbers that are not read, sums at their bound, input longer than one read, the paper's table, old captures."""
    nan, ten = 0x7FC00000, f32(10)
    yield b""
    yield bytes.fromhex("01 01 0000c07f 00000041 0100 02 0000a040 02 0000c040 03")
    for items in (0, 1, 2, 63, 64, 65):
        for minimum in (0, 1, 2, 65535):
            yield made(1, nan, ten, minimum, [ten] * items)
            yield made(1, 0, 0, minimum, [0] * items)
    for gap in (f32(-1), nan, f32(0.01), f32(262144)):
        yield made(1, 0, gap, 1, [ten, ten])
    yield made(1, 0, ten, 9, [f32(-3), f32(4)])
    for kind in (1, 2):
        for limit in (nan, 0x7F800000):
            yield made(kind, limit, 0, 1, [ten, ten])
    yield made(0, nan, 0, 1, [ten])
    yield made(2, 0, nan, 1, [ten])
    for size in (f32(262144), f32(262143.984375)):
        yield made(2, 0, 0, 1, [size])
        yield made(2, 0, f32(1 / 64), 1, [size])
    for minimum in (255, 256, 257, 65534, 65535):
        yield made(0, f32(100), 0, minimum, [ten] * 5)
    head = made(0, f32(100), 0, 1, [], b"")
    yield head + head + b"\3"
    for cut in range(1, len(head)):
        yield head[:cut]
    for items in (64, 65, 13104, 13105, 13106, 13200, 40000):
        yield made(0, f32(100), 0, 1, [ten] * items)
        yield made(0, f32(100), 0, 1, [ten] * items, b"")
        yield made(0, f32(100), 0, 1, [ten] * items, b"\3\3")
    yield made(0, f32(100), ten, 1, [f32(70), 0, f32(20)])
    yield made(0, f32(90), ten, 1, [f32(x) for x in (30, 5, 40, 20, 0, 0, 35)])


def answer_of(program, data, cuts):
    """What the program prints; `cuts` are the places at which the input pauses, so that it comes in several reads."""
    if not cuts:
        return subprocess.run(program, input=data, stdout=subprocess.PIPE, check=True).stdout.decode()
    child = subprocess.Popen(program, stdin=subprocess.PIPE, stdout=subprocess.PIPE)
    for a, b in zip([0] + cuts, cuts + [len(data)]):
        child.stdin.write(data[a:b])
        child.stdin.flush()
        time.sleep(0.002)
    out = child.communicate()[0]
    if child.returncode:
        sys.exit("failed: " + " ".join(program))
    return out.decode()


def main():
    p = argparse.ArgumentParser()
    p.add_argument("program", nargs="+")
    p.add_argument("--seed", type=int, default=random.SystemRandom().randrange(1 << 32))
    p.add_argument("--runs", type=int, default=2000)
    p.add_argument("--limit-kind", type=int, choices=(0, 1, 2), help="of the random captures, before they are damaged")
    p.add_argument("--before", metavar="PROGRAM", help="an older program that must print the same bytes")
    a = p.parse_args()
    rng = random.Random(a.seed)
    seen = {}
    first = list(fixed())
    for run in range(len(first) + a.runs):
        data = first[run] if run < len(first) else damage(rng, capture(rng, a.limit_kind))
        cuts = sorted(rng.randrange(len(data) + 1) for _ in range(rng.randrange(1, 4))) if run % 20 == 0 else []
        got = answer_of(a.program, data, cuts)
        want = expected(data)
        if got != want:
            sys.exit("seed %d, run %d, capture %s: the program says %r, the reader %r" % (a.seed, run, data.hex(), got, want))
        if a.before and answer_of(a.program[:-1] + [a.before], data, cuts) != got:
            sys.exit("seed %d, run %d, capture %s: the program before said something else than %r" % (a.seed, run, data.hex(), got))
        answer = want.split()[1]
        seen[answer] = seen.get(answer, 0) + 1
    if sorted(seen) != ["0", "1", "3", "4", "5", "6", "7"]:
        sys.exit("seed %d: some answer was never met: %s" % (a.seed, sorted(seen)))
    beside = ", the program before too" if a.before else ""
    print("captures: seed %d, %d runs%s, 0 differences; by answer: %s" % (a.seed, len(first) + a.runs, beside, ", ".join("%s %d" % s for s in sorted(seen.items()))))


main()
