#!/usr/bin/env python3
"""judge/refusals.py: document 01's table of refusals, read once more, in whole numbers and apart from all other code here.

Reads calls from the standard input, one a line, with the library's number and place at its end, and compares. A line is
    CALL ARGUMENT .. => NUMBER WHERE PLACE
where a float is x and its eight hex digits, a code or a length is a decimal number, and a list is [..] with commas.
judge/hostile writes such lines."""
import sys

MOST_ITEMS, SUM = 1024, 16777216
NOWHERE, CONTAINER, AT = 0, 1, 2
ACCEPTED = (0, NOWHERE, 0)


def at_container(number):
    return (number, CONTAINER, 0)


# ---- numbers: a float as an exact fraction of whole numbers, in sixty-fourths


def parts(bits):
    """(over, under): sixty-fourths as a fraction; None for NaN and the infinities."""
    exponent, digits = bits >> 23 & 0xFF, bits & 0x7FFFFF
    if exponent == 0xFF:
        return None
    if exponent:
        digits, exponent = digits | 0x800000, exponent - 1
    over = -digits if bits >> 31 else digits
    power = exponent - 149 + 6
    return (over << power, 1) if power >= 0 else (over, 1 << -power)


def whole(bits):
    over, under = parts(bits)
    return over // under


# Kinds of numbers: on the grid or not, and the range in pixels.
LENGTH = (True, -262144, 262144)
SIZE = (True, 0, 262144)
MARGIN = (True, -131072, 131072)
FACTOR = (False, 0, 1024)
WORKED = (False, -16777216, 16777216)


def fault(kind, value):
    """3, 4 or 5, or 0. A code is ('code', most)."""
    if kind[0] == "code":
        return 5 if value > kind[1] else 0
    fraction = parts(value)
    if fraction is None:
        return 3
    over, under = fraction
    if kind[0] and over % under:
        return 4
    return 0 if kind[1] * 64 * under <= over <= kind[2] * 64 * under else 5


def code(most):
    return ("code", most)


def given(flag, value, kind=SIZE):
    """A number that is absent unless its code is 1."""
    return [(code(1), flag)] + ([(kind, value)] if flag == 1 else [])


def unless_auto(flag, value):
    return [(code(1), flag)] + ([(MARGIN, value)] if flag == 0 else [])


def numbers(container, items):
    """Checks 3 to 5: each over the whole input, the container first, then the items from 0."""
    found = {}
    for place, taken in [(None, container)] + list(enumerate(items)):
        for kind, value in taken:
            number = fault(kind, value)
            if number and number not in found:
                found[number] = place
    for number in (3, 4, 5):
        if number in found:
            return at_container(number) if found[number] is None else (number, AT, found[number])
    return ACCEPTED


def shape(lengths, n, enough):
    """Checks 1 and 2."""
    if max(lengths) > MOST_ITEMS:
        return at_container(1)
    return ACCEPTED if enough and all(length == n for length in lengths) else at_container(2)


def summed(outer, gap):
    """Check 6, in sixty-fourths."""
    return at_container(6) if sum(abs(size) + gap for size in outer) > SUM else ACCEPTED


# ---- what the calls take


def limit_numbers(kind, limit):
    return [(code(2), kind)] + ([(LENGTH, limit)] if kind == 0 else [])


def break_limit(known, main, row, kind, available, has_minimum, minimum, has_maximum, maximum):
    flags = [(code(1), flag) for flag in (known, main, row)]
    return numbers(flags + limit_numbers(kind, available) + given(has_minimum, minimum) + given(has_maximum, maximum), [])


def breaking(kind, limit, gap, sizes, enough):
    verdict = shape([len(sizes)], len(sizes), enough)
    if verdict == ACCEPTED:
        verdict = numbers(limit_numbers(kind, limit) + [(SIZE, gap)], [[(LENGTH, size)] for size in sizes])
    return verdict if verdict != ACCEPTED else summed([whole(size) for size in sizes], whole(gap))


def greedy(kind, limit, gap, sizes, counts):
    return breaking(kind, limit, gap, sizes, counts >= len(sizes))


def balanced(kind, limit, gap, minimum, sizes, counts, work, sums):
    n = len(sizes)
    return breaking(kind, limit, gap, sizes, counts >= n and work >= n * n + 3 * n and sums >= 3 * n)


def main_numbers(base, minimum, maximum, has_maximum, edges, grow, shrink, start, end, auto_start, auto_end):
    plain = [(SIZE, base), (SIZE, minimum), (SIZE, edges), (FACTOR, grow), (FACTOR, shrink)]
    return plain + given(has_maximum, maximum) + unless_auto(auto_start, start) + unless_auto(auto_end, end)


def hypothetical_outer(base, minimum, maximum, has_maximum, edges, grow, shrink, start, end, auto_start, auto_end):
    size = min(whole(base), whole(maximum)) if has_maximum else whole(base)
    size = max(size, whole(minimum), whole(edges))
    return size + (0 if auto_start else whole(start)) + (0 if auto_end else whole(end))


def flexing(inner, gap, division, lists, room):
    n = len(lists[0])
    verdict = shape([len(each) for each in lists], n, room >= n)
    if verdict != ACCEPTED:
        return verdict
    items = list(zip(*lists))
    verdict = numbers([(SIZE, inner), (SIZE, gap)] + division(n), [main_numbers(*item) for item in items])
    return verdict if verdict != ACCEPTED else summed([hypothetical_outer(*item) for item in items], whole(gap))


def flex_line(inner, gap, *rest):
    return flexing(inner, gap, lambda n: [], rest[:11], rest[11])


def flex_lines(inner, gap, counts, *rest):
    """Counts that are no division of the items are a number of the container out of range."""
    if len(counts) > MOST_ITEMS:
        return at_container(1)
    division = lambda n: [(code(0), 0 if sum(counts) == n and 0 not in counts else 1)]
    return flexing(inner, gap, division, rest[:11], min(rest[11:14]))


def place_main(inner, gap, justify, is_reversed, targets, start, end, auto_start, auto_end, *room):
    lists = (targets, start, end, auto_start, auto_end)
    n = len(targets)
    verdict = shape([len(each) for each in lists], n, min(room) >= n)
    if verdict != ACCEPTED:
        return verdict
    container = [(SIZE, inner), (SIZE, gap), (code(13), justify), (code(1), is_reversed)]
    return numbers(container, [[(WORKED, t)] + unless_auto(a, s) + unless_auto(b, e) for t, s, e, a, b in zip(*lists)])


def cross_numbers(inner, has_inner, minimum, has_minimum, maximum, has_maximum, gap, wrap):
    bounds = given(has_inner, inner) + given(has_minimum, minimum) + given(has_maximum, maximum)
    return bounds + [(SIZE, gap), (code(4), wrap)]


def place_lines(*arguments):
    container, (align, lines, sizes, offsets) = arguments[:8], arguments[8:]
    n = len(lines)
    verdict = shape([n], n, min(sizes, offsets) >= n)
    if verdict != ACCEPTED:
        return verdict
    return numbers(cross_numbers(*container) + [(code(13), align)], [[(WORKED, line)] for line in lines])


def cross_item(measured, minimum, maximum, has_maximum, edges, start, end, auto_start, auto_end):
    plain = [(SIZE, measured), (SIZE, minimum), (SIZE, edges)]
    return plain + given(has_maximum, maximum) + unless_auto(auto_start, start) + unless_auto(auto_end, end)


def items_across(container, lists, codes, room):
    n = len(lists[0])
    verdict = shape([len(each) for each in lists + codes], n, room >= n)
    if verdict != ACCEPTED:
        return verdict
    items = [cross_item(*item) for item in zip(*lists)]
    if codes:
        items = [taken + [(code(10), align), (code(1), auto)] for taken, align, auto in zip(items, *codes)]
    return numbers(container, items)


def line_size(*arguments):
    """The size of one line turns on no gap, which the container's numbers have all the same."""
    taken = [number for i, number in enumerate(arguments[:8]) if i != 6]
    inner, has_inner, minimum, has_minimum, maximum, has_maximum, wrap = taken
    bounds = given(has_inner, inner) + given(has_minimum, minimum) + given(has_maximum, maximum)
    return items_across(bounds + [(code(4), wrap)], arguments[8:17], (), MOST_ITEMS)


def place_across(line, is_reversed, *rest):
    return items_across([(WORKED, line), (code(1), is_reversed)], rest[:9], rest[9:11], min(rest[11:15]))


def one_pass(*arguments):
    """The container's 16 cells, the items' 22 each, one after another, and the cells of the seven lent lists."""
    container, (cells, placed, lines, counts, rounds, free, work, sums) = arguments[:16], arguments[16:]
    n = len(cells) // 22
    (inner, gap, kind, limit, _, direction, wrap, justify, align, cross, has_cross, least, has_least, most, has_most, cross_gap) = container
    room = placed >= 8 * n and lines >= 2 * n and min(counts, rounds, free) >= n
    if wrap in (3, 4):
        room = room and work >= n * n + 3 * n and sums >= 3 * n
    verdict = shape([n], n, room)
    if verdict != ACCEPTED:
        return verdict
    taken = [(SIZE, inner), (SIZE, gap)] + limit_numbers(kind, limit)
    taken += [(code(3), direction), (code(13), justify), (code(13), align)]
    taken += cross_numbers(cross, has_cross, least, has_least, most, has_most, cross_gap, wrap)
    items, mains = [], []
    for i in range(n):
        c = cells[22 * i : 22 * i + 22]
        main = (c[0], c[1], c[2], c[14], c[3], c[4], c[5], c[6], c[7], c[15], c[16])
        across = cross_item(c[8], c[9], c[10], c[17], c[11], c[12], c[13], c[18], c[19])
        mains.append(main)
        items.append(main_numbers(*main) + across + [(code(10), c[20]), (code(1), c[21])])
    verdict = numbers(taken, items)
    return verdict if verdict != ACCEPTED else summed([hypothetical_outer(*main) for main in mains], whole(gap))


CALLS = {
    "break_limit": break_limit,
    "greedy": greedy,
    "balanced": balanced,
    "flex_line": flex_line,
    "flex_lines": flex_lines,
    "place_main": place_main,
    "line_size": line_size,
    "place_lines": place_lines,
    "place_across": place_across,
    "pass": one_pass,
}


def value(word):
    return int(word[1:], 16) if word[0] == "x" else int(word)


def argument(word):
    if word[0] != "[":
        return value(word)
    return [value(each) for each in word[1:-1].split(",")] if len(word) > 2 else []


def main():
    seen, bad, ended = {}, 0, False
    for line in sys.stdin:
        words = line.split()
        if words[0] == "end":
            ended = True
            continue
        got = tuple(int(word) for word in words[-3:])
        want = CALLS[words[0]](*[argument(word) for word in words[1:-4]])
        seen.setdefault(words[0], {}).setdefault(want[0], 0)
        seen[words[0]][want[0]] += 1
        if got != want:
            bad += 1
            if bad <= 10:
                print("DIFFERS: the library says %s, the table %s: %s" % (got, want, line.strip()[:2000]))
    for call in sorted(seen):
        print("%s: %s" % (call, ", ".join("%d of %d" % (count, number) for number, count in sorted(seen[call].items()))))
    print("refusals: %d calls, %d differ%s" % (sum(sum(s.values()) for s in seen.values()), bad, "" if ended else "; the input was cut off"))
    return 1 if bad or not ended or not seen else 0


if __name__ == "__main__":
    sys.exit(main())
