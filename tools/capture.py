#!/usr/bin/env python3
"""Writes a capture (docs/USING.md, "Captures") from a line of text, to standard output.

    tools/capture.py limit 100 gap 10 min 1 / 70 / 0 / 20 > p1.capture
    tools/capture.py limit max gap 0 min 9 / 5 | build/captures-program

The first part names the limit (a number or max), the gap and the minimum line count; each further part is an item's size.
Min-content is not written any more: one item a line is `limit max gap G min 65535`, and so are old captures read that hold it.
A float may also be given by its bits, as 0x7fc00000. `raw HEX` as a part puts these bytes in its place, to try old or broken
records, and a last part `open` leaves the end record out. On an error nothing is written: in a pipe, `set -o pipefail` shows it.
"""
import os
import struct
import sys

MAX_CONTENT = 2


def float_bytes(text):
    try:
        return struct.pack("<I", int(text, 16)) if text.startswith("0x") else struct.pack("<f", float(text))
    except (ValueError, struct.error, OverflowError):
        raise ValueError("neither a float nor its 32 bits: " + text) from None


def count_bytes(text):
    try:
        return struct.pack("<H", int(text))
    except (ValueError, struct.error):
        raise ValueError("the minimum is a whole number from 0 to 65535: " + text) from None


def head_bytes(words):
    given = dict(zip(words[::2], words[1::2]))
    if len(words) != 6 or set(given) != {"limit", "gap", "min"}:
        raise ValueError("the first part is: limit L gap G min M, where L is a number or max")
    limit, gap, minimum = given["limit"], float_bytes(given["gap"]), count_bytes(given["min"])
    if limit.lower() in ("min", "min-content"):
        raise ValueError("min-content is not written any more; for one item a line write: limit max gap %s min 65535" % given["gap"])
    kind_and_limit = bytes([MAX_CONTENT]) + bytes(4) if limit == "max" else bytes([0]) + float_bytes(limit)
    return bytes([1]) + kind_and_limit + gap + minimum


def part_bytes(words, first):
    if words[:1] == ["raw"]:
        return bytes.fromhex("".join(words[1:]))
    if first:
        return head_bytes(words)
    if len(words) != 1:
        raise ValueError("an item is one size: " + (" ".join(words) or "nothing"))
    return bytes([2]) + float_bytes(words[0])


def capture(text):
    parts = [part.split() for part in text.split("/")]
    is_open = parts[-1] == ["open"]
    if is_open:
        parts.pop()
    records = b"".join(part_bytes(words, i == 0) for i, words in enumerate(parts))
    return records if is_open else records + bytes([3])


def main():
    if len(sys.argv) < 2:
        sys.exit(__doc__)
    try:
        asks = sys.argv[1] in ("-h", "--help")
        sys.stdout.buffer.write(__doc__.encode() if asks else capture(" ".join(sys.argv[1:])))
        sys.stdout.buffer.flush()
    except BrokenPipeError:
        # whoever reads has ended, and has said why
        os.dup2(os.open(os.devnull, os.O_WRONLY), sys.stdout.fileno())
        sys.exit(1)
    except ValueError as fault:
        sys.exit("capture.py: " + str(fault))


if __name__ == "__main__":
    main()
