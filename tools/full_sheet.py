#!/usr/bin/env python3
"""Writes a class sheet as large as a sheet can be: 32,768 bytes, with 4,097 counts.

    python3 tools/full_sheet.py > sheet
    python3 tools/full_sheet.py overlong > sheet     the same with one byte more: no sheet any more

It is the same sheet each time. Its events: one before the opening, a second opening, 255 adds at the
end 4,096 and one too many, a reach beyond the last place, reaches with 255 cuts to 2,000 and 10,
drops down to no cuts and one too many, and then adds, drops and reaches with few cuts at ends up to
40, now and then one that is refused, up to the last byte.
"""
import sys

BYTES, COUNTS, MOST_SCANS, MOST_CUTS = 32768, 4097, 200000, 255


def numbers(state):
    """Numbers below 2^16, by a linear congruential generator."""
    while True:
        state = (state * 1103515245 + 12345) % 2 ** 31
        yield state >> 15


def counts(number):
    """Counts that stay for a while, rise a little or jump; the last is the largest allowed."""
    count = 7
    for _ in range(COUNTS - 1):
        yield count
        kind = next(number) % 8
        rise = 0 if kind < 3 else next(number) % 75 if kind < 7 else next(number) % 480
        count = min(count + rise, MOST_SCANS - 1)
    yield MOST_SCANS


def reach(end):
    return b"RE" + end.to_bytes(2, "big")


def small_events(number, room):
    """Events at small ends with few cuts, of so many bytes; the last is a reach to the last place."""
    events, cuts = b"", 0
    while len(events) < room - 4:
        kind = next(number) % 64
        if kind < 24 and cuts < 9:
            events, cuts = events + b"AD", cuts + 1
        elif kind < 48:
            events, cuts = events + b"DR", max(cuts - 1, 0)
        elif kind < 49:
            events += b"OP"
        elif len(events) < room - 6:
            events += reach(max(COUNTS, next(number)) if kind < 50 else next(number) % 41)
    return events + reach(COUNTS - 1)


def full_sheet():
    number = numbers(1)
    sheet = b"".join(b"CT" + count.to_bytes(4, "big") for count in counts(number))
    sheet += b"AD" + b"OP" + b"OP" + b"AD" * (MOST_CUTS + 1)
    sheet += reach(COUNTS) + reach(2000) + reach(10) + b"DR" * (MOST_CUTS + 1)
    return sheet + small_events(number, BYTES - len(sheet))


if __name__ == "__main__":
    more = b"O" if "overlong" in sys.argv[1:] else b""
    sys.stdout.buffer.write(full_sheet() + more)
