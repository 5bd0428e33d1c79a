#!/usr/bin/env python3
"""Class sheets for the program `sheet_cases`, and the text for each, by the reference.

    python3 tools/sheet_cases.py sheets > crates/sheet_cases/stdin
    python3 tools/sheet_cases.py texts > crates/sheet_cases/stdout

One sheet stands on each line, in hexadecimal digits; the empty line is the empty sheet. The text for
a sheet is followed by a line `--`. They are the same sheets each time.
"""
import sys

from full_sheet import BYTES, numbers, reach
from reference import answer


def counts(*values):
    return b"".join(b"CT" + value.to_bytes(4, "big") for value in values)


def sheets_at_fault():
    """Files that are no sheets: each kind of fault, and the first of several."""
    one = counts(1)
    yield from (b"?", b"??", b"op", b"PO", b"OP\n", b"OPAE", one + b"OPADDR" + reach(1) + b"AR")
    yield from (b"C", b"CT", b"CT\0\0\0", b"OPA", b"OPRE", b"OPRE\0", one + b"\0", one + one[:5])
    yield from (one + b"OP" + one, one + b"OP" + one + b"AD", one + b"OP" + one[:3])
    yield from (b"OP" + one + b"??", b"OP??" + one, b"CT\xff\0\0\0??")
    yield from (b"OP" * (BYTES // 2) + b"O", b"OP" * (BYTES // 2) + b"OP")
    # the last record would end behind the limit; there are too many counts too
    yield counts(*[1] * 5461) + reach(1)


def sheets_with_bad_counts():
    yield from (b"", b"OP", reach(0), b"OP" * (BYTES // 2))
    yield from (counts(1, 2, 1) + b"OP", counts(5, 4), counts(65536, 256), counts(0, 7, 7, 6, 5, 200001))
    yield from (counts(200001), counts(200000, 200001), counts(0, 200001, 0), counts(2 ** 24), counts(2 ** 32 - 1))
    # one too many, of which the second is bad too
    yield counts(9, 8, *[200000] * 4096)


def good_sheets():
    yield from (counts(7), counts(0), counts(200000), counts(7) + b"ADOPOPDR" + reach(1))
    yield counts(0, 3, 4, 4, 6) + b"OPADADADDR" + reach(3)
    # each refusal, and that nothing has changed by it
    yield counts(0, 5) + b"ADDR" + reach(0) + reach(2) + b"OP"
    yield counts(2, 3, 9) + b"OPOPDRAD" + reach(3) + reach(256) + reach(65535) + b"OPAD"
    # counts and ends that need all their bytes
    yield counts(0, 3, 66051) + b"OPADDR" + reach(258)
    yield counts(*[66051] * 258, 197121) + b"OPAD" + reach(258) + reach(257) + reach(2)
    # the end 0, where all cuts are equal
    yield counts(9) + b"OPADADADDRAD" + reach(0) + b"DRDRDRDR"
    yield counts(3, 4, 8) + b"OPADAD" + reach(0) + b"ADDR" + reach(2) + b"AD"
    # the largest counts; the price rises by two behind each eighth block
    yield counts(0, 200000) + b"OPADAD"
    yield counts(0, *[200000] * 17) + b"OPADAD" + b"".join(map(reach, range(18)))
    yield counts(*range(7, 200000, 11000)) + b"OPADADAD" + b"".join(map(reach, range(18)))
    # many plans with the least total: the earliest counts
    yield counts(*[5] * 9) + b"OPADADADADDR" + reach(4)
    yield counts(0, 0, 0, 1, 1, 1, 2, 2, 2, 3) + b"OPADADADADADADAD" + reach(7) + b"DRDRDR" + reach(9)
    yield counts(0, 1, 2, 3, 4, 5, 6, 7, 8) + b"OPADADADADADADADADADAD" + reach(5)
    # 255 cuts and one too many, at a small end
    yield counts(1, 4, 6, 6, 9) + b"OP" + b"AD" * 256 + reach(3) + b"DR"
    # as many counts as there can be, and the largest total
    yield counts(*range(0, 4096 * 48, 48), 200000) + b"OPADADDR" + reach(1000) + reach(4096) + reach(4097)


def drawn_sheets(times):
    """Sheets with up to eight counts and twelve events; each fourth has a byte lost or others in its place."""
    number = numbers(times)

    def one_of(*things):
        return things[next(number) % len(things)]

    for turn in range(times):
        values = [next(number) % 3]
        while len(values) < 1 + turn % 8:
            values.append(values[-1] + one_of(0, 0, 1, 2, 5, 30, 20000))
        sheet = counts(*values) + one_of(b"OP", b"OP", b"OP", b"")
        for _ in range(next(number) % 13):
            sheet += one_of(b"AD", b"AD", b"AD", b"DR", b"OP", reach(next(number) % (len(values) + 1)))
        if turn % 4 == 3:
            place = next(number) % len(sheet)
            sheet = sheet[:place] + one_of(b"", b"C", b"R", b"\0", b"OP") + sheet[place + 1:]
        yield sheet


def all_sheets():
    yield from sheets_at_fault()
    yield from sheets_with_bad_counts()
    yield from good_sheets()
    yield from drawn_sheets(64)


if __name__ == "__main__":
    for sheet in all_sheets():
        print(sheet.hex() if sys.argv[1] == "sheets" else answer(sheet) + "--")
