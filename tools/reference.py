#!/usr/bin/env python3
"""What the planner prints for a class sheet, worked out a second time, in Python.

    python3 tools/reference.py < sheet > lines
    python3 tools/reference.py --quick < sheet > lines      by steps alone, nothing compared

It is written from docs/SHEET.md, JOBS.md, SOURCES.md and REFUSALS.md, and not from the Rattle code.
Plans and reads come from the step of docs/JOBS.md. Unless --quick is given, each plan and total is
compared with one found in another way: the least totals of all ends by a dynamic programme, and the
plan with the earliest last cut, then the earliest cut before it, and so on (`Totals`). Where there
are few plans, all are listed and compared too. A difference ends the run with an AssertionError.
"""
import sys
from collections import deque
from itertools import combinations_with_replacement
from math import comb

MOST_BYTES, MOST_COUNTS, MOST_SCANS, MOST_CUTS, FEW_PLANS = 32768, 4097, 200000, 255, 500
BEHIND_MARK = {b"CT": 4, b"OP": 0, b"AD": 0, b"DR": 0, b"RE": 2}
PRICE = [y + (y + 7) // 8 for y in range(MOST_COUNTS)]


class Fault(Exception):
    """A sheet that is turned down: the number of the fault, and its place or index."""


def decode(sheet):
    """The counts and the events (mark, end) of a sheet, or its fault."""
    counts, events, place, limit = [], [], 0, min(len(sheet), MOST_BYTES)
    while place < limit:
        mark = sheet[place:place + 2]
        after = place + 2 + BEHIND_MARK.get(mark, 0)
        if mark not in BEHIND_MARK or after > limit or (mark == b"CT" and events):
            raise Fault(13, place)
        number = int.from_bytes(sheet[place + 2:after], "big")
        if mark == b"CT":
            counts.append(number)
        else:
            events.append((mark.decode(), number))
        place = after
    if len(sheet) > MOST_BYTES:
        raise Fault(13, MOST_BYTES)
    if not 1 <= len(counts) <= MOST_COUNTS:
        raise Fault(11, 0)
    for index, count in enumerate(counts):
        if count > MOST_SCANS or count < counts[max(index - 1, 0)]:
            raise Fault(12, index)
    return counts, events


def cost(counts, x, y):
    return PRICE[y] * (counts[y] - counts[x])


def step(counts, end, held):
    """One cut more than those held: the new cuts, their total, and the number of costs read."""
    n, x = len(held), [0, *held, end]
    rows = [{y: cost(counts, 0, y) for y in range(x[1] + 1)}]
    reads = len(rows[0])

    def least(i, first, last, y):
        """The least of row i at p plus the cost from p to y, and the earliest p that has it."""
        nonlocal reads
        reads += last - first + 1
        return min((rows[i][p] + cost(counts, p, y), p) for p in range(first, last + 1))

    for i in range(1, n + 1):
        row, found, places = {}, {}, x[i + 1] - x[i] + 1
        distance = 2 ** (places.bit_length() - 1)
        while distance >= 1:
            for number in range(distance, places + 1, 2 * distance):
                first = found.get(number - distance, x[i - 1])
                last = found.get(number + distance, x[i])
                y = x[i] + number - 1
                row[y], found[number] = least(i - 1, first, last, y)
            distance //= 2
        rows.append(row)

    total, cut = least(n, x[n], end, end)
    cuts = [cut]
    for i in range(n, 0, -1):
        cuts.insert(0, least(i - 1, x[i - 1], x[i], cuts[0])[1])
    return tuple(cuts), total, reads


class Totals:
    """The least totals of all ends, for 0, 1, 2, .. cuts, and the earliest plans that have them."""

    def __init__(self, counts):
        self.counts = counts
        self.least = [[cost(counts, 0, y) for y in range(len(counts))]]

    def add_cut(self):
        """With the last cut at p, the total at y is least(p) − price(y) × F(p), plus price(y) × F(y).
        The first part is a line over the prices, kept as (least(p), F(p)). F never falls and prices
        rise, so a line that was passed by a later one stays above it: `lines` has those that can be
        lowest from here on, and its first is the lowest now. Least totals never fall either, so of
        two lines with the same F the earlier is the lower."""
        def height(line, price):
            return line[0] - price * line[1]

        def never_lowest(one, two, three):      # the third passes the first before the second does
            return (three[0] - one[0]) * (two[1] - one[1]) <= (two[0] - one[0]) * (three[1] - one[1])

        lines, totals = deque(), []
        for price, line in zip(PRICE, zip(self.least[-1], self.counts)):
            if not lines or lines[-1][1] < line[1]:
                while len(lines) > 1 and never_lowest(lines[-2], lines[-1], line):
                    lines.pop()
                lines.append(line)
            while len(lines) > 1 and height(lines[1], price) <= height(lines[0], price):
                lines.popleft()
            totals.append(height(lines[0], price) + price * line[1])
        self.least.append(totals)

    def plan(self, end, n):
        while len(self.least) <= n:
            self.add_cut()
        cuts, y = (), end
        for i in range(n, 0, -1):
            before, total = self.least[i - 1], self.least[i][y]
            y = next(p for p in range(y + 1) if before[p] + cost(self.counts, p, y) == total)
            cuts = (y, *cuts)
        return cuts, self.least[n][end]


def check_all_plans(counts, end, cuts, total):
    """That no plan has a smaller total, and none with this total has an earlier cut."""
    for plan in combinations_with_replacement(range(end + 1), len(cuts)):
        its_total = sum(cost(counts, x, y) for x, y in zip((0, *plan), (*plan, end)))
        assert its_total >= total and (plan != cuts or its_total == total), plan
        assert its_total > total or all(k <= m for k, m in zip(cuts, plan)), plan


class Job:
    def __init__(self, counts, compare):
        self.counts, self.is_open, self.end, self.cuts = counts, False, 0, ()
        self.steps = {}                     # what each step came to, since many are repeated
        self.totals = Totals(counts) if compare else None

    def step(self, end, held):
        if (end, held) not in self.steps:
            cuts, total, _ = self.steps[end, held] = step(self.counts, end, held)
            if self.totals:
                assert (cuts, total) == self.totals.plan(end, len(cuts)), (end, held)
                if comb(end + len(cuts), len(cuts)) <= FEW_PLANS:
                    check_all_plans(self.counts, end, cuts, total)
        return self.steps[end, held]

    def from_no_cuts(self, end, n):
        cuts, total, reads = (), cost(self.counts, 0, end), 1
        for _ in range(n):
            cuts, total, more = self.step(end, cuts)
            reads += more
        return cuts, total, reads

    def perform(self, mark, end):
        """Performs an event, and gives its line."""
        causes = {"OP": (5, self.is_open), "AD": (7, len(self.cuts) == MOST_CUTS),
                  "DR": (8, not self.cuts), "RE": (9, end >= len(self.counts))}
        number, refused = causes[mark] if self.is_open or mark == "OP" else (6, True)
        if refused:
            return f"{mark} {number}\n"
        if mark == "AD":
            self.cuts, total, reads = self.step(self.end, self.cuts)
        else:
            self.end = {"OP": len(self.counts) - 1, "DR": self.end, "RE": end}[mark]
            self.cuts, total, reads = self.from_no_cuts(self.end, len(self.cuts) - (mark == "DR"))
        if mark == "OP":
            self.is_open, reads = True, "-"
        return " ".join(map(str, (mark, 0, self.end, len(self.cuts), total, reads, *self.cuts))) + "\n"


def answer(sheet, compare=True):
    """The text for a sheet, given as bytes."""
    try:
        counts, events = decode(sheet)
    except Fault as fault:
        return "SHEET {} {}\n".format(*fault.args)
    job = Job(counts, compare)
    return "".join(job.perform(mark, end) for mark, end in events)


if __name__ == "__main__":
    sys.stdout.write(answer(sys.stdin.buffer.read(), compare="--quick" not in sys.argv[1:]))
