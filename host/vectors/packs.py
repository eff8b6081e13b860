#!/usr/bin/env python3
"""Makes packs-cuts-1.txt and so on, packs-odd.txt and packs-edges-1.txt and so on: rows packed into statements.

    packs.py OUT         the lists
    packs.py --all OUT   all-pack-cuts-1.txt and so on: every way to cut each of the short lists, 204,800 proposals; all-pack-tall-1.txt and so on: the
                         edges with 8,192 rows of 2^32 - 1 bytes, a line of 90 KB each

The judge's answers are a re-count in Python, where no number wraps. How many groups a plan has is the fewest of all the cuts that the re-count accepts. Which of
the plans with so many groups it is, the request leaves open and pack/specs/Pack.antt says: each statement is filled before the next is begun."""
import itertools
import sys

from vectors import List

NO_ROOM, ROW_TOO_LONG, TOO_MANY_ROWS = 6, 16, 17
MOST_ROWS, LISTS, ODD = 8192, 650, 4000
TOP = 2**64 - 1
TALL = 2**32 - 1
TALL_ROWS = [TALL] * MOST_ROWS
# The overhead with which they fit exactly into a statement of the largest limit.
EXACT = TOP - sum(TALL_ROWS) - (MOST_ROWS - 1)


# ---- the request's rules

def fits(group, overhead, limit):
    return overhead + sum(group) + len(group) - 1 <= limit


def accepted(rows, overhead, limit, ends):
    """Every row in one group, no group empty, every group fits."""
    starts = [0, *ends]
    if starts[-1] != len(rows) or any(a >= b for a, b in zip(starts, ends)):
        return False
    return all(fits(rows[a:b], overhead, limit) for a, b in zip(starts, ends))


def judged(rows, overhead, limit, ends):
    return [TOO_MANY_ROWS] if len(rows) > MOST_ROWS else [0, int(accepted(rows, overhead, limit, ends))]


def filled(rows, overhead, limit):
    """The ends of the groups where each statement is filled before the next is begun; every row must fit by itself."""
    ends, taken = [], limit + 1
    for i, row in enumerate(rows):
        taken += 1 + row
        if taken > limit:
            ends.append(i)
            taken = overhead + row
    return ends[1:] + [len(rows)] if rows else []


def planned(rows, overhead, limit, room):
    if len(rows) > MOST_ROWS:
        return [TOO_MANY_ROWS]
    if any(overhead + row > limit for row in rows):
        return [ROW_TOO_LONG]
    ends = filled(rows, overhead, limit)
    assert accepted(rows, overhead, limit, ends)
    return [0, len(ends), *ends] if len(ends) <= room else [NO_ROOM]


def cuts(n):
    """Every way to cut n rows, with the fewest groups first."""
    return [[*inner, n] for k in range(n) for inner in itertools.combinations(range(1, n), k)] if n else [[]]


# ---- cases

def judge(made, rows, overhead, limit, ends):
    made.once('judge', [overhead, limit, len(rows), *rows, *ends], judged(rows, overhead, limit, ends))


def plan(made, rows, overhead, limit, room):
    made.once('plan', [overhead, limit, room, *rows], planned(rows, overhead, limit, room))


def draw(s, n):
    """Numbers that look drawn, the same ones each time."""
    x = (s % 65536 * 48271 + n % 65536 * 69621 + 1) % 2147483647
    return (x % 65536 * 32768 + x // 65536) % 2147483647 * 48271 % 2147483647 // 64


def short_list(s):
    """The list of a number: up to 12 rows, overhead and limit."""
    return [draw(s, i + 100) % 13 for i in range(s % 13)], draw(s, 1) % 9, 10 + draw(s, 2) % 40


def spread(some, most):
    """At most so many of them, from the first to the last."""
    return some[::max(1, len(some) // most)][:most]


def some_cuts(made, s):
    """Of the cuts of a list of more than six rows some that are accepted and some that are not; and its plan, with room to spare, just enough, and one too few."""
    rows, overhead, limit = short_list(s)
    every = cuts(len(rows))
    right = [c for c in every if accepted(rows, overhead, limit, c)]
    wrong = [c for c in every if not accepted(rows, overhead, limit, c)]
    said = planned(rows, overhead, limit, len(rows))
    # the fewest groups of all cuts; where none is accepted a row is too long
    assert said[0] == ROW_TOO_LONG if not right else said[1] == min(map(len, right))
    made.part()
    plan(made, rows, overhead, limit, len(rows) + 2)
    if right:
        plan(made, rows, overhead, limit, said[1])
        judge(made, rows, overhead, limit, said[2:])
    if right and rows:
        plan(made, rows, overhead, limit, said[1] - 1)
    for c in every if len(rows) <= 6 else spread(right, 3) + spread(wrong, 3):
        judge(made, rows, overhead, limit, c)


def odd_end(s, k, n):
    """An end of a proposal that nobody would make."""
    return {0: 0, 1: n, 2: TOP}.get(draw(s, k + 200) % 8, k + draw(s, k + 300) % 4)


def odd_proposals(made):
    for s in range(ODD):
        rows, overhead, limit = short_list(s)
        judge(made, rows, overhead, limit, [odd_end(s, k, len(rows)) for k in range(draw(s, 3) % 4)])


def at_the_limit(made):
    made.note('exactly the limit, and one over')
    for rows, overhead, limit, ends in (([3, 4], 2, 10, [2]), ([3, 4], 2, 9, [2]), ([3, 4], 2, 9, [1, 2]), ([5], 2, 7, [1]), ([5], 2, 6, [1]), ([0, 0, 0], 0, 2, [3]),
                                        ([0, 0, 0], 0, 1, [3]), ([0, 0, 0], 0, 1, [2, 3]), ([0, 0, 0], 0, 0, [1, 2, 3]), ([0], 0, 0, [1])):
        judge(made, rows, overhead, limit, ends)
        for room in range(len(rows) + 1):
            plan(made, rows, overhead, limit, room)
    made.note('16 before 6; no rows; proposals that leave out, repeat or go back')
    plan(made, [1, 2, 9, 1], 0, 8, 0)
    for overhead, limit, room in ((5, 0, 0), (5, 9, 3), (TOP, 0, 1)):
        plan(made, [], overhead, limit, room)
    for rows, ends in (([], []), ([], [0]), ([], [1]), ([1, 1], []), ([1, 1], [1]), ([1, 1], [2, 2]), ([1, 1], [0, 2]), ([1, 1], [2, 1]), ([1, 1], [3]), ([1, 1], [TOP]),
                       ([1, 1], [1, TOP, 2]), ([1, 1], [2**32 + 2]), ([1, 1], [1, 2**32 + 2])):
        judge(made, rows, 0, 9, ends)


def near_the_end(made):
    made.note('sums near 2^64, which do not wrap')
    for rows in ([TALL], [TALL] * 2, [TALL] * 3, [0, TALL, 1]):
        whole = sum(rows) + len(rows) - 1
        for overhead, limit in ((TOP - whole, TOP), (TOP - whole + 1, TOP), (TOP - TALL, TOP), (TOP - TALL + 1, TOP), (TOP, TOP), (TOP, 0), (0, TOP), (0, whole), (0, whole - 1)):
            plan(made, rows, overhead, limit, len(rows))
            judge(made, rows, overhead, limit, [len(rows)])
            judge(made, rows, overhead, limit, list(range(1, len(rows) + 1)))


def most_rows(made):
    ones = [1] * MOST_ROWS
    made.note('8,192 rows of a byte each, and one row more')
    for limit in (2 * MOST_ROWS - 1, 2 * MOST_ROWS - 2):
        made.part()
        plan(made, ones, 0, limit, 2)
        judge(made, ones, 0, limit, [MOST_ROWS])
    made.part()
    plan(made, ones + [1], 0, TOP, 2)
    judge(made, ones + [1], 0, TOP, [MOST_ROWS])
    made.note('each in a statement of its own, one end too few, and no room for any')
    plan(made, ones, TOP - 1, TOP, MOST_ROWS)
    plan(made, ones, TOP - 1, TOP, MOST_ROWS - 1)
    made.part()
    plan(made, ones, TOP, TOP, MOST_ROWS)
    judge(made, ones, TOP, TOP, [MOST_ROWS])
    made.part()
    made.note('8,192 rows of 2^32 - 1 bytes and the largest limit: they fit exactly, and with one byte more of overhead the last does not')
    judge(made, TALL_ROWS, EXACT, TOP, [MOST_ROWS])
    plan(made, TALL_ROWS, EXACT + 1, TOP, 2)


def tall_rows(made):
    """All edges with such rows: together exactly and one over, each alone, one end too few, and too long by one."""
    for overhead, room in ((0, 1), (EXACT, 1), (EXACT + 1, 2), (TOP - TALL, MOST_ROWS), (TOP - TALL, MOST_ROWS - 1), (TOP - TALL + 1, MOST_ROWS), (TOP, MOST_ROWS)):
        made.part()
        plan(made, TALL_ROWS, overhead, TOP, room)
    for overhead in (EXACT, EXACT + 1, TOP):
        made.part()
        judge(made, TALL_ROWS, overhead, TOP, [MOST_ROWS])


WHOSE = 'The judge\'s answers are a re-count in Python, where no number wraps; a plan has the fewest groups of all accepted cuts, and each is filled before the next is begun.'
BY = 'Made by host/vectors/packs.py.'


def lists(out):
    made = List(f'Short lists of rows: every way to cut those of up to six rows, some ways of the longer ones (host/vectors/packs.py --all has all), and their plans. {WHOSE} {BY}')
    for s in range(LISTS):
        some_cuts(made, s)
    made.write_parts(f'{out}/packs-cuts')
    made = List(f'Proposals that nobody would make, for short lists of rows. The judge\'s answers are a re-count in Python. {BY}')
    odd_proposals(made)
    made.write(f'{out}/packs-odd.txt')
    made = List(f'The planner and the judge at their edges. {WHOSE} {BY}')
    at_the_limit(made)
    near_the_end(made)
    most_rows(made)
    made.write_parts(f'{out}/packs-edges')


def everything(out):
    made = List(f'Every way to cut short lists of rows. The judge\'s answers are a re-count in Python. {BY}')
    for s in range(LISTS):
        rows, overhead, limit = short_list(s)
        for c in cuts(len(rows)):
            made.part()
            made.case('judge', [overhead, limit, len(rows), *rows, *c], judged(rows, overhead, limit, c))
    made.write_parts(f'{out}/all-pack-cuts')
    made = List(f'8,192 rows of 2^32 - 1 bytes at their edges. {WHOSE} {BY}')
    tall_rows(made)
    made.write_parts(f'{out}/all-pack-tall')


if sys.argv[1] == '--all':
    everything(sys.argv[2])
else:
    lists(sys.argv[1])
