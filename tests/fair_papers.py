"""The fair copies that crates/calls_test asks for, and what it must print for each, from document 02, orders 4, 6 and 7: `records` and
`lines`, which tests/typed_papers.py writes after its texts.

The lines come from tests/fair.py, a second reading. Where the order itself settles a copy or a refusal the paper states it here as well,
and the script stops where the two differ. Nearly every copy is stated as a model with its rows written out.

A record on standard input: F, the label's length (1 byte), the label, the limits on locations and joint switches (4 bytes each), the length
of the buffer that is lent (2), the model's length (2), the model. A line on standard output: the label, the five numbers of the answer,
and the buffer's bytes after the call in hexadecimal, or a checksum of more than 1,024 of them. Before the call they are all 165.
"""
from itertools import permutations

import fair
import marker
from sheet import Sheet, alphabet, component, fixed, mode, model, switch
from tank import C, SAFE_PLANT, STILL_TANK, T, tank

EXAM, PRACTICE = marker.EXAM, marker.PRACTICE
ANY = 255
FAIR = b'F'
FILLED = b'\xa5'
MOST_DIGITS = 1024
BASE, PRIME = 257, 2 ** 32 - 5
LEAST, GREATEST = -2 ** 31, 2 ** 31 - 1
CONDITIONS = ('initial', 'invariant', 'flow', 'jump', 'unsafe')

records, lines, labels = [], [], set()


def shown(buffer):
    """What the program writes of a buffer."""
    if len(buffer) <= MOST_DIGITS:
        return ' ' + buffer.hex() if buffer else ''
    total = 0
    for byte in buffer:
        total = (total * BASE + byte) % PRIME
    return f' checksum {total}'


def mentioned(data):
    """A model's version and paper number, the variables that the flow rows of each mode mention, and those that the rows of each switch mention
    after."""
    m = marker.read_model(data)
    flows = [[v for v in range(m.n) if not marker.unmentioned(v, a.flow)] for part in m.components for a in part.modes]
    jumps = [[v for v in range(m.n) if not marker.unmentioned(m.n + v, s.jump)] for part in m.components for s in part.switches]
    return m.version, m.paper, flows, jumps


def call(label, original, room, limits=EXAM):
    """The answer and the buffer after it. A copy mentions the same variables, else a model of version 2 would have other runs (order 6)."""
    data = original.bytes() if isinstance(original, Sheet) else original
    answer, buffer = fair.fair_copy(data, FILLED * room, limits)
    assert answer[0] or mentioned(buffer[:answer[3]]) == mentioned(data), label
    assert label not in labels, label
    labels.add(label)
    head = FAIR + bytes([len(label)]) + label.encode() + b''.join(limit.to_bytes(4, 'big') for limit in limits)
    records.append(head + room.to_bytes(2, 'big') + len(data).to_bytes(2, 'big') + data)
    lines.append(f'{label}: ' + ' '.join(str(number) for number in answer) + shown(buffer))
    return answer, buffer


def copied(label, original, copy, room=None, limits=EXAM):
    """A model with this copy: in a buffer of so many bytes, or with three more than it needs, and the bytes past it stay. "copying it
    again gives the same bytes, and it is no longer than the original"."""
    data, needed = copy.bytes(), copy.length()
    room = needed + 3 if room is None else room
    given = call(label, original, room, limits)
    assert given == ((0, 0, original.length(), needed, 0), data + FILLED * (room - needed)), (label, given)
    assert needed <= original.length() and fair.fair_copy(data, data, limits) == ((0, 0, needed, needed, 0), data), label


def refused(label, original, room, *stated, limits=EXAM):
    """A refusal, which writes nothing."""
    given = call(label, original, room, limits)
    assert given == (stated, FILLED * room), (label, given)


# Models

def twice(rows):
    """Jump rows with the same coefficients before and after."""
    return [(*row[:-1], *row) for row in rows]


def one(initial=(), invariant=(), flow=(), jump=(), unsafe=(), n=1):
    """One mode with one switch, and one unsafe condition."""
    return model([0] * n, [component([mode(1, initial, invariant, flow)], [switch(0, 0, 0, jump)])], [([0], unsafe)])


def everywhere(rows, n=1):
    """The same rows in each of the five conditions."""
    return one(rows, rows, rows, twice(rows), rows, n)


def in_one(name, rows, others):
    """Rows in one of the five conditions, and others in the rest."""
    chosen = {other: rows if other == name else others for other in CONDITIONS}
    return one(**{**chosen, 'jump': twice(chosen['jump'])})


def condition(label, given, kept, n=1):
    """Rows, and those that the copy has for them, in each of the five conditions."""
    copied(label, everywhere(given, n), everywhere(kept, n))


def said(row):
    return ' '.join(str(number) for number in row)


# "each row divided by the greatest common divisor of its numbers": all of them, the bound too, and nothing is rounded
for row, divided in [
        ((2, 3), (2, 3)), ((2, 4), (1, 2)), ((2, 0), (1, 0)), ((2, -4), (1, -2)), ((2, -3), (2, -3)), ((-2, -3), (-2, -3)),
        ((-2, -4), (-1, -2)), ((-2, 4), (-1, 2)), ((-2, 0), (-1, 0)), ((6, 4), (3, 2)), ((4, 6), (2, 3)), ((9, -27), (1, -3)),
        ((1, 0), (1, 0)), ((-1, 0), (-1, 0)), ((1, 1), (1, 1)), ((-1, -1), (-1, -1)), ((7, 7), (1, 1)), ((255, 256), (255, 256)),
        # the ends of s32
        ((GREATEST, GREATEST), (1, 1)), ((GREATEST, -GREATEST), (1, -1)), ((-GREATEST, GREATEST), (-1, 1)), ((GREATEST, 0), (1, 0)),
        ((LEAST, GREATEST), (LEAST, GREATEST)), ((GREATEST, LEAST), (GREATEST, LEAST)), ((1, LEAST), (1, LEAST)), ((LEAST, 1), (LEAST, 1)),
        ((LEAST, 2), (-2 ** 30, 1)), ((LEAST, -2), (-2 ** 30, -1)), ((LEAST, 2 ** 30), (-2, 1)), ((2 ** 30, LEAST), (1, -2)),
        ((-2 ** 30, LEAST), (-1, -2)), ((LEAST, 3 * 2 ** 20), (-2 ** 11, 3)), ((GREATEST - 1, LEAST), (2 ** 30 - 1, -2 ** 30)),
        # a divisor of 2^31
        ((LEAST, LEAST), (-1, -1)), ((LEAST, 0), (-1, 0)),
        # numbers that Euclid's way takes longest for
        ((1836311903, 1134903170), (1836311903, 1134903170)), ((-1134903170, 1836311903), (-1134903170, 1836311903)),
        ((1402817466, -866988874), (701408733, -433494437)),
        # several coefficients: a divisor of two numbers that is none of the third, zeros, which every number divides
        ((6, 10, 15), (6, 10, 15)), ((6, 10, 16), (3, 5, 8)), ((4, 6, 3), (4, 6, 3)), ((4, 6, 0), (2, 3, 0)), ((-4, 6, -8), (-2, 3, -4)),
        ((0, 4, 6), (0, 2, 3)), ((4, 0, 6), (2, 0, 3)), ((0, -4, -4), (0, -1, -1)), ((0, 4, 0), (0, 1, 0)), ((3, 0, 0), (1, 0, 0)),
        ((2, 2, 1), (2, 2, 1)), ((2, 1, 2), (2, 1, 2)), ((1, 2, 2), (1, 2, 2)), ((LEAST, 0, LEAST), (-1, 0, -1)),
        ((LEAST, LEAST, GREATEST), (LEAST, LEAST, GREATEST)), ((LEAST, 2 ** 30, 2 ** 29), (-4, 2, 1))]:
    condition('row ' + said(row), [row], [divided], len(row) - 1)
for n in (1, 2, 8):
    condition(f'all {n} and the bound -2^31', [(LEAST,) * (n + 1)], [(-1,) * (n + 1)], n)
condition('eight coefficients', [(6, -12, 18, 0, 24, 30, -36, 42, 48)], [(1, -2, 3, 0, 4, 5, -6, 7, 8)], 8)

# "a row with zero coefficients dropped if its bound is at least 0, else given bound −1"
for bound in (1, 0, -1, -2, -2 ** 24, GREATEST, LEAST):
    left = [] if bound >= 0 else [(0, -1)]
    condition(f'0 <= {bound}', [(0, bound)], left)
    for name in CONDITIONS:
        given, kept = [(1, 5), (0, bound), (-1, -5)], [(-1, -5), *left, (1, 5)]
        copied(f'0 <= {bound} in {name}', in_one(name, given, [(1, 7)]), in_one(name, kept, [(1, 7)]))
    condition(f'0 <= {bound}, 8 variables', [(0,) * 8 + (bound,)], [(0,) * 8 + (-1,)] if left else [], 8)
condition('rows of zeros to one', [(0, -1), (0, 3), (0, -5), (0, 0), (0, LEAST)], [(0, -1)])
condition('rows of zeros to none', [(0, bound) for bound in range(8)], [])
condition('eight rows of zeros to one', [(0, -bound) for bound in range(8, 0, -1)], [(0, -1)])
condition('a row of zeros takes no other along', [(1, 1), (0, -3), (-1, 0), (0, 3)], [(-1, 0), (0, -1), (1, 1)])
# one coefficient that is not 0 is enough to stay, whichever it is
for v in range(8):
    row = tuple(int(v == other) for other in range(8))
    condition(f'coefficient {v} alone', [(*row, bound) for bound in (7, 0, -7)], [(*row, bound) for bound in (-7, 0, 7)], 8)
for v in range(16):
    row = tuple(-int(v == other) for other in range(16))
    given, kept = ([(*row, bound) for bound in bounds] for bounds in ((3, 0, -3), (-3, 0, 3)))
    copied(f'jump coefficient {v} alone', one(jump=given, n=8), one(jump=kept, n=8))

# "rows sorted ascending by coefficients, then bound": by signed numbers, the first that differs decides
for given in permutations([(-1, 4), (0, -1), (1, 3)]):
    condition('order ' + ', '.join(said(row) for row in given), given, [(-1, 4), (0, -1), (1, 3)])
ASCENDING = {
    'signs': [(LEAST, 1), (-3, 5), (-1, LEAST), (-1, GREATEST), (1, LEAST), (1, -1), (1, 0), (GREATEST, -2)],
    'bytes': [(1, 1), (1, 255), (1, 256), (1, 257), (1, 65535), (1, 65536), (1, 2 ** 24), (1, 2 ** 24 + 1)],
    'bytes below 0': [(1, -2 ** 24 - 1), (1, -2 ** 24), (1, -65537), (1, -65536), (1, -257), (1, -256), (1, -255), (1, -1)],
    'two coefficients': [(-1, -1, 5), (-1, 0, -5), (-1, 1, 0), (0, -1, 1), (0, 1, -1), (1, -1, 0), (1, 0, -1), (1, 1, -2)],
    'first before second': [(-2, 9, 9), (-1, 7, 8), (0, 5, 4), (0, 5, 6), (1, 3, 3), (2, -1, 2), (3, -5, 1), (4, -9, 0)],
}
for name, kept in ASCENDING.items():
    ways = {'in order': kept, 'turned round': kept[::-1], 'rotated': kept[3:] + kept[:3], 'in turn': kept[1::2] + kept[::2]}
    for how, given in ways.items():
        condition(f'{name} {how}', given, kept, len(kept[0]) - 1)
# eight jump rows of 16 coefficients: they differ at one number each, values before come before values after, the bound is last
for first in (0, 8):
    kept = [tuple(int(v != place) for v in range(17)) for place in range(first, first + 8)]
    copied(f'jump rows apart from {first} on', one(jump=kept[::-1], n=8), one(jump=kept, n=8))
    kept = [tuple(1 if v == place else 2 for v in range(17)) for place in range(first + 1, first + 9)]
    copied(f'jump rows odd from {first + 1} on', one(jump=kept[5:] + kept[:5], n=8), one(jump=kept, n=8))
kept = [(1,) * 16 + (bound,) for bound in range(-3, 5)]
copied('jump rows apart at the bound', one(jump=kept[::-1], n=8), one(jump=kept, n=8))
kept = [(-1, 1, 5), (-1, 2, 4), (0, -1, 3), (0, 1, 2), (1, -2, 1), (1, -1, 0)]
copied('values before come first', one(jump=kept[::-1]), one(jump=kept))
# after dividing
condition('smaller once divided', [(3, 5), (4, 2)], [(2, 1), (3, 5)])
condition('greater once divided', [(-4, -2), (-3, -5)], [(-3, -5), (-2, -1)])
condition('by bound once divided', [(2, 4), (5, 5)], [(1, 1), (1, 2)])

# "repeats dropped": equal rows once, also where only dividing makes them equal
condition('eight multiples', [(factor, 2 * factor) for factor in (5, 3, 8, 1, 7, 2, 6, 4)], [(1, 2)])
condition('eight of one', [(-1, 3)] * 8, [(-1, 3)])
condition('eight multiples to four', [(1, 2), (2, 2), (3, 9), (4, 0), (0, 0), (6, 0), (7, 7), (2, 4)], [(1, 0), (1, 1), (1, 2), (1, 3)])
condition('seven and one', [(2, 4)] * 7 + [(2, 3)], [(1, 2), (2, 3)])
condition('one and seven', [(2, 3)] + [(1, 2)] * 7, [(1, 2), (2, 3)])
condition('in turn', [(1, 1), (-1, 0), (1, 1), (-1, 0), (2, 2), (-5, 0)], [(-1, 0), (1, 1)])
for given in sorted(set(permutations([(1, 4), (3, 12), (-1, 0)]))):
    condition('repeat in ' + ', '.join(said(row) for row in given), given, [(-1, 0), (1, 4)])
row = (1, -2, 3, -4, 5, -6, 7, -8, 9, -10, 11, -12, 13, -14, 15, -16, 17)
given = [tuple(factor * number for number in row) for factor in (3, 1, 4, 10 ** 8, 5, 9, 2, 6)]
copied('eight jump rows to one', one(jump=given, n=8), one(jump=[row], n=8))
row = (-1,) * 17
given = [tuple(factor * number for number in row) for factor in (2 ** 31, 1, 2 ** 30, 2, GREATEST, 3, 2 ** 31, 255)]
copied('eight jump rows of one number to one', one(jump=given, n=8), one(jump=[row], n=8))
# only equal rows are repeats: weaker, opposite and impossible ones stay
condition('weaker', [(1, 2), (1, 1)], [(1, 1), (1, 2)])
condition('weaker by a half', [(2, 3), (1, 2), (2, 2)], [(1, 1), (1, 2), (2, 3)])
condition('opposite', [(2, 4), (-2, -4)], [(-1, -2), (1, 2)])
condition('impossible', [(1, 0), (-1, -1), (0, -1)], [(-1, -1), (0, -1), (1, 0)])
condition('apart at one coefficient', [(1, 2, 3), (1, 3, 3), (2, 2, 3)], [(1, 2, 3), (1, 3, 3), (2, 2, 3)], 2)

# each condition by itself, and all else as it was: modes, switches and unsafe conditions keep their places, equal ones and empty ones too
only = one([(1, 9)], [(2, 18), (1, 9)], [(3, 27)], [(1, 0, 9), (0, 1, 9)], [(4, 36), (0, 0)])
copied('each by itself', only, one([(1, 9)], [(1, 9)], [(1, 9)], [(0, 1, 9), (1, 0, 9)], [(1, 9)]))
copied('smallest', model([0], [component([mode()])]), model([0], [component([mode()])]))
copied('all conditions empty', one(n=3), one(n=3))
emptied = everywhere([(0, 0), (0, 7)])
copied('all conditions emptied', emptied, one())
for start in (0, 1):
    copied(f'start {start}', model([0], [component([mode(start)])]), model([0], [component([mode(start)])]))


def several(high, low, none):
    """Four components, with switches, unsafe conditions and modes that are in no order."""
    busy = component([mode(0, (), high, low), mode(1, low, none, high), mode(1)], [
        switch(2, 1, 7, twice(low)), switch(2, 0, 3), switch(0, 2, 0, twice(high)), switch(0, 2, 0, twice(high)),
        switch(1, 1, 3, twice(none)),
    ], alphabet(3, 7, 15))
    still = component([mode(1, none, low, high)], (), 65534)
    moved = component([mode(1, high), mode(0)], [switch(1, 0, 15, twice(low)), switch(0, 1, 15)], alphabet(15))
    unsafe = [([2, ANY, 1, 0], high), ([0, 0, ANY, ANY], low), ([0, 0, ANY, ANY], low), ([ANY] * 4, none), ([1, ANY, 0, ANY], ())]
    return model([3, 0, 2], [busy, still, moved, component([mode()])], unsafe)


made = several([(3, 0, 0, 3), (-2, 4, 6, 8), (1, 0, 0, 1)], [(0, 0, 0, -4), (0, -9, 0, 9)], [(0, 0, 0, 0), (0, 0, 0, 5)])
copied('several components', made, several([(-1, 2, 3, 4), (1, 0, 0, 1)], [(0, -1, 0, 1), (0, 0, 0, -1)], ()))
FAIR_TANK = model([0], [component([mode(1, [(-1, -5), (1, 5)], [(1, 10)], [(-1, 0), (1, 2)])])], [([0], [(-1, -11)])])
copied('T', T, FAIR_TANK)
copied('T with unsafe at 9', tank(-9), FAIR_TANK.set('rows0.0.1', -9))


# "Examiners compare papers and want one spelling": rows in another order, multiplied and repeated have one copy

def respelled(original, turn):
    """The same model with each condition's rows rotated, multiplied by small numbers, and the first ones once more."""
    m = marker.read_model(original.bytes())

    def spelled(rows):
        found = [(*row.coefs, row.bound) for row in rows]
        found = found[turn:] + found[:turn] if len(found) > turn else found[::-1]
        found += found[:min(turn, 8 - len(found))]
        return [tuple((1 + (turn + i) % 5) * number for number in row) for i, row in enumerate(found)]

    components = [component(
        [mode(a.start, spelled(a.initial), spelled(a.invariant), spelled(a.flow)) for a in part.modes],
        [switch(s.source, s.target, s.label, spelled(s.jump)) for s in part.switches], part.alphabet) for part in m.components]
    return model(m.owners, components, [(u.modes, spelled(u.rows)) for u in m.unsafe]).versioned(m.version, m.paper)


for name, original in (
        ('T', T), ('several', made), ('plant', SAFE_PLANT), ('still tank', STILL_TANK), ('still tank of version 3', STILL_TANK.versioned(3, 7))):
    needed = call(f'{name} to be spelled anew', original, 1800)[0][3]
    data = fair.fair_copy(original.bytes(), bytes(needed))[1]
    for turn in (1, 2, 3):
        given = call(f'{name} spelled anew {turn}', respelled(original, turn), needed + 2)
        assert given[0][0] == 0 and given[1] == data + FILLED * 2, name
    given = call(f'copy of the copy of {name}', data, needed)
    assert given == ((0, 0, needed, needed, 0), data)

# a model of version 2 (order 6): the copy's version is 2, and all else as in version 1. A row of zeros mentions nothing, so that a variable is
# as blank with it as without it; a row that mentions a variable is neither dropped nor divided to one that does not
for name, original, copy in (('T', T, FAIR_TANK), ('conditions that are emptied', emptied, one())):
    copied(f'{name} of version 2', original.set('version', 2), copy.set('version', 2))
for name in ('flow', 'jump'):
    for rows, kept in (([(0, 5)], []), ([(0, -5)], [(0, -1)]), ([(0, 5), (6, 3), (0, -5), (0, 0)], [(0, -1), (2, 1)]), ([(LEAST, 0)], [(-1, 0)])):
        given, left = (in_one(name, which, [(1, 7)]).set('version', 2) for which in (rows, kept))
        copied(f'rows {", ".join(said(row) for row in rows)} in {name} of version 2', given, left)
before = [(2, 0, 4), (0, 0, 9), (-3, 0, 3), (4, 0, 8)]
copied('switch with values before alone', one(jump=before).set('version', 2), one(jump=[(-1, 0, 1), (1, 0, 2)]).set('version', 2))
third = one(flow=[(0, 0, 8, 2), (0, 0, 0, 3)], jump=[(5, 5, 0, 0, 0, 5, 10), (0,) * 7], n=3)
copied('third of three variables mentioned', third.set('version', 2), one(flow=[(0, 0, 4, 1)], jump=[(1, 1, 0, 0, 0, 1, 2)], n=3).set('version', 2))
for name, original in (('several components', made), ('plant', SAFE_PLANT)):
    room = original.length()
    earlier = fair.fair_copy(original.bytes(), FILLED * room)[1]
    answer, buffer = call(f'{name} of version 2', original.set('version', 2), room)
    assert answer[0] == 0 and buffer == earlier[:2] + b'\2' + earlier[3:], name

# a model of version 3 (order 7): the copy has its version and its paper number, and all else as in version 2
for paper in (0, 7, 65535, 65536, 2 ** 32 - 1):
    copied(f'T with paper number {paper}', T.versioned(3, paper), FAIR_TANK.versioned(3, paper))
fair_third = one(flow=[(0, 0, 4, 1)], jump=[(1, 1, 0, 0, 0, 1, 2)], n=3)
for name, original, copy in (('conditions that are emptied', emptied, one()), ('third of three variables mentioned', third, fair_third)):
    copied(f'{name}, with a paper number', original.versioned(3, 0x01020304), copy.versioned(3, 0x01020304))
for name, original in (('several components', made), ('plant', SAFE_PLANT)):
    room = original.length()
    earlier = fair.fair_copy(original.bytes(), FILLED * room)[1]
    length = int.from_bytes(earlier[:2], 'big') + 4
    answer, buffer = call(f'{name} of version 3', original.versioned(3, 2 ** 31 + 258), room + 4)
    assert answer[0] == 0 and buffer == length.to_bytes(2, 'big') + b'\3\1\x80\0\1\2' + earlier[4:], name
NUMBERED = T.versioned(3, 7)
for room in (70, 71, 1025):
    copied(f'T with a paper number into {room}', NUMBERED, FAIR_TANK.versioned(3, 7), room)
for room in (0, 4, 8, 66, 69):
    refused(f'T with a paper number into {room}', NUMBERED, room, 15, 2, 70, 0, 0)

# "A short buffer is refused as 15 with the length needed", not the model's length; else the bytes past the copy stay
longer = one([(1, 5), (2, 10)], [(0, 1), (1, 10)], [(1, 2), (-1, 0)], twice([(3, 3)] * 4), [(-1, -11)])
shorter = one([(1, 5)], [(1, 10)], [(-1, 0), (1, 2)], twice([(1, 1)]), [(-1, -11)])
for name, original, copy in (('shorter', longer, shorter), ('as long', T, FAIR_TANK), ('emptied', emptied, one())):
    needed, length = copy.length(), original.length()
    for room in sorted({needed, needed + 1, needed + 2, length - 1, length, length + 1, 300, 1024, 1025, 32768, 65535}):
        if room >= needed:
            copied(f'{name} copy into {room}', original, copy, room)
    for room in (0, 1, 2, 3, 4, 5, needed - 5, needed - 2, needed - 1):
        refused(f'{name} copy into {room}', original, room, 15, 2, needed, 0, 0)

# limits that are out of range, before any sheet is read; limits in range that the model keeps change nothing
cut = fixed(T.bytes()[:-1])
for limits in ((0, 4096), (64, 0), (0, 0), (65, 4096), (64, 4097), (65, 4097), (0, 4097), (256 + 16, 256), (16, 65536 + 256),
               (2 ** 24 + 1, 1), (2 ** 31 + 64, 2 ** 31 + 4096), (2 ** 32 - 1, 2 ** 32 - 1)):
    limits = marker.Limits(*limits)
    for name, original, room in (('T', T, 80), ('T without room', T, 0), ('no model', b'', 0), ('a cut model', cut, 12)):
        refused(f'{name} under limits {said(limits)}', original, room, 5, 2, 0, 0, 0, limits=limits)
for limits in ((1, 1), (1, 4096), (64, 1), (16, 256)):
    copied(f'T under limits {said(limits)}', T, FAIR_TANK, limits=marker.Limits(*limits))


def sized(modes, labelled=(), row=(2, 4)):
    """A component for each number of modes; the first ones have so many switches labelled 1, from mode 0. A row in each first mode."""
    def part(count, switches=0):
        return component([mode(1, [], [row])] + [mode()] * (count - 1), [switch(0, 0, 1)] * switches, alphabet(1) if switches else 0)
    return model([0], [part(count, *labelled[k:k + 1]) for k, count in enumerate(modes)])


# 7 and 8 compare with the stated limits, and precede 15
for name, size, number in (
        ('16 locations', ((4, 4),), 0), ('18 locations', ((3, 6),), 7), ('256 joint switches', ((1, 1), (16, 16)), 0),
        ('272 joint switches', ((1, 1), (17, 16)), 8), ('18 locations and 272 joint switches', ((6, 3), (17, 16)), 7)):
    original, copy = sized(*size), sized(*size, row=(1, 2))
    needed = copy.length()
    copied(f'{name} at the exam desk', original, copy)
    if number == 0:
        copied(f'{name} at the practice desk', original, copy, limits=PRACTICE)
        refused(f'{name} at the practice desk into {needed - 1}', original, needed - 1, 15, 2, needed, 0, 0, limits=PRACTICE)
    for room in (0, needed - 1, needed) if number else ():
        refused(f'{name} at the practice desk into {room}', original, room, number, 0, 4, 0, 0, limits=PRACTICE)
refused('2 locations where 1 is allowed', sized((2,)), 0, 7, 0, 4, 0, 0, limits=marker.Limits(1, 4096))
refused('2 joint switches where 1 is allowed', sized((1,), (2,)), 0, 8, 0, 4, 0, 0, limits=marker.Limits(64, 1))

# the model's refusals, before 15
for name, original, number, place in (
        ('no model', b'', 1, 0), ('three bytes', b'\0\1\1', 1, 0), ('L one less', T.set('L', 63), 1, 0),
        ('L one more', T.set('L', 65), 1, 0), ('version 0', T.set('version', 0), 2, 2), ('version 4', T.set('version', 4), 2, 2),
        ('version 5 and a paper number', T.versioned(5, 7), 2, 2), ('version 9', T.set('version', 9), 2, 2),
        ('kind 0', T.set('kind', 0), 3, 3), ('C as model', C, 3, 3), ('C with a paper number as model', C.versioned(3, 7), 3, 3),
        ('header alone', fixed(T.bytes()[:4]), 4, 4), ('T less its last byte', cut, 4, 62),
        ('T and a byte', fixed(T.bytes() + b'\0'), 4, 66), ('n 0', T.set('n', 0), 5, 4), ('n 9', T.set('n', 9), 5, 4),
        ('nine rows', T.set('flow0.0', 9), 5, T.place('flow0.0')), ('label outside', tank(switches=[switch(0, 0, 1)]), 6, 58),
        ('128 locations', sized((8, 8, 2)), 7, 4), ('4352 joint switches', sized((1, 1, 1), (17, 16, 16)), 8, 4),
        ('no byte of a paper number', fixed(NUMBERED.bytes()[:4]), 4, 4), ('3 bytes of a paper number', fixed(NUMBERED.bytes()[:7]), 4, 4),
        ('a paper number alone', fixed(NUMBERED.bytes()[:8]), 4, 8), ('version 3 without a paper number', T.set('version', 3), 5, 8),
        ('n 0 behind a paper number', NUMBERED.set('n', 0), 5, 8), ('paper number, T and a byte', fixed(NUMBERED.bytes() + b'\0'), 4, 70),
        ('128 locations and a paper number', sized((8, 8, 2)).versioned(3, 7), 7, 8),
        ('4352 joint switches and a paper number', sized((1, 1, 1), (17, 16, 16)).versioned(3, 7), 8, 8)):
    for room in (0, 12, 100):
        refused(f'{name} into {room}', original, room, number, 0, place, 0, 0)


# The longest sheet: 32,768 bytes, the rows of each condition turned round, and none dropped

def longest(turn):
    """471 jump rows of 16 coefficients, four flow rows, five unsafe ones. Its first number tells a row from the others of a condition."""
    counts = iter([6] * 41 + [5] * 45)

    def rows_of(count, others):
        return [(i - 2,) + (1,) * others for i in range(count)][::turn]

    parts = [component([mode(1, [], [], rows_of(4 if k == 0 else 0, 8))], [switch(0, 0, 0, rows_of(next(counts), 16)) for _ in range(size)])
             for k, size in enumerate((32, 22, 32, 0))]
    return model([k % 4 for k in range(8)], parts, [([ANY] * 4, rows_of(1, 8))] * 5)


assert longest(1).length() == 32768
copied('the longest', longest(-1), longest(1), 32769)
