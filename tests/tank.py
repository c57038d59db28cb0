"""Document 01's tank T and its certificate C, both once more with a paper number, a tank of version 2 with its certificate, and a plant of four
components with its certificate and a run, as sheets."""
from fractions import Fraction
from math import lcm

import marker
from sheet import alphabet, certificate, component, flow, jump, mode, model, run, switch

ANY = 255
STAYS = 255


def tank(bound=-11, switches=(), events=0):
    """T: one variable and mode; start x ≤ 5, −x ≤ −5; invariant x ≤ 10; rate at most 2, at least 0; unsafe −x ≤ −11 in mode 0."""
    only = mode(1, [(1, 5), (-1, -5)], [(1, 10)], [(1, 2), (-1, 0)])
    return model([0], [component([only], switches, events)], [([0], [(-1, bound)])])


T = tank()
C = certificate([[(1, 10)]], [(1, [(2, 1)]), (1, [(2, 1)]), (0, [(0, 1), (2, 1)])])
assert T.length() == 66 and C.length() == 49 and [C.place(k) for k in ('k0', 'k1', 'k2')] == [14, 24, 34]

# T and C in version 3: they belong together, as both have this paper number (document 02, order 7). C of another paper has another one.
NUMBER, OTHER_NUMBER = 2307, 2370
NUMBERED_TANK, NUMBERED_CERTIFICATE, OTHER_CERTIFICATE = T.versioned(3, NUMBER), C.versioned(3, NUMBER), C.versioned(3, OTHER_NUMBER)

# A tank of version 2 with a valve. Open, in mode 1, its level rises at 0 to 2, up to 10. Closed, in mode 0, no flow row mentions the level, and
# no switch has a row, so that it changes neither then nor in a jump (document 02, order 6). A level of 11 is unsafe.
STILL_TANK = model([0], [component(
    [mode(1, [(1, 5), (-1, -5)]), mode(0, [], [(1, 10)], [(1, 2), (-1, 0)])],
    [switch(0, 1), switch(1, 0)],
)], [([ANY], [(-1, -11)])]).set('version', 2)
# Closed: start, flow, unsafe; open: flow, unsafe; then the two jumps. Where the level is blank its row x'−x ≤ 0 is hypothesis 2.
STILL_CERTIFICATE = certificate([[(1, 10)], [(1, 10)]], [
    (1, [(0, 1)]), (1, [(0, 1), (2, 1)]), (0, [(0, 1), (1, 1)]),
    (1, [(2, 1)]), (0, [(0, 1), (2, 1)]),
    (1, [(0, 1), (2, 1)]), (1, [(0, 1), (2, 1)]),
])

# The plant. Variables: level (of the filler), heat (heater), valve (mixer), clock (supervisor). Events: 1 begins to fill (filler and
# supervisor), 2 goes over from filling to heating (filler and heater), 3 ends the batch (heater, mixer, supervisor), 4 is in no
# alphabet, 15 in one that has no switch for it.
VARIABLES = ['level', 'heat', 'valve', 'clock']


def row(bound, **coefs):
    """A row on values."""
    return tuple(coefs.get(name, 0) for name in VARIABLES) + (bound,)


def jump_row(bound, **coefs):
    """A row of a jump; a name that ends in _ is a value after it."""
    return tuple(coefs.get(name, 0) for name in VARIABLES + [name + '_' for name in VARIABLES]) + (bound,)


def plant(unsafe):
    idle = mode(1, [row(0, level=1), row(0, level=-1)], [], [row(0, level=1), row(0, level=-1)])
    filling = mode(0, [], [row(20, level=2)], [row(2, level=1), row(-1, level=-1)])
    kept = [jump_row(0, level_=1, level=-1), jump_row(0, level_=-1, level=1)]
    filler = component([idle, filling], [
        switch(0, 1, 1, kept),
        switch(1, 0, 2, [jump_row(-8, level=-1)] + kept),
        switch(1, 0, 2, [jump_row(0, level_=1), jump_row(0, level_=-1)]),
    ], alphabet(1, 2))
    off = mode(1, [row(20, heat=1), row(-20, heat=-1)], [row(0, heat=-1)], [row(0, heat=1), row(1, heat=-1)])
    on = mode(0, [], [row(90, heat=1)], [row(3, heat=1), row(0, heat=-1)])
    heater = component([off, on], [
        switch(0, 1, 2, [jump_row(0, heat_=1, heat=-1), jump_row(0, heat_=-1, heat=1)]),
        switch(1, 0, 3, [jump_row(60, heat_=1)]),
    ], alphabet(2, 3))
    mixing = mode(1, [], [row(4, valve=1), row(0, valve=-1)], [])
    mixer = component([mixing], [
        switch(0, 0, 3, [jump_row(-5, valve=-1)]),
        switch(0, 0, 3, [jump_row(0, valve_=1, valve=-1)]),
        switch(0, 0, 0),
    ], alphabet(3))
    ticks = [row(1, clock=1), row(-1, clock=-1)]
    waits = mode(1, [row(0, clock=1), row(0, clock=-1)], [row(30, clock=1)], ticks)
    runs = mode(0, [], [row(50, clock=1)], ticks)
    zeroed = [jump_row(0, clock_=1), jump_row(0, clock_=-1)]
    supervisor = component([waits, runs], [
        switch(0, 1, 1, zeroed),
        switch(1, 0, 3, [jump_row(-5, clock=-1)] + zeroed),
        switch(1, 1, 0, [jump_row(0, clock=1, clock_=-1)]),
    ], alphabet(1, 3, 15))
    return model([0, 1, 2, 3], [filler, heater, mixer, supervisor], unsafe)


# Locations of the plant: filler·4 + heater·2 + supervisor, as the mixer has one mode.
SAFE_PLANT = plant([
    ([ANY, ANY, ANY, ANY], [row(-11, level=-1)]),
    ([1, ANY, ANY, 1], [row(-11, level=-1, clock=2)]),
    ([ANY, 1, 0, ANY], [row(-91, heat=-1)]),
])

everywhere = [row(10, level=1), row(0, level=-1), row(90, heat=1)]
while_filling = [row(10, level=1, clock=-2)]
PLANT_REGIONS = [everywhere + (while_filling if location in (5, 7) else []) for location in range(8)]


def search(hypotheses, rest, bound, depth, used=()):
    """Multipliers, at most depth of them, with which the hypotheses sum to the coefficients and at most the bound; or None."""
    at = next((i for i, a in enumerate(rest) if a), None)
    if at is None:
        return [] if bound >= 0 else None
    for h, (coefs, b) in enumerate(hypotheses) if depth else ():
        if h in used or coefs[at] * rest[at] <= 0:
            continue
        m = Fraction(rest[at]) / coefs[at]
        found = search(hypotheses, [r - m * a for r, a in zip(rest, coefs)], bound - m * b, depth - 1, used + (h,))
        if found is not None:
            return found + [(h, m)]
    return None


def contradiction(hypotheses, depth):
    """The same for a sum of no coefficients and a bound of at most −1."""
    for h, (coefs, b) in enumerate(hypotheses):
        found = search(hypotheses, [-a for a in coefs], -1 - b, depth - 1, (h,))
        if found is not None:
            return found + [(h, Fraction(1))]
    return None


def prove(hypotheses, goal, zero_only):
    """A proof with as few entries as the search finds: k and its entries."""
    for depth in range(6):
        k, found = 1, None if zero_only else search(hypotheses, goal.coefs, goal.bound, depth)
        if found is None and depth:
            k, found = 0, contradiction(hypotheses, depth)
        if found is not None:
            scale = lcm(*(m.denominator for _, m in found))
            return k * scale, sorted((h, int(m * scale)) for h, m in found)
    raise ValueError('no proof found')


def proved(model_sheet, regions):
    """The certificate with these regions."""
    m = marker.read_model(model_sheet.bytes())
    rows = [[marker.Row(list(r[:-1]), r[-1]) for r in region] for region in regions]
    wanted = marker.obligations(m, rows)
    return certificate(regions, [prove(*marker.statement(m, rows, o), o.kind == 'unsafe') for o in wanted])


PLANT_CERTIFICATE = proved(SAFE_PLANT, PLANT_REGIONS)

# Ends unsafe with a level of 9 and the valve at 3 or more, idle and waiting.
UNSAFE_PLANT = plant([
    ([1, ANY, ANY, ANY], [row(-10, level=-1), row(-40, clock=-1)]),
    ([0, ANY, 0, 0], [row(-9, level=-1), row(-3, valve=-1)]),
])

# Values over q = 2.
PLANT_RUN = run(
    2, 0, (0, 40, 0, 0),
    flow(2, 0, 39, 3, 2),
    jump(1, [0, STAYS, STAYS, 0], 0, 39, 3, 0),
    flow(10, 18, 39, 1, 10),
    jump(0, [STAYS, STAYS, 2, STAYS], 18, 39, 7, 10),
    jump(2, [1, 0, STAYS, STAYS], 18, 39, 7, 10),
    flow(4, 18, 51, 6, 14),
    jump(3, [STAYS, 1, 1, 1], 18, 20, 6, 0),
)
