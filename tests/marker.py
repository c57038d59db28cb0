#!/usr/bin/env python3
"""A second marker of papers, written from document 01 and orders 2, 5, 6 and 7 of document 02 alone, to try the proved one against.

usage: marker.py MODEL SECOND      prints the line that the program `mark` prints for the two files, one after the other

Every call hands back document 01's five numbers: number, sheet, place, done, score. Nothing here is fast or proved: each function
says one clause of document 01 as directly as it can. Where that document can be read in two ways, docs/DECISIONS.md has the choice.
Every call that reads a model takes the caller's limits last, and has the exam's where they are left out; the program states these.
"""
import sys
from collections import namedtuple
from fractions import Fraction
from itertools import product

MODEL, CERTIFICATE, RUN = 1, 2, 3
# "version 2 model sheets", "Model, certificate and run sheets of version 3" (document 02, orders 6 and 7): the versions that a sheet of each
# kind may have.
VERSIONS = {MODEL: (1, 2, 3), CERTIFICATE: (1, 3), RUN: (1, 3)}
# "Version 1 and 2 models still take version 1 second sheets", else "both must carry .. the same version" (order 7): a model's version, then that
# of its second sheet.
PAIRS = ((1, 1), (2, 1), (3, 3))
STAYS = 255
ANY = 255
CALL = 2

Limits = namedtuple('Limits', 'locations joints')
EXAM = Limits(64, 4096)
PRACTICE = Limits(16, 256)

Row = namedtuple('Row', 'coefs bound')
Mode = namedtuple('Mode', 'start initial invariant flow')
Switch = namedtuple('Switch', 'source target label jump')
Component = namedtuple('Component', 'alphabet modes switches')
Unsafe = namedtuple('Unsafe', 'modes rows')
Model = namedtuple('Model', 'version paper n owners components unsafe')
Joint = namedtuple('Joint', 'source event switches target')
Obligation = namedtuple('Obligation', 'kind where row')
Flow = namedtuple('Flow', 'time values')
Jump = namedtuple('Jump', 'event switches values')


class Refused(Exception):
    """The sheet is given for the call itself; else it is the one that is being read."""

    def __init__(self, number, place, sheet=None):
        super().__init__(number, place, sheet)
        self.number, self.place, self.sheet = number, place, sheet

    def answer(self, reading, done=0, score=0):
        return self.number, reading if self.sheet is None else self.sheet, self.place, done, score


# Sheet

class Reader:
    """The bytes of one sheet, read from left to right."""

    def __init__(self, data, kind):
        if not 4 <= len(data) <= 32768 or int.from_bytes(data[:2], 'big') != len(data) - 2:
            raise Refused(1, 0)
        if data[2] not in VERSIONS[kind]:
            raise Refused(2, 2)
        if data[3] != kind:
            raise Refused(3, 3)
        self.data, self.at, self.version = data, 4, data[2]

    def paper(self):
        """Sheets of version 3 "begin their body with a u32 paper number" (document 02, order 7); earlier ones have none."""
        return self.field(4) if self.version >= 3 else None

    def field(self, size, signed=False):
        first = self.at
        if len(self.data) < first + size:
            raise Refused(4, first)
        self.at = first + size
        return int.from_bytes(self.data[first:self.at], 'big', signed=signed)

    def within(self, size, least, most, signed=False):
        first = self.at
        value = self.field(size, signed)
        if not least <= value <= most:
            raise Refused(5, first)
        return value

    def or_255(self, limit):
        """A byte below the limit, or 255."""
        first = self.at
        value = self.field(1)
        if value >= limit and value != 255:
            raise Refused(5, first)
        return value

    def row(self, unknowns):
        coefs = [self.field(4, signed=True) for _ in range(unknowns)]
        return Row(coefs, self.field(4, signed=True))

    def condition(self, unknowns, most=8):
        return [self.row(unknowns) for _ in range(self.within(1, 0, most))]

    def end(self):
        if self.at < len(self.data):
            raise Refused(4, self.at)


# Model

def read_mode(r, n):
    start = r.within(1, 0, 1)
    initial = r.condition(n, 8 if start else 0)
    invariant = r.condition(n)
    return Mode(start, initial, invariant, r.condition(n))


def read_switch(r, n, alphabet, modes):
    source = r.within(1, 0, modes - 1)
    target = r.within(1, 0, modes - 1)
    place = r.at
    label = r.within(1, 0, 15)
    if label and not alphabet >> label & 1:
        raise Refused(6, place)
    return Switch(source, target, label, r.condition(2 * n))


def read_component(r, n):
    place = r.at
    alphabet = r.field(2)
    if alphabet & 1:
        raise Refused(5, place)
    modes = r.within(1, 1, 8)
    switches = r.within(1, 0, 32)
    read_modes = [read_mode(r, n) for _ in range(modes)]
    return Component(alphabet, read_modes, [read_switch(r, n, alphabet, modes) for _ in range(switches)])


def read_unsafe(r, n, components):
    modes = [r.or_255(len(component.modes)) for component in components]
    return Unsafe(modes, r.condition(n))


def test_limits(limits):
    """Document 02, order 2: a stated limit of 0 or above the exam's is refused before any sheet is read."""
    if any(not 1 <= stated <= most for stated, most in zip(limits, EXAM)):
        raise Refused(5, 0, CALL)


def read_model(data, limits=EXAM):
    test_limits(limits)
    r = Reader(data, MODEL)
    paper = r.paper()
    place = r.at
    n = r.within(1, 1, 8)
    c = r.within(1, 1, 4)
    conditions = r.within(1, 0, 16)
    owners = [r.within(1, 0, c - 1) for _ in range(n)]
    components = [read_component(r, n) for _ in range(c)]
    model = Model(r.version, paper, n, owners, components, [read_unsafe(r, n, components) for _ in range(conditions)])
    r.end()
    if location_count(model) > limits.locations:
        raise Refused(7, place)
    if joint_count(model) > limits.joints:
        raise Refused(8, place)
    return model


def open_second(data, kind, model):
    """A second sheet whose header and paper number are read. Document 02, order 7: 18 is "versions that don't pair (place 2 of the second sheet,
    right after 3) or paper numbers that differ (place 4, once that field is read)"."""
    r = Reader(data, kind)
    if (model.version, r.version) not in PAIRS:
        raise Refused(18, 2)
    if r.paper() != model.paper:
        raise Refused(18, 4)
    return r


def location_count(model):
    count = 1
    for component in model.components:
        count *= len(component.modes)
    return count


def modes_at(model, location):
    """One mode per component; component 0 is most significant."""
    modes = []
    for component in reversed(model.components):
        location, mode = divmod(location, len(component.modes))
        modes.insert(0, mode)
    return modes


def location_of(model, modes):
    location = 0
    for component, mode in zip(model.components, modes):
        location = location * len(component.modes) + mode
    return location


def present(model, modes):
    """The mode of each component that it is in."""
    return [component.modes[mode] for component, mode in zip(model.components, modes)]


def scope(model, event):
    return [k for k, component in enumerate(model.components) if component.alphabet >> event & 1]


def labelled(component, mode, event):
    """The component's switches with a label, from a mode."""
    return [i for i, s in enumerate(component.switches) if s.source == mode and s.label == event]


def moves(model, modes, event):
    """The switch numbers of every joint switch of an event from these modes, in order; STAYS where a component stays."""
    stay = [STAYS] * len(model.components)
    if event == 0:
        for k, component in enumerate(model.components):
            for i in labelled(component, modes[k], 0):
                yield stay[:k] + [i] + stay[k + 1:]
        return
    members = scope(model, event)
    if not members:
        return
    for chosen in product(*(labelled(model.components[k], modes[k], event) for k in members)):
        switches = list(stay)
        for k, i in zip(members, chosen):
            switches[k] = i
        yield switches


def move_count(model, modes, event):
    """As many as moves(..) gives, without listing them."""
    choices = [len(labelled(component, modes[k], event)) for k, component in enumerate(model.components)]
    if event == 0:
        return sum(choices)
    members = scope(model, event)
    count = 1 if members else 0
    for k in members:
        count *= choices[k]
    return count


def target_modes(model, modes, switches):
    return [mode if i == STAYS else component.switches[i].target for component, mode, i in zip(model.components, modes, switches)]


def joint_switches(model):
    """By location, then event; for event 0 by component and switch, else by switch numbers, lowest component first."""
    for location in range(location_count(model)):
        modes = modes_at(model, location)
        for event in range(16):
            for switches in moves(model, modes, event):
                yield Joint(location, event, switches, location_of(model, target_modes(model, modes, switches)))


def joint_count(model):
    return sum(move_count(model, modes_at(model, location), event) for location in range(location_count(model)) for event in range(16))


def flow_rows(model, modes):
    return [row for mode in present(model, modes) for row in mode.flow]


def jump_rows(model, switches):
    return [row for component, i in zip(model.components, switches) if i != STAYS for row in component.switches[i].jump]


# Blanks: "The board's new rule book reads a blank as "does not change"" (document 02, order 6)

def keeps_blanks(model):
    """From version 2 on ("Version 3 keeps version 2's blanks", order 7); in version 1 a variable that no row mentions is free."""
    return model.version >= 2


def unmentioned(unknown, rows):
    """Also where there are no rows."""
    return all(row.coefs[unknown] == 0 for row in rows)


def still(model, modes):
    """The variables with "zero coefficients in all flow rows of its owner's present mode": each keeps its value in a flow."""
    here = present(model, modes)
    return [v for v in range(model.n) if keeps_blanks(model) and unmentioned(v, here[model.owners[v]].flow)]


def keeps_in_jump(model, switches, v):
    """A variable whose owner stays; or one "with zero after-coefficients in all rows of its moving owner's switch"."""
    owner = model.owners[v]
    if switches[owner] == STAYS:
        return True
    return keeps_blanks(model) and unmentioned(model.n + v, model.components[owner].switches[switches[owner]].jump)


def staying(model, switches):
    """The variables that keep their value in a jump: "these variables join the staying ones in ascending order"."""
    return [v for v in range(model.n) if keeps_in_jump(model, switches, v)]


# Runs

def holds(row, values, scale):
    return sum(a * x for a, x in zip(row.coefs, values)) <= row.bound * scale


def admissible(model, q, modes, p):
    return all(holds(row, p, q) for mode in present(model, modes) for row in mode.invariant)


def start_allowed(model, q, modes, p):
    here = present(model, modes)
    initial = all(holds(row, p, q) for mode in here for row in mode.initial)
    return admissible(model, q, modes, p) and all(mode.start for mode in here) and initial


def flow_allowed(model, modes, p, step):
    moved = [after - before for before, after in zip(p, step.values)]
    if step.time == 0 and any(moved):
        return False
    if any(moved[v] for v in still(model, modes)):
        return False
    return all(holds(row, moved, step.time) for row in flow_rows(model, modes))


def jump_allowed(model, q, modes, p, step):
    if step.switches not in list(moves(model, modes, step.event)):
        return False
    if any(p[v] != step.values[v] for v in staying(model, step.switches)):
        return False
    return all(holds(row, p + step.values, q) for row in jump_rows(model, step.switches))


def step_allowed(model, q, modes, p, step):
    """Also the modes that the step leads to."""
    if isinstance(step, Flow):
        met, then = flow_allowed(model, modes, p, step), modes
    else:
        met = jump_allowed(model, q, modes, p, step)
        then = target_modes(model, modes, step.switches) if met else modes
    return met and admissible(model, q, then, step.values), then


def fits(condition, modes):
    return all(wanted in (ANY, mode) for wanted, mode in zip(condition.modes, modes))


def is_unsafe(model, q, modes, p):
    return any(fits(u, modes) and all(holds(row, p, q) for row in u.rows) for u in model.unsafe)


# Certificate

def obligations(model, regions):
    """Per location: the start, flow and unsafe obligations; then the jump obligations by joint switch."""
    found = []
    for location in range(location_count(model)):
        modes = modes_at(model, location)
        rows = range(len(regions[location]))
        if all(mode.start for mode in present(model, modes)):
            found += [Obligation('start', location, i) for i in rows]
        found += [Obligation('flow', location, i) for i in rows]
        found += [Obligation('unsafe', location, i) for i, u in enumerate(model.unsafe) if fits(u, modes)]
    for joint in joint_switches(model):
        found += [Obligation('jump', joint, i) for i in range(len(regions[joint.target]))]
    return found


def invariants(model, location):
    return [row for mode in present(model, modes_at(model, location)) for row in mode.invariant]


def before(n, rows, more=0):
    """Rows on x, among unknowns x, x' and so many others."""
    return [Row(row.coefs + [0] * (n + more), row.bound) for row in rows]


def after(n, rows, more=0):
    """Rows on x'."""
    return [Row([0] * n + row.coefs + [0] * more, row.bound) for row in rows]


def start_hypotheses(model, location):
    initial = [row for mode in present(model, modes_at(model, location)) for row in mode.initial]
    return initial + invariants(model, location)


def flow_hypotheses(model, regions, location):
    n = model.n
    modes = modes_at(model, location)
    hypotheses = before(n, regions[location] + invariants(model, location), 1) + after(n, invariants(model, location), 1)
    hypotheses += [Row([-a for a in row.coefs] + row.coefs + [-row.bound], 0) for row in flow_rows(model, modes)]
    hypotheses += [Row([0] * (2 * n) + [-1], 0)]
    return hypotheses + [row for v in still(model, modes) for row in staying_rows(n, v, 1)]


def unsafe_hypotheses(model, regions, location, condition):
    return regions[location] + invariants(model, location) + model.unsafe[condition].rows


def staying_rows(n, v, more=0):
    """x'−x ≤ 0, then x−x' ≤ 0, among unknowns x, x' and so many others."""
    up = [0] * (2 * n + more)
    up[v], up[n + v] = -1, 1
    return [Row(up, 0), Row([-a for a in up], 0)]


def jump_hypotheses(model, regions, joint):
    n = model.n
    hypotheses = before(n, regions[joint.source] + invariants(model, joint.source))
    hypotheses += after(n, invariants(model, joint.target)) + jump_rows(model, joint.switches)
    return hypotheses + [row for v in staying(model, joint.switches) for row in staying_rows(n, v)]


def statement(model, regions, obligation):
    """An obligation's hypotheses and its goal."""
    kind, where, i = obligation
    n = model.n
    if kind == 'start':
        return start_hypotheses(model, where), regions[where][i]
    if kind == 'flow':
        return flow_hypotheses(model, regions, where), after(n, [regions[where][i]], 1)[0]
    if kind == 'unsafe':
        return unsafe_hypotheses(model, regions, where, i), Row([0] * n, 0)
    return jump_hypotheses(model, regions, where), after(n, [regions[where.target][i]])[0]


def parts(model, regions, obligation):
    """The bytes of an obligation's hypotheses as they stand in their sheets, and none for a row of no sheet."""
    kind, where, i = obligation
    source = where.source if kind == 'jump' else where
    modes = modes_at(model, source)
    here = regions[source] + invariants(model, source)
    if kind == 'start':
        rows = start_hypotheses(model, where)
    elif kind == 'flow':
        rows = here + invariants(model, where) + flow_rows(model, modes) + [None] + [None, None] * len(still(model, modes))
    elif kind == 'unsafe':
        rows = here + model.unsafe[i].rows
    else:
        rows = here + invariants(model, where.target) + jump_rows(model, where.switches) + [None, None] * len(staying(model, where.switches))
    return [b'' if row is None else b''.join(v.to_bytes(4, 'big', signed=True) for v in row.coefs + [row.bound]) for row in rows]


def read_regions(r, model):
    count = location_count(model)
    r.within(1, count, count)
    return [r.condition(model.n, 16) for _ in range(count)]


def read_proof(r, hypotheses, zero_only):
    k = r.within(4, 0, 0 if zero_only else 2 ** 24 - 1)
    entries, last = [], -1
    for _ in range(r.within(1, 0, 128)):
        place = r.at
        hypothesis = r.within(1, 0, hypotheses - 1)
        if hypothesis <= last:
            raise Refused(9, place)
        last = hypothesis
        entries.append((hypothesis, r.within(4, 1, 2 ** 24 - 1)))
    return k, entries


def test_proof(hypotheses, goal, k, entries):
    """0, or the number of the test that fails."""
    sums = [sum(m * hypotheses[h].coefs[i] for h, m in entries) for i in range(len(goal.coefs))]
    bound = sum(m * hypotheses[h].bound for h, m in entries)
    if sums != [k * a for a in goal.coefs]:
        return 10
    passes = bound <= k * goal.bound if k else bound < 0
    return 0 if passes else 11


def mark_proof(r, model, regions, obligation):
    hypotheses, goal = statement(model, regions, obligation)
    place = r.at
    k, entries = read_proof(r, len(hypotheses), obligation.kind == 'unsafe')
    number = test_proof(hypotheses, goal, k, entries)
    if number:
        raise Refused(number, place)


def score(done, total):
    """Document 02, order 5: rounded to the nearest whole percent; a fraction's `round` takes a half to the even one."""
    return round(Fraction(100 * done, total)) if total else 100


def mark_certificate(model_sheet, second, limits=EXAM):
    try:
        model = read_model(model_sheet, limits)
    except Refused as e:
        return e.answer(0)
    done, total = 0, None
    try:
        r = open_second(second, CERTIFICATE, model)
        regions = read_regions(r, model)
        wanted = obligations(model, regions)
        total = len(wanted)
        for obligation in wanted:
            mark_proof(r, model, regions, obligation)
            done += 1
        r.end()
    except Refused as e:
        return e.answer(1, done, 0 if total is None else min(99, score(done, total)))
    return 0, 1, len(second), done, score(done, total)


# Run sheet

def read_values(r, n):
    return [r.within(4, -2 ** 27, 2 ** 27, signed=True) for _ in range(n)]


def read_step(r, model):
    if r.within(1, 0, 1) == 0:
        time = r.within(4, 0, 2 ** 24 - 1)
        return Flow(time, read_values(r, model.n))
    event = r.within(1, 0, 15)
    switches = [r.or_255(len(component.switches)) for component in model.components]
    return Jump(event, switches, read_values(r, model.n))


def mark_run(model_sheet, second, limits=EXAM):
    try:
        model = read_model(model_sheet, limits)
    except Refused as e:
        return e.answer(0)
    done = 0
    try:
        r = open_second(second, RUN, model)
        q = r.within(4, 1, 2 ** 24 - 1)
        steps = r.within(2, 0, 4095)
        location = r.at
        modes = modes_at(model, r.within(1, 0, location_count(model) - 1))
        p = read_values(r, model.n)
        if not start_allowed(model, q, modes, p):
            raise Refused(12, location)
        while done < steps:
            place = r.at
            step = read_step(r, model)
            allowed, modes = step_allowed(model, q, modes, p, step)
            if not allowed:
                raise Refused(13, place)
            p = step.values
            done += 1
        r.end()
        if not is_unsafe(model, q, modes, p):
            raise Refused(14, len(second))
    except Refused as e:
        return e.answer(1, done)
    return 0, 1, len(second), done, 100


# Beside the marking

def show_part(model_sheet, second, obligation, hypothesis, limits=EXAM):
    """The bytes that show row gives: none where a limit, a sheet or a number is refused."""
    try:
        model = read_model(model_sheet, limits)
        regions = read_regions(open_second(second, CERTIFICATE, model), model)
    except Refused:
        return b''
    found = obligations(model, regions)[obligation:obligation + 1]
    shown = parts(model, regions, found[0])[hypothesis:hypothesis + 1] if found else []
    return shown[0] if shown else b''


def list_answer(model_sheet, lent, limits=EXAM):
    """The joint list's answer for a table of so many records."""
    try:
        model = read_model(model_sheet, limits)
    except Refused as e:
        return e.answer(0)
    count = joint_count(model)
    if lent < count:
        return 15, CALL, count, 0, 0
    return 0, 0, len(model_sheet), count, 0


# Program mark

def line(data):
    if len(data) > 65536:
        return 'REFUSED 1 0 0 0 0'
    first = int.from_bytes(data[:2], 'big') + 2 if len(data) >= 2 else len(data)
    model, second = data[:first], data[first:]
    is_run = len(second) > 3 and second[3] == RUN
    answer = mark_run(model, second) if is_run else mark_certificate(model, second)
    if answer[0]:
        return 'REFUSED ' + ' '.join(str(v) for v in answer)
    return ('UNSAFE ' if is_run else 'SAFE ') + str(answer[3])


if __name__ == '__main__':
    if len(sys.argv) != 3:
        sys.exit(__doc__)
    print(line(b''.join(open(name, 'rb').read() for name in sys.argv[1:])))
