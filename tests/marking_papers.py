#!/usr/bin/env python3
"""Writes the papers that crates/marking_test marks, and what it must print for each, from document 01 and orders 2, 5, 6 and 7 of
document 02.

usage: marking_papers.py FOLDER                 writes FOLDER/stdin and FOLDER/stdout
       marking_papers.py --examples FOLDER      writes the sheets of examples/

The lines come from tests/marker.py, a second marker. Where a document itself settles an answer, or a part of it, the paper states
it here as well, and the script stops where the two differ.

A record on standard input: the label's length (1 byte), the label, a kind (1), a number (2), the length of a sheet (2), the sheet.
Kind 0 takes the sheet as the model for the records that follow, 1 marks it as a certificate, 2 as a run; 3 asks for the joint list's
answer with so many records lent as the number says; 4 for the program's line for the sheet's bytes as its input; 5 for the part that
show row gives, with the number's high byte as the obligation and its low byte as the hypothesis. Kind 6 states, in the sheet's eight
bytes, the limits on locations and joint switches for the records that follow; until then they are the exam's.
"""
import sys
from math import prod
from pathlib import Path

sys.dont_write_bytecode = True

import marker
from largest import most_entries, most_joint_switches, most_proofs, most_steps
from sheet import Sheet, alphabet, certificate, component, fixed, flow, jump, mode, model, run, switch
from tank import (
    C, NUMBER, NUMBERED_CERTIFICATE, NUMBERED_TANK, OTHER_CERTIFICATE, OTHER_NUMBER, PLANT_CERTIFICATE, PLANT_REGIONS, PLANT_RUN, SAFE_PLANT,
    STILL_CERTIFICATE, STILL_TANK, T, UNSAFE_PLANT, proved, tank,
)

ANY = 255
STAYS = 255
MODEL, CERTIFICATE, RUN, LIST, INPUT, PART, LIMITS = range(7)
EXAM, PRACTICE = marker.EXAM, marker.PRACTICE


def data_of(sheet):
    return sheet.bytes() if isinstance(sheet, Sheet) else sheet


class Papers:
    def __init__(self):
        self.records, self.lines, self.labels, self.model, self.limits = [], [], set(), b'', EXAM

    def record(self, label, kind, number, data):
        name = label.encode()
        self.records.append(bytes([len(name)]) + name + bytes([kind]) + number.to_bytes(2, 'big') + len(data).to_bytes(2, 'big') + data)

    def line(self, label, text):
        assert label not in self.labels, label
        self.labels.add(label)
        self.lines.append(f'{label}: {text}')

    def state(self, limits):
        """The limits for what follows."""
        if limits != self.limits:
            self.record('', LIMITS, 0, b''.join(limit.to_bytes(4, 'big') for limit in limits))
            self.limits = limits

    def paper(self, label, kind, number, model_data, data, answer, expected, limits):
        """Expected: nothing, the number and the place, or all five numbers."""
        told = (answer[0], answer[2]) if len(expected) == 2 else answer
        assert not expected or told == expected, (label, answer, expected)
        self.state(limits)
        if model_data != self.model:
            self.record('', MODEL, 0, model_data)
            self.model = model_data
        self.record(label, kind, number, data)
        self.line(label, ' '.join(str(v) for v in answer))

    def certificate(self, label, model_sheet, second, *expected, limits=EXAM):
        m, s = data_of(model_sheet), data_of(second)
        self.paper(label, CERTIFICATE, 0, m, s, marker.mark_certificate(m, s, limits), expected, limits)

    def run(self, label, model_sheet, second, *expected, limits=EXAM):
        m, s = data_of(model_sheet), data_of(second)
        self.paper(label, RUN, 0, m, s, marker.mark_run(m, s, limits), expected, limits)

    def list(self, label, model_sheet, lent, *expected, limits=EXAM):
        m = data_of(model_sheet)
        self.paper(label, LIST, lent, m, b'', marker.list_answer(m, lent, limits), expected, limits)

    def part(self, label, model_sheet, second, obligation, hypothesis, *expected, limits=EXAM):
        """Expected: nothing, or the numbers of the row."""
        m, s = data_of(model_sheet), data_of(second)
        part = marker.show_part(m, s, obligation, hypothesis, limits)
        told = b''.join(v.to_bytes(4, 'big', signed=True) for v in expected)
        assert part == told, (label, part, expected)
        self.paper(label, PART, 256 * obligation + hypothesis, m, s, (len(part), *part), (), limits)

    def input(self, label, data, expected):
        assert marker.line(data) == expected, (label, marker.line(data), expected)
        self.record(label, INPUT, 0, data)
        self.line(label, expected)


# Sheets that several sections use

UNSAFE_AT_NINE = tank(-9)
UNSAFE_AT_FIVE = tank(-5)
TO_NINE = run(1, 0, (5,), flow(2, 9))
AT_FIVE = run(1, 0, (5,))
UNPROVED_PLANT = fixed(PLANT_CERTIFICATE.bytes()[:PLANT_CERTIFICATE.place('k0')])


def plain(n=1, owners=None, modes=(1,), switches=None, alphabets=None, label=0, start=1, initial=0, invariant=0, rates=0, jumps=0, unsafe=1, rows=1):
    """A model with rows 0 ≤ 0 in the numbers that are given, where the last row of each unsafe condition is 0 ≤ −1; and a certificate
    without region rows that uses that row in each proof. Also the number of its obligations."""
    zero, never = (0,) * n + (0,), (0,) * n + (-1,)
    c = len(modes)
    one = mode(start, [zero] * initial, [zero] * invariant, [zero] * rates)
    one_switch = switch(0, 0, label, [(0,) * (2 * n + 1)] * jumps)
    components = [component([one] * modes[k], [one_switch] * (switches or [0] * c)[k], (alphabets or [0] * c)[k]) for k in range(c)]
    sheet = model(owners or [0] * n, components, [([ANY] * c, [zero] * (rows - 1) + [never] * min(rows, 1))] * unsafe)
    locations = 1
    for count in modes:
        locations *= count
    proof = (0, [(c * invariant + rows - 1, 1)] if rows else [])
    return sheet, certificate([[]] * locations, [proof] * (locations * unsafe)), locations * unsafe


def free(n=1, modes=1, switches=(), unsafe=((ANY,), ())):
    """One component without rows, where every state is unsafe."""
    return model([0] * n, [component([mode()] * modes, switches)], [unsafe])


# Document 01's own papers

def the_table(papers):
    labelled = tank(switches=[switch(0, 0, 1)])
    three_full = [component([mode()], [switch(0, 0, 1)] * 32, alphabet(1))] * 3
    one_joint = tank(switches=[switch(0, 0, 0)])
    p = papers
    p.certificate('table 1: empty', b'', C, 1, 0, 0, 0, 0)
    p.certificate('table 2: T with byte 2 as 9', T.set('version', 9), C, 2, 0, 2, 0, 0)
    p.certificate('table 3: C as model', C, C, 3, 0, 3, 0, 0)
    p.certificate('table 4: T less its last byte', fixed(T.bytes()[:-1]), C, 4, 0, 62, 0, 0)
    p.certificate('table 5: T with n 0', T.set('n', 0), C, 5, 0, 4, 0, 0)
    p.certificate('table 6: label 1, alphabet 0', labelled, C, 6, 0, 58, 0, 0)
    p.certificate('table 7: 8, 8, 2 modes', plain(modes=(8, 8, 2))[0], C, 7, 0, 4, 0, 0)
    p.certificate('table 8: 32768 joint switches', model([0], three_full), C, 8, 0, 4, 0, 0)
    p.certificate('table 9: last proof as 2, 0', T, C.set('hypothesis2.0', 2).set('hypothesis2.1', 0), 9, 1, 44, 2, 67)
    p.certificate('table 10: first multiplier 2', T, C.set('multiplier0.0', 2), 10, 1, 14, 0, 0)
    p.certificate('table 11: region bound 9', T, C.set('region0.0.1', 9), 11, 1, 14, 0, 0)
    p.run('table 12: T from 6', T, run(1, 0, (6,)), 12, 1, 10, 0, 0)
    p.run('table 13: 5 to 8 in 1', T, run(1, 0, (5,), flow(1, 8)), 13, 1, 15, 0, 0)
    p.run('table 14: T at 5', T, AT_FIVE, 14, 1, 15, 0, 0)
    p.list('table 15: 1 needed, 0 lent', one_joint, 0, 15, 2, 1, 0, 0)
    p.list('1 needed, 1 lent', one_joint, 1, 0, 0, 70, 1, 0)
    p.list('1 needed, 2 lent', one_joint, 2, 0, 0, 70, 1, 0)
    p.certificate('T with C', T, C, 0, 1, 49, 3, 100)
    p.run('T with unsafe at 9, 5 to 9 in 2', UNSAFE_AT_NINE, TO_NINE, 0, 1, 24, 1, 100)
    twelve = [f'table {i}:' for i in (2, 3, 4, 5, 9, 10, 11, 12, 13, 14)] + ['T with C:', 'T with unsafe at 9']
    assert all(any(line.startswith(name) for line in p.lines) for name in twelve) and len(twelve) == 12
    different = [line.split(': ')[1] for line in p.lines if line.startswith(('T with C:', 'table 14:'))]
    assert len(set(different)) == 2


def rejected_readings(papers):
    p = papers
    still = model([0], [component([mode()])], [([0], [(-1, -7)])])
    p.run('zero time, drifting', still, run(1, 0, (5,), flow(0, 7)), 13, 1, 15, 0, 0)
    p.run('zero time, staying', still, run(1, 0, (7,), flow(0, 7)), 0, 1, 24, 1, 100)
    p.run('some time, drifting', still, run(1, 0, (5,), flow(1, 7)), 0, 1, 24, 1, 100)
    steps = ready_for_steps()
    p.run('unmentioned variable of the moving component changed', steps, run(1, 0, (0, 0, 0), jump(0, [1, STAYS, STAYS], 9, 0, 0)), 0, 1, 40, 1, 100)
    p.run('one member of a scope alone', steps, run(1, 0, (0, 0, 0), jump(1, [0, STAYS, STAYS], 0, 0, 0)), 13, 1, 23, 0, 0)
    p.run('the other member of a scope alone', steps, run(1, 0, (0, 0, 0), jump(1, [STAYS, 0, STAYS], 0, 0, 0)), 13, 1, 23, 0, 0)
    nothing = certificate([[(0, 0)]], [(0, []), (1, []), (0, [(1, 1), (2, 1)])])
    p.certificate('k 0 with sum 0', T, nothing, 11, 1, 14, 0, 0)
    p.certificate('k 1 with sum 0', T, nothing.set('k0', 1), 0, 1, 39, 3, 100)
    opposite = model([0], [component([mode(1, [], [(1, 3), (-1, -3)])])], [([0], [(0, 0)])])
    p.certificate('k 0 with opposite rows that meet', opposite, certificate([[]], [(0, [(0, 1), (1, 1)])]), 11, 1, 6, 0, 0)
    apart = opposite.set('invariant0.0.1.1', -4)
    p.certificate('k 0 with opposite rows that are apart', apart, certificate([[]], [(0, [(0, 1), (1, 1)])]), 0, 1, 21, 1, 100)
    p.certificate('unsafe by the invariants', T, certificate([[]], [(0, [(0, 1), (1, 1)])]), 0, 1, 21, 1, 100)


# Lengths, headers, cuts

def standing_still(papers):
    """A flow in which nothing changes: its rates are tested at every time above 0, and at time 0 it is allowed."""
    p = papers
    rising = model([0], [component([mode(1, [], [], [(-1, -1)])])], [([0], [])])
    p.run('standing still for 0 where the rate is at least 1', rising, run(1, 0, (5,), flow(0, 5)), 0, 1, 24, 1, 100)
    p.run('standing still for 1 where the rate is at least 1', rising, run(1, 0, (5,), flow(1, 5)), 13, 1, 15, 0, 0)
    p.run('rising by 1 in 1 where the rate is at least 1', rising, run(1, 0, (5,), flow(1, 6)), 0, 1, 24, 1, 100)


def shown_rows(papers):
    """The part that show row gives: rows of all kinds, rows of no sheet, and refusals. As proofs are not read, all certificates of the
    plant but the first are cut before theirs."""
    p, plant = papers, (SAFE_PLANT, UNPROVED_PLANT)
    p.part('shown: initial row', SAFE_PLANT, PLANT_CERTIFICATE, 0, 3, 0, -1, 0, 0, -20)
    p.part('shown: invariant at the start', *plant, 0, 6, 0, -1, 0, 0, 0)
    p.part('shown: region row on x', *plant, 3, 2, 0, 1, 0, 0, 90)
    p.part('shown: invariant on x', *plant, 3, 6, 0, 0, 0, 1, 30)
    p.part("shown: invariant on x'", *plant, 3, 10, 0, 0, 0, 1, 30)
    p.part('shown: flow row', *plant, 3, 16, 0, 0, 0, -1, -1)
    p.part('shown: time', *plant, 3, 17)
    p.part('shown: past the last hypothesis of a flow', *plant, 3, 18)
    p.part('shown: unsafe row', *plant, 6, 7, -1, 0, 0, 0, -11)
    p.part('shown: invariant of the target', *plant, 46, 7, 2, 0, 0, 0, 20)
    p.part('shown: jump row', *plant, 46, 12, -1, 0, 0, 0, 1, 0, 0, 0, 0)
    p.part('shown: last jump row', *plant, 46, 15, 0, 0, 0, 0, 0, 0, 0, -1, 0)
    p.part('shown: first row of a staying variable', *plant, 46, 16)
    p.part('shown: last row of a staying variable', *plant, 46, 19)
    p.part('shown: past the last hypothesis of a jump', *plant, 46, 20)
    p.part('shown: past the last obligation', *plant, 115, 0)
    p.part('shown: of a refused model', C, C, 0, 0)
    p.part('shown: of a run sheet', T, AT_FIVE, 0, 0)
    p.part('shown: of a certificate cut after its regions', T, fixed(C.bytes()[:14]), 1, 0, 1, 10)


def headers(papers):
    """Of models, then of second sheets. Versions from 0 to 5 are tried by pairs_of_versions."""
    p = papers
    for size in (1, 2, 3):
        p.certificate(f'model of {size}', fixed(T.bytes()[:size]), C, 1, 0, 0, 0, 0)
    for change, by in (('one more', 1), ('one less', -1)):
        p.certificate(f'model L {change}', T.set('L', 64 + by), C, 1, 0, 0, 0, 0)
    for version in (6, 255):
        p.certificate(f'model version {version}', T.set('version', version), C, 2, 0, 2, 0, 0)
    for kind in (0, 2, 3, 4, 255):
        p.certificate(f'model kind {kind}', T.set('kind', kind), C, 3, 0, 3, 0, 0)
    for size in (1, 2, 3):
        p.certificate(f'certificate of {size}', T, fixed(C.bytes()[:size]), 1, 1, 0, 0, 0)
        p.run(f'run of {size}', T, fixed(AT_FIVE.bytes()[:size]), 1, 1, 0, 0, 0)
    p.certificate('no certificate', T, b'', 1, 1, 0, 0, 0)
    p.run('no run', T, b'', 1, 1, 0, 0, 0)
    for change, by in (('one more', 1), ('one less', -1)):
        p.certificate(f'certificate L {change}', T, C.set('L', 47 + by), 1, 1, 0, 0, 0)
        p.run(f'run L {change}', T, AT_FIVE.set('L', 13 + by), 1, 1, 0, 0, 0)
    for version in (6, 255):
        p.certificate(f'certificate version {version}', T, C.set('version', version), 2, 1, 2, 0, 0)
        p.run(f'run version {version}', T, AT_FIVE.set('version', version), 2, 1, 2, 0, 0)
    for kind in (0, 1, 2, 3, 4, 255):
        if kind != 2:
            p.certificate(f'certificate kind {kind}', T, C.set('kind', kind), 3, 1, 3, 0, 0)
        if kind != 3:
            p.run(f'run kind {kind}', T, AT_FIVE.set('kind', kind), 3, 1, 3, 0, 0)
    p.certificate('version before kind', T, C.set('version', 2).set('kind', 3), 2, 1, 2, 0, 0)
    p.certificate('L before version', T, C.set('version', 2).set('L', 1), 1, 1, 0, 0, 0)
    p.certificate('model before second', T.set('fit0.0', 1), b'', 5, 0, 56, 0, 0)
    p.certificate('128 locations before second', plain(modes=(8, 8, 2))[0], b'', 7, 0, 4, 0, 0)


def cuts(papers):
    """Every cut of T, C and the run to 9, with L made right: a cut field's place is its first byte; under 4 bytes it is 1."""
    def first_bytes(sheet):
        return [at for name, size, _ in sheet.fields for at in [sheet.place(name)] * size]
    for cut in range(66):
        expected = (1, 0, 0, 0, 0) if cut < 4 else (4, 0, first_bytes(T)[cut], 0, 0)
        papers.certificate(f'T cut to {cut}', fixed(T.bytes()[:cut]), C, *expected)
    papers.certificate('T and a byte', fixed(T.bytes() + b'\0'), C, 4, 0, 66, 0, 0)
    for cut in range(4, 49):
        done = (cut >= 24) + (cut >= 34)
        papers.certificate(f'C cut to {cut}', T, fixed(C.bytes()[:cut]), 4, 1, first_bytes(C)[cut], done, (0, 33, 67)[done])
    papers.certificate('C and a byte', T, fixed(C.bytes() + b'\0'), 4, 1, 49, 3, 99)
    papers.run('bytes left before 14', T, fixed(AT_FIVE.bytes() + b'\0'), 4, 1, 15, 0, 0)
    papers.run('start tested before a cut step', T, fixed(run(1, 0, (6,), flow(1, 7)).bytes()[:16]), 12, 1, 10, 0, 0)
    for cut in range(4, 24):
        papers.run(f'run cut to {cut}', UNSAFE_AT_NINE, fixed(TO_NINE.bytes()[:cut]), 4, 1, first_bytes(TO_NINE)[cut], 0, 0)
    papers.run('run and a byte', UNSAFE_AT_NINE, fixed(TO_NINE.bytes() + b'\0'), 4, 1, 24, 1, 0)


def sizes(papers):
    p = papers
    big, proofs = most_proofs()
    p.certificate('certificate of 32768 with 6527 proofs', big, proofs, 0, 1, 32768, 6527, 100)
    p.certificate('certificate of 32769', T, fixed(C.bytes() + bytes(32769 - 49)), 1, 1, 0, 0, 0)
    big, steps = most_steps()
    p.run('run of 32768 with 4095 steps', big, steps, 0, 1, 32768, 4095, 100)
    p.run('run of 32769', T, fixed(AT_FIVE.bytes() + bytes(32769 - 15)), 1, 1, 0, 0, 0)
    p.certificate('model of 32768', fixed(T.bytes() + bytes(32768 - 66)), C, 4, 0, 66, 0, 0)
    p.certificate('model of 32769', fixed(T.bytes() + bytes(32769 - 66)), C, 1, 0, 0, 0, 0)
    p.certificate('64 proofs of up to 112 entries', *most_entries(), 0, 1, 30982, 64, 100)
    p.certificate('4096 joint switches, nothing to prove', *most_joint_switches(), 0, 1, 69, 0, 100)


# Both ends of each range

def good_model(papers, name, **counts):
    sheet, proofs, done = plain(**counts)
    papers.certificate(name, sheet, proofs, 0, 1, proofs.length(), done, 100)


def bad_model(papers, label, sheet, name, *values, number=5):
    for value in values:
        papers.certificate(f'{label} {value}', sheet.set(name, value), C, number, 0, sheet.place(name), 0, 0)


def counts_of_a_model(papers):
    p = papers
    good_model(p, 'n 1')
    good_model(p, 'n 8', n=8)
    bad_model(p, 'n', T, 'n', 9, 255)
    good_model(p, 'c 4', modes=(1, 1, 1, 1))
    bad_model(p, 'c', T, 'c', 0, 5, 255)
    good_model(p, 'unsafe 0', unsafe=0)
    good_model(p, 'unsafe 16', unsafe=16)
    bad_model(p, 'unsafe', T, 'unsafe', 17, 255)
    good_model(p, 'owner 2 of 3', n=2, owners=[0, 2], modes=(1, 1, 1))
    bad_model(p, 'owner of 3:', plain(n=2, modes=(1, 1, 1))[0], 'owner1', 3, 255)
    bad_model(p, 'owner of 1:', T, 'owner0', 1, 255)
    good_model(p, 'alphabet 2', alphabets=[2])
    good_model(p, 'alphabet 65534', alphabets=[65534])
    bad_model(p, 'alphabet', T, 'alphabet0', 1, 3, 65535)
    good_model(p, 'modes 8', modes=(8,))
    bad_model(p, 'modes', T, 'modes0', 0, 9, 255)
    good_model(p, 'switches 32', switches=[32])
    bad_model(p, 'switches', T, 'switches0', 33, 255)
    good_model(p, '64 locations', modes=(4, 2, 8))
    p.certificate('65 modes in 4 components, 72 locations', plain(modes=(8, 3, 3, 1))[0], C, 7, 0, 4, 0, 0)
    good_model(p, '4096 joint switches', modes=(1, 1, 1), switches=[16] * 3, alphabets=[2] * 3, label=1)
    one_more = plain(modes=(1, 1, 1), switches=[16, 16, 17], alphabets=[2] * 3, label=1)[0].set('label2.16', 0)
    p.certificate('4097 joint switches', one_more, C, 8, 0, 4, 0, 0)
    p.certificate('1048576 joint switches', plain(modes=(1,) * 4, switches=[32] * 4, alphabets=[2] * 4, label=1)[0], C, 8, 0, 4, 0, 0)
    over = plain(modes=(8, 8, 2))[0]
    p.certificate('bytes left before 7', fixed(over.bytes() + b'\0'), C, 4, 0, over.length(), 0, 0)


def conditions_of_a_model(papers):
    p = papers
    good_model(p, 'start 0', start=0)
    bad_model(p, 'start', T, 'start0.0', 2, 255)
    p.certificate('start 0 with initial rows', T.set('start0.0', 0), C, 5, 0, 13, 0, 0)
    good_model(p, 'initial rows 8', initial=8)
    bad_model(p, 'initial rows', T, 'initial0.0', 9, 255)
    good_model(p, 'invariant rows 8', invariant=8)
    bad_model(p, 'invariant rows', T, 'invariant0.0', 9, 255)
    good_model(p, 'flow rows 8', rates=8)
    bad_model(p, 'flow rows', T, 'flow0.0', 9, 255)
    good_model(p, 'jump rows 8', switches=[1], jumps=8)
    good_model(p, 'unsafe rows 8', rows=8)
    bad_model(p, 'unsafe rows', T, 'rows0', 9, 255)
    sheet, proofs, _ = plain(rows=0)
    p.certificate('unsafe rows 0', sheet, proofs, 11, 1, 6, 0, 0)
    two = model([0], [component([mode(), mode()]), component([mode()] * 3)], [([1, 2], [(0, -1)])])
    p.certificate('unsafe modes 1 2', two, certificate([[]] * 6, [(0, [(0, 1)])]), 0, 1, 21, 1, 100)
    p.certificate('unsafe modes any 2', two.set('fit0.0', ANY), certificate([[]] * 6, [(0, [(0, 1)])] * 2), 0, 1, 31, 2, 100)
    p.certificate('unsafe modes 1 any', two.set('fit0.1', ANY), certificate([[]] * 6, [(0, [(0, 1)])] * 3), 0, 1, 41, 3, 100)
    bad_model(p, 'first unsafe mode', two, 'fit0.0', 2, 254)
    bad_model(p, 'second unsafe mode', two, 'fit0.1', 3, 254)


def switches_of_a_model(papers):
    p = papers
    sheet = plain(modes=(3,), switches=[2], alphabets=[alphabet(1, 15)], label=1)[0]
    proofs = plain(modes=(3,))[1]
    p.certificate('source and target 2', sheet.set('source0.1', 2).set('target0.1', 2), proofs, 0, 1, proofs.length(), 3, 100)
    bad_model(p, 'source', sheet, 'source0.1', 3, 255)
    bad_model(p, 'target', sheet, 'target0.1', 3, 255)
    for label in (0, 15):
        p.certificate(f'label {label}', sheet.set('label0.1', label), proofs, 0, 1, proofs.length(), 3, 100)
    bad_model(p, 'label', sheet, 'label0.1', 16, 255)
    bad_model(p, 'label outside', sheet, 'label0.1', 2, 14, number=6)
    bad_model(p, 'jump rows', sheet, 'jump0.1', 9, 255)
    p.certificate('label outside before nine jump rows', sheet.set('label0.1', 2).set('jump0.1', 9), C, 6, 0, sheet.place('label0.1'), 0, 0)
    p.certificate('target before label', sheet.set('target0.1', 3).set('label0.1', 2), C, 5, 0, sheet.place('target0.1'), 0, 0)


def refused_models_in_each_call(papers):
    refused = [
        (T.set('version', 4), 2, 2), (C, 3, 3), (fixed(T.bytes()[:-1]), 4, 62), (T.set('n', 0), 5, 4), (tank(switches=[switch(0, 0, 1)]), 6, 58),
        (plain(modes=(8, 8, 2))[0], 7, 4), (plain(modes=(1,) * 3, switches=[32] * 3, alphabets=[2] * 3, label=1)[0], 8, 4), (b'', 1, 0),
    ]
    for sheet, number, place in refused:
        papers.run(f'run with a model refused as {number}', sheet, AT_FIVE, number, 0, place, 0, 0)
        papers.list(f'list with a model refused as {number}', sheet, 65535, number, 0, place, 0, 0)


def fields_of_a_certificate(papers):
    p = papers

    def field(label, name, *values, number=5, done=0, score=0, at=None):
        for value in values:
            p.certificate(f'{label} {value}', T, C.set(name, value), number, 1, C.place(name) if at is None else at, done, score)

    field('locations', 'locations', 0, 2, 255)
    p.certificate('locations 64 of 64', *plain(modes=(8, 8))[:2], 0, 1, 709, 64, 100)
    p.certificate('locations 63 of 64', plain(modes=(8, 8))[0], plain(modes=(8, 8))[1].set('locations', 63), 5, 1, 4, 0, 0)
    p.certificate('locations 65 of 64', plain(modes=(8, 8))[0], plain(modes=(8, 8))[1].set('locations', 65), 5, 1, 4, 0, 0)
    field('region rows', 'region0', 17, 255)
    p.certificate('region rows 0', T, certificate([[]], [(0, [(0, 1), (1, 1)])]), 0, 1, 21, 1, 100)
    sixteen = certificate([[(1, 10)] * 16], [(1, [(2, 1)])] * 16 + [(1, [(17, 1)])] * 16 + [(0, [(15, 1), (17, 1)])])
    p.certificate('region rows 16', T, sixteen, 0, 1, sixteen.length(), 33, 100)
    field('k', 'k0', 2 ** 24, 2 ** 32 - 1)
    field('k in range', 'k0', 0, 2, 2 ** 24 - 1, number=10)
    p.certificate('k and multiplier 16777215', T, C.set('k0', 2 ** 24 - 1).set('multiplier0.0', 2 ** 24 - 1), 0, 1, 49, 3, 100)
    field('unsafe k', 'k2', 1, 2 ** 24 - 1, 2 ** 24, done=2, score=67)
    p.certificate('unsafe k before its entries', T, C.set('k2', 1).set('entries2', 129), 5, 1, 34, 2, 67)
    field('entries', 'entries0', 129, 255)
    field('entries in range', 'entries0', 128, number=9, at=24)
    p.certificate('entries 0', T, certificate([[(0, 0)]], [(1, []), (2 ** 24 - 1, []), (0, [(1, 1), (2, 1)])]), 0, 1, 39, 3, 100)
    field('first hypothesis', 'hypothesis0.0', 3, 4, 255)
    field('first hypothesis in range', 'hypothesis0.0', 0, number=0, at=49, done=3, score=100)
    field('first hypothesis not fitting', 'hypothesis0.0', 1, number=10, at=14)
    field('flow hypothesis', 'hypothesis1.0', 6, 255, done=1, score=33)
    field('flow hypothesis in range', 'hypothesis1.0', 5, number=10, at=24, done=1, score=33)
    field('unsafe hypothesis', 'hypothesis2.1', 3, 255, done=2, score=67)
    field('hypothesis repeated', 'hypothesis2.1', 0, number=9, done=2, score=67)
    p.certificate('out of range before not ascending', T, C.set('hypothesis2.0', 2).set('hypothesis2.1', 3), 5, 1, 44, 2, 67)
    p.certificate('not ascending before multiplier 0', T, C.set('hypothesis2.1', 0).set('multiplier2.1', 0), 9, 1, 44, 2, 67)
    p.certificate('not ascending before the end', T, fixed(C.set('hypothesis2.1', 0).bytes()[:45]), 9, 1, 44, 2, 67)
    field('multiplier', 'multiplier0.0', 0, 2 ** 24, 2 ** 32 - 1)
    field('multiplier in range', 'multiplier0.0', 2, 2 ** 24 - 1, number=10, at=14)
    field('last multiplier', 'multiplier2.1', 0, 2 ** 24, done=2, score=67)
    p.certificate('both multipliers 16777215', T, C.set('multiplier2.0', 2 ** 24 - 1).set('multiplier2.1', 2 ** 24 - 1), 0, 1, 49, 3, 100)
    p.certificate('a proof is read before it is tested', T, C.set('multiplier0.0', 2).set('entries0', 2).set('k1', 0), 9, 1, 24, 0, 0)
    p.certificate('10 before 11', T, C.set('multiplier0.0', 2).set('region0.0.1', 9), 10, 1, 14, 0, 0)
    p.certificate('unsafe bound just fails', tank(-10), C, 11, 1, 34, 2, 67)


def fields_of_a_run(papers):
    p = papers

    def field(label, name, *values, number=5, done=0, at=None):
        for value in values:
            p.run(f'{label} {value}', UNSAFE_AT_NINE, TO_NINE.set(name, value), number, 1, TO_NINE.place(name) if at is None else at, done, 0)

    field('q', 'q', 0, 2 ** 24, 2 ** 32 - 1)
    field('steps', 'steps', 4096, 65535)
    field('more steps than there are', 'steps', 2, 4095, number=4, at=24, done=1)
    field('location', 'location', 1, 255)
    field('p', 'p0', -2 ** 27 - 1, 2 ** 27 + 1, -2 ** 31, 2 ** 31 - 1)
    field('new p', 'p0.0', -2 ** 27 - 1, 2 ** 27 + 1)
    field('step', 'step0', 2, 255)
    field('time', 'time0', 2 ** 24, 2 ** 32 - 1)
    p.run('a step is read before it is tested', UNSAFE_AT_NINE, TO_NINE.set('time0', 1).set('p0.0', 2 ** 27 + 1), 5, 1, 20, 0, 0)
    p.run('q 16777215', UNSAFE_AT_FIVE, run(2 ** 24 - 1, 0, (5 * (2 ** 24 - 1),)), 0, 1, 15, 0, 100)
    p.run('steps 0', UNSAFE_AT_FIVE, AT_FIVE, 0, 1, 15, 0, 100)
    p.run('location 63 of 64', *in_location(63), 0, 1, 15, 0, 100)
    p.run('location 64 of 64', *in_location(64), 5, 1, 10, 0, 0)
    for value in (-2 ** 27, 2 ** 27):
        p.run(f'p {value}', free(), run(1, 0, (value,)), 0, 1, 15, 0, 100)
        p.run(f'new p {value}', free(), run(1, 0, (0,), flow(1, value)), 0, 1, 24, 1, 100)
    p.run('time 16777215', free(), run(1, 0, (0,), flow(2 ** 24 - 1, 1)), 0, 1, 24, 1, 100)
    p.run('time 0', free(), run(1, 0, (1,), flow(0, 1)), 0, 1, 24, 1, 100)
    p.run('last of eight p', free(8), run(1, 0, (0,) * 7 + (2 ** 27 + 1,)), 5, 1, 39, 0, 0)
    p.run('location before p', T, AT_FIVE.set('location', 1).set('p0', 2 ** 31 - 1), 5, 1, 10, 0, 0)
    p.run('p before the start', T, AT_FIVE.set('p0', 2 ** 27 + 1), 5, 1, 11, 0, 0)


def in_location(location):
    """64 locations, 8 by 8, of which 63 alone starts and is unsafe; and a run that begins in a location."""
    part = component([mode(0)] * 7 + [mode(1)])
    return model([0], [part, part], [([7, 7], [])]), run(1, location, (0,))


def fields_of_a_jump(papers):
    p = papers
    labels = free(switches=[switch(0, 0, 0)] * 31 + [switch(0, 0, 15)]).set('alphabet0', alphabet(15))

    def jumps(label, event, chosen, *expected):
        p.run(label, labels, run(1, 0, (0,), jump(event, [chosen], 7)), *expected)

    jumps('event 0, switch 0', 0, 0, 0, 1, 22, 1, 100)
    jumps('event 0, switch 30', 0, 30, 0, 1, 22, 1, 100)
    jumps('event 15, switch 31', 15, 31, 0, 1, 22, 1, 100)
    for event in (16, 255):
        jumps(f'event {event}', event, 31, 5, 1, 16, 0, 0)
    for chosen in (32, 254):
        jumps(f'switch {chosen} of 32', 15, chosen, 5, 1, 17, 0, 0)
    jumps('switch 255', 15, STAYS, 13, 1, 15, 0, 0)
    steps = ready_for_steps()
    good = run(1, 0, (0, 0, 0), jump(1, [0, 0, STAYS], 0, 0, 0))
    for k, count in enumerate((4, 2, 1)):
        for chosen in (count, 254):
            p.run(f'switch {chosen} of {count} in component {k}', steps, good.set(f'switch{k}.0', chosen), 5, 1, 25 + k, 0, 0)
    for value in (-2 ** 27 - 1, 2 ** 27 + 1):
        p.run(f'p {value} after a jump', steps, good.set('p2.0', value), 5, 1, 36, 0, 0)
    for value in (-2 ** 27, 2 ** 27):
        p.run(f'p {value} after a jump', steps, good.set('p1.0', value), 0, 1, 40, 1, 100)
    firsts = [good.place(name) for name, size, _ in good.fields for _ in range(size)]
    for cut in range(23, 40):
        p.run(f'jump cut to {cut}', steps, fixed(good.bytes()[:cut]), 4, 1, firsts[cut], 0, 0)


# What a step may do

def ready_for_steps():
    """Three components with a variable each and no rows; every state is unsafe. Event 1 is shared by the first two, 2 is the first's
    alone, 3 is in its alphabet without a switch, 4 in none."""
    first = component([mode(), mode()], [switch(0, 1, 1), switch(0, 0, 0), switch(1, 0, 1), switch(0, 1, 2)], alphabet(1, 2, 3))
    second = component([mode()], [switch(0, 0, 1), switch(0, 0, 0)], alphabet(1))
    third = component([mode()], [switch(0, 0, 0)])
    return model([0, 1, 2], [first, second, third], [([ANY] * 3, [])])


def joint_steps(papers):
    steps = ready_for_steps()
    S = STAYS
    allowed = [(1, [0, 0, S]), (0, [1, S, S]), (0, [S, 1, S]), (0, [S, S, 0]), (2, [3, S, S])]
    refused = [
        (1, [0, 0, 0]), (1, [S, S, S]), (1, [2, 0, S]), (1, [1, 0, S]), (1, [0, 1, S]), (1, [3, 0, S]),
        (0, [S, S, S]), (0, [1, 1, S]), (0, [1, 1, 0]), (0, [0, S, S]), (0, [3, S, S]),
        (2, [S, S, S]), (2, [3, 0, S]), (2, [0, S, S]), (2, [S, 0, S]),
        (3, [S, S, S]), (3, [0, S, S]), (4, [S, S, S]), (4, [S, S, 0]), (15, [S, S, S]),
    ]
    for event, chosen in allowed:
        papers.run(f'event {event} by {chosen}', steps, run(1, 0, (1, 2, 3), jump(event, chosen, 1, 2, 3)), 0, 1, 40, 1, 100)
    for event, chosen in refused:
        papers.run(f'event {event} by {chosen}', steps, run(1, 0, (1, 2, 3), jump(event, chosen, 1, 2, 3)), 13, 1, 23, 0, 0)
    moved = jump(1, [0, 0, S], 1, 2, 3)
    papers.run('there and back', steps, run(1, 0, (1, 2, 3), moved, jump(1, [2, 0, S], 1, 2, 3)), 0, 1, 57, 2, 100)
    papers.run('there and there again', steps, run(1, 0, (1, 2, 3), moved, jump(1, [0, 0, S], 1, 2, 3)), 13, 1, 40, 1, 0)
    papers.run('there by an event of its own and back', steps, run(1, 0, (1, 2, 3), jump(2, [3, S, S], 1, 2, 3), jump(1, [2, 0, S], 1, 2, 3)), 0, 1, 57, 2, 100)
    for v in range(3):
        values = [1, 2, 3]
        values[v] = 9
        expected = (13, 1, 23, 0, 0) if v == 2 else (0, 1, 40, 1, 100)
        papers.run(f'variable {v} changed by a jump of the first two', steps, run(1, 0, (1, 2, 3), jump(1, [0, 0, S], *values)), *expected)


def starts(papers):
    p = papers
    for value, expected in ((4, 12), (5, 0), (6, 12)):
        p.run(f'start at {value}', UNSAFE_AT_FIVE, run(1, 0, (value,)), expected, 10 if expected else 15)
    for value, expected in ((9, 12), (10, 0), (11, 12)):
        p.run(f'start at {value} over 2', UNSAFE_AT_FIVE, run(2, 0, (value,)), expected, 10 if expected else 15)
    inside = model([0], [component([mode(1, [], [(1, 10)])])], [([0], [])])
    p.run('start on the invariant', inside, run(3, 0, (30,)), 0, 1, 15, 0, 100)
    p.run('start over the invariant', inside, run(3, 0, (31,)), 12, 1, 10, 0, 0)
    some = model([0], [component([mode(1), mode(0)]), component([mode(0), mode(1), mode(0)])], [([ANY, ANY], [])])
    for location in range(6):
        p.run(f'start in location {location} where 1 starts', some, run(1, location, (0,)), *((0, 15) if location == 1 else (12, 10)))
    p.run('start before the first step', T, run(1, 0, (6,), flow(1, 8)), 12, 1, 10, 0, 0)


def conditions(papers):
    p = papers
    guard = switch(0, 1, 0, [(-1, 0, -8), (-1, 1, 1)])
    two = model([0], [component([mode(1, [], [(1, 10)], [(1, 2), (-1, 0)]), mode(0, [], [(-1, -9)])], [guard])], [([1], [(-1, -10)])])

    def tries(label, q, steps, *expected):
        p.run(label, two, run(q, 0, (5 * q,), *steps), *expected)

    tries('flow to the invariant, jump', 1, [flow(3, 10), jump(0, [0], 11)], 0, 1, 31, 2, 100)
    tries('flow over the invariant', 1, [flow(3, 11), jump(0, [0], 11)], 13, 1, 15, 0, 0)
    tries('flow just too fast', 1, [flow(2, 10)], 13, 1, 15, 0, 0)
    tries('flow as fast as may be', 1, [flow(2, 9)], 14, 1, 24, 1, 0)
    tries('flow back', 1, [flow(2, 4)], 13, 1, 15, 0, 0)
    tries('jump before the guard', 1, [flow(1, 7), jump(0, [0], 8)], 13, 1, 24, 1, 0)
    tries('jump on the guard to outside the target invariant', 1, [flow(2, 8), jump(0, [0], 8)], 13, 1, 24, 1, 0)
    tries('jump on the guard, end not unsafe', 1, [flow(2, 8), jump(0, [0], 9)], 14, 1, 31, 2, 0)
    tries('jump too far', 1, [flow(3, 10), jump(0, [0], 12)], 13, 1, 24, 1, 0)
    tries('flow in the target mode, free of rates', 1, [flow(2, 9), jump(0, [0], 9), flow(1, 100)], 0, 1, 40, 3, 100)
    tries('flow in the target mode to outside', 1, [flow(2, 9), jump(0, [0], 9), flow(1, 8)], 13, 1, 31, 2, 0)
    tries('q 10, a tenth too fast', 10, [flow(1, 53)], 13, 1, 15, 0, 0)
    tries('q 10, as fast as may be', 10, [flow(1, 52)], 14, 1, 24, 1, 0)
    tries('q 10, jump row by a tenth', 10, [flow(30, 100), jump(0, [0], 111)], 13, 1, 24, 1, 0)
    tries('q 10, jump row just', 10, [flow(30, 100), jump(0, [0], 110)], 0, 1, 31, 2, 100)
    sure = model([0], [component([mode()])], [([0], [(1, 3)]), ([0], [(-1, -9)]), ([ANY], [(1, 6), (-1, -6)])])
    for value, unsafe in ((3, True), (4, False), (6, True), (8, False), (9, True)):
        p.run(f'one of three unsafe conditions at {value}', sure, run(1, 0, (value,)), *((0, 1, 15, 0, 100) if unsafe else (14, 1, 15, 0, 0)))
    p.run('no unsafe conditions', model([0], [component([mode()])]), run(1, 0, (0,)), 14, 1, 15, 0, 0)


# Sums at the ends of their sizes

def opposite_rows(count, n, most, bound):
    return [(most,) * n + (bound,) if i % 2 == 0 else (-most,) * n + (bound,) for i in range(count)]


def wide(bound, start):
    """120 hypotheses of a jump with numbers as large as they may be: 16 region rows, 32 and 32 invariants, 24 jump rows, 16 staying."""
    most = 2 ** 31 - 1
    full = mode(start, [], opposite_rows(8, 8, most, bound))
    jumps = opposite_rows(8, 16, most, bound)
    moving = component([full], [switch(0, 0, 1, jumps)], alphabet(1))
    return model([3] * 8, [moving] * 3 + [component([full])]), opposite_rows(16, 8, most, bound)


def large_numbers(papers):
    p = papers
    least, multiplier = -2 ** 31, 2 ** 24 - 1
    every = [(h, multiplier) for h in range(120)]
    sheet, region = wide(least, 1)
    two = (0, [(0, 1), (1, 1)])
    below = certificate([region], [two] * 16 + [two] * 16 + [(0, every)] + [two] * 15)
    p.certificate('120 entries, bound as low as may be', sheet, below, 0, 1, below.length(), 48, 100)
    p.certificate('hypothesis 120 of 120', sheet, below.set('hypothesis32.119', 120), 5, 1, below.place('hypothesis32.119'), 32, 67)
    p.certificate('120 entries, one multiplier less', sheet, below.set('multiplier32.7', multiplier - 1), 10, 1, below.place('k32'), 32, 67)
    sheet, region = wide(2 ** 31 - 1, 0)
    same = [(1, [(48 + i % 2, 1)]) for i in range(16)]
    above = certificate([region], same + same[:15] + [(0, every)])
    p.certificate('120 entries, bound as high as may be', sheet, above, 11, 1, above.place('k31'), 31, 97)
    rates = [(least, least), (0, 2 ** 31 - 1), (0, 1)]
    steep = model([0], [component([mode(0, [], [], rates)])])
    slope = certificate([[(least, 0)]], [(multiplier, [(0, multiplier), (1, multiplier), (2, multiplier), (3, multiplier)])])
    p.certificate('negated -2147483648 in a flow', steep, slope, 0, 1, slope.length(), 1, 100)
    p.certificate('negated -2147483648 in a flow, k one less', steep, slope.set('k0', multiplier - 1), 10, 1, 14, 0, 0)
    last = 2 ** 27
    jumping = free(8, switches=[switch(0, 0, 0, [(least,) * 16 + (least,)])])
    for value, expected in ((last, (0, 1, 78, 1, 100)), (-last, (13, 1, 43, 0, 0))):
        p.run(f'jump row with values {value}', jumping, run(2 ** 24 - 1, 0, (value,) * 8, jump(0, [0], *(value,) * 8)), *expected)
    flowing = model([0] * 8, [component([mode(1, [], [], [(least,) * 8 + (least,)])])], [([0], [])])
    for value, expected in ((last, (0, 1, 80, 1, 100)), (-last, (13, 1, 43, 0, 0))):
        p.run(f'flow row to values {value}', flowing, run(1, 0, (-value,) * 8, flow(2 ** 24 - 1, *(value,) * 8)), *expected)
    bounded = model([0], [component([mode(1, [(1, 2 ** 31 - 1)])])], [([0], [(1, least)])])
    p.run('bound -2147483648 by q 16777215', bounded, run(2 ** 24 - 1, 0, (-last,)), 14, 1, 15, 0, 0)


# Order and scores of obligations

def order_of_joint_switches(papers):
    """The first component's switches have weights 1 and 2, the second's 3 and 5, so that the sum tells the pair: 4, 6, 5, 7."""
    p = papers
    first = component([mode(0, [], [], [(1, 0)])], [switch(0, 0, 1, [(0, 1, 0)]), switch(0, 0, 1, [(0, 2, 0)])], alphabet(1))
    alone = component([mode()], [switch(0, 0, 0, [(0, 7, 0)])])
    second = component([mode()], [switch(0, 0, 1, [(0, 3, 0)]), switch(0, 0, 1, [(0, 5, 0)])], alphabet(1))
    sheet = model([0], [first, alone, second])
    flows, lone = (1, [(0, 1), (1, 1)]), (1, [(0, 1), (2, 1)])
    pairs = [(k, [(1, 1), (2, 1)]) for k in (4, 6, 5, 7)]
    whole = certificate([[(1, 0)]], [flows, lone] + pairs)
    p.certificate('order of joint switches', sheet, whole, 0, 1, whole.length(), 6, 100)
    for i in range(2, 6):
        other = 9 - whole.value(f'k{i}')
        p.certificate(f'proof {i} for another joint switch', sheet, whole.set(f'k{i}', other), 10, 1, whole.place(f'k{i}'), i, refused_score(i, 6))
    late = certificate([[(1, 0)]], [flows] + pairs + [lone])
    p.certificate('event 0 last', sheet, late, 10, 1, late.place('k1'), 1, 17)


def order_of_hypotheses(papers):
    """Each row of the model has a prime of its own as its coefficient, so that a proof tells which hypotheses it uses."""
    initial, invariant, rates, jumps = [[1, 2], [3, 5]], [[7, 11], [13, 17]], [[19, 23], [29, 31]], [[41, 43], [47, 53]]
    components = []
    for k in range(2):
        rows = [[(a, 0) for a in part[k]] for part in (initial, invariant, rates)]
        components.append(component([mode(1, *rows)], [switch(0, 0, 1, [(0, a, 0) for a in jumps[k]])], alphabet(1)))
    sheet = model([2], components + [component([mode()])], [([ANY] * 3, [(37, 0), (-37, -1)])])
    inside = initial[0] + initial[1] + invariant[0] + invariant[1]
    starts_from = [(1, [(i, 1)]) for i in range(8)]
    flows = [(inside[4 + i], [(12 + i, inside[i])]) for i in range(4)]
    flows += [(a, [(i, a), (16 + i - 4, inside[i])]) for i, a in zip(range(4, 8), rates[0] + rates[1])]
    never = (0, [(9, 37), (13, 11)])
    jumped = [(a, [(16 + i, inside[i])]) for i, a in enumerate(jumps[0] + jumps[1])]
    jumped += [(1, [(4, 1), (20, 7)]), (13, [(10, 11), (20, 143)]), (17, [(11, 13), (20, 221)]), (1, [(15, 1)])]
    whole = certificate([[(a, 0) for a in inside]], starts_from + flows + [never] + jumped)
    papers.certificate('order of hypotheses', sheet, whole, 0, 1, whole.length(), 25, 100)
    for proof, entry, done in ((2, 0, 2), (11, 0, 11), (14, 1, 14), (16, 1, 16), (18, 0, 18), (22, 0, 22), (24, 0, 24)):
        name = f'hypothesis{proof}.{entry}'
        papers.certificate(f'order of hypotheses, {name} one less', sheet, whole.set(name, whole.value(name) - 1), 10, 1, whole.place(f'k{proof}'), done, 4 * done)


def order_of_locations(papers):
    """Two modes by three: the invariants' coefficients tell the modes of a location."""
    first, second = [2, 3], [5, 7, 11]
    components = [component([mode(0, [], [(a, 0)]) for a in part]) for part in (first, second)]
    regions = [[(a, 0), (b, 0)] for a in first for b in second]
    whole = certificate(regions, [(1, [(4, 1)]), (1, [(5, 1)])] * 6)
    papers.certificate('order of locations', model([0], components), whole, 0, 1, whole.length(), 12, 100)
    turned = certificate([[(a, 0), (b, 0)] for b in second for a in first], [(1, [(4, 1)]), (1, [(5, 1)])] * 6)
    papers.certificate('order of locations, the other way', model([0], components), turned, 10, 1, turned.place('k2'), 2, 17)
    some = model([0], [component([mode(1), mode(0)]), component([mode(1), mode(1)])])
    six = certificate([[(0, 0)]] * 4, [(1, [])] * 6)
    papers.certificate('start rows where all modes start', some, six, 0, 1, six.length(), 6, 100)


def order_of_staying_variables(papers):
    """The owners fall while the variables rise; the middle component moves."""
    still = [(1, 0, 0, 0), (0, 1, 0, 0), (0, 0, 1, 0)]
    components = [component([mode(0, [], [], still)]), component([mode()], [switch(0, 0)]), component([mode()])]
    flows = [(1, [(i, 1), (3 + i, 1)]) for i in range(3)]
    whole = certificate([still], flows + [(1, [(0, 1), (3, 1)]), (0, []), (1, [(2, 1), (5, 1)])])
    sheet = model([2, 1, 0], components)
    papers.certificate('a moving variable with no row', sheet, whole, 11, 1, whole.place('k4'), 4, 67)
    two = [still[0], still[2]]
    kept = certificate([two], [(1, [(0, 1), (2, 1)]), (1, [(1, 1), (4, 1)]), (1, [(0, 1), (2, 1)]), (1, [(1, 1), (4, 1)])])
    papers.certificate('order of staying variables', sheet, kept, 0, 1, kept.length(), 4, 100)
    papers.certificate('the row the other way', sheet, kept.set('hypothesis2.1', 3), 10, 1, kept.place('k2'), 2, 50)


def contradictions(papers):
    never = [(0, 0, -1)]
    blocked = model([0], [component([mode(), mode(0)], [switch(0, 1, 0, never)])], [([1], [(0, 0)])])
    cut_off = certificate([[], [(0, -1)]], [(0, [(0, 1)]), (0, [(0, 1)]), (0, [(0, 1)])])
    papers.certificate('k 0 after a flow and a jump', blocked, cut_off, 0, 1, cut_off.length(), 3, 100)
    papers.certificate('k 0 after a jump with bound 0', blocked.set('jump0.0.0.2', 0), cut_off, 11, 1, cut_off.place('k2'), 2, 67)


def refused_score(done, total):
    """The percent that is nearest, of two the even one; at most 99."""
    return min(99, min(range(101), key=lambda percent: (abs(100 * done - percent * total), percent % 2)))


def halves(papers, total, expected, **parts):
    """Cut where a proof begins: 1 of 8 is 12.5 percent, 1 of 200 a half, 199 of them 99.5."""
    sheet, proofs, count = plain(**parts)
    assert count == total
    for done, score in expected:
        place = proofs.place(f'k{done}')
        papers.certificate(f'cut at proof {done} of {total}', sheet, fixed(proofs.bytes()[:place]), 4, 1, place, done, score)


def scores(papers):
    p = papers
    none = plain(unsafe=0)[0]
    empty = certificate([[]], [])
    p.certificate('no obligations', none, empty, 0, 1, 6, 0, 100)
    p.certificate('no obligations, a byte left', none, fixed(empty.bytes() + b'\0'), 4, 1, 6, 0, 99)
    p.certificate('no obligations, locations wrong', none, empty.set('locations', 2), 5, 1, 4, 0, 0)
    p.certificate('no obligations, cut in the regions', none, fixed(empty.bytes()[:5]), 4, 1, 5, 0, 0)
    for total in (1, 3, 7, 8, 16):
        sheet, proofs, _ = plain(unsafe=total)
        for done in range(total):
            p.certificate(f'{done} of {total}', sheet, proofs.set(f'entries{done}', 129), 5, 1, proofs.place(f'entries{done}'), done, refused_score(done, total))
        p.certificate(f'{total} of {total} and a byte', sheet, fixed(proofs.bytes() + b'\0'), 4, 1, proofs.length(), total, 99)
    halves(p, 8, ((1, 12), (3, 38), (5, 62), (7, 88)), unsafe=8)
    halves(p, 200, ((0, 0), (1, 0), (2, 1), (3, 2), (5, 2), (99, 50), (101, 50), (195, 98), (197, 98), (198, 99), (199, 99)), modes=(8, 5), unsafe=5)
    sheet, proofs, total = plain(modes=(8, 8), unsafe=2)
    for done in (1, 2, 127):
        p.certificate(f'{done} of {total}', sheet, proofs.set(f'k{done}', 1), 5, 1, proofs.place(f'k{done}'), done, refused_score(done, total))
    p.certificate('cut in the last region', sheet, fixed(proofs.bytes()[:68]), 4, 1, 68, 0, 0)
    p.certificate('last region out of range', sheet, proofs.set('region63', 17), 5, 1, 68, 0, 0)


# The plant of four components

def plant_certificate(papers):
    p, whole = papers, PLANT_CERTIFICATE
    p.certificate('plant', SAFE_PLANT, whole, 0, 1, 2108, 115, 100)

    def change(name, value, number, done, at=None):
        p.certificate(f'plant, {name} as {value}', SAFE_PLANT, whole.set(name, value), number, 1, whole.place(at or name), done, refused_score(done, 115))

    change('k6', 1, 5, 6)
    change('hypothesis30.1', 3, 9, 30)
    change('hypothesis49.1', 27, 5, 49)
    change('multiplier87.2', 3, 10, 87, 'k87')
    change('multiplier114.0', 0, 5, 114)
    change('hypothesis53.1', 11, 10, 53, 'k53')
    change('k21', 1, 10, 21, 'k21')
    change('entries91', 2, 10, 91, 'k91')
    change('region5.3.4', 9, 11, 49, 'k49')
    change('region7.2.4', 89, 11, 38, 'k38')
    p.certificate('plant less its last byte', SAFE_PLANT, fixed(whole.bytes()[:-1]), 4, 1, 2104, 114, 99)
    p.certificate('plant and a byte', SAFE_PLANT, fixed(whole.bytes() + b'\0'), 4, 1, 2108, 115, 99)
    p.certificate('plant without its last proof', SAFE_PLANT, fixed(whole.bytes()[:whole.place('k114')]), 4, 1, whole.place('k114'), 114, 99)
    p.list('plant list', SAFE_PLANT, 22, 0, 0, 1322, 22, 0)
    p.list('plant list, one short', SAFE_PLANT, 21, 15, 2, 22, 0, 0)
    p.certificate('plant with other unsafe conditions', UNSAFE_PLANT, whole)


def plant_run(papers):
    p, whole = papers, PLANT_RUN
    p.run('plant run', UNSAFE_PLANT, whole, 0, 1, 178, 7, 100)

    def change(name, value, number, done, at=None):
        place = 178 if number == 14 else 10 if number == 12 else whole.place(at or name)
        p.run(f'plant run, {name} as {value}', UNSAFE_PLANT, whole.set(name, value), number, 1, place, done, 0)

    change('q', 0, 5, 0)
    change('q', 3, 12, 0)
    change('location', 1, 12, 0)
    change('location', 8, 5, 0)
    change('p0', 1, 12, 0)
    change('p1', 41, 12, 0)
    change('p2', 9, 12, 0)
    change('p1.0', 37, 13, 0, 'step0')
    change('p3.0', 3, 13, 0, 'step0')
    change('p2.0', 9, 13, 0, 'step0')
    change('p1.1', 38, 13, 1, 'step1')
    change('p0.1', 1, 13, 1, 'step1')
    change('switch3.1', 255, 13, 1, 'step1')
    change('switch3.1', 3, 5, 1)
    change('switch0.1', 1, 13, 1, 'step1')
    change('event1', 2, 13, 1, 'step1')
    change('event1', 4, 13, 1, 'step1')
    change('event1', 16, 5, 1)
    change('time2', 8, 13, 2, 'step2')
    change('p0.2', 21, 13, 2, 'step2')
    change('p0.3', 17, 13, 3, 'step3')
    change('p2.3', 8, 13, 4, 'step4')
    change('switch2.3', 0, 13, 3, 'step3')
    change('switch0.4', 2, 13, 4, 'step4')
    change('switch0.4', 0, 13, 4, 'step4')
    change('switch1.4', 1, 13, 4, 'step4')
    change('p1.5', 52, 13, 5, 'step5')
    change('step5', 2, 5, 5)
    change('time5', 2 ** 24, 5, 5)
    change('p1.6', 121, 13, 6, 'step6')
    change('p2.6', 7, 13, 6, 'step6')
    change('p2.6', 5, 14, 7)
    change('p3.6', 1, 13, 6, 'step6')
    change('steps', 6, 4, 6, 'step6')
    p.run('plant run, p1.6 as 120', UNSAFE_PLANT, whole.set('p1.6', 120), 0, 1, 178, 7, 100)
    p.run('plant run and a byte', UNSAFE_PLANT, fixed(whole.bytes() + b'\0'), 4, 1, 178, 7, 0)
    p.run('plant run less its last byte', UNSAFE_PLANT, fixed(whole.bytes()[:-1]), 4, 1, 174, 6, 0)
    p.run('plant run, one step more', UNSAFE_PLANT, whole.set('steps', 8), 4, 1, 178, 7, 0)


def joint_list(papers):
    p = papers
    p.list('none needed, none lent', T, 0, 0, 0, 66, 0, 0)
    p.list('none needed, some lent', T, 9, 0, 0, 66, 0, 0)
    many = plain(modes=(1, 1, 1), switches=[16] * 3, alphabets=[2] * 3, label=1)[0]
    for lent in (0, 1, 4095):
        p.list(f'4096 needed, {lent} lent', many, lent, 15, 2, 4096, 0, 0)
    for lent in (4096, 4097, 65535):
        p.list(f'4096 needed, {lent} lent', many, lent, 0, 0, many.length(), 4096, 0)
    steps = ready_for_steps()
    # location 0: 3 alone, 1·1 together, 1 by event 2; location 1: 2 alone, 1·1 together
    p.list('8 needed, 7 lent', steps, 7, 15, 2, 8, 0, 0)
    p.list('8 needed, 8 lent', steps, 8, 0, 0, steps.length(), 8, 0)


def inputs(papers):
    """The program's input: the first sheet is L+2 bytes, or all if fewer; the rest is the second, a run if its byte 3 is 3."""
    t, c, at_five = T.bytes(), C.bytes(), AT_FIVE.bytes()
    p = papers
    p.input('input: T then C', t + c, 'SAFE 3')
    p.input('input: T then T at 5', t + at_five, 'REFUSED 14 1 15 0 0')
    p.input('input: unsafe tank then its run', UNSAFE_AT_NINE.bytes() + TO_NINE.bytes(), 'UNSAFE 1')
    p.input('input: plant then its certificate', SAFE_PLANT.bytes() + PLANT_CERTIFICATE.bytes(), 'SAFE 115')
    p.input('input: plant then its run', UNSAFE_PLANT.bytes() + PLANT_RUN.bytes(), 'UNSAFE 7')
    p.input('input: nothing', b'', 'REFUSED 1 0 0 0 0')
    p.input('input: one byte', t[:1], 'REFUSED 1 0 0 0 0')
    p.input('input: two bytes, L 0', bytes(2), 'REFUSED 1 0 0 0 0')
    p.input('input: L over what is there', t[:-1], 'REFUSED 1 0 0 0 0')
    p.input('input: L 65535', b'\xff\xff' + (t + c)[2:], 'REFUSED 1 0 0 0 0')
    p.input('input: L one less, so that the second sheet begins early', T.set('L', 63).bytes() + c, 'REFUSED 4 0 62 0 0')
    p.input('input: L one more, so that the second sheet begins late', T.set('L', 65).bytes() + c, 'REFUSED 4 0 66 0 0')
    p.input('input: T alone', t, 'REFUSED 1 1 0 0 0')
    p.input('input: T and three bytes', t + b'\0\1\1', 'REFUSED 1 1 0 0 0')
    p.input('input: T and a header of kind 3', t + b'\0\2\1\3', 'REFUSED 4 1 4 0 0')
    p.input('input: T and a header of kind 2', t + b'\0\2\1\2', 'REFUSED 4 1 4 0 0')
    p.input('input: T twice', t + t, 'REFUSED 3 1 3 0 0')
    p.input('input: run of version 2', t + AT_FIVE.set('version', 2).bytes(), 'REFUSED 2 1 2 0 0')
    p.input('input: T of version 2 then C', T.set('version', 2).bytes() + c, 'SAFE 3')
    p.input('input: T of version 4 then C', T.set('version', 4).bytes() + c, 'REFUSED 2 0 2 0 0')
    p.input('input: still tank then its certificate', STILL_TANK.bytes() + STILL_CERTIFICATE.bytes(), 'SAFE 7')
    p.input('input: C then T', c + t, 'REFUSED 3 0 3 0 0')
    p.input('input: T, C and a byte', t + c + b'\0', 'REFUSED 1 1 0 0 0')
    p.input('input: last proof fails', t + C.set('multiplier2.1', 2).bytes(), 'REFUSED 10 1 34 2 67')
    p.input('input: last proof as 2, 0', t + C.set('hypothesis2.0', 2).set('hypothesis2.1', 0).bytes(), 'REFUSED 9 1 44 2 67')
    numbered = NUMBERED_TANK.bytes()
    p.input('input: T and C with a paper number', numbered + NUMBERED_CERTIFICATE.bytes(), 'SAFE 3')
    p.input('input: T with a paper number, C without', numbered + c, 'REFUSED 18 1 2 0 0')
    p.input('input: T without a paper number, C with one', t + NUMBERED_CERTIFICATE.bytes(), 'REFUSED 18 1 2 0 0')
    p.input('input: T and C with different paper numbers', numbered + OTHER_CERTIFICATE.bytes(), 'REFUSED 18 1 4 0 0')
    p.input('input: T cut in its paper number', fixed(numbered[:6]) + NUMBERED_CERTIFICATE.bytes(), 'REFUSED 4 0 4 0 0')
    for label, other, expected in (('a paper number', NUMBER, 'UNSAFE 1'), ('different paper numbers', OTHER_NUMBER, 'REFUSED 18 1 4 0 0')):
        unsafe = UNSAFE_AT_NINE.versioned(3, NUMBER).bytes()
        p.input(f'input: unsafe tank and its run with {label}', unsafe + TO_NINE.versioned(3, other).bytes(), expected)


# Blanks (document 02, order 6). Many models are tried as version 1 and as version 2, with the same bytes but for the version; others as
# version 2 alone.

def in_both(call, sheet, *papers):
    """Second sheets beside the model as version 1 and as version 2. Of each: its label, the sheet, and what it gives beside the one and
    beside the other."""
    for version in (1, 2):
        for label, second, *given in papers:
            call(f'version {version}: {label}', sheet.set('version', version), second, *given[version - 1])


def versions(papers):
    """T's flow rows mention its variable, and it has no switch: versions 1 and 2 give the same."""
    p, later = papers, T.set('version', 2)
    p.certificate('T of version 2, first multiplier 2', later, C.set('multiplier0.0', 2), 10, 1, 14, 0, 0)
    p.run('T of version 2, 5 to 8 in 1', later, run(1, 0, (5,), flow(1, 8)), 13, 1, 15, 0, 0)
    p.run('T of version 2 at 5', later, AT_FIVE, 14, 1, 15, 0, 0)
    p.list('T of version 2, list', later, 0, 0, 0, 66, 0, 0)
    p.certificate('T of version 2, cut', fixed(later.bytes()[:-1]), C, 4, 0, 62, 0, 0)
    p.run('T of version 2 with unsafe at 9, 5 to 9 in 2', UNSAFE_AT_NINE.set('version', 2), TO_NINE, 0, 1, 24, 1, 100)


def still_tank(papers):
    """The level is blank while the valve is closed and in both jumps, and mentioned while it is open. 7 obligations: 1 is the flow of the
    closed tank, 3 that of the open one, 5 and 6 are the jumps."""
    p, whole, last = papers, STILL_CERTIFICATE, STILL_CERTIFICATE.place('k6')

    def change(name, value, number, done, score, at=None):
        p.certificate(f'still tank, {name} as {value}', STILL_TANK, whole.set(name, value), number, 1, whole.place(at or name), done, score)

    # other hypotheses of the same flow or jump, the last of them and one past it
    change('hypothesis1.1', 1, 10, 1, 14, 'k1')
    change('hypothesis1.1', 3, 10, 1, 14, 'k1')
    change('hypothesis1.1', 4, 5, 1, 14)
    change('hypothesis3.0', 5, 10, 3, 43, 'k3')
    change('hypothesis3.0', 6, 5, 3, 43)
    change('hypothesis5.1', 3, 10, 5, 71, 'k5')
    change('hypothesis5.1', 4, 5, 5, 71)
    change('hypothesis6.1', 1, 10, 6, 86, 'k6')
    change('hypothesis6.1', 3, 10, 6, 86, 'k6')
    change('hypothesis6.1', 4, 5, 6, 86)
    p.certificate('still tank without its last proof', STILL_TANK, fixed(whole.bytes()[:last]), 4, 1, last, 6, 86)
    p.certificate('still tank and a byte', STILL_TANK, fixed(whole.bytes() + b'\0'), 4, 1, 118, 7, 99)
    p.certificate('still tank at the practice desk', STILL_TANK, whole, 0, 1, 118, 7, 100, limits=PRACTICE)
    p.certificate('still tank, 2 locations where 1 is allowed', STILL_TANK, whole, 7, 0, 4, 0, 0, limits=marker.Limits(1, 4096))
    p.list('still tank, list', STILL_TANK, 2, 0, 0, 78, 2, 0)
    in_both(p.certificate, STILL_TANK, ('still tank', whole, (5, 1, 43, 1, 14), (0, 1, 118, 7, 100)))
    opens, closes = jump(0, [0], 5), jump(0, [1], 10)
    in_both(
        p.run, STILL_TANK,
        ('closed, to 11', run(1, 0, (5,), flow(1, 11)), (0, 1, 24, 1, 100), (13, 1, 15, 0, 0)),
        ('closed, to 4', run(1, 0, (5,), flow(1, 4)), (14, 1, 24, 1, 0), (13, 1, 15, 0, 0)),
        ('closed, staying', run(1, 0, (5,), flow(1, 5)), (14, 1, 24, 1, 0), (14, 1, 24, 1, 0)),
        ('closed, staying for 0', run(1, 0, (5,), flow(0, 5)), (14, 1, 24, 1, 0), (14, 1, 24, 1, 0)),
        ('closed, to 11 in 0', run(1, 0, (5,), flow(0, 11)), (13, 1, 15, 0, 0), (13, 1, 15, 0, 0)),
        ('opened to 6', run(1, 0, (5,), jump(0, [0], 6)), (14, 1, 22, 1, 0), (13, 1, 15, 0, 0)),
        ('opened, to 10', run(1, 0, (5,), opens, flow(3, 10)), (14, 1, 31, 2, 0), (14, 1, 31, 2, 0)),
        ('opened, to 6 in 0', run(1, 0, (5,), opens, flow(0, 6)), (13, 1, 22, 1, 0), (13, 1, 22, 1, 0)),
        ('opened and closed to 11', run(1, 0, (5,), opens, flow(3, 10), jump(0, [1], 11)), (0, 1, 38, 3, 100), (13, 1, 31, 2, 0)),
        ('opened, closed, to 11', run(1, 0, (5,), opens, flow(3, 10), closes, flow(1, 11)), (0, 1, 47, 4, 100), (13, 1, 38, 3, 0)),
        ('opened, closed, staying', run(1, 0, (5,), opens, flow(3, 10), closes, flow(1, 10)), (14, 1, 47, 4, 0), (14, 1, 47, 4, 0)),
    )


def blanks_of_one_mode(papers):
    """A variable that goes from 5 to 6 in 1. A coefficient other than 0 in one of the mode's flow rows mentions it, whatever its bytes are;
    bounds, initial rows and invariants do not."""
    p, zero = papers, (0, 0)
    to_six, staying = run(1, 0, (5,), flow(1, 6)), run(1, 0, (5,), flow(1, 5))
    moved, held = (0, 1, 24, 1, 100), (13, 1, 15, 0, 0)

    def flows(*rows, initial=(), invariant=()):
        return model([0], [component([mode(1, initial, invariant, rows)])], [([0], [])])

    mentioned = [(f'with {number}', flows((number, max(number, 0)))) for number in (1, -1, 255, 256, 65536, 2 ** 24, 2 ** 31 - 1, -2 ** 31)]
    mentioned += [('in the first of eight rows', flows((1, 1), *[zero] * 7)), ('in the last of eight rows', flows(*[zero] * 7, (1, 1)))]
    for label, sheet in mentioned:
        p.run(f'mentioned {label}', sheet.set('version', 2), to_six, *moved)
    for label, sheet in (
            ('no flow rows', flows()), ('eight flow rows of zeros', flows(*[zero] * 8)), ('a flow row with a bound alone', flows((0, 5))),
            ('initial row and invariant alone', flows(initial=[(1, 5)], invariant=[(1, 10)]))):
        in_both(p.run, sheet, (label, to_six, moved, held), (f'{label}, staying', staying, moved, moved))


def blanks_among_variables(papers):
    """Three variables of one component, of which flow and jump mention the middle one; all have coefficients before the jump. Eight
    variables that nothing mentions."""
    p = papers
    sheet = model([0] * 3, [component([mode(1, [], [], [(0, 1, 0, 9)])], [switch(0, 0, 0, [(1, 1, 1, 0, 1, 0, 99)])])], [([0], [])])
    table, held = [], (13, 1, 23, 0, 0)
    for v in range(3):
        values = [1, 2, 3]
        values[v] += 1
        for name, step, moved in (('flow', flow(1, *values), (0, 1, 40, 1, 100)), ('jump', jump(0, [0], *values), (0, 1, 38, 1, 100))):
            table.append((f'{name} that changes variable {v} of 3', run(1, 0, (1, 2, 3), step), moved, moved if v == 1 else held))
    in_both(p.run, sheet, *table)
    table, held = [], (13, 1, 43, 0, 0)
    for v in (0, 7):
        values = [int(v == other) for other in range(8)]
        table.append((f'flow that changes variable {v} of 8', run(1, 0, (0,) * 8, flow(1, *values)), (0, 1, 80, 1, 100), held))
    in_both(p.run, free(8), *table)


def blanks_by_owner(papers):
    """Variable 0 is of component 1, and variable 1 of component 0; each is mentioned by the other component alone. The rows go by variable:
    hypotheses 5 and 6 are of variable 0, 7 and 8 of variable 1."""
    p = papers

    def crossed(start):
        return model([1, 0], [component([mode(start, [], [], [row])]) for row in ((1, 0, 9), (0, 1, 9))], [([ANY, ANY], [])] * start)

    moved, held = (0, 1, 32, 1, 100), (13, 1, 19, 0, 0)
    first, second = run(1, 0, (0, 0), flow(1, 1, 0)), run(1, 0, (0, 0), flow(1, 0, 1))
    in_both(
        p.run, crossed(1),
        ('first variable, mentioned by the other component', first, moved, held),
        ('second variable, mentioned by the other component', second, moved, held),
        ('neither, mentioned by the other component', run(1, 0, (0, 0), flow(1, 0, 0)), moved, moved),
    )
    in_both(
        p.run, crossed(1).set('flow0.0.0.1', 1),
        ('first variable, beside one that its own component mentions', first, moved, held),
        ('second variable, mentioned by both components', second, moved, moved),
    )
    whole = certificate([[(1, 0, 5), (0, 1, 5)]], [(1, [(0, 1), (5, 1)]), (1, [(1, 1), (7, 1)])])
    refused = 5, 1, whole.place('hypothesis0.1'), 0, 0
    in_both(p.certificate, crossed(0), ('proofs of variables that the other mentions', whole, refused, (0, 1, whole.length(), 2, 100)))
    for hypothesis, number, place in ((6, 10, 'k1'), (8, 10, 'k1'), (9, 5, 'hypothesis1.1')):
        changed = whole.set('hypothesis1.1', hypothesis)
        p.certificate(f'second variable by hypothesis {hypothesis}', crossed(0).set('version', 2), changed, number, 1, whole.place(place), 1, 50)


def blanks_by_location(papers):
    """Two modes by three: the first component mentions its variable in mode 1, the second in mode 2, and there they fall. The hypotheses of a
    location: two region rows, the flow rows, the time, two rows of each blank. By which of them each variable's region row is shown:"""
    p, shown_by = papers, ((3, 5), (3, 5), (4, 2), (2, 4), (2, 4), (2, 3))

    def sheet(start):
        first, second = mode(start, [], [], [(1, 0, 0)]), mode(start, [], [], [(0, 1, 0)])
        return model([0, 1], [component([mode(start), first]), component([mode(start), mode(start), second])], [([ANY, ANY], [])] * start)

    table, moved, held = [], (0, 1, 32, 1, 100), (13, 1, 19, 0, 0)
    for location in range(6):
        for name, values, mentioned in (('first', (-1, 0), location in (3, 4, 5)), ('second', (0, -1), location in (2, 5))):
            falls = run(1, location, (0, 0), flow(1, *values))
            table.append((f'{name} variable falls in location {location}', falls, moved, moved if mentioned else held))
    in_both(p.run, sheet(1), *table)
    whole = certificate([[(1, 0, 0), (0, 1, 0)]] * 6, [(1, [(v, 1), (by[v], 1)]) for by in shown_by for v in range(2)])
    refused = 5, 1, whole.place('hypothesis0.1'), 0, 0
    in_both(p.certificate, sheet(0), ('proofs in each of six locations', whole, refused, (0, 1, whole.length(), 12, 100)))


def blanks_after_the_time(papers):
    """One flow row, 0 ≤ −1: no time may pass, and its hypothesis is d ≤ 0. With −d ≤ 0, as many times, it leaves nothing at d, where the
    blank's rows have nothing either."""
    p = papers
    sheet = model([0], [component([mode(0, [], [], [(0, -1)])])])
    whole = certificate([[(1, 5)]], [(1, [(0, 1), (1, 7), (2, 7), (3, 1)])])
    in_both(p.certificate, sheet, ('blank after the time', whole, (5, 1, whole.place('hypothesis0.3'), 0, 0), (0, 1, 39, 1, 100)))
    for name, value in (('hypothesis0.3', 4), ('multiplier0.2', 6), ('multiplier0.2', 8), ('multiplier0.3', 2)):
        p.certificate(f'blank after the time, {name} as {value}', sheet.set('version', 2), whole.set(name, value), 10, 1, 14, 0, 0)


def blanks_in_a_jump(papers):
    """A variable that goes from 5 to 6, by each switch of one component. A coefficient after the jump mentions it, in a row of the switch that
    is taken; coefficients before, bounds and rows of other switches do not."""
    p, moved, held = papers, (0, 1, 22, 1, 100), (13, 1, 15, 0, 0)
    earlier = (1, 0, 7)
    blank = [('no rows', []), ('a row before', [earlier]), ('eight rows before', [earlier] * 8), ('a bound alone', [(0, 0, 5)])]
    mentioned = [(f'{number} after', [(0, number, max(7 * number, 0))]) for number in (1, -1, 255, 256, 65536, 2 ** 24, -2 ** 31)]
    mentioned += [('the first of eight rows', [(1, 1, 14)] + [earlier] * 7), ('the last of eight rows', [earlier] * 7 + [(0, 1, 7)])]
    sheet = free(switches=[switch(0, 0, 0, rows) for _, rows in blank + mentioned])
    table = []
    for i, (label, _) in enumerate(blank):
        table.append((f'jump with {label}', run(1, 0, (5,), jump(0, [i], 6)), moved, held))
        table.append((f'jump with {label}, staying', run(1, 0, (5,), jump(0, [i], 5)), moved, moved))
    in_both(p.run, sheet, *table)
    for i, (label, _) in enumerate(mentioned, len(blank)):
        p.run(f'jump with {label}', sheet.set('version', 2), run(1, 0, (5,), jump(0, [i], 6)), *moved)
    p.run('jump beyond a row after', sheet.set('version', 2), run(1, 0, (5,), jump(0, [len(blank)], 8)), *held)


def blanks_of_two_movers(papers):
    """An event moves the first two of three components, with a variable each. The first's switch mentions the second's variable after; of
    the second's switches one has no row, and one mentions its own variable."""
    p = papers
    other, own = [(0, 0, 0, 0, 1, 0, 9)], [(0, 0, 0, 0, 1, 0, 8)]
    first = component([mode()], [switch(0, 0, 1, other)], alphabet(1))
    second = component([mode()], [switch(0, 0, 1), switch(0, 0, 1, own)], alphabet(1))
    sheet = model([0, 1, 2], [first, second, component([mode()])], [([ANY] * 3, [])])
    moved, held = (0, 1, 40, 1, 100), (13, 1, 23, 0, 0)
    table = []
    for taken, v, *given in (
            (0, 0, moved, held), (0, 1, moved, held), (0, 2, held, held), (1, 0, moved, held), (1, 1, moved, moved), (1, 2, held, held)):
        values = [int(v == variable) for variable in range(3)]
        table.append((f'two move, by switch {taken}, variable {v} changed', run(1, 0, (0, 0, 0), jump(1, [0, taken, STAYS], *values)), *given))
    table.append(('two move, all kept', run(1, 0, (0, 0, 0), jump(1, [0, 0, STAYS], 0, 0, 0)), moved, moved))
    in_both(p.run, sheet, *table)


def proofs_of_two_movers(papers):
    """Both variables fall in a flow. In the jump the first's switch mentions the second's variable after, as in hypothesis 2; both are blank,
    with hypotheses 3 and 4, and 5 and 6."""
    p = papers
    first = component([mode(0, [], [], [(1, 0, 0)])], [switch(0, 0, 1, [(0, 0, 0, 1, 9)])], alphabet(1))
    second = component([mode(0, [], [], [(0, 1, 0)])], [switch(0, 0, 1)], alphabet(1))
    flows = [(1, [(0, 1), (2, 1)]), (1, [(1, 1), (3, 1)])]
    whole = certificate([[(1, 0, 5), (0, 1, 5)]], flows + [(1, [(0, 1), (3, 1)]), (1, [(1, 1), (5, 1)])])
    refused = 5, 1, whole.place('hypothesis2.1'), 2, 50
    sheet = model([0, 1], [first, second])
    in_both(p.certificate, sheet, ('proofs of two movers', whole, refused, (0, 1, whole.length(), 4, 100)))
    for hypothesis, number, place in ((2, 10, 'k3'), (4, 10, 'k3'), (6, 10, 'k3'), (7, 5, 'hypothesis3.1')):
        changed = whole.set('hypothesis3.1', hypothesis)
        p.certificate(f'second mover by hypothesis {hypothesis}', sheet.set('version', 2), changed, number, 1, whole.place(place), 3, 75)


def blanks_among_staying_variables(papers):
    """Variables 0 and 2 stay while the owner of 1 jumps without rows: in version 2 they are one list, where 1 has hypotheses between theirs.
    In a flow every variable is mentioned, and falls."""
    p = papers
    moving = component([mode(0, [], [], [(0, 1, 0, 0)])], [switch(0, 0)])
    sheet = model([1, 0, 1], [moving, component([mode(0, [], [], [(1, 0, 0, 0), (0, 0, 1, 0)])])])
    zero, one, two = (1, 0, 0, 0), (0, 1, 0, 0), (0, 0, 1, 0)
    flows = [(1, [(0, 1), (4, 1)]), (1, [(1, 1), (3, 1)]), (1, [(2, 1), (5, 1)])]
    three = certificate([[zero, one, two]], flows + [(1, [(0, 1), (3, 1)]), (1, [(1, 1), (5, 1)]), (1, [(2, 1), (7, 1)])])
    without = certificate([[zero, two]], [(1, [(0, 1), (3, 1)]), (1, [(1, 1), (4, 1)]), (1, [(0, 1), (2, 1)]), (1, [(1, 1), (4, 1)])])
    counted = without.set('hypothesis3.1', 6)
    end = without.length()
    in_both(
        p.certificate, sheet,
        ('a blank between staying variables', three, (10, 1, three.place('k4'), 4, 67), (0, 1, three.length(), 6, 100)),
        ('staying variables, a blank left out', without, (0, 1, end, 4, 100), (10, 1, without.place('k3'), 3, 75)),
        ('staying variables, a blank counted', counted, (5, 1, without.place('hypothesis3.1'), 3, 75), (0, 1, end, 4, 100)),
    )


def most_hypotheses(papers):
    """Four components with eight rows in each condition, eight variables, sixteen region rows. Flow rows, and jump rows on the values after,
    mention the variables of other components alone, so that all are blank: a flow has 129 hypotheses, a jump of all components 128. The
    last sixteen are the blanks'. Region row v is x_v ≤ 0, and 8+v is −x_v ≤ 0."""
    p, owners = papers, [3, 1, 0, 2, 2, 0, 1, 3]

    def opposite(*coefs):
        return [(*coefs, 0), (*[-a for a in coefs], 0)] * 4

    def part(k):
        others = [int(owner != k) for owner in owners]
        full = mode(0, [], opposite(*[1] * 8), opposite(*others))
        return component([full], [switch(0, 0, 1, opposite(*[1] * 8, *others))], alphabet(1))

    def kept(first):
        """Each region row by itself and a row of its variable, x'−x ≤ 0 or x−x' ≤ 0."""
        return [(1, [(i, 1), (first + 2 * (i % 8) + i // 8, 1)]) for i in range(16)]

    sheet = model(owners, [part(k) for k in range(4)]).set('version', 2)
    region = [tuple(sign * int(v == other) for other in range(8)) + (0,) for sign in (1, -1) for v in range(8)]
    whole = certificate([region], kept(113) + kept(112))
    in_both(p.certificate, sheet, ('129 and 128 hypotheses', whole, (5, 1, whole.place('hypothesis0.1'), 0, 0), (0, 1, whole.length(), 32, 100)))
    p.certificate('hypothesis 129 of 129', sheet, whole.set('hypothesis15.1', 129), 5, 1, whole.place('hypothesis15.1'), 15, 47)
    p.certificate('hypothesis 128 of 128', sheet, whole.set('hypothesis31.1', 128), 5, 1, whole.place('hypothesis31.1'), 31, 97)
    # −d ≤ 0 is left out; of the others all cancel but region row 15 and hypothesis 128, which count twice
    every = [(h, 2 if h in (15, 128) else 1) for h in range(129) if h != 112]
    many = certificate([region], kept(113)[:15] + [(1, every)] + kept(112))
    count = many.place('entries15')
    p.certificate('128 entries of 129', sheet, many, 0, 1, many.length(), 32, 100)
    p.certificate('129 entries of 129', sheet, fixed(many.set('entries15', 129).bytes()[:count + 1]), 5, 1, count, 15, 47)
    unproved = certificate([region], [])
    p.part('shown: last flow row of 129 hypotheses', sheet, unproved, 0, 111, 0, -1, -1, -1, -1, -1, -1, 0, 0)
    p.part('shown: last of 129 hypotheses', sheet, unproved, 0, 128)
    p.part('shown: past the last of 129 hypotheses', sheet, unproved, 0, 129)


def large_numbers_with_blanks(papers):
    """128 hypotheses of a jump with numbers as large as they may be: all four components move. The last owns all variables and has no
    coefficient after the jump."""
    p = papers
    least, most, multiplier = -2 ** 31, 2 ** 31 - 1, 2 ** 24 - 1
    full = mode(0, [], opposite_rows(8, 8, most, least))
    rows = opposite_rows(8, 16, most, least)
    moving = [component([full], [switch(0, 0, 1, jumps)], alphabet(1)) for jumps in [rows] * 3 + [[row[:8] + (0,) * 8 + row[16:] for row in rows]]]
    two = (0, [(0, 1), (1, 1)])
    whole = certificate([opposite_rows(16, 8, most, least)], [two] * 16 + [(0, [(h, multiplier) for h in range(128)])] + [two] * 15)
    p.certificate('128 entries, bound as low as may be', model([3] * 8, moving).set('version', 2), whole, 0, 1, whole.length(), 32, 100)


def blanks_of_the_plant(papers):
    """No row mentions the valve but those of the mixer's jumps, of which one does after. Of 115 proofs some use staying rows of the clock,
    which the valve's rows come before in a jump of the mixer alone."""
    p, sheet = papers, SAFE_PLANT.set('version', 2)
    whole = proved(sheet, PLANT_REGIONS)
    p.certificate('plant of version 2', sheet, whole, 0, 1, whole.length(), 115, 100)
    p.certificate('plant of version 2 with the proofs of version 1', sheet, PLANT_CERTIFICATE, 10, 1, PLANT_CERTIFICATE.place('k87'), 87, 76)
    kept = PLANT_RUN
    for name in ['p2'] + [f'p2.{i}' for i in range(7)]:
        kept = kept.set(name, 6)
    in_both(
        p.run, UNSAFE_PLANT,
        ('plant run', PLANT_RUN, (0, 1, 178, 7, 100), (13, 1, PLANT_RUN.place('step0'), 0, 0)),
        ('plant run, valve kept', kept, (0, 1, 178, 7, 100), (0, 1, 178, 7, 100)),
        ('plant run, valve moved by the mixer alone', kept.set('p2.3', 7), (13, 1, kept.place('step4'), 4, 0), (13, 1, kept.place('step3'), 3, 0)),
        ('plant run, valve lowered by the last jump', kept.set('p2.6', 5), (14, 1, 178, 7, 0), (14, 1, 178, 7, 0)),
    )


def shown_blanks(papers):
    """The rows of a blank stand in no sheet. The still tank's closed flow has its row of the region, the time and two rows; the jump that
    opens it the region's, the invariant's and two."""
    p = papers
    unproved = fixed(STILL_CERTIFICATE.bytes()[:STILL_CERTIFICATE.place('k0')])
    # a part is empty past the last hypothesis too, so the second marker's own count is stated
    m = marker.read_model(STILL_TANK.bytes())
    regions = marker.read_regions(marker.Reader(unproved, marker.CERTIFICATE), m)
    assert [len(marker.parts(m, regions, o)) for o in marker.obligations(m, regions)] == [2, 4, 2, 6, 3, 4, 4]
    for label, obligation, hypothesis, row in (
            ('region row of a flow with a blank', 1, 0, (1, 10)), ('time of a flow with a blank', 1, 1, ()),
            ('first row of a blank in a flow', 1, 2, ()), ('second row of a blank in a flow', 1, 3, ()), ('past a blank in a flow', 1, 4, ()),
            ('last flow row where nothing is blank', 3, 4, (-1, 0)), ('past the time where nothing is blank', 3, 6, ()),
            ('invariant of the target of a jump with a blank', 5, 1, (1, 10)), ('first row of a blank in a jump', 5, 2, ()),
            ('second row of a blank in a jump', 5, 3, ()), ('past a blank in a jump', 5, 4, ())):
        p.part(f'shown: {label}', STILL_TANK, unproved, obligation, hypothesis, *row)


# Sheets that belong together (document 02, order 7). A sheet of version 3 is one of an earlier version with a paper number behind its header, so
# that each later place is four more. Second sheets beside the numbered tank follow each other, as its model is then taken once.

NUMBERED_RUN = AT_FIVE.versioned(3, NUMBER)


def beside(version, second, *accepted):
    """What the order says of a model and a second sheet of these versions where all else is good."""
    if version not in (1, 2, 3):
        return 2, 0, 2, 0, 0
    if second not in (1, 3):
        return 2, 1, 2, 0, 0
    return accepted if (version, second) in ((1, 1), (2, 1), (3, 3)) else (18, 1, 2, 0, 0)


def pairs_of_versions(papers):
    """Every version from 0 to 5 beside every other, with a paper number from 3 on; of two second sheets, the certificate and the run."""
    p = papers
    for version in range(6):
        for kind, call, sheet, given, done in (('certificate', p.certificate, T, C, 3), ('run', p.run, UNSAFE_AT_FIVE, AT_FIVE, 0)):
            for second in range(6):
                other = given.versioned(second, NUMBER)
                expected = beside(version, second, 0, 1, other.length(), done, 100)
                call(f'model version {version}, {kind} version {second}', sheet.versioned(version, NUMBER), other, *expected)


def paper_numbers(papers):
    """Numbers that differ in one byte, in one bit of it; then some beside themselves and beside the next one."""
    p, number = papers, 0x5a00ff3c
    for byte, other in enumerate((0x5b00ff3c, 0x5a80ff3c, 0x5a00fe3c, 0x5a00ff3e)):
        p.certificate(f'certificate, byte {byte} of the paper number differs', T.versioned(3, number), C.versioned(3, other), 18, 1, 4, 0, 0)
        p.run(f'run, byte {byte} of the paper number differs', T.versioned(3, number), AT_FIVE.versioned(3, other), 18, 1, 4, 0, 0)
    numbers = [0, 65536, 65535, 2 ** 32 - 1, 2 ** 31]
    for number, other in zip(numbers, numbers[1:] + numbers[:1]):
        p.certificate(f'certificate and paper number {number}', T.versioned(3, number), C.versioned(3, number), 0, 1, 53, 3, 100)
        p.certificate(f'certificate and paper numbers {number} {other}', T.versioned(3, number), C.versioned(3, other), 18, 1, 4, 0, 0)
        p.run(f'run and paper numbers {number} {other}', T.versioned(3, number), AT_FIVE.versioned(3, other), 18, 1, 4, 0, 0)
        p.run(f'run and paper number {number}', UNSAFE_AT_FIVE.versioned(3, number), AT_FIVE.versioned(3, number), 0, 1, 19, 0, 100)


def models_with_a_paper_number(papers):
    """A model cut in its paper number or just behind it; and its first fields, whose places are 8, 9 and 10: that of 7 and 8 is n's."""
    p, t = papers, NUMBERED_TANK
    for size in range(4):
        p.certificate(f'model with its paper number cut to {size}', fixed(t.bytes()[:4 + size]), NUMBERED_CERTIFICATE, 4, 0, 4, 0, 0)
    p.run('run beside a model with its paper number cut to 3', fixed(t.bytes()[:7]), NUMBERED_RUN, 4, 0, 4, 0, 0)
    p.list('list of a model with its paper number cut to 3', fixed(t.bytes()[:7]), 9, 4, 0, 4, 0, 0)
    p.certificate('model with its paper number alone', fixed(t.bytes()[:8]), NUMBERED_CERTIFICATE, 4, 0, 8, 0, 0)
    for name, value, place in (('n', 0, 8), ('c', 5, 9), ('unsafe', 17, 10)):
        p.certificate(f'paper number, then {name} {value}', t.set(name, value), NUMBERED_CERTIFICATE, 5, 0, place, 0, 0)
    over = plain(modes=(8, 8, 2))[0].versioned(3, NUMBER)
    p.certificate('128 locations and a paper number', over, NUMBERED_CERTIFICATE, 7, 0, 8, 0, 0)
    many = plain(modes=(1,) * 3, switches=[17, 16, 16], alphabets=[2] * 3, label=1)[0].versioned(3, NUMBER)
    p.certificate('4352 joint switches and a paper number', many, NUMBERED_CERTIFICATE, 8, 0, 8, 0, 0)


def second_sheets_with_a_paper_number(papers):
    """Second sheets cut in their paper number or just behind it, and their fields behind it: the count of regions has place 8, the location of a
    run, which is 12's place, 14."""
    p, t, c, r = papers, NUMBERED_TANK, NUMBERED_CERTIFICATE, NUMBERED_RUN
    for size in range(4):
        p.certificate(f'certificate with its paper number cut to {size}', t, fixed(c.bytes()[:4 + size]), 4, 1, 4, 0, 0)
        p.run(f'run with its paper number cut to {size}', t, fixed(r.bytes()[:4 + size]), 4, 1, 4, 0, 0)
    p.certificate('certificate with its paper number alone', t, fixed(c.bytes()[:8]), 4, 1, 8, 0, 0)
    p.run('run with its paper number alone', t, fixed(r.bytes()[:8]), 4, 1, 8, 0, 0)
    p.certificate('certificate and a byte, with a paper number', t, fixed(c.bytes() + b'\0'), 4, 1, 53, 3, 99)
    for name, value, place in (('locations', 0, 8), ('locations', 2, 8), ('region0', 17, 9), ('k0', 2 ** 24, 18)):
        p.certificate(f'paper number, then {name} {value}', t, c.set(name, value), 5, 1, place, 0, 0)
    p.certificate('paper number, then a multiplier of 2', t, c.set('multiplier1.0', 2), 10, 1, 28, 1, 33)
    for name, value, place in (('q', 0, 8), ('steps', 4096, 12), ('location', 1, 14), ('p0', 2 ** 27 + 1, 15)):
        p.run(f'paper number, then {name} {value}', t, r.set(name, value), 5, 1, place, 0, 0)
    p.run('paper number, then a start at 6', t, r.set('p0', 6), 12, 1, 14, 0, 0)
    p.run('paper number, then no steps', t, r, 14, 1, 19, 0, 0)
    p.run('paper number, then 5 to 8 in 1', t, run(1, 0, (5,), flow(1, 8)).versioned(3, NUMBER), 13, 1, 19, 0, 0)


def shown_with_a_paper_number(papers):
    """A row of the model and one of the certificate, from sheets that belong together; and no part of those that do not."""
    p, t, unproved = papers, NUMBERED_TANK, fixed(NUMBERED_CERTIFICATE.bytes()[:18])
    p.part('shown: initial row behind a paper number', t, unproved, 0, 1, -1, -5)
    p.part('shown: region row behind a paper number', t, unproved, 1, 0, 1, 10)
    p.part('shown: region row behind another paper number', t, fixed(OTHER_CERTIFICATE.bytes()[:18]), 1, 0)
    p.part('shown: initial row beside another paper number', t, fixed(OTHER_CERTIFICATE.bytes()[:18]), 0, 1)
    p.part('shown: region row of a certificate that does not pair', t, fixed(C.bytes()[:14]), 1, 0)


def order_of_eighteen(papers):
    """1, 2, 3, then 18 for the versions, 4 in the paper number, 18 for the paper numbers, and then what follows."""
    p, t = papers, NUMBERED_TANK
    for label, call, good, wrong in (('certificate', p.certificate, C, AT_FIVE), ('run', p.run, AT_FIVE, C)):
        other = good.versioned(3, OTHER_NUMBER)
        call(f'{label}: L before versions that do not pair', t, good.set('L', good.length() - 1), 1, 1, 0, 0, 0)
        call(f'{label}: version before kind and paper number', t, wrong.versioned(4, OTHER_NUMBER), 2, 1, 2, 0, 0)
        call(f'{label}: kind before versions that do not pair', t, wrong, 3, 1, 3, 0, 0)
        call(f'{label}: kind before paper numbers that differ', t, wrong.versioned(3, OTHER_NUMBER), 3, 1, 3, 0, 0)
        call(f'{label}: versions that do not pair before a cut body', t, fixed(good.bytes()[:4]), 18, 1, 2, 0, 0)
        call(f'{label}: cut paper number before one that differs', t, fixed(other.bytes()[:7]), 4, 1, 4, 0, 0)
        call(f'{label}: paper numbers that differ before a cut body', t, fixed(other.bytes()[:8]), 18, 1, 4, 0, 0)
    p.certificate('paper numbers that differ before the count of regions', t, OTHER_CERTIFICATE.set('locations', 0), 18, 1, 4, 0, 0)
    p.run('paper numbers that differ before q', t, AT_FIVE.versioned(3, OTHER_NUMBER).set('q', 0), 18, 1, 4, 0, 0)
    p.certificate('version 1: kind before versions that do not pair', T, NUMBERED_RUN, 3, 1, 3, 0, 0)
    p.run('version 1: run kind before versions that do not pair', T, NUMBERED_CERTIFICATE, 3, 1, 3, 0, 0)
    p.certificate('version 1: versions that do not pair before a cut paper number', T, fixed(NUMBERED_CERTIFICATE.bytes()[:6]), 18, 1, 2, 0, 0)
    p.run('version 1: versions that do not pair before a cut body', T, fixed(NUMBERED_RUN.bytes()[:4]), 18, 1, 2, 0, 0)


def blanks_with_a_paper_number(papers):
    """"Version 3 keeps version 2's blanks": the plant has the proofs of version 2, and the still tank the answers that it has in version 2
    beside second sheets of version 1, each place four more."""
    p, sheet, whole = papers, STILL_TANK.versioned(3, NUMBER), STILL_CERTIFICATE
    plant = proved(SAFE_PLANT.set('version', 2), PLANT_REGIONS).versioned(3, NUMBER)
    p.certificate('plant with a paper number', SAFE_PLANT.versioned(3, NUMBER), plant, 0, 1, plant.length(), 115, 100)
    opens, closes = jump(0, [0], 5), jump(0, [1], 10)
    certificates = [
        ('still tank', whole, 0, 118),
        ('still tank, hypothesis1.1 as 3', whole.set('hypothesis1.1', 3), 10, whole.place('k1')),
        ('still tank, hypothesis1.1 as 4', whole.set('hypothesis1.1', 4), 5, whole.place('hypothesis1.1')),
        ('still tank, hypothesis6.1 as 4', whole.set('hypothesis6.1', 4), 5, whole.place('hypothesis6.1')),
    ]
    runs = [
        ('closed, to 11', run(1, 0, (5,), flow(1, 11)), 13, 15),
        ('closed, staying', run(1, 0, (5,), flow(1, 5)), 14, 24),
        ('opened to 6', run(1, 0, (5,), jump(0, [0], 6)), 13, 15),
        ('opened and closed to 11', run(1, 0, (5,), opens, flow(3, 10), jump(0, [1], 11)), 13, 31),
        ('opened, closed, staying', run(1, 0, (5,), opens, flow(3, 10), closes, flow(1, 10)), 14, 47),
    ]
    for call, marks, seconds in ((p.certificate, marker.mark_certificate, certificates), (p.run, marker.mark_run, runs)):
        for label, second, *told in seconds:
            number, where, place, done, score = marks(STILL_TANK.bytes(), second.bytes())
            assert [number, place] == told, label
            call(f'version 3: {label}', sheet, second.versioned(3, NUMBER), number, where, place + 4, done, score)
    p.list('still tank with a paper number, list', sheet, 2, 0, 0, 82, 2, 0)
    p.list('still tank with a paper number, one record short', sheet, 1, 15, 2, 2, 0, 0)
    for stated, number in (((1, 4096), 7), ((64, 1), 8)):
        limits = marker.Limits(*stated)
        p.certificate(f'{named(limits)}: still tank with a paper number', sheet, whole.versioned(3, NUMBER), number, 0, 8, 0, 0, limits=limits)


# The limits that a caller states (document 02, order 2)

STATED = (0, 1, 16, 17, 64, 65, 256, 257, 4096, 4097, 2 ** 32 - 1)
EACH_STATED = [marker.Limits(n, EXAM.joints) for n in STATED] + [marker.Limits(EXAM.locations, n) for n in STATED if n != EXAM.joints]


def under(limits, locations, joints, *answer):
    """What the order says of a good model with so many locations and joint switches; within the limits it has this answer."""
    if not 1 <= limits[0] <= 64 or not 1 <= limits[1] <= 4096:
        return 5, 2, 0, 0, 0
    if locations > limits[0]:
        return 7, 0, 4, 0, 0
    if joints > limits[1]:
        return 8, 0, 4, 0, 0
    return answer


def named(limits):
    return f'limits {limits[0]} {limits[1]}'


def located(*modes):
    """A model in which every state is unsafe, with so many modes in its components."""
    return model([0], [component([mode()] * count) for count in modes], [([ANY] * len(modes), [])])


def joined(together, alone=0):
    """Four components of one mode, each with so many switches that move together, and some that move alone."""
    counts = [together] * 3 + [together + alone]
    sheet, proofs, _ = plain(modes=(1,) * 4, switches=counts, alphabets=[2] * 4, label=1)
    for i in range(together, together + alone):
        sheet = sheet.set(f'label3.{i}', 0)
    return sheet, proofs


def limits_of_the_tank(papers):
    """One location and no joint switch, in each call."""
    p = papers
    for limits in EACH_STATED:
        p.certificate(f'{named(limits)}: T with C', T, C, *under(limits, 1, 0, 0, 1, 49, 3, 100), limits=limits)
        p.list(f'{named(limits)}: list of T', T, 0, *under(limits, 1, 0, 0, 0, 66, 0, 0), limits=limits)
        row = () if under(limits, 1, 0) else (1, 10)
        p.part(f'{named(limits)}: row of T', T, fixed(C.bytes()[:14]), 1, 0, *row, limits=limits)
    for limits in EACH_STATED:
        p.run(f'{named(limits)}: run to 9', UNSAFE_AT_NINE, TO_NINE, *under(limits, 1, 0, 0, 1, 24, 1, 100), limits=limits)


def limits_on_locations(papers):
    """1, 16, 18, 64 and 72 locations; no model has 17 or 65. The run begins in the last."""
    p = papers
    for modes in ((1,), (4, 4), (6, 3), (4, 4, 4), (8, 3, 3)):
        sheet, count = located(*modes), prod(modes)
        at_last = run(1, count - 1, (0,))
        for most in (0, 1, 15, 16, 17, 18, 63, 64, 65, 256, 2 ** 32 - 1):
            limits = marker.Limits(most, 1)
            p.run(f'{count} locations, {named(limits)}', sheet, at_last, *under(limits, count, 0, 0, 1, 15, 0, 100), limits=limits)
    for modes in ((4, 4), (6, 3)):
        sheet, proofs, done = plain(modes=modes)
        for most in (done - 1, done, done + 1):
            limits = marker.Limits(most, EXAM.joints)
            answer = under(limits, done, 0, 0, 1, proofs.length(), done, 100)
            p.certificate(f'{done} locations with proofs, {named(limits)}', sheet, proofs if answer[0] == 0 else C, *answer, limits=limits)
            # each location has an unsafe condition; the last has a region row too, from the start and after a flow
            last = certificate([[]] * (done - 1) + [[(1, 7)]], [])
            p.part(f'{done} locations, {named(limits)}: region row of the last', sheet, last, done, 0, *(() if answer[0] else (1, 7)), limits=limits)


def limits_on_joints(papers):
    """1, 256, 257, 4,096 and 4,097 joint switches, each of which is also a limit that is stated. The table has just as many records."""
    p = papers
    for together, alone in ((1, 0), (4, 0), (4, 1), (8, 0), (8, 1)):
        (sheet, proofs), count = joined(together, alone), together ** 4 + alone
        for most in STATED:
            limits = marker.Limits(1, most)
            p.list(f'{count} joint switches, {named(limits)}', sheet, count, *under(limits, 1, count, 0, 0, sheet.length(), count, 0), limits=limits)
            if most == count:
                short = under(limits, 1, count, 15, 2, count, 0, 0)
                p.list(f'{count} joint switches, {named(limits)}, one record short', sheet, count - 1, *short, limits=limits)
        for most in (count - 1, count, count + 1):
            limits = marker.Limits(EXAM.locations, most)
            answer = under(limits, 1, count, 0, 1, proofs.length(), 1, 100)
            p.certificate(f'{count} joint switches with a proof, {named(limits)}', sheet, proofs, *answer, limits=limits)
            p.part(f'{count} joint switches, {named(limits)}: region row', sheet, certificate([[(1, 7)]], []), 1, 0, *(() if answer[0] else (1, 7)), limits=limits)


def limits_of_the_plant(papers):
    """8 locations and 22 joint switches: just as many, one less of each and of both, and the two the other way round. Where the model is
    refused, a short second sheet does."""
    p = papers
    for stated in ((8, 22), (9, 23), (7, 22), (8, 21), (7, 21), (7, 4096), (64, 21), (22, 8), (1, 1), (0, 21), (7, 0), (65, 21), (7, 4097)):
        limits = marker.Limits(*stated)
        p.list(f'{named(limits)}: list of the plant', SAFE_PLANT, 22, *under(limits, 8, 22, 0, 0, 1322, 22, 0), limits=limits)
    p.part('limits 8 22: row of the plant', SAFE_PLANT, UNPROVED_PLANT, 46, 12, -1, 0, 0, 0, 1, 0, 0, 0, 0, limits=marker.Limits(8, 22))
    p.certificate('limits 8 22: plant', SAFE_PLANT, PLANT_CERTIFICATE, 0, 1, 2108, 115, 100, limits=marker.Limits(8, 22))
    for limits in (marker.Limits(7, 22), marker.Limits(8, 21)):
        p.certificate(f'{named(limits)}: plant', SAFE_PLANT, C, *under(limits, 8, 22), limits=limits)
    p.list('practice desk: plant list, one short', SAFE_PLANT, 21, 15, 2, 22, 0, 0, limits=PRACTICE)
    p.run('practice desk: plant run', UNSAFE_PLANT, PLANT_RUN, 0, 1, 178, 7, 100, limits=PRACTICE)
    p.run('limits 8 22: plant run', UNSAFE_PLANT, PLANT_RUN, 0, 1, 178, 7, 100, limits=marker.Limits(8, 22))
    for stated in ((7, 22), (8, 21), (7, 21)):
        limits = marker.Limits(*stated)
        p.run(f'{named(limits)}: plant run', UNSAFE_PLANT, AT_FIVE, *under(limits, 8, 22), limits=limits)


def limits_before_the_sheets(papers):
    """5 for a limit comes before 1 of an empty model; limits in range leave a broken model its own refusal, which comes before 7 and 8."""
    p, over = papers, plain(modes=(8, 8, 2))[0]
    unfit = [marker.Limits(*stated) for stated in ((0, 1), (1, 0), (65, 4096), (64, 4097), (0, 0), (2 ** 32 - 1, 2 ** 32 - 1))]
    for limits in unfit:
        p.certificate(f'{named(limits)}: nothing', b'', b'', 5, 2, 0, 0, 0, limits=limits)
        p.run(f'{named(limits)}: no run', b'', b'', 5, 2, 0, 0, 0, limits=limits)
        p.list(f'{named(limits)}: no list', b'', 0, 5, 2, 0, 0, 0, limits=limits)
    for limits in unfit:
        p.certificate(f'{named(limits)}: 128 locations', over, b'', 5, 2, 0, 0, 0, limits=limits)
        p.run(f'{named(limits)}: 128 locations, no run', over, b'', 5, 2, 0, 0, 0, limits=limits)
        p.list(f'{named(limits)}: 128 locations, no list', over, 0, 5, 2, 0, 0, 0, limits=limits)
    least = marker.Limits(1, 1)
    broken = [
        (b'', 1, 0), (T.set('version', 4), 2, 2), (C, 3, 3), (fixed(T.bytes()[:-1]), 4, 62), (T.set('n', 0), 5, 4),
        (tank(switches=[switch(0, 0, 1)]), 6, 58), (fixed(over.bytes() + b'\0'), 4, over.length()),
        (fixed(joined(4)[0].bytes() + b'\0'), 4, joined(4)[0].length()),
    ]
    for sheet, number, place in broken:
        p.certificate(f'{named(least)}: model refused as {number} at {place}', sheet, C, number, 0, place, 0, 0, limits=least)
    p.certificate('limits 1 1: no certificate', T, b'', 1, 1, 0, 0, 0, limits=least)


def limits_of_two_desks(papers):
    """A paper within both desks' limits gets the same answer at both: here what the papers above have at the exam desk. The program states the
    exam's."""
    p = papers
    p.certificate('practice desk: T with C', T, C, 0, 1, 49, 3, 100, limits=PRACTICE)
    p.certificate('practice desk: first multiplier 2', T, C.set('multiplier0.0', 2), 10, 1, 14, 0, 0, limits=PRACTICE)
    p.certificate('practice desk: region bound 9', T, C.set('region0.0.1', 9), 11, 1, 14, 0, 0, limits=PRACTICE)
    p.run('practice desk: T from 6', T, run(1, 0, (6,)), 12, 1, 10, 0, 0, limits=PRACTICE)
    p.run('practice desk: T at 5', T, AT_FIVE, 14, 1, 15, 0, 0, limits=PRACTICE)
    p.run('practice desk: 5 to 8 in 1', T, run(1, 0, (5,), flow(1, 8)), 13, 1, 15, 0, 0, limits=PRACTICE)
    p.certificate('practice desk: last proof as 2, 0', T, C.set('hypothesis2.0', 2).set('hypothesis2.1', 0), 9, 1, 44, 2, 67, limits=PRACTICE)
    p.certificate('practice desk: 64 locations', located(8, 8), C, 7, 0, 4, 0, 0, limits=PRACTICE)
    p.certificate('practice desk: 4096 joint switches', joined(8)[0], C, 8, 0, 4, 0, 0, limits=PRACTICE)
    p.state(marker.Limits(1, 1))
    p.input('limits 1 1: input of 64 locations', located(8, 8).bytes() + run(1, 63, (0,)).bytes(), 'UNSAFE 0')
    p.state(marker.Limits(0, 0))
    p.input('limits 0 0: input of T and C', T.bytes() + C.bytes(), 'SAFE 3')
    p.input('limits 0 0: input of 128 locations', plain(modes=(8, 8, 2))[0].bytes() + C.bytes(), 'REFUSED 7 0 4 0 0')


SECTIONS = [
    the_table, rejected_readings, standing_still, shown_rows, headers, cuts, counts_of_a_model, conditions_of_a_model, switches_of_a_model, refused_models_in_each_call,
    fields_of_a_certificate, fields_of_a_run, fields_of_a_jump, joint_steps, starts, conditions, large_numbers,
    order_of_joint_switches, order_of_hypotheses, order_of_locations, order_of_staying_variables, contradictions, scores,
    plant_certificate, plant_run, joint_list, inputs, sizes,
    versions, still_tank, blanks_of_one_mode, blanks_among_variables, blanks_by_owner, blanks_by_location, blanks_after_the_time,
    blanks_in_a_jump, blanks_of_two_movers, proofs_of_two_movers, blanks_among_staying_variables, most_hypotheses, large_numbers_with_blanks,
    blanks_of_the_plant, shown_blanks,
    pairs_of_versions, paper_numbers, models_with_a_paper_number, second_sheets_with_a_paper_number, shown_with_a_paper_number,
    order_of_eighteen, blanks_with_a_paper_number,
    limits_of_the_tank, limits_on_locations, limits_on_joints, limits_of_the_plant, limits_before_the_sheets, limits_of_two_desks,
]

EXAMPLES = {
    'tank.model': T, 'tank.certificate': C, 'tank.run': AT_FIVE,
    'unsafe-tank.model': UNSAFE_AT_NINE, 'unsafe-tank.run': TO_NINE,
    'numbered-tank.model': NUMBERED_TANK, 'numbered-tank.certificate': NUMBERED_CERTIFICATE, 'other-number.certificate': OTHER_CERTIFICATE,
    'still.model': STILL_TANK, 'still.certificate': STILL_CERTIFICATE,
    'plant.model': SAFE_PLANT, 'plant.certificate': PLANT_CERTIFICATE,
    'unsafe-plant.model': UNSAFE_PLANT, 'unsafe-plant.run': PLANT_RUN,
}


def write_papers(folder):
    papers = Papers()
    for section in SECTIONS:
        section(papers)
    data = b''.join(papers.records)
    assert len(data) < 500_000 and len(papers.records) < 2_000
    (folder / 'stdin').write_bytes(data)
    (folder / 'stdout').write_text('\n'.join(papers.lines) + '\n')
    print(len(papers.lines), 'papers,', len(papers.records), 'records,', len(data), 'bytes')


def write_examples(folder):
    for name, sheet in EXAMPLES.items():
        (folder / name).write_bytes(sheet.bytes())
    print(len(EXAMPLES), 'sheets')


if __name__ == '__main__':
    if len(sys.argv) == 3 and sys.argv[1] == '--examples':
        write_examples(Path(sys.argv[2]))
    elif len(sys.argv) == 2:
        write_papers(Path(sys.argv[1]))
    else:
        sys.exit(__doc__)
