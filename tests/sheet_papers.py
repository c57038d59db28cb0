#!/usr/bin/env python3
"""Writes the papers that crates/sheets_test reads, and what it must print for each, from document 01 and orders 6 and 7 of
document 02.

usage: sheet_papers.py FOLDER      writes FOLDER/stdin and FOLDER/stdout

Sheets are built from named fields (sheet.py), so that the place of each is known without reading it back. Every expected number and
place is stated here by the clause that gives it; nothing is computed by a reader of sheets.

A record on standard input: label length (1 byte), label, kind (1), three arguments (1 each), sheet length (2 bytes), sheet. Kinds:
0 takes the sheet as the model for later records, 1 reads a model, 2 a certificate's header and regions, 3 a proof's head at place
(first argument), zero only (second), 4 an entry at place, hypotheses, least, 5 a run's header and opening, 6 a step at place.
"""
import sys

import sheet
from sheet import certificate, component, fixed, flow, jump, mode, run, switch
from tank import C, T


def model(n=1, c=1, unsafe=1, owners=None, alphabets=None, modes=None, switches=None, starts=1, initial=0, invariant=1, flow=0, jump=0, label=0, rows=1):
    """A model with rows of zeros; every component has the same counts unless a list is given. Unsafe conditions fit any mode."""
    def zeros(count, numbers=n + 1):
        return [(0,) * numbers] * count

    def part(k):
        only = mode(starts, zeros(initial), zeros(invariant), zeros(flow))
        by = switch(0, 0, label, zeros(jump, 2 * n + 1))
        return component([only] * (modes or [1] * c)[k], [by] * (switches or [0] * c)[k], (alphabets or [0] * c)[k])

    return sheet.model(owners or [0] * n, [part(k) for k in range(c)], [([255] * c, zeros(rows))] * unsafe)


records, lines = [], []


def case(label, kind, data, number, place, args=(0, 0, 0)):
    name = label.encode()
    records.append(bytes([len(name)]) + name + bytes([kind, *args]) + (len(data) % 65536).to_bytes(2, 'big') + data)
    if kind: lines.append(f'{label}: {number} {place}')


def field(label, kind, paper, name, value, number, args=(0, 0, 0)):
    case(f'{label} {value}', kind, paper.set(name, value).bytes(), number, paper.place(name), args)


def accepted(label, paper):
    case(label, 1, paper.bytes(), 0, paper.length())



# "1: under 4 or over 32,768 bytes, or L wrong", place 0
t = T.bytes()
accepted('T', T)
case('empty', 1, b'', 1, 0)
case('L one more', 1, T.set('L', 65).bytes(), 1, 0)
case('L one less', 1, T.set('L', 63).bytes(), 1, 0)
case('32768 bytes', 1, fixed(t + bytes(32768 - 66)), 4, 66)
case('32769 bytes', 1, fixed(t + bytes(32769 - 66)), 1, 0)
# 2 and 3; "version 2 model sheets", "Model, certificate and run sheets of version 3"
for v in (0, 4, 5, 9, 255): field('version', 1, T, 'version', v, 2)
accepted('version 2', T.set('version', 2))
for v in (0, 2, 3, 255): field('kind', 1, T, 'kind', v, 3)
case('C as model', 1, C.bytes(), 3, 3)
# 4: every cut of T at every byte, L made right: "A cut field's place is its first byte"; under 4 bytes it is 1
starts = []
at = 0
for n_, z, _ in T.fields:
    starts += [at] * z; at += z
for cut in range(66):
    case(f'T cut to {cut}', 1, fixed(t[:cut]), *((1, 0) if cut < 4 else (4, starts[cut])))
case('T and one byte', 1, fixed(t + b'\0'), 4, 66)
# a sheet of version 3 begins its body "with a u32 paper number", so that n's byte is 8
for v in (0, 7, 65535, 65536, 2 ** 32 - 1): accepted(f'paper number {v}', T.versioned(3, v))
N = T.versioned(3, 7)
for v in (4, 5): case(f'version {v} and a paper number', 1, N.set('version', v).bytes(), 2, 2)
case('kind 2 and a paper number', 1, N.set('kind', 2).bytes(), 3, 3)
for cut, at in ((4, 4), (5, 4), (6, 4), (7, 4), (8, 8), (9, 9), (69, 66)):
    case(f'paper number and T cut to {cut}', 1, fixed(N.bytes()[:cut]), 4, at)
case('paper number, T and one byte', 1, fixed(N.bytes() + b'\0'), 4, 70)
case('version 3 without a paper number', 1, T.set('version', 3).bytes(), 5, 8)
for v in (0, 9): field('paper number and n', 1, N, 'n', v, 5)
for v in (0, 5): field('paper number and c', 1, N, 'c', v, 5)
field('paper number and unsafe', 1, N, 'unsafe', 17, 5)
field('paper number and unsafe rows', 1, N, 'rows0', 9, 5)
# 5: both ends of each range of the model's fields
for v in (0, 9, 255): field('n', 1, T, 'n', v, 5)
accepted('n 8', model(n=8))
for v in (0, 5, 255): field('c', 1, T, 'c', v, 5)
accepted('c 4', model(c=4))
for v in (17, 255): field('unsafe', 1, T, 'unsafe', v, 5)
accepted('unsafe 0', model(unsafe=0)); accepted('unsafe 16', model(unsafe=16))
m = model(n=2, c=3, owners=[0, 2])
accepted('owner 2 of 3', m)
for v in (3, 255): field('owner', 1, m, 'owner1', v, 5)
for v in (1, 3, 65535): field('alphabet', 1, T, 'alphabet0', v, 5)
accepted('alphabet 65534', model(alphabets=[65534]))
for v in (0, 9, 255): field('modes', 1, T, 'modes0', v, 5)
accepted('modes 8', model(modes=[8]))
for v in (33, 255): field('switches', 1, T, 'switches0', v, 5)
accepted('switches 32', model(switches=[32]))
for v in (2, 255): field('start', 1, T, 'start0.0', v, 5)
accepted('start 0', model(starts=0))
case('start 0 with initial rows', 1, T.set('start0.0', 0).bytes(), 5, T.place('initial0.0'))
for v in (9, 255): field('initial rows', 1, T, 'initial0.0', v, 5)
accepted('initial rows 8', model(initial=8))
for v in (9, 255): field('invariant rows', 1, T, 'invariant0.0', v, 5)
accepted('invariant rows 8', model(invariant=8)); accepted('invariant rows 0', model(invariant=0))
for v in (9, 255): field('flow rows', 1, T, 'flow0.0', v, 5)
accepted('flow rows 8', model(flow=8))
case('label outside', 1, model(switches=[1], label=1).bytes(), 6, model(switches=[1], label=1).place('label0.0'))
w = model(modes=[3], switches=[2], alphabets=[32768 + 2], label=1)
accepted('source and target 2', w.set('source0.1', 2).set('target0.1', 2))
for v in (3, 255): field('source', 1, w, 'source0.1', v, 5)
for v in (3, 255): field('target', 1, w, 'target0.1', v, 5)
accepted('label 15', w.set('label0.1', 15)); accepted('label 0', w.set('label0.1', 0))
for v in (2, 14): field('label', 1, w, 'label0.1', v, 6)
for v in (16, 255): field('label', 1, w, 'label0.1', v, 5)
accepted('jump rows 8', model(switches=[1], jump=8))
for v in (9, 255): field('jump rows', 1, w, 'jump0.1', v, 5)
case('label outside, nine jump rows', 1, w.set('label0.1', 2).set('jump0.1', 9).bytes(), 6, w.place('label0.1'))
u = model(c=2, modes=[2, 3])
accepted('unsafe modes 1 2', u.set('fit0.0', 1).set('fit0.1', 2)); accepted('unsafe modes any', u)
for v in (2, 254): field('unsafe mode', 1, u, 'fit0.0', v, 5)
for v in (3, 254): field('second unsafe mode', 1, u, 'fit0.1', v, 5)
accepted('unsafe rows 8', model(rows=8)); accepted('unsafe rows 0', model(rows=0))
for v in (9, 255): field('unsafe rows', 1, T, 'rows0', v, 5)
# 7: "over 64 locations", 8: "over 4,096 joint switches", both at n's byte
accepted('64 locations', model(c=2, modes=[8, 8]))
case('128 locations', 1, model(c=3, modes=[8, 8, 2]).bytes(), 7, 4)
accepted('4096 joint switches', model(c=3, switches=[16] * 3, alphabets=[2] * 3, label=1))
x = model(c=3, switches=[16, 16, 17], alphabets=[2] * 3, label=1)
case('4097 joint switches', 1, x.set('label2.16', 0).bytes(), 8, 4)
case('32768 joint switches', 1, model(c=3, switches=[32] * 3, alphabets=[2] * 3, label=1).bytes(), 8, 4)
case('1048576 joint switches', 1, model(c=4, switches=[32] * 4, alphabets=[2] * 4, label=1).bytes(), 8, 4)
case('bytes left before 7', 1, fixed(model(c=3, modes=[8, 8, 2]).bytes() + b'\0'), 4, len(model(c=3, modes=[8, 8, 2]).bytes()))
for v, place in ((2, 4), (3, 8)):
    case(f'128 locations, version {v}', 1, model(c=3, modes=[8, 8, 2]).versioned(v, 7).bytes(), 7, place)
    case(f'4097 joint switches, version {v}', 1, x.set('label2.16', 0).versioned(v, 7).bytes(), 8, place)
accepted('64 locations, version 3', model(c=2, modes=[8, 8]).versioned(3, 7))

# the certificate's header and regions, with T as the model
case('model T', 0, t, 0, 0)
case('C regions', 2, C.bytes(), 0, 14)
case('T as certificate', 2, t, 3, 3)
for v in (0, 2, 4, 5, 255): field('certificate version', 2, C, 'version', v, 2)
case('T of version 3 as certificate', 2, N.bytes(), 3, 3)
for v in (0, 2, 255): field('locations', 2, C, 'locations', v, 5)
for v in (17, 255): field('region rows', 2, C, 'region0', v, 5)
case('region rows 0', 2, C.set('region0', 0).bytes(), 0, 6)
r = certificate([[(1, 10)] * 16], [])
case('region rows 16', 2, r.bytes(), 0, len(r.bytes()))
for cut, at in ((4, 4), (5, 5), (6, 6), (9, 6), (10, 10), (13, 10)): case(f'C cut to {cut}', 2, fixed(C.bytes()[:cut]), 4, at)
# a proof's head: "u32 k, 0..2^24−1; u8 entries, 0..128"; "An unsafe goal has k = 0 only, else 5 at k"
case('head', 3, C.bytes(), 0, 19, (14, 0, 0))
for v in (0, 2 ** 24 - 1): case(f'k {v}', 3, C.set('k0', v).bytes(), 0, 19, (14, 0, 0))
for v in (2 ** 24, 2 ** 32 - 1): case(f'k {v}', 3, C.set('k0', v).bytes(), 5, 14, (14, 0, 0))
case('unsafe k 0', 3, C.bytes(), 0, 39, (34, 1, 0))
for v in (1, 2 ** 24 - 1): case(f'unsafe k {v}', 3, C.set('k2', v).bytes(), 5, 34, (34, 1, 0))
case('entries 0', 3, C.set('entries0', 0).bytes(), 0, 19, (14, 0, 0))
case('entries 128', 3, C.set('entries0', 128).bytes(), 0, 19, (14, 0, 0))
for v in (129, 255): case(f'entries {v}', 3, C.set('entries0', v).bytes(), 5, 18, (14, 0, 0))
for cut, at in ((14, 14), (17, 14), (18, 18)): case(f'head cut to {cut}', 3, C.bytes()[:cut], 4, at, (14, 0, 0))
# an entry: "a u8 hypothesis, below the obligation's count of them, and a u32 multiplier, 1..2^24−1, hypotheses strictly ascending"
case('entry', 4, C.bytes(), 0, 24, (19, 3, 0))
case('hypothesis 0', 4, C.bytes(), 0, 44, (39, 3, 0))
case('hypothesis at the count', 4, C.bytes(), 5, 19, (19, 2, 0))
case('hypothesis not ascending', 4, C.bytes(), 9, 19, (19, 3, 3))
case('hypothesis just ascending', 4, C.bytes(), 0, 24, (19, 3, 2))
case('out of range before not ascending', 4, C.bytes(), 5, 19, (19, 2, 3))
for v in (0, 2 ** 24, 2 ** 32 - 1): case(f'multiplier {v}', 4, C.set('multiplier0.0', v).bytes(), 5, 20, (19, 3, 0))
case('multiplier 16777215', 4, C.set('multiplier0.0', 2 ** 24 - 1).bytes(), 0, 24, (19, 3, 0))
case('not ascending, multiplier 0', 4, C.set('multiplier0.0', 0).bytes(), 9, 19, (19, 3, 3))
for cut, at in ((19, 19), (20, 20), (23, 20)): case(f'entry cut to {cut}', 4, C.bytes()[:cut], 4, at, (19, 3, 0))

# the run's header and opening, with T as the model
R = run(1, 0, [5], flow(2, 9))
case('run', 5, R.bytes(), 0, 15)
case('C as run', 5, C.bytes(), 3, 3)
for v in (0, 2, 4, 5, 255): field('run version', 5, R, 'version', v, 2)
case('T of version 3 as run', 5, N.bytes(), 3, 3)
for v in (0, 2 ** 24, 2 ** 32 - 1): field('q', 5, R, 'q', v, 5)
case('q 16777215', 5, R.set('q', 2 ** 24 - 1).bytes(), 0, 15)
for v in (4096, 65535): field('steps', 5, R, 'steps', v, 5)
for v in (0, 4095): case(f'steps {v}', 5, R.set('steps', v).bytes(), 0, 15)
for v in (1, 255): field('location', 5, R, 'location', v, 5)
for v in (-2 ** 27, 2 ** 27): case(f'p {v}', 5, R.set('p0', v).bytes(), 0, 15)
for v in (-2 ** 27 - 1, 2 ** 27 + 1, -2 ** 31): field('p', 5, R, 'p0', v, 5)
case('location before p', 5, R.set('location', 1).set('p0', 2 ** 31 - 1).bytes(), 5, 10)
for cut, at in ((4, 4), (7, 4), (8, 8), (9, 8), (10, 10), (11, 11), (14, 11)): case(f'run cut to {cut}', 5, fixed(R.bytes()[:cut]), 4, at)
# a step
case('flow', 6, R.bytes(), 0, 24, (15, 0, 0))
for v in (2, 255): field('step', 6, R, 'step0', v, 5, (15, 0, 0))
for v in (0, 2 ** 24 - 1): case(f'time {v}', 6, R.set('time0', v).bytes(), 0, 24, (15, 0, 0))
for v in (2 ** 24, 2 ** 32 - 1): field('time', 6, R, 'time0', v, 5, (15, 0, 0))
for v in (-2 ** 27, 2 ** 27): case(f'next p {v}', 6, R.set('p0.0', v).bytes(), 0, 24, (15, 0, 0))
for v in (-2 ** 27 - 1, 2 ** 27 + 1): field('next p', 6, R, 'p0.0', v, 5, (15, 0, 0))
for cut, at in ((15, 15), (16, 16), (19, 16), (20, 20), (23, 20)): case(f'flow cut to {cut}', 6, R.bytes()[:cut], 4, at, (15, 0, 0))
J = model(c=3, switches=[2, 0, 1], alphabets=[2, 0, 2], label=1, n=1)
case('model J', 0, J.bytes(), 0, 0)
j = run(1, 0, [0], jump(1, [1, 255, 0], 7))
case('jump', 6, j.bytes(), 0, 24, (15, 0, 0))
for v in (0, 15): case(f'event {v}', 6, j.set('event0', v).bytes(), 0, 24, (15, 0, 0))
for v in (16, 255): field('event', 6, j, 'event0', v, 5, (15, 0, 0))
case('first stays', 6, j.set('switch0.0', 255).bytes(), 0, 24, (15, 0, 0))
for v in (2, 254): field('first switch', 6, j, 'switch0.0', v, 5, (15, 0, 0))
for v in (0, 254): field('second switch', 6, j, 'switch1.0', v, 5, (15, 0, 0))
for v in (1, 254): field('third switch', 6, j, 'switch2.0', v, 5, (15, 0, 0))
for v in (-2 ** 27 - 1, 2 ** 27 + 1): field('jump to p', 6, j, 'p0.0', v, 5, (15, 0, 0))
for cut, at in ((16, 16), (17, 17), (18, 18), (19, 19), (20, 20), (23, 20)): case(f'jump cut to {cut}', 6, j.bytes()[:cut], 4, at, (15, 0, 0))

# second sheets have version 1 beside a model of version 2 too
case('model T of version 2', 0, T.set('version', 2).bytes(), 0, 0)
case('C regions beside version 2', 2, C.bytes(), 0, 14)
field('beside version 2, certificate version', 2, C, 'version', 2, 2)
case('run beside version 2', 5, R.bytes(), 0, 15)
field('beside version 2, run version', 5, R, 'version', 2, 2)

# a jump is read by the counts of its model, which stand four bytes later in version 3
case('model J of version 3', 0, J.versioned(3, 7).bytes(), 0, 0)
case('jump beside version 3', 6, j.bytes(), 0, 24, (15, 0, 0))
for v in (2, 254): field('beside version 3, first switch', 6, j, 'switch0.0', v, 5, (15, 0, 0))
for v in (0, 254): field('beside version 3, second switch', 6, j, 'switch1.0', v, 5, (15, 0, 0))

folder = sys.argv[1]
data = b''.join(records)
open(folder + '/stdin', 'wb').write(data)
open(folder + '/stdout', 'w').write('\n'.join(lines) + '\n')
print(len(records), 'records', len(data), 'bytes')
