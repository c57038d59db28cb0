#!/usr/bin/env python3
"""Builds papers that fill their sheets, compares what the program `mark` prints for them with tests/marker.py, and times it.

usage: largest.py FOLDER      writes FOLDER/*.input (a model and its second sheet) and prints milliseconds for each
"""
import subprocess
import sys
import time
from pathlib import Path

sys.dont_write_bytecode = True

import marker
from sheet import alphabet, certificate, component, flow, jump, mode, model, run, switch

ANY = 255


def most_proofs():
    """6,527 proofs. A region row 0 ≤ 0 needs no hypothesis: k = 1 and no entries, 5 bytes; an unsafe condition needs one entry.
    One location, 14 region rows and 29·16 joint switches leave no byte over."""
    zero, never = (0, 0), (0, -1)
    first = component([mode()], [switch(0, 0, 1)] * 29, alphabet(1))
    second = component([mode()], [switch(0, 0, 1)] * 16, alphabet(1))
    sheet = model([0], [first, second], [([ANY, ANY], [never])] * 3)
    proofs = [(1, [])] * 28 + [(0, [(14, 1)])] * 3 + [(1, [])] * (14 * 29 * 16)
    return sheet, certificate([[zero] * 14], proofs)


def most_steps():
    """4,095 steps: 2,051 jumps of 7 bytes and 2,044 flows of 9."""
    sheet = model([0], [component([mode()], [switch(0, 0)])], [([0], [(-1, -4095)])])
    steps = [jump(0, [0], i + 1) if i % 2 == 0 or i >= 4088 else flow(1, i + 1) for i in range(4095)]
    return sheet, run(1, 0, (0,), *steps)


def most_entries():
    """64 proofs on eight variables, each with every hypothesis but −d ≤ 0: 112 of a flow, 88 of a jump. Opposite rows with a bound
    below 0 contradict each other, so that k is 0."""
    rows = [(1,) * 8 + (-1,), (-1,) * 8 + (-1,)] * 4
    rates = [(1,) * 8 + (0,), (-1,) * 8 + (0,)] * 4
    jumps = [switch(0, 0, 0, [(1,) * 16 + (0,), (-1,) * 16 + (0,)] * 4)] * 3
    full = mode(0, [], rows, rates)
    sheet = model([0] * 8, [component([full], jumps)] + [component([full])] * 3)
    return sheet, certificate([rows * 2], [(0, [(h, 1) for h in range(112)])] * 16 + [(0, [(h, 1) for h in range(88)])] * 48)


def most_joint_switches():
    """64 locations and 4,096 joint switches, and nothing to prove."""
    pair = component([mode() for _ in range(8)], [switch(i // 4, i % 8, 1) for i in range(32)], alphabet(1))
    alone = component([mode()], [switch(0, 0, 1)] * 4, alphabet(1))
    return model([0], [pair, pair, alone]), certificate([[]] * 64, [])


def busy_event():
    """The most that a model has to be counted for before it is refused for its joint switches."""
    full = component([mode()], [switch(0, 0, 1)] * 32, alphabet(1))
    return model([0], [full] * 4), certificate([[]], [])


def both_full():
    """Both sheets 32,768 bytes: 65,536, the most that is marked. 6,461 proofs on eight variables, 12 region rows, 24·22 + 8 joint
    switches; 471 jump rows and 4 flow rows fill the model."""
    zero, never = (0,) * 9, (0,) * 8 + (-1,)
    labels = [[1] * 24 + [0] * 8, [1] * 22, [2] * 32, []]
    counts = iter([6] * 41 + [5] * 45)
    jumps = [[switch(0, 0, label, [(0,) * 17] * next(counts)) for label in part] for part in labels]
    modes = [mode(1, [], [], [zero] * 4), mode(), mode(), mode()]
    events = [alphabet(1), alphabet(1), alphabet(2), alphabet(2)]
    components = [component([m], part, event) for m, part, event in zip(modes, jumps, events)]
    sheet = model([0] * 8, components, [([ANY] * 4, [never])] * 5)
    return sheet, certificate([[zero] * 12], [(1, [])] * 24 + [(0, [(12, 1)])] * 5 + [(1, [])] * (12 * 536))


PAPERS = {
    'both full': both_full,
    'most proofs': most_proofs,
    'most steps': most_steps,
    'most entries': most_entries,
    'most joint switches': most_joint_switches,
    'over a million joint switches': busy_event,
}


def milliseconds(program, data, times=21):
    taken = []
    for _ in range(times):
        begun = time.perf_counter()
        subprocess.run([program], input=data, stdout=subprocess.PIPE, check=True)
        taken.append(1000 * (time.perf_counter() - begun))
    return sorted(taken)


def main(folder):
    program = str(Path(__file__).resolve().parent.parent / 'crates/mark/out/mark')
    folder.mkdir(parents=True, exist_ok=True)
    failed = False
    inputs = {name: b''.join(sheet.bytes() for sheet in build()) for name, build in PAPERS.items()}
    inputs['one byte too many'] = inputs['both full'] + b'\0'
    inputs['nothing'] = b''
    for name, data in inputs.items():
        (folder / (name.replace(' ', '-') + '.input')).write_bytes(data)
        printed = subprocess.run([program], input=data, stdout=subprocess.PIPE, check=True).stdout.decode().rstrip('\n')
        right = printed == marker.line(data)
        failed = failed or not right
        taken = milliseconds(program, data)
        print(f'{name}: {len(data)} bytes, {printed}{"" if right else " WRONG"}, '
              f'median {taken[len(taken) // 2]:.2f} ms, least {taken[0]:.2f} ms')
    return 1 if failed else 0


if __name__ == '__main__':
    if len(sys.argv) != 2:
        sys.exit(__doc__)
    sys.exit(main(Path(sys.argv[1])))
