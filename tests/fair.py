#!/usr/bin/env python3
"""The fair copy of a model once more, written from document 02, order 4, alone, to try the proved one against.

usage: fair.py MODEL      prints the five numbers of the answer and, in hexadecimal, the copy of the file's model

tests/marker.py opens the model, under the caller's limits and with its refusals, and tests/sheet.py writes the copy. Nothing here is fast
or proved: each function says one clause of the order as directly as it can.
"""
import sys
from math import gcd

sys.dont_write_bytecode = True

import marker
import sheet

SHORT = 15


def divided(row):
    """"each row divided by the greatest common divisor of its numbers": of the coefficients and the bound, which are not all 0."""
    common = gcd(*row)
    return tuple(number // common for number in row)


def settled(row):
    """"a row with zero coefficients dropped if its bound is at least 0, else given bound −1"; none for a dropped one."""
    *coefs, bound = row
    if any(coefs):
        return divided(row)
    return None if bound >= 0 else (*coefs, -1)


def fair_rows(rows):
    """"rows sorted ascending by coefficients, then bound; repeats dropped". A row's numbers stand in that order."""
    return sorted({settled(row) for row in rows} - {None})


def fair_condition(condition):
    return fair_rows([(*row.coefs, row.bound) for row in condition])


def fair_mode(mode):
    return sheet.mode(mode.start, fair_condition(mode.initial), fair_condition(mode.invariant), fair_condition(mode.flow))


def fair_switch(switch):
    return sheet.switch(switch.source, switch.target, switch.label, fair_condition(switch.jump))


def fair_component(component):
    modes = [fair_mode(mode) for mode in component.modes]
    return sheet.component(modes, [fair_switch(switch) for switch in component.switches], component.alphabet)


def fair_sheet(model):
    """The model with each condition's rows made fair, and all else as it was, its version and its paper number too."""
    components = [fair_component(component) for component in model.components]
    copy = sheet.model(model.owners, components, [(u.modes, fair_condition(u.rows)) for u in model.unsafe])
    return copy.versioned(model.version, model.paper)


def fair_copy(model_sheet, lent, limits=marker.EXAM):
    """The five numbers of the answer and the bytes of the lent buffer after the call; they are given as they are before it.
    "Bytes past the copy stay. Done is the bytes written. A short buffer is refused as 15 with the length needed." """
    try:
        model = marker.read_model(model_sheet, limits)
    except marker.Refused as refused:
        return refused.answer(0), lent
    copy = fair_sheet(model).bytes()
    if len(lent) < len(copy):
        return (SHORT, marker.CALL, len(copy), 0, 0), lent
    return (0, 0, len(model_sheet), len(copy), 0), copy + lent[len(copy):]


def main():
    if len(sys.argv) != 2:
        sys.exit(__doc__)
    model_sheet = open(sys.argv[1], 'rb').read()
    answer, buffer = fair_copy(model_sheet, bytes(len(model_sheet)))
    print(*answer, buffer[:answer[3]].hex())


if __name__ == '__main__':
    main()
