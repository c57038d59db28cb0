#!/usr/bin/env python3
"""Typed rows once more, written from document 02, order 1, alone, to try the proved reading against.

usage: typed.py N TEXT      prints the five numbers of the answer, the eight coefficients and the bound

A row is one `<=` between two expressions of whole numbers, letters a to h, round brackets, `+`, `-` and `*`. Nothing here is fast or
proved: each function says one clause of the order as directly as it can.
"""
import sys
from collections import namedtuple

ARGUMENT, TEXT, RESULT = 5, 16, 17
MOST_BYTES = 255
MOST_VARIABLES = 8
LEAST, GREATEST = -2 ** 31, 2 ** 31 - 1
DIGITS, LETTERS = b'0123456789', b'abcdefgh'

# A sign of the text and the place of its first byte; a whole number is one sign.
Sign = namedtuple('Sign', 'text place')
# What an expression is worth: a coefficient for each letter, and a number.
Value = namedtuple('Value', 'coefs number')


class Refused(Exception):
    def __init__(self, number, place):
        super().__init__(number, place)
        self.number, self.place = number, place


# 16: "text that breaks these rules, at the first byte no ending of any length could mend (its length if cut short)"

def check(text):
    """Goes over the bytes and keeps what may come next. After each byte that it lets pass there is an ending that makes a row: an
    operand where one is due, a bracket for each that is open, `<=` and an operand where that has not been."""
    before, in_number, inside, after = 'operand due', 'in a number', 'in <=', 'operand ended'
    state, brackets, compared = before, 0, False
    for place, byte in enumerate(text):
        sign = bytes([byte])
        if state == inside:
            fits = sign == b'='
            state = before
        elif state == before:
            fits = sign in (b' ', b'-', b'(') or byte in DIGITS or byte in LETTERS
            brackets += sign == b'('
            state = in_number if byte in DIGITS else after if byte in LETTERS else before
        elif state == in_number and byte in DIGITS:
            fits = True
        elif sign == b' ':
            fits, state = True, after
        elif sign in (b'+', b'-', b'*'):
            fits, state = True, before
        elif sign == b')':
            fits, state = brackets > 0, after
            brackets -= 1
        elif sign == b'<':
            fits, state = brackets == 0 and not compared, inside
            compared = True
        else:
            fits = False
        if not fits:
            raise Refused(TEXT, place)
    if state not in (in_number, after) or brackets > 0 or not compared:
        raise Refused(TEXT, len(text))


# The signs of a text that keeps the rules

def signs(text):
    found, place = [], 0
    while place < len(text):
        end = place + 1
        if text[place] in DIGITS:
            while end < len(text) and text[end] in DIGITS:
                end += 1
        elif text[place:place + 2] == b'<=':
            end += 1
        if text[place:end] != b' ':
            found.append(Sign(text[place:end], place))
        place = end
    return found


# 17, in working order: operands before their operator, left before right

def within(value, place):
    """A result, at the number, letter or operator that gives it."""
    if not all(LEAST <= number <= GREATEST for number in (*value.coefs, value.number)):
        raise Refused(RESULT, place)
    return value


def both(left, right, work):
    """Two values with each of their numbers worked on."""
    return Value([work(a, b) for a, b in zip(left.coefs, right.coefs)], work(left.number, right.number))


def product(left, right, place):
    if any(left.coefs) and any(right.coefs):
        raise Refused(RESULT, place)
    coefs = [a * right.number + left.number * b for a, b in zip(left.coefs, right.coefs)]
    return Value(coefs, left.number * right.number)


class Worker:
    """Works out the signs from left to right."""

    def __init__(self, found, n):
        self.left, self.n = found, n

    def next_is(self, *texts):
        return bool(self.left) and self.left[0].text in texts

    def take(self):
        return self.left.pop(0)

    def row(self):
        """An expression, `<=`, an expression: "Variables are collected left, numbers right"."""
        left = self.expression()
        sign = self.take()
        right = self.expression()
        coefs = [a - b for a, b in zip(left.coefs, right.coefs)]
        return within(Value(coefs, right.number - left.number), sign.place)

    def expression(self):
        """`+` and `-`, equals from the left."""
        value = self.term()
        while self.next_is(b'+', b'-'):
            sign = self.take()
            right = self.term()
            value = within(both(value, right, int.__add__ if sign.text == b'+' else int.__sub__), sign.place)
        return value

    def term(self):
        """`*`, from the left."""
        value = self.factor()
        while self.next_is(b'*'):
            sign = self.take()
            value = within(product(value, self.factor(), sign.place), sign.place)
        return value

    def factor(self):
        """A minus before a factor, a bracket that holds a whole expression, a letter or a number."""
        sign = self.take()
        zeros = [0] * MOST_VARIABLES
        if sign.text == b'-':
            return within(both(Value(zeros, 0), self.factor(), int.__sub__), sign.place)
        if sign.text == b'(':
            value = self.expression()
            self.take()
            return value
        if sign.text in LETTERS:
            variable = LETTERS.index(sign.text)
            if variable >= self.n:
                raise Refused(RESULT, sign.place)
            return Value([int(variable == v) for v in range(MOST_VARIABLES)], 0)
        return within(Value(zeros, int(sign.text)), sign.place)


# What is handed back

def read_row(n, text):
    """The five numbers of the answer, the eight coefficients, the bound."""
    try:
        if not 1 <= n <= MOST_VARIABLES:
            raise Refused(ARGUMENT, 0)
        if len(text) > MOST_BYTES:
            raise Refused(TEXT, MOST_BYTES)
        check(text)
        row = Worker(signs(text), n).row()
    except Refused as refused:
        return (refused.number, 2, refused.place, 0, 0), (0,) * MOST_VARIABLES, 0
    return (0, 2, 0, 0, 0), tuple(row.coefs), row.number


def main():
    if len(sys.argv) != 3 or not sys.argv[1].isdecimal():
        sys.exit(__doc__)
    answer, coefs, bound = read_row(int(sys.argv[1]), sys.argv[2].encode(errors='surrogateescape'))
    print(*answer, *coefs, bound)


if __name__ == '__main__':
    main()
