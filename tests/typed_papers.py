#!/usr/bin/env python3
"""Writes the texts that crates/calls_test reads as rows, and what it must print for each, from document 02, order 1; after them the fair
copies of tests/fair_papers.py.

usage: typed_papers.py FOLDER      writes FOLDER/stdin and FOLDER/stdout

The lines come from tests/typed.py, a second reading. Where the order itself settles an answer the text states it here as well, and the
script stops where the two differ.

A record of a text on standard input: n (1 byte), the text's length (2 bytes), the text. A line on standard output: number, place, the eight
coefficients, the bound. The answer's sheet is always 2, done and score are 0.
"""
import sys
from itertools import product

sys.dont_write_bytecode = True

import fair_papers
import typed

MOST_INPUT, MOST_CALLS = 262143, 8000
LEAST, GREATEST = -2 ** 31, 2 ** 31 - 1

records, lines = [], []


def text(n, data, *stated):
    """A text, and its answer where that is stated: number, place, coefficients, bound."""
    data = data if isinstance(data, bytes) else data.encode()
    answer, coefs, bound = typed.read_row(n, data)
    assert answer == (answer[0], 2, answer[2], 0, 0)
    given = answer[0], answer[2], coefs, bound
    assert not stated or given == stated, (n, data, given, stated)
    assert bytes([n]) != fair_papers.FAIR
    records.append(bytes([n]) + len(data).to_bytes(2, 'big') + data)
    lines.append(' '.join(str(number) for number in (*given[:2], *coefs, bound)))


def row(data, coefs, bound, n=2):
    """A text that gives this row; coefficients that are not listed are 0."""
    text(n, data, 0, 0, (*coefs, *[0] * (8 - len(coefs))), bound)


def refused(number, place, data, n=2):
    text(n, data, number, place, (0,) * 8, 0)


def breaks(place, data, n=2):
    refused(16, place, data, n)


def fails(place, data, n=2):
    refused(17, place, data, n)


# "n outside 1..8 is 5, sheet 2, before all else", so before a text over 255 bytes too
for n in (0, 9, 10, 128, 254, 255):
    for data in ('a<=1', '', ')', 'h*h<=2147483648'):
        refused(5, 0, data, n)
refused(5, 0, ' ' * 256, 9)
# every letter with every n; a letter from i on is no letter
for n in range(1, 9):
    for v, letter in enumerate('abcdefgh'):
        if v < n:
            row(f'{letter}<={n}', [0] * v + [1], n, n)
        else:
            fails(0, f'{letter}<={n}', n)
    breaks(0, 'i<=1', n)
    breaks(3, '1<=i', n)

# 16, cut short: "its length"
for data in ('', ' ', '   ', 'a', 'a ', '1', '12', '-', '--', '(', '(a', '(a)', '((a)', 'a+', 'a-', 'a*', 'a<', 'a<=', 'a<= ', 'a<=-',
             'a<=1+', 'a<=1*', 'a<=(1', 'a<=(1 ', 'a<=(1+'):
    breaks(len(data), data)
# 16, at a byte
for place, data in [
        # a space ends a number; no space inside `<=`, which is one sign
        (2, '1 2'), (2, '1 2<=3'), (6, 'a<=1  2'), (2, '1< =2'), (2, '1<2'), (2, 'a<<=1'), (3, 'a<==1'), (1, 'a=1'), (1, 'a=<1'),
        (1, 'a>=1'),
        # one `<=`, not inside a bracket
        (4, 'a<=1<'), (4, 'a<=1<=2'), (3, 'a<=<=1'), (2, '(a<=1)'), (2, '(a<'), (5, 'a<=(1<=2)'), (4, 'a<=1='),
        # brackets
        (1, 'a)'), (4, 'a<=1)'), (1, '()'), (4, 'a<=()'), (0, ')'), (3, 'a<=)'), (3, '(a+)<=1'),
        # an operand where one is due
        (0, '+a'), (0, '+a<=1'), (0, '*a<=1'), (0, '<=1'), (0, '<'), (0, '='), (1, ' <=1'), (1, '(+a)<=1'), (1, '-*a<=1'), (1, '-+a<=1'),
        (2, 'a++b<=1'), (2, 'a-+b<=1'), (2, 'a+*b<=1'), (2, 'a**b<=1'), (2, 'a+<=1'), (3, '(a+<=1'), (1, '-<=1'),
        # and nowhere else
        (1, '2a'), (1, 'a2'), (1, 'ab'), (1, '2(a)'), (1, 'a(b)<=1'), (2, 'a b<=1'), (3, '(a)(b)<=1'), (3, '(a)b<=1'), (3, '(a)2<=1'),
        # other signs
        (1, '1.5<=a'), (1, '1,5<=a'), (1, '2/2<=a'), (1, 'a^2<=1'), (1, "a'<=1"), (0, '[a]<=1'), (4, 'a<=1;'), (4, 'a<=1\n')]:
    breaks(place, data)
for sign in (b'i', b'A', b'H', b'z', b'`', b'@', b'\t', b'\n', b'\r', b'\0', b'/', b':', b'\x80', b'\xa0', b'\xc2\xa0', b'\xe2\x89\xa4',
             b'\xff'):
    for before, after in ((b'', b''), (b' ', b''), (b'a', b'<=1'), (b'a<=', b''), (b'a<=1', b'')):
        breaks(len(before), before + sign + after)
# every byte where an operand is due, after an operand, and after a whole row
for before in (b'', b'a', b'a<=1'):
    for byte in range(256):
        text(2, before + bytes([byte]))

# "at most 255 bytes", "any text over 255 gives 255, tested first"; "no ending of any length": 255 open brackets are only cut short
for blanks in (250, 251):
    row(' ' * blanks + 'a<=1', [1], 1)
    row('a<=1' + ' ' * blanks, [1], 1)
for data in (' ' * 252 + 'a<=1', 'a<=1' + ' ' * 252, ')' * 256, '(' * 256, '1' * 256, 'a*b<=' + '1' * 251, b'\xff' * 300):
    breaks(255, data)
for sign in '(1- ':
    breaks(255, sign * 255)
breaks(0, ')' * 255)
breaks(254, ' ' * 254 + ')')
breaks(255, ' ' * 251 + 'a<=(')
breaks(254, ' ' * 250 + 'a<=1)')

# brackets and minuses as deep, sums and products as long, as 255 bytes hold
for data, coefs, bound in [
        ('(' * 125 + 'a' + ')' * 125 + '<=1', [1], 1), ('(' * 125 + 'a' + ')' * 125 + '<=1 ', [1], 1),
        ('1<=' + '(' * 125 + 'a' + ')' * 125, [-1], -1), ('-(' * 83 + 'a' + ')' * 83 + '<=1', [-1], 1), ('-' * 250 + 'a<=1', [1], 1),
        ('-' * 251 + 'a<=1', [-1], 1), ('a<=' + '-' * 251 + '1', [1], -1), ('+'.join('a' * 126) + '<=1', [126], 1),
        ('-'.join('a' * 126) + '<=1', [-124], 1), ('*'.join('1' * 126) + '<=a', [-1], -1)]:
    row(data, coefs, bound)
breaks(255, '(' * 127 + 'a' + ')' * 127)
breaks(255, '(' * 126 + 'a' + ')' * 126 + '<=1')
breaks(251, '(' * 125 + 'a' + ')' * 126)
breaks(251, '(' * 126 + 'a' + ')' * 124 + '<=1')
fails(125, '(' * 125 + 'c' + ')' * 125 + '<=1')
fails(59, '*'.join('2' * 126) + '<=a')

# "whole numbers (any run of digits)": a number is a result, at its first digit, also after a minus and also times 0
for zeros in (0, 1, 9, 240):
    row('0' * zeros + '7<=a', [-1], -7)
    row('a<=' + '0' * zeros + '2147483647', [1], GREATEST)
    fails(3, 'a<=' + '0' * zeros + '2147483648')
row('a<=' + '0' * 252, [1], 0)
fails(3, 'a<=' + '9' * 252)
fails(3, 'a<=1' + '0' * 251)
fails(0, '9' * 252 + '<=a')
for number in ('2147483648', '2147483649', '4294967295', '4294967296', '4294967297', '9999999999', '18446744073709551616'):
    for place, before, after in ((0, '', '<=a'), (1, '-', '<=a'), (3, 'a<=', ''), (4, 'a<=-', ''), (2, '0*', '<=a'), (0, '', '*0<=a'),
                                 (4, 'a-a*', '<=1'), (5, 'a<=1-', '+1')):
        fails(place, before + number + after)
for number in (0, 1, 9, 10, 2147483646, GREATEST):
    row(f'a<={number}', [1], number)
    row(f'a<=-{number}', [1], -number)
    row(f'{number}<=a', [-1], -number)
    row(f'{number}*a<={number}*b', [number, -number], 0)

# "A minus before a factor binds first and may repeat, then `*`, then `+` and `-`, equals from the left. A bracket holds a whole expression
# again. Variables are collected left, numbers right."
for data, coefs, bound in [
        ('a<=1', [1], 1), ('1<=a', [-1], -1), ('a<=b', [1, -1], 0), ('a+1<=b-2', [1, -1], -3), ('1<=2', [], 1), ('2<=1', [], -1),
        ('0<=0', [], 0), ('a-b-1<=2', [1, -1], 3), ('a-(b-1)<=2', [1, -1], 1), ('1-2-3<=a', [-1], 4), ('1-2+3<=a', [-1], -2),
        ('1+2*3<=a', [-1], -7), ('(1+2)*3<=a', [-1], -9), ('2*3*a<=1', [6], 1), ('2*a*3<=1', [6], 1), ('a*2*3<=1', [6], 1),
        ('2*(a+3*(b-1))<=1', [2, 6], 7), ('a+a+a<=a', [2], 0), ('((a))<=((1))', [1], 1), ('-2*-3<=a', [-1], -6), ('-a*2<=1', [-2], 1),
        ('2*-a<=1', [-2], 1), ('-(a+b)*2<=-(1)', [-2, -2], -1), ('-2*a<=-(-2*b)', [-2, -2], 0), ('--a<=1', [1], 1), ('---a<=1', [-1], 1),
        ('a--b<=1', [1, 1], 1), ('a---b<=1', [1, -1], 1), ('a+-b<=1', [1, -1], 1), ('2*--a<=--1', [2], 1), ('-(-(-a))<=1', [-1], 1),
        ('- - a<=- -1', [1], 1), ('a- -1<=2', [1], 1), ('-0*a<=-0', [], 0)]:
    row(data, coefs, bound)
row('a+2*b+3*c+4*d+5*e+6*f+7*g+8*h<=9', range(1, 9), 9, 8)
row('9<=a+2*b+3*c+4*d+5*e+6*f+7*g+8*h', range(-1, -9, -1), -9, 8)

# spaces between any two signs and at either end; not inside a number, at its next digit, nor inside `<=`, at the space
plain = '12*(a--b)-7<=-34'
for place in range(len(plain) + 1):
    for blanks in (' ', '   '):
        spaced = plain[:place] + blanks + plain[place:]
        if plain[:place][-1:].isdigit() and plain[place:][:1].isdigit():
            breaks(place + len(blanks), spaced)
        elif plain[:place].endswith('<'):
            breaks(place, spaced)
        else:
            row(spaced, [12, 12], -27)
row(' 12 * ( a - - b ) - 7 <= - 34 ', [12, 12], -27)
row('  12  *  (  a  -  -  b  )  -  7  <=  -  34  ', [12, 12], -27)

# 17: "a product whose factors both have a coefficient other than 0", judged by its worked-out factors
for data, coefs, bound in [
        ('(a-a)*b<=1', [], 1), ('b*(a-a)<=1', [], 1), ('(a-a)*(b-b)<=1', [], 1), ('0*a*b<=1', [], 1), ('a*0*b<=1', [], 1),
        ('(a-a+2)*b<=1', [0, 2], 1), ('a*(1-1)*(b+1)<=1', [], 1), ('(a+1)*2<=b', [2, -1], -2), ('2*(a+1)<=b', [2, -1], -2)]:
    row(data, coefs, bound)
for place, data in [
        (1, 'a*b<=1'), (1, 'a*a<=1'), (5, '2*a*3*b<=1'), (5, '(a+1)*(b+1)<=1'), (4, 'a<=b*b'), (2, '-a*-b<=1'), (1, 'a*(b-b+a)<=1'),
        (2, '(a*b)*0<=1'), (4, '0*(a*b)<=1'), (1, 'a*b*0<=1'), (2, '(a*b-a*b)<=1')]:
    fails(place, data)
# 17: "a letter beyond n", even times 0 and taken away again
for place, data in [(0, 'c<=1'), (2, 'a*c<=1'), (2, '0*c<=1'), (0, 'c*0<=1'), (0, 'c-c<=1'), (3, 'a<=c'), (2, '((c))<=1'), (1, '-c<=1'),
                    (4, 'a+b+h<=1')]:
    fails(place, data)

# 17: "a result outside s32, at the operator". −2^31 can be written as −2147483647−1
for data, coefs, bound in [
        ('a<=-2147483647-1', [1], LEAST), ('(-2147483647-1)*a<=1', [LEAST], 1), ('-2147483647*a-a<=1', [LEAST], 1),
        # sums
        ('2147483647-1+1<=0', [], -GREATEST), ('a<=2147483646+1', [1], GREATEST), ('2147483646*a+a<=1', [GREATEST], 1),
        ('2147483647*a+b<=1', [GREATEST, 1], 1), ('-1-(-2147483647-1)<=a', [-1], -GREATEST),
        # products
        ('a<=2*-1073741824', [1], LEAST), ('a<=-1073741824*2', [1], LEAST), ('a<=65536*-32768', [1], LEAST),
        ('a<=46341*46340', [1], 2147441940), ('65536*(32767*a)<=1', [2147418112], 1), ('65536*(-32768*a)<=1', [LEAST], 1),
        ('(a+1073741823)*2<=0', [2], -2147483646), ('(-2147483647-1)*1*a<=1', [LEAST], 1), ('(1073741823*a+1)*2<=0', [2147483646], -2)]:
    row(data, coefs, bound)
for place, data in [
        (1, '1+2147483647-1<=0'), (10, '2147483647+1-1<=a'), (13, 'a<=2147483647+1'), (14, 'a<=-2147483647-2'),
        (16, 'a<=-2147483647-1-1'), (12, '2147483647*a+a<=1'), (13, '-2147483647*a-2*a<=1'), (1, '0-(-2147483647-1)<=a'),
        (1, '0-(-2147483647*a-a)<=1'), (0, '-(-2147483647-1)<=a'), (4, 'a<=(-(-2147483647-1))'), (1, '--(-2147483647-1)<=a'),
        (0, '-(-2147483647*a-a)<=1'), (0, '-(-2147483647-1)*0<=a'), (1, '2*1073741824<=a'), (15, '(-2147483647-1)*-1<=a'),
        (2, '-1*(-2147483647-1)<=a'), (14, 'a<=-1073741824*3'), (8, 'a<=65536*32768'), (8, 'a<=46341*46341'),
        (13, 'a<=2147483647*2147483647'), (5, '65536*(32768*a)<=1'), (7, '65536*a*32768<=1'), (14, '(a+2147483647)*2<=0'),
        (14, '(a+1073741824)*2<=0'), (16, '(1073741824*a+1)*2<=0')]:
    fails(place, data)

# 17: "`<=` for the collecting", at its first byte
for data, coefs, bound in [
        ('2147483646*a<=-a', [GREATEST], 0), ('-2147483647*a<=a', [LEAST], 0), ('-a<=(-2147483647-1)*a', [GREATEST], 0),
        ('2147483647*a<=2147483647*a', [], 0), ('-1<=2147483646', [], GREATEST), ('1<=-2147483647', [], LEAST),
        ('0<=-2147483647-1', [], LEAST), ('-2147483647-1<=-1', [], GREATEST), ('2147483647<=-1', [], LEAST),
        ('2147483647<=2147483647', [], 0), ('-2147483647<=0', [], GREATEST)]:
    row(data, coefs, bound)
for place, data in [
        (12, '2147483647*a<=-a'), (13, '-2147483647*a<=2*a'), (4, '0*a <=(-2147483647-1)*a'), (2, '-1<=2147483647'),
        (1, '2<=-2147483647'), (1, '1<=-2147483647-1'), (13, '-2147483647-1<=0'), (10, '2147483647<=-2'),
        (10, '2147483647<=-2147483647')]:
    fails(place, data)

# "of several causes of 17 the first in working order is given, operands before their operator, left before right"
for place, data in [
        (0, 'c*2147483648<=1'), (0, '2147483648*c<=1'), (0, '2147483648<=c'), (0, 'c<=2147483648'), (1, 'a*b<=c'),
        (1, 'a*b+c<=2147483648'), (2, '(a*b)*c<=1'), (5, 'a*(b*c)<=1'), (10, '2147483647+1+2147483648<=c'), (2, 'a*2147483648*b<=1'),
        (3, '1+b*b*2147483648<=1'), (11, '2147483647+c<=1'), (2, '-(c)<=a*b'), (15, '-1<=2147483647-c'), (7, '1<=2*(a*a)+c'),
        (5, '-(a-(c*d))<=1'), (13, '2147483647+1*c<=1'), (5, '1*1*a*b*c<=1'), (14, '-2147483647-1-c<=1'), (16, '-(-2147483647-1-c)<=1')]:
    fails(place, data)
fails(4, 'a*(b*c)<=1', 3)

# "All of 16 is tested before 17"
for place, data in [
        (15, 'c*2147483648<=1)'), (3, 'c<=+1'), (11, '2147483648 2<=1'), (13, 'c*2147483648<'), (14, 'c*2147483648<='), (5, 'a*b<='),
        (6, 'a*b<=1<'), (3, 'a*b)<=1'), (252, 'c<=' + '9' * 248 + '+')]:
    breaks(place, data)

# all texts of up to three signs, alone, before `<=b` and after `a<=`
SIGNS = ['1', 'a', '(', ')', '+', '-', '*', '<=', ' ']
for before, after in (('', ''), ('', '<=b'), ('a<=', '')):
    for count in range(1, 4):
        for chosen in product(SIGNS, repeat=count):
            text(2, before + ''.join(chosen) + after)

# all ways to work on three operands, two of which can be too large together
for x, y, z in product(['2', 'a', '-b', '46341'], repeat=3):
    for first, second in product('+-*', repeat=2):
        text(2, x + first + y + second + z + '<=1')
        text(2, x + first + '(' + y + second + z + ')<=1')

folder = sys.argv[1]
data = b''.join(records + fair_papers.records)
assert len(data) <= MOST_INPUT and len(records + fair_papers.records) <= MOST_CALLS, len(data)
open(folder + '/stdin', 'wb').write(data)
open(folder + '/stdout', 'w').write('\n'.join(lines + fair_papers.lines) + '\n')
print(len(records), 'texts', len(fair_papers.records), 'fair copies', len(data), 'bytes')
