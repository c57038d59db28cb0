"""Sheets of documents 01 and 02 built from named fields, so that the place of each field is known without reading the sheet back."""


class Sheet:
    """A list of (name, size in bytes, value); L is worked out when the bytes are made, unless it is set."""

    def __init__(self, kind):
        self.fields = [('L', 2, None), ('version', 1, 1), ('kind', 1, kind)]

    def add(self, name, size, value):
        self.fields.append((name, size, value))

    def rows(self, name, rows):
        """A condition: the count, then each row's coefficients and bound."""
        self.add(name, 1, len(rows))
        for i, row in enumerate(rows):
            for j, number in enumerate(row):
                self.add(f'{name}.{i}.{j}', 4, number)

    def place(self, name):
        at = 0
        for other, size, _ in self.fields:
            if other == name:
                return at
            at += size
        raise KeyError(name)

    def length(self):
        return sum(size for _, size, _ in self.fields)

    def value(self, name):
        return next(value for other, _, value in self.fields if other == name)

    def set(self, name, value):
        """The same sheet with one field changed."""
        self.place(name)
        changed = Sheet(0)
        changed.fields = [(other, size, value if other == name else old) for other, size, old in self.fields]
        return changed

    def versioned(self, version, paper):
        """The same sheet in another version; from version 3 on its body begins with a paper number (document 02, order 7)."""
        changed = self.set('version', version)
        body = [field for field in changed.fields[3:] if field[0] != 'paper']
        changed.fields[3:] = [('paper', 4, paper)] + body if version >= 3 else body
        return changed

    def bytes(self):
        numbers = [(size, self.length() - 2 if value is None else value) for _, size, value in self.fields]
        return b''.join((number % 256 ** size).to_bytes(size, 'big') for size, number in numbers)


def fixed(data):
    """The same bytes with L made right."""
    return ((len(data) - 2) % 65536).to_bytes(2, 'big') + data[2:] if len(data) >= 2 else data


def mode(start=1, initial=(), invariant=(), flow=()):
    return start, initial, invariant, flow


def switch(source, target, label=0, jump=()):
    return source, target, label, jump


def component(modes, switches=(), alphabet=0):
    return alphabet, modes, switches


def alphabet(*events):
    return sum(1 << event for event in events)


def model(owners, components, unsafe=()):
    """A model sheet. An unsafe condition is (modes, rows); a row is its coefficients, then its bound."""
    s = Sheet(1)
    s.add('n', 1, len(owners))
    s.add('c', 1, len(components))
    s.add('unsafe', 1, len(unsafe))
    for v, owner in enumerate(owners):
        s.add(f'owner{v}', 1, owner)
    for k, (events, modes, switches) in enumerate(components):
        s.add(f'alphabet{k}', 2, events)
        s.add(f'modes{k}', 1, len(modes))
        s.add(f'switches{k}', 1, len(switches))
        for j, (start, initial, invariant, flow) in enumerate(modes):
            s.add(f'start{k}.{j}', 1, start)
            s.rows(f'initial{k}.{j}', initial)
            s.rows(f'invariant{k}.{j}', invariant)
            s.rows(f'flow{k}.{j}', flow)
        for i, (source, target, label, jump) in enumerate(switches):
            s.add(f'source{k}.{i}', 1, source)
            s.add(f'target{k}.{i}', 1, target)
            s.add(f'label{k}.{i}', 1, label)
            s.rows(f'jump{k}.{i}', jump)
    for u, (modes, rows) in enumerate(unsafe):
        for k, fit in enumerate(modes):
            s.add(f'fit{u}.{k}', 1, fit)
        s.rows(f'rows{u}', rows)
    return s


def certificate(regions, proofs):
    """A certificate sheet. A region is its rows; a proof is k and its (hypothesis, multiplier) pairs."""
    s = Sheet(2)
    s.add('locations', 1, len(regions))
    for location, rows in enumerate(regions):
        s.rows(f'region{location}', rows)
    for i, (k, entries) in enumerate(proofs):
        s.add(f'k{i}', 4, k)
        s.add(f'entries{i}', 1, len(entries))
        for j, (hypothesis, multiplier) in enumerate(entries):
            s.add(f'hypothesis{i}.{j}', 1, hypothesis)
            s.add(f'multiplier{i}.{j}', 4, multiplier)
    return s


def flow(time, *values):
    return [('step', 1, 0), ('time', 4, time)], values


def jump(event, switches, *values):
    return [('step', 1, 1), ('event', 1, event)] + [(f'switch{k}.', 1, i) for k, i in enumerate(switches)], values


def run(q, location, values, *steps):
    """A run sheet. The fields of step i end in its number: step2, time2, switch0.2, p1.2."""
    s = Sheet(3)
    s.add('q', 4, q)
    s.add('steps', 2, len(steps))
    s.add('location', 1, location)
    for v, p in enumerate(values):
        s.add(f'p{v}', 4, p)
    for i, (fields, after) in enumerate(steps):
        for name, size, value in fields:
            s.add(f'{name}{i}', size, value)
        for v, p in enumerate(after):
            s.add(f'p{v}.{i}', 4, p)
    return s
