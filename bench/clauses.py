#!/usr/bin/env python3
"""Writes to standard output the clauses of a box of a specification, as DIMACS.

    clauses.py SPECIFICATION IxJxK

The clauses and their order are those of the table in docs/FORMATS.md, so that a clause's number is its id in a log.
A position of a pipe's end is an axis and a way, as (2, -1) for K-.
"""
import itertools
import json
import sys

AXES = (0, 1, 2)
POSITIONS = [(axis, way) for axis in AXES for way in (-1, 1)]
Y, EXIST, COLOR, COLOR_KP = 0, 1, 4, 7
SHEETS = [(0, 1), (0, 2), (1, 0), (1, 2), (2, 0), (2, 1)]


def third(a, b):
    return 3 - a - b


def moved(cell, axis, steps):
    return tuple(n + steps * (axis == along) for along, n in enumerate(cell))


class Box:
    def __init__(self, specification, size):
        own = [specification[name] for name in ("max_i", "max_j", "max_k")]
        self.size = size
        self.volume = size[0] * size[1] * size[2]
        self.cells = list(itertools.product(*map(range, size)))
        self.ports = []
        for port in specification["ports"]:
            place = tuple(size[a] if n == own[a] else n for a, n in enumerate(port["location"]))
            way, axis = port["direction"]
            position = ("IJK".index(axis), 1 if way == "+" else -1)
            self.ports.append((place, position, "IJK".index(port["z_basis_direction"])))
        self.places = {place for place, _, _ in self.ports}
        self.inner = [cell for cell in self.cells if cell not in self.places]
        forbidden = specification.get("optional", {}).get("forbidden_cubes", [])
        self.forbidden = [cell for cell in dict.fromkeys(map(tuple, forbidden)) if self.holds(cell)]
        self.flows = specification["stabilizers"]
        self.vars = (8 + 6 * len(self.flows)) * self.volume

    def holds(self, cell):
        return all(0 <= n < side for n, side in zip(cell, self.size))

    def low(self, cell, p):
        return cell if p[1] > 0 else moved(cell, p[0], -1)

    def positions(self, cell):
        return [p for p in POSITIONS if self.holds(self.low(cell, p))]

    def var(self, member, cell):
        i, j, k = cell
        return 1 + member * self.volume + (i * self.size[1] + j) * self.size[2] + k

    def y(self, cell):
        return self.var(Y, cell)

    def e(self, cell, p):
        return self.var(EXIST + p[0], self.low(cell, p))

    def z(self, cell, p, b):
        member = COLOR_KP if p == (2, -1) else COLOR + p[0]
        return self.var(member, self.low(cell, p)) * (1 if b == (p[0] + 1) % 3 else -1)

    def s(self, flow, cell, p, b):
        return self.var(8 + 6 * flow + SHEETS.index((p[0], b)), self.low(cell, p))

    def clauses(self):
        yield from self.rules_of_pipes()
        yield from self.rules_of_colours()
        for flow, word in enumerate(self.flows):
            yield from self.rules_of_sheets(flow, word)

    def rules_of_pipes(self):
        for axis, cell in itertools.product(AXES, self.cells):
            high = moved(cell, axis, 1)
            if not self.holds(high) and high not in self.places:
                yield [-self.e(cell, (axis, 1))]
        for place, own, _ in self.ports:
            yield [self.e(place, own)]
            yield from ([-self.e(place, p)] for p in self.positions(place) if p != own)
            if self.holds(place):
                yield [-self.y(place)]
        for cell in self.forbidden:
            yield from ([-self.e(cell, p)] for p in self.positions(cell))
            yield [-self.y(cell)]
        for cell in self.inner:
            yield from ([-self.y(cell), -self.e(cell, p)] for p in self.positions(cell) if p[0] != 2)
            along = [self.e(cell, p) for p in self.positions(cell) if p[0] == 2]
            yield [-self.y(cell)] + along
            if len(along) == 2:
                yield [-self.y(cell)] + [-e for e in along]
        for cell in self.inner:
            for p in self.positions(cell):
                yield [-self.e(cell, p)] + [self.e(cell, q) for q in self.positions(cell) if q != p] + [self.y(cell)]
        for cell in self.inner:
            for three in itertools.product(*([p for p in self.positions(cell) if p[0] == axis] for axis in AXES)):
                yield [-self.e(cell, p) for p in three]

    def rules_of_colours(self):
        for cell in self.inner:
            for p, q in itertools.combinations(self.positions(cell), 2):
                b = (p[0] + 1) % 3 if p[0] == q[0] else third(p[0], q[0])
                for sign in (1, -1):
                    yield [-self.e(cell, p), -self.e(cell, q), -sign * self.z(cell, p, b), sign * self.z(cell, q, b)]
        for place, own, z_axis in self.ports:
            yield [self.z(place, own, z_axis)]
        for axis, cell in itertools.product(AXES, self.cells):
            for member in (COLOR + axis, COLOR_KP)[: 1 + (axis == 2)]:
                yield [self.e(cell, (axis, 1)), -self.var(member, cell)]

    def rules_of_sheets(self, flow, word):
        for axis, cell in itertools.product(AXES, self.cells):
            for b in AXES:
                if b != axis:
                    yield [self.e(cell, (axis, 1)), -self.s(flow, cell, (axis, 1), b)]
        for (place, own, z_axis), letter in zip(self.ports, word):
            yield [self.s(flow, place, own, z_axis) * (1 if letter in "ZY" else -1)]
            yield [self.s(flow, place, own, third(own[0], z_axis)) * (1 if letter in "XY" else -1)]
        for cell in self.inner:
            for p in self.positions(cell):
                if p[0] == 2:
                    for sign in (1, -1):
                        yield [-self.y(cell), -sign * self.s(flow, cell, p, 0), sign * self.s(flow, cell, p, 1)]
        for cell, d in itertools.product(self.inner, AXES):
            yield from self.rules_of_joint(flow, cell, d)

    def rules_of_joint(self, flow, cell, d):
        legs = [self.e(cell, p) for p in self.positions(cell) if p[0] == d]
        beside = [p for p in self.positions(cell) if p[0] != d]
        for number in range(1 << len(beside)):
            chosen = [number >> place & 1 for place in range(len(beside))]
            if sum(chosen) % 2:
                yield legs + [self.y(cell)] + [(1 - 2 * c) * self.s(flow, cell, p, d) for c, p in zip(chosen, beside)]
        for p, q in itertools.permutations(beside, 2):
            spans = [self.s(flow, cell, r, third(d, r[0])) for r in (p, q)]
            yield legs + [-spans[0], -self.e(cell, q), spans[1]]


def box_of(specification_name, box_name):
    with open(specification_name) as file:
        return Box(json.load(file), tuple(map(int, box_name.split("x"))))


if __name__ == "__main__":
    box = box_of(*sys.argv[1:])
    clauses = list(box.clauses())
    print("p cnf", box.vars, len(clauses))
    for clause in clauses:
        print(*clause, 0)
