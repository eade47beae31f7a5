#!/usr/bin/env python3
"""Writes to standard output a log that refutes a box, of about so many bytes; always the same one.

    long_log.py SPECIFICATION IxJxK BYTES

It adds clauses that follow by a chain of resolutions from live ones, as a solver's lessons do: in each step of the
chain a literal gives place to the rest of a clause with its negation. The clauses of the chain, backwards, are the
hints. Short ones serve in chains to come, as do the box's clauses. Now and then half of the added clauses are
removed. All of this stands there in rounds, each time under new ids. At the end unit steps refute the box's
clauses, of which there have to be units enough.
"""
import random
import sys

from clauses import box_of

ROUNDS = 8
LIVE = 6000  # added clauses, of which then half are removed
SHORT = 24  # literals, at most, of an added clause that serves in chains
LONGEST = 60  # literals of an added clause
LATE = 0.4  # an exponent of draws: the further it is below 1, the later are the clauses that serve
TRIES = 4  # partners that are looked at for a literal, of which the shortest that fits is taken
MISSES = 15  # literals without a partner, after which a chain ends
draw = random.Random(1).random


def pick(items):
    """One of the items, rather a late one."""
    return items[int(draw() ** LATE * len(items))]


class Clauses:
    """The clauses that serve in chains, by their ids, and where each literal stands."""

    def __init__(self, clauses):
        self.lits, self.negated, self.with_lit, self.numbers = {}, {}, {}, []
        for number, clause in clauses:
            self.add(number, clause)

    def add(self, number, clause):
        self.lits[number] = clause
        self.negated[number] = {-lit for lit in clause}
        self.numbers.append(number)
        for lit in clause:
            self.with_lit.setdefault(lit, []).append(number)

    def partner(self, lit, held, gone):
        """A clause that can be resolved on the literal with the clause of the literals held, or 0."""
        best, length = 0, LONGEST + 2 - len(held)
        for _ in range(TRIES):
            number = pick(self.with_lit.get(-lit, [0]))
            if number and len(self.lits[number]) < length and len(held) + len(self.lits[number]) > 3:
                if len(held & self.negated[number]) == 1 and gone.isdisjoint(self.lits[number]):
                    best, length = number, len(self.lits[number])
        return best

    def chain(self, steps):
        """The literals of a clause that follows, and its hints."""
        hints, gone, misses = [self.numbers[int(draw() * len(self.numbers))]], set(), 0
        lits = list(self.lits[hints[0]])
        held = set(lits)
        while len(hints) < steps and misses < MISSES:
            place = int(draw() * len(lits))
            lit = lits[place]
            number = self.partner(lit, held, gone)
            if not number:
                misses += 1
                continue
            hints.append(number)
            gone.update((lit, -lit))
            held.discard(lit)
            lits[place] = lits[-1]
            lits.pop()
            lits.extend(other for other in self.lits[number] if other != -lit and other not in held)
            held.update(lits)
        return lits, hints[::-1]


def round_of(formula, size):
    """The lines of a round: each its number, what stands between that and the ids, and the ids."""
    serving, lines, added, last = Clauses(formula.items()), [], [], len(formula)
    while size > 0:
        lits, hints = serving.chain(2 + int(100 * draw() ** 2))
        last += 1
        lines.append((last, " ".join(map(str, lits + [0])), hints))
        size -= len(text_of(*lines[-1]))
        added.append(last)
        if len(lits) <= SHORT:
            serving.add(last, lits)
        if len(added) == LIVE:
            removed = {number for number in added if draw() < 0.5}
            lines.append((last, "d", sorted(removed)))
            added = [number for number in added if number not in removed]
            serving = Clauses(item for item in serving.lits.items() if item[0] not in removed)
    return lines


def text_of(number, words, ids):
    return f"{number} {words} {' '.join(map(str, ids))} 0\n"


def unit_refutation(formula):
    """The ids of clauses that become units one after the other, and of one that is then false."""
    reasons, found = {}, True  # why a literal is true
    while found:
        found = False
        for number, clause in formula.items():
            rest = {lit for lit in clause if -lit not in reasons}
            if not rest:
                return hints_of(formula, number, reasons)
            if len(rest) == 1 and not rest & reasons.keys():
                reasons[rest.pop()], found = number, True
    sys.exit("unit steps alone do not refute this box")


def hints_of(formula, conflict, reasons):
    hints, needed = [conflict], {-lit for lit in formula[conflict]}
    for lit, number in reversed(reasons.items()):
        if lit in needed:
            hints.append(number)
            needed.update(-other for other in formula[number])
    return hints[::-1]


def main():
    box, size = box_of(*sys.argv[1:3]), int(sys.argv[3])
    formula = {number: tuple(dict.fromkeys(clause)) for number, clause in enumerate(box.clauses(), 1)}
    end, lines = unit_refutation(formula), round_of(formula, size // ROUNDS)
    first = len(formula)
    last = lines[-1][0]
    for shift in range(0, ROUNDS * (last - first), last - first):
        for number, words, ids in lines:
            sys.stdout.write(text_of(number + shift, words, [id + shift * (id > first) for id in ids]))
    sys.stdout.write(text_of(first + ROUNDS * (last - first) + 1, "0", end))


if __name__ == "__main__":
    main()
