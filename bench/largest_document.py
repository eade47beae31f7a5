#!/usr/bin/env python3
"""Writes to standard output the largest document that `las check` reads, up to white space.

The box is 8x8x8, with 32 ports and 32 flows of 32 letters. Columns of K pipes run from a Y cube at
the bottom to a port on the far K face. Flow n has a Y at port n and nothing elsewhere, and its
surfaces fill column n. So the document keeps every rule of pipes, colours and sheets. It is
989,914 bytes long, of which the greater part is white space: each entry has a line of its own.
"""
import json

SIDE = 8
PORTS = 32
COLUMNS = [(number // SIDE, number % SIDE) for number in range(PORTS)]


def grid(entry):
    return [[[entry(i, j, k) for k in range(SIDE)] for j in range(SIDE)] for i in range(SIDE)]


def in_column(i, j, k):
    return int((i, j) in COLUMNS)


def flows(entry):
    return [grid(lambda i, j, k: entry(flow, i, j, k)) for flow in range(PORTS)]


def in_column_of(flow, i, j, k):
    return int((i, j) == COLUMNS[flow])


nothing = grid(lambda i, j, k: 0)
no_sheets = flows(lambda flow, i, j, k: 0)
column_sheets = flows(in_column_of)
document = {
    **{name: nothing for name in ("ColorI", "ColorJ", "ColorKM", "ColorKP", "ExistI", "ExistJ")},
    **{name: no_sheets for name in ("CorrIJ", "CorrIK", "CorrJI", "CorrJK")},
    **{name: column_sheets for name in ("CorrKI", "CorrKJ")},
    "ExistK": grid(in_column),
    "NodeY": grid(lambda i, j, k: int(k == 0) * in_column(i, j, k)),
    "max_i": SIDE,
    "max_j": SIDE,
    "max_k": SIDE,
    "optional": {"forbidden_cubes": []},
    "ports": [
        {"direction": "-K", "location": [i, j, SIDE], "z_basis_direction": "J"} for i, j in COLUMNS
    ],
    "stabilizers": ["." * n + "Y" + "." * (PORTS - 1 - n) for n in range(PORTS)],
}
print(json.dumps(document, indent=1, sort_keys=True))
