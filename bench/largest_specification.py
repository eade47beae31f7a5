#!/usr/bin/env python3
"""Writes to standard output a specification of 4,194,304 bytes, the most that `las spec` reads.

The box is 8x8x8, with 32 ports on the far K face, 32 flows of 32 letters, all 512 cells forbidden and
64 boxes. All of that is some 10,000 bytes: a member which is not read, of small arrays, fills the rest.
"""
import json
import sys

LIMIT = 4_194_304
SIDE = 8
PORTS = 32

cells = [[i, j, k] for i in range(SIDE) for j in range(SIDE) for k in range(SIDE)]
boxes = [[i, SIDE, k] for i in range(4, 17) for k in range(1, 17) if i * k <= 64]
specification = {
    "max_i": SIDE,
    "max_j": SIDE,
    "max_k": SIDE,
    "ports": [
        {
            "location": [number // SIDE, number % SIDE, SIDE],
            "direction": "-K",
            "z_basis_direction": "J",
        }
        for number in range(PORTS)
    ],
    "stabilizers": ["XYZ."[n % 4] * PORTS for n in range(PORTS)],
    "optional": {"forbidden_cubes": cells},
    "boxes": boxes[:64],
}
text = json.dumps(specification)[:-1] + ', "notes": ['
entry = "[1, 2, 3], "
entries = (LIMIT - len(text) - len("[0]]}")) // len(entry)
text += entry * entries + "[0]]}"
sys.stdout.write(text + " " * (LIMIT - len(text)))
