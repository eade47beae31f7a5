#!/bin/sh
# For each command, mean wall-clock times of whole runs of `bin/las` and of Python's json on the largest
# document, and their ratio.
set -eu
CDPATH= cd -- "$(dirname -- "$0")/.."
document=$(mktemp)
trap 'rm -f "$document"' EXIT
measure() {
    python3 "$2" >"$document"
    python3 - "$1" "$document" <<'ENDPY'
import subprocess, sys, time
RUNS = 20
name = sys.argv[1]
commands = [["bin/las", name], ["python3", "-c", "import json,sys; json.load(sys.stdin)"]]
totals = [0.0, 0.0]
for run in range(RUNS + 1):  # run 0 is the warm-up
    for which, command in enumerate(commands):
        with open(sys.argv[2], "rb") as document:
            start = time.perf_counter()
            subprocess.run(command, stdin=document, stdout=subprocess.DEVNULL, check=True)
            totals[which] += (time.perf_counter() - start) * (run > 0)
las, python = (total / RUNS * 1000 for total in totals)
print(f"las {name} {las:.1f} ms, python json {python:.1f} ms, las/python {las / python:.3f}")
ENDPY
}
measure check bench/largest_document.py
measure spec bench/largest_specification.py
