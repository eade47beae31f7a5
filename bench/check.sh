#!/bin/sh
# Checking a long log: `las verify` beside a plain checker in C (check.c) and beside `wc -l`, which only reads it. The
# log is made here, of about 50 MB, for the first box of the ring of six; or it is the given one, for a listed box:
#     bench/check.sh [SPECIFICATION IxJxK LOG]
set -eu
specification=$(realpath "${1:-$(dirname -- "$0")/../examples/ring-of-six.json}")
box=${2:-6x1x3}
given=${3:+$(realpath "$3")}
CDPATH= cd -- "$(dirname -- "$0")"
las=$PWD/../bin/las
[ -x "$las" ] || { echo "there is no bin/las: run ./build first" >&2; exit 1; }
work=$(mktemp -d)
trap 'rm -rf "$work"' EXIT
python3 clauses.py "$specification" "$box" >"$work/clauses"
if [ "$given" ]; then
    cp "$given" "$work/las-$box.log"
else
    python3 -B long_log.py "$specification" "$box" 50000000 >"$work/las-$box.log"
fi
${CC:-clang} -O2 -o "$work/check" check.c
cd "$work"
python3 - "$las" "$box" "$specification" <<'END'
import os, subprocess, sys, time
RUNS = 7
las, box, specification = sys.argv[1:]
log = f"las-{box}.log"
commands = {
    "wc": ["wc", "-l", log],
    "C": ["./check", "clauses", log],
    "las": [las, "verify", "--box", box],
}
least, said = {}, {}
for run in range(RUNS):
    for name, command in commands.items():
        with open(specification, "rb") as document:
            start = time.perf_counter()
            done = subprocess.run(command, stdin=document, capture_output=True, text=True)
            took = (time.perf_counter() - start) * 1000
        least[name], said[name] = min(took, least.get(name, took)), (done.stdout + done.stderr).strip()
print(f"{log}: {os.path.getsize(log):,} bytes, {int(said['wc'].split()[0]):,} lines; C {said['C']}, las {said['las']}")
times = ", ".join(f"{name} {took:.1f} ms" for name, took in least.items())
print(f"least of {RUNS} runs: {times}; las/C {least['las'] / least['C']:.2f}, las/wc {least['las'] / least['wc']:.1f}")
if said["C"] != "accepted" or said["las"] != "accepted":
    sys.exit("the log is not accepted by both")
END
