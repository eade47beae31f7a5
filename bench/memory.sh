#!/bin/sh
# Runs bin/las, or the given program, on some examples, and refuses each of its growths of memory in turn (refuse.c). A run
# must end with status 9, with fronts of the texts and of the logs of the run without a refusal, and each whole line of a
# box beside its whole log; or, where the program can do without what it was refused, with the same answer. It must hold
# nothing at its end. Prints a line for each example, and ends with an error where a run comes out otherwise:
#     bench/memory.sh [PROGRAM]
set -eu
las=$(realpath "${1:-$(dirname -- "$0")/../bin/las}")
CDPATH= cd -- "$(dirname -- "$0")"
[ -x "$las" ] || { echo "there is no $las: run ./build first" >&2; exit 1; }
work=$(mktemp -d)
trap 'rm -rf "$work"' EXIT
${CC:-clang} -O1 -shared -fPIC -o "$work/refuse.so" refuse.c -ldl
python3 - "$las" "$PWD/../examples" "$work" <<'END'
import json, os, re, subprocess, sys, tempfile
las, examples, work = sys.argv[1:]


def example(name):
    return open(f"{examples}/{name}.json").read()


def run(words, source, files, number=None):
    folder = tempfile.mkdtemp(dir=work)
    for name, text in files.items():
        with open(f"{folder}/{name}", "w") as file:
            file.write(text)
    told = {"LD_PRELOAD": f"{work}/refuse.so", "REPORT": f"{work}/report"} | ({} if number is None else {"REFUSE": str(number)})
    done = subprocess.run([las, *words], input=source, capture_output=True, text=True, cwd=folder, env=told)
    growths, held = map(int, open(f"{work}/report").read().split())
    logs = {name: open(f"{folder}/{name}").read() for name in os.listdir(folder) if name.endswith(".log")}
    return (done.returncode, done.stdout, done.stderr, logs), growths, held


def is_front(part, whole):
    (status, out, err, logs), (_, whole_out, whole_err, whole_logs) = part, whole
    boxes = re.findall(r"^box (\S+) .*\n", err, re.M)
    return (
        status == 9
        and whole_out.startswith(out)
        and whole_err.startswith(err)
        and all(whole_logs[name].startswith(text) for name, text in logs.items())
        and all(logs[f"las-{box}.log"] == whole_logs[f"las-{box}.log"] for box in boxes)
    )


def try_all(words, source, files={}):
    whole, growths, held = run(words, source, files)
    same = fronts = 0
    for number in range(growths):
        part, _, kept = run(words, source, files, number)
        if held or kept or (part != whole and not is_front(part, whole)):
            sys.exit(f"{' '.join(words)}: growth {number} refused comes out otherwise: {part}, {kept} held")
        same, fronts = same + (part == whole), fronts + (part != whole)
    print(f"{' '.join(words)}: status {whole[0]}; of {growths} growths refused {fronts} end with 9 and fronts, {same} with the same answer")


one_port = {"location": [0, 1, 1], "direction": "-J", "z_basis_direction": "I"}
learns = json.dumps({"max_i": 1, "max_j": 1, "max_k": 3, "ports": [one_port], "stabilizers": ["Z"]})
try_all(["check"], "{")
try_all(["check"], example("wire"))
try_all(["spec"], example("cnot"))
try_all(["zx"], example("wire"))
try_all(["audit", "wire.json"], example("wire-spec"), {"wire.json": example("wire")})
try_all(["sweep", "--budget", "1000"], example("wire-spec"))
try_all(["sweep", "--budget", "1000"], example("cnot"))
try_all(["sweep", "--budget", "1000"], learns)
try_all(["bench", "3"], "")
END
