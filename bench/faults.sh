#!/bin/sh
# Runs bin/las, or the given program, against streams and folders of the system that fail, and prints a table of what came
# of each run: its status, and what stands on out, on err and in the log. It ends with an error where a status is not
# the one that is told beside the run:
#     bench/faults.sh [PROGRAM]
set -eu
las=$(realpath "${1:-$(dirname -- "$0")/../bin/las}")
CDPATH= cd -- "$(dirname -- "$0")/.."
[ -x "$las" ] || { echo "there is no $las: run ./build first" >&2; exit 1; }
work=$(mktemp -d)
trap 'rm -rf "$work"' EXIT
python3 - "$las" "$PWD/examples" "$work" <<'END'
import json, os, re, resource, signal, subprocess, sys, tempfile
las, examples, work = sys.argv[1:]
wire_spec = open(f"{examples}/wire-spec.json").read()
walls_spec = json.dumps(json.loads(wire_spec) | {"boxes": [[1, 1, 1]], "stabilizers": ["XZ", "ZX"]})
two_boxes = json.dumps(json.loads(walls_spec) | {"boxes": [[1, 1, 2], [1, 1, 1]]})
wire = open(f"{examples}/wire.json").read()
SWEEP = ["sweep", "--budget", "1000"]
CAPTURE = subprocess.PIPE


def closed_pipe():
    reader, writer = os.pipe()
    os.close(reader)
    return writer


def limited(most):
    # a write beyond so many bytes of a file is an error, and no signal
    def limit():
        signal.signal(signal.SIGXFSZ, signal.SIG_IGN)
        resource.setrlimit(resource.RLIMIT_FSIZE, (most, most))
    return limit


def leave():
    os.rmdir(os.getcwd())


def as_nobody():
    # the superuser may write everywhere
    if os.geteuid() == 0:
        os.setgroups([])
        os.setgid(65534)
        os.setuid(65534)


def lay_long_log(folder):
    # the box's clause 20 again and again, and at last the empty clause: accepted as long as it is there
    with open(f"{folder}/las-1x1x1.log", "w") as log:
        log.writelines(f"{number} -14 0 20 0\n" for number in range(34, 400_000))
        log.write("400000 0 20 22 0\n")


def remove_once_read(process, folder):
    while int(re.search(r"rchar: (\d+)", open(f"/proc/{process.pid}/io").read())[1]) < 1_000_000:
        pass
    os.remove(f"{folder}/las-1x1x1.log")


def shown(text):
    lines = " / ".join(text.splitlines()) + (" /" if text.endswith("\n") else "")
    return f"{len(text)} bytes: `{lines[:24]} ..`" if len(lines) > 40 else f"`{lines}`" if text else ""


def run(what, words, source, wanted, out=CAPTURE, err=CAPTURE, most=None, at_start=None, within=None, before=None, during=None, stdin=None):
    folder = within or tempfile.mkdtemp(dir=work)
    if before:
        before(folder)
    if stdin is None:
        with open(f"{work}/source", "w") as file:
            file.write(source)
        stdin = open(f"{work}/source")
    process = subprocess.Popen([las, *words], stdin=stdin, stdout=out, stderr=err, cwd=folder, preexec_fn=limited(most) if most else at_start)
    if during:
        during(process, folder)
    texts = []
    for stream, told in zip(("out", "err"), process.communicate()):
        if told is None and hasattr({"out": out, "err": err}[stream], "name"):
            name = {"out": out, "err": err}[stream].name
            told = open(name, "rb").read() if os.path.isfile(name) else b""
        text = (told or b"").decode()
        texts.append(shown(re.sub(r"\d+", "N", text) if during else text))
    name = f"{folder}/las-1x1x1.log"
    texts.append(shown(open(name).read()) if os.path.isfile(name) and not within else "")
    print(f"| {what} | `{' '.join(words)}` | {process.returncode} | {' | '.join(texts)} |")
    return process.returncode == wanted


os.chmod(work, 0o755)
print("| what fails | run | status | out | err | log |")
print("|---|---|---|---|---|---|")
full = open("/dev/full", "wb")
good = [
    run("nothing", ["check"], wire, 0),
    run("out is /dev/full", ["check"], wire, 6, out=full),
    run("err is /dev/full", ["check"], "{", 6, err=full),
    run("out is a pipe that nobody reads", ["zx"], wire, 6, out=closed_pipe()),
    run("out is a file that may have 100 bytes", SWEEP, wire_spec.replace("[1,1,2],", ""), 6, out=open(f"{work}/out", "wb"), most=100),
    run("in is a folder", ["check"], "", 5, stdin=os.open(work, os.O_RDONLY)),
    run("in can only be written", ["check"], "", 5, stdin=open(f"{work}/unread", "wb")),
    run("the folder takes no file (/proc)", SWEEP, wire_spec, 7, within="/proc"),
    run("the folder may only be read", SWEEP, wire_spec, 7, at_start=as_nobody, before=lambda folder: os.chmod(folder, 0o555)),
    run("the folder is gone", SWEEP, wire_spec, 7, at_start=leave),
    run("the log's name is a folder", SWEEP, walls_spec, 7, before=lambda folder: os.mkdir(f"{folder}/las-1x1x1.log")),
    run("the log's name is a pipe", SWEEP, walls_spec, 7, before=lambda folder: os.mkfifo(f"{folder}/las-1x1x1.log")),
    run("the log's name leads to itself", SWEEP, walls_spec, 7, before=lambda folder: os.symlink("las-1x1x1.log", f"{folder}/las-1x1x1.log")),
    run("the name of the second box's log is a folder", SWEEP, two_boxes, 7, before=lambda folder: os.mkdir(f"{folder}/las-1x1x2.log")),
    run("the log may have 5 bytes", SWEEP, walls_spec, 7, most=5),
    run("err is /dev/full, behind the log", SWEEP, walls_spec, 6, err=full),
    run("the log is a folder", ["verify", "--box", "1x1x1"], walls_spec, 7, before=lambda folder: os.mkdir(f"{folder}/las-1x1x1.log")),
    run("the log is long and stays", ["verify", "--box", "1x1x1"], walls_spec, 0, before=lay_long_log),
    run("the log vanishes once a part of it is read", ["verify", "--box", "1x1x1"], walls_spec, 1, before=lay_long_log, during=remove_once_read),
    run("the file is a folder", ["audit", "a.json"], wire_spec, 7, before=lambda folder: os.mkdir(f"{folder}/a.json")),
    run("the file's name leads nowhere", ["audit", "a.json"], wire_spec, 2, before=lambda folder: os.symlink("b.json", f"{folder}/a.json")),
]
if not all(good):
    sys.exit(f"runs {[number for number, is_good in enumerate(good) if not is_good]} came out otherwise")
END
