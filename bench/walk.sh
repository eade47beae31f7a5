#!/bin/sh
# Propagation beside the same walk written in C (walk.c), on the same clauses and decisions: a chain of 500,000
# clauses in a scattered order, and 100,000 random clauses of three literals under random decisions. Both say
# what they met, which must agree, and how long it took. The walk in Rattle is bench/walk; its files end in .txt, so
# that the gate takes no part in it. It is proved and built here, in a folder of its own, with copies of the
# crates that it stands on.
set -eu
CDPATH= cd -- "$(dirname -- "$0")"
work=$(mktemp -d)
trap 'rm -rf "$work"' EXIT
for crate in cnf_base clause_arena watch_lists; do
    mkdir -p "$work/crates/$crate"
    cp -r "../crates/$crate/src" "../crates/$crate/specs" "../crates/$crate/proofs" "$work/crates/$crate"
done
(cd walk && find . -name '*.txt') | while read -r file; do
    mkdir -p "$work/crates/walk/$(dirname "$file")"
    cp "walk/$file" "$work/crates/walk/${file%.txt}"
done
cat >"$work/crates.txt" <<'END'
cnf_base:
clause_arena: cnf_base
watch_lists: cnf_base clause_arena
walk: cnf_base clause_arena watch_lists anyhow
END
echo "walk: prove and build the walk in Rattle"
(cd "$work/crates/walk" && rt run >"$work/first" 2>"$work/log") || { cat "$work/log"; exit 1; }
${CC:-clang} -O2 -o "$work/walk_c" walk.c
python3 - "$work/walk_c" "$work/crates/walk/out/walk" <<'END'
import subprocess, sys
RUNS = 7
least = [{}, {}]
for run in range(RUNS):
    met = []
    for which, program in enumerate(sys.argv[1:]):
        said = subprocess.run([program], capture_output=True, text=True, check=True).stdout.splitlines()
        met.append([line.split(";")[0] for line in said])
        for line in said:
            name, time = line.split()[0], float(line.split(";")[1].split()[0])
            least[which][name] = min(time, least[which].get(name, time))
    assert met[0] == met[1], met
for line in met[0]:
    name = line.split()[0]
    c, rattle = least[0][name], least[1][name]
    print(f"{line}: least of {RUNS} runs: C {c:.1f} ms, propagate {rattle:.1f} ms, ratio {rattle / c:.2f}")
END
