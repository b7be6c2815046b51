#!/bin/sh
# Times `--make-blob` on 16 MiB less one byte against one pass of the kit's SHA-256 over the same bytes in memory, with
# the read: prints both in seconds, the least of several runs each, and their ratio beside its goal of 1.3.
set -eu
top=$(CDPATH='' cd -- "$(dirname -- "$0")/.." && pwd -P)
runs=${1:-7}
work=$(mktemp -d)
trap 'rm -rf "$work"' EXIT
head -c 16777215 /dev/urandom >"$work/data"
printf x | "$top/llvm-cas" --cas "$work/store" --make-blob >/dev/null

# The pass to compare with is a program of its own, which is not shipped.
cp -R "$top/bench/pass" "$work/pass"
(cd "$work" && git init -q . && mkdir crates && mv pass crates/pass && printf 'pass: sha2 hex\n' >crates.txt &&
    mkdir crates/pass/src && mv crates/pass/main.rt.txt crates/pass/src/main.rt && cd crates/pass && rt run <"$work/data" >"$work/build.log" 2>&1) ||
    { cat "$work/build.log" >&2; exit 1; }

least() {
    python3 - "$runs" "$work/data" "$@" <<'PYTHON'
import subprocess, sys, time
runs, data, command = int(sys.argv[1]), sys.argv[2], sys.argv[3:]
best = None
for _ in range(runs):
    with open(data, 'rb') as source:
        begun = time.perf_counter()
        subprocess.run(command, stdin=source, stdout=subprocess.DEVNULL, check=True)
        spent = time.perf_counter() - begun
    best = spent if best is None else min(best, spent)
print(f'{best:.4f}')
PYTHON
}

pass=$(least "$work/crates/pass/out/pass")
blob=$(least "$top/llvm-cas" --cas "$work/store" --make-blob)
echo "read and one pass of SHA-256: $pass s"
echo "--make-blob:                  $blob s"
python3 -c "print(f'ratio {$blob / $pass:.2f}, goal 1.30 at most')"
