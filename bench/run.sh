#!/bin/sh
# Times the pieces of the store with the program `cas_bench`, built as proved, and then the shipped program, and prints each
# ratio beside its goal. Two things that are compared are run in turn, and each number is the median of several runs. The
# objects have 100 bytes each, and the script lines about 48.
set -eu
top=$(CDPATH='' cd -- "$(dirname -- "$0")/.." && pwd -P)
runs=${1:-5}
(cd "$top/crates/cas_bench" && rt run -- digest 1 >/dev/null 2>&1) || { echo 'cas_bench was not built: see rt run in crates/cas_bench' >&2; exit 1; }
work=$(mktemp -d)
trap 'rm -rf "$work"' EXIT
printf x | "$top/llvm-cas" --cas "$work/first" --make-blob >/dev/null
python3 - "$runs" "$top/crates/cas_bench/out/cas_bench" "$top/crates/cas_tool/out/cas_tool" "$work" <<'PYTHON'
import os, shutil, statistics, subprocess, sys, time

runs, program, tool, work = int(sys.argv[1]), sys.argv[2], sys.argv[3], sys.argv[4]


def spent(piece, count):
    """The seconds of one run of a piece."""
    done = subprocess.run([program, piece, str(count)], capture_output=True, check=True, text=True)
    return int(done.stderr) / 1e9


def compare(what, goal, one, other):
    """Runs both in turn, and prints the median time of each and the median of the ratios of neighbouring runs.

    A machine that is slow for a while is so for both, so the ratio is steadier than either time.
    """
    times = [(one(), other()) for _ in range(runs)]
    first, second = (statistics.median(pair[at] for pair in times) for at in (0, 1))
    ratio = statistics.median(a / b for a, b in times)
    told = 'as wanted' if ratio <= goal else 'OVER THE GOAL'
    print(f'{what}: {first:.4f} s to {second:.4f} s, ratio {ratio:.2f}, goal {goal:.2f} at most: {told}', flush=True)


def pieces(what, goal, one, other):
    compare(what, goal, lambda: spent(*one), lambda: spent(*other))


pieces('build of 100,000 objects, to hashing them', 3, ('build', 100000), ('digest', 100000))
pieces('contents of 200,000 objects, to half of them', 2.5, ('contents', 200000), ('contents', 100000))
pieces('parse of 16 MiB of act lines, to hashing their objects', 3, ('parse', 340000), ('acts', 340000))
pieces('parse of 340,000 lines, to half of them', 2.5, ('parse', 340000), ('parse', 170000))
pieces('check of 200,000 objects, 4,000,000 words, to hashing them', 3, ('check', 200000), ('digest', 200000))
pieces('check of 200,000 objects, to half of them', 2.5, ('check', 200000), ('check', 100000))
pieces('check of 200,000 records of one content, to half of them', 2.5, ('crowd', 200000), ('crowd', 100000))
pieces('check of 60,000 tables that overlap, to half of them', 2.5, ('overlaps', 60000), ('overlaps', 30000))
pieces('reading an image of 64 MiB, to its SHA-256', 2.5, ('read', 4), ('sum', 4))
pieces('making an image of 64 MiB, to its SHA-256', 1.5, ('image', 4), ('sum', 4))
pieces('bringing in a chain of 200,000 objects, to half of them', 2.5, ('bring-chain', 200000), ('bring-chain', 100000))
pieces('bringing in a tree of 200,000 leaves, to half of them', 2.5, ('bring-wide', 200000), ('bring-wide', 100000))
look = statistics.median(spent('look', 100000) for _ in range(runs))
print(f'a look among 100,000 objects: {look / 100000 * 1e9:.0f} ns, at most 63 loads of slots')

# ---- the shipped program


def run(folder, words, data=b''):
    """The seconds and the peak memory, in MiB, of one run."""
    begun = time.perf_counter()
    child = subprocess.Popen([tool, '--cas', folder] + words, stdin=subprocess.PIPE, stdout=subprocess.DEVNULL)
    child.stdin.write(data)
    child.stdin.close()
    _, status, usage = os.wait4(child.pid, 0)
    assert status == 0, (words, status)
    return time.perf_counter() - begun, usage.ru_maxrss / 1024


def fresh(words, data=b'', kept=None):
    """The seconds and the peak memory of one run, in a fresh folder or in a copy of this one."""
    folder = os.path.join(work, 'run')
    shutil.rmtree(folder, ignore_errors=True)
    if kept:
        shutil.copytree(kept, folder)
    return run(folder, words, data)


def several(words, data=b'', kept=None):
    """The median of the seconds of several runs, and their peak memory."""
    done = [fresh(words, data, kept) for _ in range(runs)]
    return statistics.median(seconds for seconds, _ in done), max(peak for _, peak in done)


def kept_folder(name, sizes, words):
    """A folder with one blob of each size, and the MiB of its image."""
    folder = os.path.join(work, name)
    for number, size in enumerate(sizes):
        run(folder, ['--make-blob'] + words, bytes([number]) * size)
    return folder, os.path.getsize(os.path.join(folder, 'v1.1')) / 2**20


def workload(rounds):
    return fresh(['--workload', str(rounds)])[0]


for rounds in (1000, 2000):
    seconds, _ = several(['--workload', str(rounds)])
    lines = 8 * (4 + rounds)
    hashing = statistics.median(spent('acts', 8 * rounds) for _ in range(runs))
    print(f'--workload {rounds}: {seconds:.4f} s, {lines / seconds:.0f} lines a second; hashing its objects {hashing:.4f} s')
compare('a workload of 2000 rounds, to one of 1000', 4, lambda: workload(2000), lambda: workload(1000))
small, _ = several(['--make-blob'], b'x')
print(f'a small command on an empty folder: {small * 1000:.1f} ms')
folder, image = kept_folder('half', [16777215, 16000000], [])
small, peak = several(['--make-blob'], b'x', folder)
print(f'a small command on an image of {image:.0f} MiB: {small:.4f} s, peak {peak:.0f} MiB')
folder, image = kept_folder('whole', [16777215] * 4, ['--size', '8500000'])
compare(f'--validate of an image of {image:.0f} MiB, to one pass of SHA-256', 4, lambda: fresh(['--validate'], kept=folder)[0], lambda: spent('sum', 4))
_, peak = several(['--validate'], kept=folder)
print(f'its peak memory: {peak:.0f} MiB, {peak / image:.1f} times the image')
stored, peak = several(['--make-blob'], b'x', folder)
print(f'--make-blob on it: {stored:.4f} s, peak {peak:.0f} MiB: the opened words, the port, the closed words and two images have {5 * image:.0f} MiB')
blob = b'a' * 16777215
compare('--make-blob of 16 MiB, to two passes of SHA-256', 2, lambda: fresh(['--make-blob'], blob)[0], lambda: 2 * spent('sum', 1))
PYTHON
