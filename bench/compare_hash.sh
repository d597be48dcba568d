#!/bin/sh
# Builds the program proved, and compares what `hash` prints of files of telling sizes with what rhash prints of
# them: the ed2k hash and the AICH root. Where rhash isn't there, nothing is compared.
# With a number of bytes as its argument, also times both over files of random bytes: 1 MB, 10 MB and so many.
set -eu
top=$(cd "$(dirname "$0")/.." && pwd)
if ! command -v rhash > /dev/null; then
    echo "rhash isn't there: nothing was compared"
    exit 0
fi
work=$(mktemp -d)
trap 'rm -rf "$work"' EXIT
cd "$top/crates/ed2k_prog"
rt run -- link 'ed2k://|file|abc|3|A448017AAF21D8525FC10AE87AA6729D|/' > /dev/null 2>&1
node=$top/crates/ed2k_prog/out/ed2k_prog
cd "$work"
head -c 86814720 /dev/urandom > all
differ=0
# around a block, four blocks, a part, four parts, and their sums
for size in 1 184319 184320 184321 737279 737280 737281 921600 9584640 9727999 9728000 9728001 10465280 19456000 \
    20000007 38911999 38912000 38912001 39649280 39649281 48640000 77824000 77824001 86814720; do
    head -c "$size" all > bytes
    own=$("$node" hash bytes)
    hash=$(rhash --printf='%{ed2k}' bytes | tr a-z A-Z)
    root=$(rhash --printf='%{aich}' bytes | tr a-z A-Z)
    if [ "$own" = "ed2k://|file|bytes|$size|$hash|h=$root|/" ]; then
        echo "$size: the same"
    else
        differ=1
        echo "$size: $own"
        echo "    rhash: $hash $root"
    fi
done
rm all
# both over a file of so many bytes, so many runs in turn: the best of five, as seconds of processor time and
# elapsed of a run
timed() {
    head -c "$1" /dev/urandom > bytes
    python3 -c 'import resource, subprocess, sys, time

def run(command, runs):
    before, start = resource.getrusage(resource.RUSAGE_CHILDREN), time.perf_counter()
    for _ in range(runs):
        subprocess.run(command, stdout=subprocess.DEVNULL, check=True)
    elapsed, after = time.perf_counter() - start, resource.getrusage(resource.RUSAGE_CHILDREN)
    spent = after.ru_utime + after.ru_stime - before.ru_utime - before.ru_stime
    return spent / runs, elapsed / runs

node, size, runs = sys.argv[1], sys.argv[2], int(sys.argv[3])
turns = [(run([node, "hash", "bytes"], runs), run(["rhash", "--ed2k", "--aich", "bytes"], runs)) for _ in range(5)]
own, other = (tuple(min(turn[k][i] for turn in turns) for i in (0, 1)) for k in (0, 1))
print(f"{size} bytes, seconds of processor time and elapsed: hash {own[0]:.5f} {own[1]:.5f}, "
      f"rhash --ed2k --aich {other[0]:.5f} {other[1]:.5f}")
print(f"hash takes {own[0] / other[0]:.2f} of the processor time of rhash, {own[1] / other[1]:.2f} elapsed")' "$node" "$1" "$2"
}
if [ -n "${1:-}" ]; then
    timed 1000000 100
    timed 10000000 100
    timed "$1" 1
fi
exit "$differ"
