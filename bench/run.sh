#!/bin/sh
# Builds the benchmark program proved, runs each job on large sizes, and prints its speed beside that of other
# programs on the same number of bytes, or beside std's Mutex, in one run on this machine. A program that isn't there
# is skipped.
#   bench/run.sh [BYTES] [elapsed|processor]
# Times are elapsed ones, or those of all processors, user and system, which other programs that run disturb less.
set -eu
top=$(cd "$(dirname "$0")/.." && pwd)
size=${1:-536870912}
by=${2:-elapsed}
turns=10000000
slow_turns=50
work=$(mktemp -d)
trap 'rm -rf "$work"' EXIT
cd "$top/crates/ed2k_bench"
rt run -- md4 1 > /dev/null 2>&1
bench=$top/crates/ed2k_bench/out/ed2k_bench
head -c "$size" /dev/urandom > "$work/bytes"

# the time of one run in seconds, elapsed or of all processors
timed() {
    /usr/bin/env python3 -c 'import os, subprocess, sys, time
start = time.perf_counter()
run = subprocess.Popen(sys.argv[2:], stdout=subprocess.DEVNULL, stderr=subprocess.DEVNULL)
_, status, used = os.wait4(run.pid, 0)
elapsed = time.perf_counter() - start
if status != 0:
    sys.exit(1)
print("%.4f" % (used.ru_utime + used.ru_stime if sys.argv[1] == "processor" else elapsed))' "$@"
}

# the best of five runs
best() {
    for _ in 1 2 3 4 5; do timed "$by" "$@"; done | sort -n | head -1
}

# the middle one, for threads that may or may not meet at a lock
middle() {
    for _ in 1 2 3 4 5; do timed "$by" "$@"; done | sort -n | sed -n 3p
}

# a line of a job: its name, its seconds, its MiB a second, and its share of the other's speed
line() {
    awk -v name="$1" -v own="$2" -v other="${3:-0}" -v with="${4:-}" -v size="$size" 'BEGIN {
        printf "%-12s %8.3f s %8.0f MiB/s", name, own, size / 1048576 / own
        if (other > 0) printf "   %.2f of the speed of %s (%.3f s)", other / own, with, other
        printf "\n" }'
}

# a line of turns at the lock: their name, their number, their seconds, and how often the time of the Mutex that is
locks() {
    awk -v name="$1" -v count="$2" -v own="$3" -v other="$4" 'BEGIN {
        printf "%-12s %8.3f s %8.1f ns a turn   %.2f times the time of std'\''s Mutex (%.3f s)\n", name, own, own * 1e9 / count, own / other, other }'
}

echo "$(nproc) processors, $size bytes, $by time"
md4=$(best "$bench" md4 "$size")
if command -v rhash > /dev/null; then line md4 "$md4" "$(best rhash --md4 "$work/bytes")" "rhash --md4"; else echo "rhash isn't there"; fi
if openssl dgst -provider legacy -provider default -md4 /dev/null > /dev/null 2>&1; then
    line md4 "$md4" "$(best openssl dgst -provider legacy -provider default -md4 "$work/bytes")" "openssl's MD4"
else
    echo "openssl has no MD4"; line md4 "$md4"
fi
sha1=$(best "$bench" sha1 "$size")
if command -v rhash > /dev/null; then line sha1 "$sha1" "$(best rhash --sha1 "$work/bytes")" "rhash --sha1"; fi
if command -v openssl > /dev/null; then line sha1 "$sha1" "$(best openssl dgst -sha1 "$work/bytes")" "openssl's SHA-1"; fi
hash=$(best "$bench" hash "$size")
if command -v rhash > /dev/null; then
    line hash "$hash" "$(best rhash --ed2k --aich "$work/bytes")" "rhash --ed2k --aich"
else
    line hash "$hash"
fi
line frames "$(best "$bench" frames "$size")" "$md4" "md4 above"
line messages "$(best "$bench" messages "$size")" "$md4" "md4 above"
# a session's time is that of a run with it, less that of a run which only makes what it needs
whole=$(best "$bench" session "$size") ready=$(best "$bench" session_ready "$size")
line session "$(awk -v whole="$whole" -v ready="$ready" 'BEGIN { printf "%.4f", whole - ready }')" "$md4" "md4 above"
locks turns "$turns" "$(best "$bench" turns "$turns")" "$(best "$bench" locks "$turns")"
for by_many in "8 100000" "64 10000"; do
    passes=${by_many% *} each=${by_many#* }
    locks "turns_by_$passes" $((passes * each)) "$(middle "$bench" "turns_by_$passes" "$each")" \
        "$(middle "$bench" "locks_by_$passes" "$each")"
done
# two words that are looked for in a million names, beside grep over the same names in one file: the processor time of
# the search alone, and that of both greps
names=1000000
"$bench" names "$names" > "$work/names"
for job in search search_often; do
    read -r _ _ _ found first second << SEARCH
$("$bench" "$job" "$names")
SEARCH
    greps="LC_ALL=C grep -iw $first '$work/names' | LC_ALL=C grep -icw $second"
    [ "$found" = "$(sh -c "$greps")" ] || echo "the greps find another number of names than $found"
    searched=$(for _ in 1 2 3 4 5; do "$bench" "$job" "$names"; done | cut -d' ' -f3 | sort -n | head -1)
    grepped=$(for _ in 1 2 3 4 5; do timed processor sh -c "$greps"; done | sort -n | head -1)
    awk -v job="$job" -v own="$searched" -v other="$grepped" -v found="$found" 'BEGIN {
        printf "%-12s %8.3f s %8d names found   %.2f of the speed of grep (%.3f s)\n", job, own / 1e6, found, other * 1e6 / own, other }'
done
# offers of 10,000 files, beside the md4 job over as many bytes, both by processor time
read -r _ _ micros files bytes << OFFERS
$("$bench" offers 67108864)
OFFERS
hashed=$(for _ in 1 2 3 4 5; do timed processor "$bench" md4 "$bytes"; done | sort -n | head -1)
awk -v own="$micros" -v other="$hashed" -v files="$files" -v bytes="$bytes" 'BEGIN {
    printf "%-12s %8.3f s %8.0f MiB/s   %.0f ns a file   %.2f of the speed of md4 (%.3f s)\n", "offers", own / 1e6, bytes / 1048576 / own * 1e6, own * 1e3 / files, other * 1e6 / own, other }'
echo "64 passes, $slow_turns turns each, each held for a millisecond: $(timed elapsed "$bench" slow_turns_by_64 "$slow_turns") s," \
    "$(timed processor "$bench" slow_turns_by_64 "$slow_turns") s of processor time"
