#!/bin/sh
# Builds the benchmark program proved, and compares its index with SQLite's full-text index over the same rows and
# queries: a thousand files a session, names of four words. Both answers are reckoned into one number a line, which
# has to be the same. Prints for each what was done, how often, the seconds of processor time that each took, and how
# often SQLite's speed that is; then the memory a row, by the process's peak.
#   bench/compare_index.sh [ROWS]
# It needs a C compiler and SQLite's header and library (apt-get install gcc libsqlite3-dev). SQLite runs in memory, in
# one transaction, with prepared statements, once with plain tables, and once packed as well as it can be: numbers of rows
# that have the session in them, so that two indexes are spared, names that stand outside of the full-text index, and no
# places in it.
set -eu
top=$(cd "$(dirname "$0")/.." && pwd)
rows=${1:-1000000}
if ! command -v cc > /dev/null || [ ! -f /usr/include/sqlite3.h ]; then
    echo "a C compiler or sqlite3.h isn't there: nothing was compared"
    exit 0
fi
work=$(mktemp -d)
trap 'rm -rf "$work"' EXIT
cat > "$work/other.c" <<'C'
#include <sqlite3.h>
#include <stdint.h>
#include <stdio.h>
#include <stdlib.h>
#include <string.h>
#include <time.h>

typedef uint64_t u64;
enum { EACH = 1000, SEARCHES = 1000, WHOLE = 10, ASKED = 100000, LEAVES = 100 };
static sqlite3 *db;
static int packed;

static u64 next(u64 *state) {
    *state += 0x9e3779b97f4a7c15ull;
    u64 mixed = (*state ^ (*state >> 30)) * 0xbf58476d1ce4e5b9ull;
    mixed = (mixed ^ (mixed >> 27)) * 0x94d049bb133111ebull;
    return mixed ^ (mixed >> 31);
}

static u64 rank_of(u64 *state) {
    u64 span = 1ull << (next(state) % 16);
    return (next(state) % span + span - 1) % 50000;
}

static u64 file_of(u64 session, u64 place) {
    u64 own = session * EACH + place, state = own, drawn = next(&state);
    return drawn % 4 == 0 ? place * 20 + (drawn >> 32) % 20 : own + 1000000;
}

static void hash_of(u64 file, unsigned char hash[16]) {
    u64 state = file * 3;
    for (int i = 0; i < 2; i++) {
        u64 half = next(&state);
        memcpy(hash + 8 * i, &half, 8);
    }
}

static char *add_word(char *to, u64 rank) {
    u64 rest = (rank * 179424673 + 7) % 456976;
    for (int i = 0; i < 4; i++, rest /= 26) *to++ = 'a' + rest % 26;
    for (u64 i = 0; i < rank % 5; i++) *to++ = 'a' + rank * (i + 3) % 26;
    return to;
}

static int words_of(u64 file, int count, const char *gaps, char *text) {
    u64 state = file * 7;
    char *to = text;
    for (int i = 0; i < count; i++) {
        if (to != text) *to++ = gaps[i];
        to = add_word(to, rank_of(&state));
    }
    *to = 0;
    return to - text;
}

static double spent(void) {
    struct timespec t;
    clock_gettime(CLOCK_PROCESS_CPUTIME_ID, &t);
    return t.tv_sec * 1e6 + t.tv_nsec / 1e3;
}

static u64 count, sum;

static void add(u64 value) {
    count++;
    sum = sum * 31 + value;
}

static void line(const char *name, u64 times, double micros) {
    printf("%s %llu %.0f %llu %llx\n", name, (unsigned long long)times, micros, (unsigned long long)count, (unsigned long long)sum);
    count = sum = 0;
}

static void check(int status) {
    if (status != SQLITE_OK && status != SQLITE_DONE && status != SQLITE_ROW) {
        fprintf(stderr, "%s\n", sqlite3_errmsg(db));
        exit(1);
    }
}

static void run(const char *text) { check(sqlite3_exec(db, text, 0, 0, 0)); }

static sqlite3_stmt *ready(const char *text) {
    sqlite3_stmt *made;
    check(sqlite3_prepare_v2(db, text, -1, &made, 0));
    return made;
}

static void step(sqlite3_stmt *of) {
    check(sqlite3_step(of));
    sqlite3_reset(of);
}

static void add_found(sqlite3_stmt *of) {
    while (sqlite3_step(of) == SQLITE_ROW) {
        const unsigned char *hash = sqlite3_column_blob(of, 0);
        u64 value = 0;
        for (int i = 0; i < 8; i++) value = value * 256 + hash[i];
        add(value);
        sqlite3_column_text(of, 3);
        sqlite3_column_text(of, 4);
        u64 session = (u64)sqlite3_column_int64(of, 2) / (packed ? 10000 : 1);
        add((u64)sqlite3_column_int64(of, 1) + session + 1);
    }
    sqlite3_reset(of);
}

int main(int argc, char **words) {
    u64 sessions = strtoull(words[1], 0, 10) / EACH;
    packed = argc > 2;
    check(sqlite3_open(":memory:", &db));
    run("CREATE TABLE sessions(number INTEGER PRIMARY KEY, user BLOB, id INTEGER, port INTEGER)");
    if (packed) {
        // the number of a row is 10,000 times its session's, and its place
        run("CREATE TABLE files(at INTEGER PRIMARY KEY, hash BLOB, size INTEGER, kind TEXT, name TEXT)");
        run("CREATE VIRTUAL TABLE names USING fts5(name, content='files', content_rowid='at', detail='none', columnsize=0)");
        run("CREATE INDEX hashes ON files(hash)");
    } else {
        run("CREATE TABLE files(at INTEGER PRIMARY KEY, hash BLOB, size INTEGER, kind TEXT, number INTEGER)");
        run("CREATE VIRTUAL TABLE names USING fts5(name)");
        run("CREATE UNIQUE INDEX hashes ON files(hash, number)");
        run("CREATE INDEX numbers ON files(number)");
    }
    run("BEGIN");
    sqlite3_stmt *login = ready("INSERT INTO sessions VALUES(?, zeroblob(16), ?, 4662)");
    sqlite3_stmt *file = ready("INSERT INTO files VALUES(?, ?, ?, ?, ?)");
    sqlite3_stmt *name = ready("INSERT INTO names(rowid, name) VALUES(?, ?)");
    static char texts[EACH][64];
    static int lengths[EACH];
    static unsigned char hashes[EACH][16];
    static u64 files[EACH];
    double total = 0;
    for (u64 session = 0; session < sessions; session++) {
        for (u64 place = 0; place < EACH; place++) {
            files[place] = file_of(session, place);
            lengths[place] = words_of(files[place], 4, ". -.", texts[place]);
            hash_of(files[place], hashes[place]);
        }
        double start = spent();
        sqlite3_bind_int64(login, 1, session);
        sqlite3_bind_int64(login, 2, session + 1);
        step(login);
        for (u64 place = 0; place < EACH; place++) {
            u64 at = session * 10000 + place, kind = files[place] % 3;
            sqlite3_bind_int64(file, 1, at);
            sqlite3_bind_blob(file, 2, hashes[place], 16, SQLITE_STATIC);
            sqlite3_bind_int64(file, 3, files[place] * 1000);
            sqlite3_bind_text(file, 4, kind == 0 ? "Audio" : kind == 1 ? "Video" : "", -1, SQLITE_STATIC);
            if (packed) sqlite3_bind_text(file, 5, texts[place], lengths[place], SQLITE_STATIC);
            else sqlite3_bind_int64(file, 5, session);
            step(file);
            sqlite3_bind_int64(name, 1, at);
            sqlite3_bind_text(name, 2, texts[place], lengths[place], SQLITE_STATIC);
            step(name);
        }
        total += spent() - start;
        add(EACH);
    }
    line("offers", sessions * EACH, total);
    // of each hash the row of the lowest session
    sqlite3_stmt *search = ready(packed
        ? "SELECT f.hash, f.size, min(f.at), f.kind, f.name FROM names n JOIN files f ON f.at = n.rowid WHERE names MATCH ? GROUP BY f.hash ORDER BY f.hash LIMIT 200"
        : "SELECT f.hash, f.size, min(f.number), f.kind, n.name FROM names n JOIN files f ON f.at = n.rowid WHERE names MATCH ? GROUP BY f.hash ORDER BY f.hash LIMIT 200");
    for (int wanted = 1; wanted < 4; wanted++) {
        u64 state = wanted;
        total = 0;
        for (int i = 0; i < SEARCHES; i++) {
            char text[64], label[16];
            u64 session = next(&state) % sessions;
            int n = words_of(file_of(session, next(&state) % EACH), wanted, "    ", text);
            // each word as a string, since some are words of the query's own
            char quoted[96], *to = quoted;
            *to++ = '"';
            for (int k = 0; k < n; k++) {
                if (text[k] == ' ') { memcpy(to, "\" \"", 3); to += 3; } else *to++ = text[k];
            }
            *to++ = '"';
            double start = spent();
            sqlite3_bind_text(search, 1, quoted, to - quoted, SQLITE_STATIC);
            add_found(search);
            total += spent() - start;
            if (i == SEARCHES - 1) {
                snprintf(label, sizeof label, "words_%d", wanted);
                line(label, SEARCHES, total);
            }
        }
    }
    sqlite3_stmt *whole = ready(packed
        ? "SELECT hash, size, min(at), kind, name FROM files WHERE size >= 4294967295 GROUP BY hash ORDER BY hash LIMIT 200"
        : "SELECT f.hash, f.size, min(f.number), f.kind, n.name FROM files f JOIN names n ON f.at = n.rowid WHERE size >= 4294967295 GROUP BY f.hash ORDER BY f.hash LIMIT 200");
    double start = spent();
    for (int i = 0; i < WHOLE; i++) add_found(whole);
    line("whole", WHOLE, spent() - start);
    sqlite3_stmt *ask = ready(packed
        ? "SELECT s.id, s.port FROM files f JOIN sessions s ON s.number = f.at / 10000 WHERE f.hash = ? ORDER BY f.at LIMIT 255"
        : "SELECT s.id, s.port FROM files f JOIN sessions s ON s.number = f.number WHERE f.hash = ? ORDER BY f.number LIMIT 255");
    u64 state = 9;
    start = spent();
    for (int i = 0; i < ASKED; i++) {
        unsigned char hash[16];
        u64 session = next(&state) % sessions;
        hash_of(file_of(session, next(&state) % EACH), hash);
        sqlite3_bind_blob(ask, 1, hash, 16, SQLITE_STATIC);
        while (sqlite3_step(ask) == SQLITE_ROW) add((u64)sqlite3_column_int64(ask, 0) + (u64)sqlite3_column_int64(ask, 1));
        sqlite3_reset(ask);
    }
    line("sources", ASKED, spent() - start);
    sqlite3_stmt *unname = ready(packed
        ? "INSERT INTO names(names, rowid, name) SELECT 'delete', at, name FROM files WHERE at BETWEEN ?1 * 10000 AND ?1 * 10000 + 9999"
        : "DELETE FROM names WHERE rowid IN (SELECT at FROM files WHERE number = ?1)");
    sqlite3_stmt *unfile = ready(packed
        ? "DELETE FROM files WHERE at BETWEEN ?1 * 10000 AND ?1 * 10000 + 9999"
        : "DELETE FROM files WHERE number = ?1");
    sqlite3_stmt *leave = ready("DELETE FROM sessions WHERE number = ?1");
    start = spent();
    for (u64 i = 0; i < LEAVES; i++) {
        sqlite3_stmt *all[] = { unname, unfile, leave };
        for (int k = 0; k < 3; k++) {
            sqlite3_bind_int64(all[k], 1, i * 7);
            step(all[k]);
        }
    }
    total = spent() - start;
    sqlite3_stmt *left = ready("SELECT (SELECT count(*) FROM sessions), (SELECT count(DISTINCT hash) FROM files)");
    sqlite3_step(left);
    add(sqlite3_column_int64(left, 0));
    add(sqlite3_column_int64(left, 1));
    line("logouts", LEAVES, total);
    return 0;
}
C
cc -O2 -o "$work/other" "$work/other.c" -lsqlite3
cd "$top/crates/ed2k_bench"
rt run -- md4 1 > /dev/null 2>&1
bench=$top/crates/ed2k_bench/out/ed2k_bench
/usr/bin/env python3 - "$rows" "$bench" "$work/other" <<'PY'
import os, subprocess, sys

rows, bench, other = int(sys.argv[1]), sys.argv[2], sys.argv[3]

def run(command):
    process = subprocess.Popen(command, stdout=subprocess.PIPE, text=True)
    lines = [line.split() for line in process.stdout if line.strip()]
    _, status, used = os.wait4(process.pid, 0)
    if status != 0:
        sys.exit(1)
    return {line[0]: line[1:] for line in lines}, used.ru_maxrss * 1024

own, memory = run([bench, "index", str(rows)])
others = {"SQLite": run([other, str(rows)]), "packed": run([other, str(rows), "packed"])}
for name, (times, micros, *answer) in own.items():
    print(f"{name:8} {times:>8} times {int(micros) / 1e6:8.3f} s", end="")
    for what, (lines, _) in others.items():
        print(f", {what} {int(lines[name][1]) / 1e6:8.3f} s ({int(lines[name][1]) / max(int(micros), 1):.2f})", end="")
    print("" if all(lines[name][2:] == answer for lines, _ in others.values()) else "   ANSWERS DIFFER")
print(f"bytes a row {memory / rows:.0f}", *(f"{what} {used / rows:.0f} ({memory / used:.2f})" for what, (_, used) in others.items()), sep=", ")
PY
