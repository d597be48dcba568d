#!/usr/bin/env python3
"""Runs a command (`rt ci --anew` where none is given), and prints the processor seconds that each crate took: its proof,
its tests and its must-fail edits. It reads /proc twice a second, so a process loses up to half a second.

    python3 bench/gate_cost.py [TABLE] [-- COMMAND..]

The table goes to the file TABLE too, anew every minute."""
import os
import subprocess
import sys
import time

TICKS = os.sysconf("SC_CLK_TCK")
PHASES = ("proof", "tests", "edits")


def status_of(pid):
    """The parent of a process, when it began, and its own ticks."""
    with open(f"/proc/{pid}/stat") as file:
        fields = file.read().rsplit(")", 1)[1].split()
    return int(fields[1]), int(fields[19]), int(fields[11]) + int(fields[12])


def work_of(pid):
    """The crate that a process works on, and for what."""
    with open(f"/proc/{pid}/cmdline") as file:
        words = file.read().split("\0")
    if "--crate-name" not in words:
        return None
    crate = words[words.index("--crate-name") + 1]
    if os.path.basename(os.readlink(f"/proc/{pid}/cwd")).startswith("rt-edit"):
        return crate, "edits"
    return crate, "tests" if "--test" in words else "proof"


def work_above(pid, root, parents):
    """The work of a process, which may be told by its parent alone."""
    while pid not in (0, 1, root):
        try:
            found = work_of(pid)
        except (OSError, ValueError, IndexError):
            return None
        if found:
            return found
        pid = parents.get(pid, 0)
    return None


def sample(root, spent, works):
    """Notes the ticks of each process below the root."""
    parents, ticks = {}, {}
    for name in os.listdir("/proc"):
        if name.isdigit():
            try:
                parent, began, own = status_of(int(name))
            except (OSError, ValueError, IndexError):
                continue
            parents[int(name)] = parent
            ticks[int(name)] = (began, own)
    for pid, (began, own) in ticks.items():
        at = pid
        while at not in (0, 1, root):
            at = parents.get(at, 0)
        if at != root:
            continue
        key = (pid, began)
        if works.get(key) is None:
            works[key] = work_above(pid, root, parents)
        spent[key] = own


def table_of(spent, works):
    """The table in Markdown, the dearest crate first."""
    sums = {}
    for key, own in spent.items():
        if works.get(key):
            crate, phase = works[key]
            sums.setdefault(crate, dict.fromkeys(PHASES, 0))[phase] += own
    rows = sorted(sums.items(), key=lambda row: -sum(row[1].values()))
    lines = ["| crate | proof | tests | edits |", "|---|---|---|---|"]
    for crate, row in rows:
        lines.append(f"| `{crate}` | " + " | ".join(str(row[p] // TICKS or "") for p in PHASES) + " |")
    total = {phase: sum(row[phase] for _, row in rows) // TICKS for phase in PHASES}
    lines.append("| all | " + " | ".join(str(total[p]) for p in PHASES) + " |")
    return "\n".join(lines) + "\n"


def main():
    words = sys.argv[1:]
    command = words[words.index("--") + 1:] if "--" in words else ["rt", "ci", "--anew"]
    path = words[0] if words and words[0] != "--" else None
    spent, works = {}, {}
    child = subprocess.Popen(command)
    count = 0
    while child.poll() is None:
        sample(child.pid, spent, works)
        count += 1
        if path and count % 120 == 0:
            with open(path, "w") as file:
                file.write(table_of(spent, works))
        time.sleep(0.5)
    table = table_of(spent, works)
    if path:
        with open(path, "w") as file:
            file.write(table)
    print(table, end="")
    sys.exit(child.returncode)


main()
