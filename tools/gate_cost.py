#!/usr/bin/env python3
"""What each crate costs the gate: the processor seconds of its proof, of its tests' proof and of its must-fail edits.

  gate_cost.py [--table FILE] [COMMAND ..]          runs the command, `rt ci` where none is given, and prints the table
  gate_cost.py [--table FILE] --beside PID          the same of a gate that runs already, until it ends

The gate's own log has no times. So the processes that it starts are looked at four times a second, in /proc: each
check names its crate, says whether it is of the tests, and an edit's check runs in a folder of its own. What a process
used since it was last seen is lost as it ends, an eighth of a second for each check on the average. The last line
has the exact sum, which the system keeps for the whole gate. The exit is that of the command.
"""
import argparse
import collections
import os
import re
import subprocess
import sys
import time

INTERVAL = 0.25
TICKS = os.sysconf("SC_CLK_TCK")
KINDS = ("proof", "tests", "edits", "built")
Process = collections.namedtuple("Process", "parent seconds children began")


def read(path):
    try:
        with open(path, "rb") as file:
            return file.read()
    except OSError:
        return b""


def process_of(number):
    """The process of this number as /proc has it now, or None where it has ended."""
    fields = read(f"/proc/{number}/stat").decode(errors="replace").rpartition(")")[2].split()
    if len(fields) < 20 or fields[0] == "Z":
        return None
    user, system, of_children, of_children_system = (int(it) / TICKS for it in fields[11:15])
    return Process(int(fields[1]), user + system, of_children + of_children_system, fields[19])


def processes():
    found = {int(it): process_of(it) for it in os.listdir("/proc") if it.isdigit()}
    return {number: it for number, it in found.items() if it}


def below(root, all_processes):
    """The processes that the process `root` started, and those that they started."""
    children = collections.defaultdict(list)
    for number, it in all_processes.items():
        children[it.parent].append(number)
    found, left = [], [root]
    while left:
        started = children[left.pop()]
        found += started
        left += started
    return found


def check_of(number):
    """The crate and the kind of a check of the prover, or None for another process."""
    words = read(f"/proc/{number}/cmdline").decode(errors="replace").split("\0")
    if not re.search(r"/rattle$", words[0]) or "--crate-name" not in words:
        return None
    crate = words[words.index("--crate-name") + 1]
    try:
        folder = os.readlink(f"/proc/{number}/cwd")
    except OSError:
        return None
    if os.path.basename(folder).startswith("rt-edit-"):
        return crate, "edits"
    if "--test" in words:
        return crate, "tests"
    return crate, "built" if "--crate-checked" in words else "proof"


class Costs:
    """The seconds of each check so far, by its process."""

    def __init__(self):
        self.checks, self.seconds, self.total = {}, {}, 0.0

    def look(self, root):
        all_processes = processes()
        if root in all_processes:
            self.total = max(self.total, all_processes[root].seconds + all_processes[root].children)
        for number in below(root, all_processes):
            key = number, all_processes[number].began
            if key not in self.checks:
                found = check_of(number)
                # (a process that has not become the prover yet is looked at again)
                if not found:
                    continue
                self.checks[key] = found
            self.seconds[key] = all_processes[number].seconds

    def by_crate(self):
        sums, edits = collections.defaultdict(lambda: dict.fromkeys(KINDS, 0.0)), collections.Counter()
        for key, (crate, kind) in self.checks.items():
            sums[crate][kind] += self.seconds.get(key, 0.0)
            edits[crate] += kind == "edits"
        return sums, edits


def table(costs, began):
    sums, edits = costs.by_crate()
    rows = ["| Crate | Proof | Its tests' proof | Edits | Checks of edits | Sum |", "|---|---|---|---|---|---|"]
    for crate, kinds in sorted(sums.items(), key=lambda it: -sum(it[1].values())):
        proof = kinds["proof"] + kinds["built"]
        rows.append(f"| {crate} | {proof:.0f} | {kinds['tests']:.0f} | {kinds['edits']:.0f} | {edits[crate]} | {sum(kinds.values()):.0f} |")
    whole = {kind: sum(it[kind] for it in sums.values()) for kind in KINDS}
    seen = sum(whole.values())
    rows.append(f"| all | {whole['proof'] + whole['built']:.0f} | {whole['tests']:.0f} | {whole['edits']:.0f} | {sum(edits.values())} | {seen:.0f} |")
    rows.append("")
    exact = f", {max(costs.total, seen) / 60:.1f} processor minutes in all" if costs.total else ""
    rows.append(f"Processor seconds{exact}; {(time.time() - began) / 60:.1f} minutes by the clock.")
    return "\n".join(rows) + "\n"


def run_beside(root, costs):
    before = process_of(root)
    while (now := process_of(root)) and now.began == before.began:
        costs.look(root)
        time.sleep(INTERVAL)


def run_command(command, costs):
    started = subprocess.Popen(command)
    while started.poll() is None:
        costs.look(started.pid)
        time.sleep(INTERVAL)
    of_children = os.times()
    costs.total = max(costs.total, of_children.children_user + of_children.children_system)
    return started.returncode


def main():
    parser = argparse.ArgumentParser(description=__doc__, formatter_class=argparse.RawDescriptionHelpFormatter)
    parser.add_argument("--table", metavar="FILE", help="a file that the table is written to as well")
    parser.add_argument("--beside", metavar="PID", type=int, help="the process of a gate that runs already")
    parser.add_argument("command", nargs=argparse.REMAINDER, help="what is run, `rt ci` where there is none")
    given = parser.parse_args()
    costs, began, status = Costs(), time.time(), 0
    if given.beside and not process_of(given.beside):
        parser.error(f"there is no process {given.beside}")
    if given.beside:
        run_beside(given.beside, costs)
    else:
        status = run_command(given.command or ["rt", "ci"], costs)
    text = table(costs, began)
    print(text, end="", flush=True)
    if given.table:
        with open(given.table, "w", encoding="utf-8") as file:
            file.write(text)
    return status


if __name__ == "__main__":
    sys.exit(main())
