"""The processor minutes of `rt ci`, crate by crate: looks twice a second at the processes below it.

    python3 bench/gate.py ROOT [PID]
"""

import os
import subprocess
import sys
import time
from collections import defaultdict
from pathlib import Path

TICKS = os.sysconf("SC_CLK_TCK")
KINDS = ("proof", "tests", "edits", "other")


def processes():
    """Each process: its parent, and the processor seconds of itself and of the children that it waited for."""
    found = {}
    for entry in os.listdir("/proc"):
        if entry.isdigit():
            try:
                fields = Path("/proc", entry, "stat").read_text().rpartition(")")[2].split()
            except OSError:
                continue
            own, waited = sum(map(int, fields[11:13])), sum(map(int, fields[13:15]))
            found[int(entry)] = int(fields[1]), own / TICKS, waited / TICKS
    return found


def below(root, found):
    """The processes below one."""
    children = defaultdict(list)
    for pid, (parent, _, _) in found.items():
        children[parent].append(pid)
    waiting, all_of_them = [root], set()
    while waiting:
        for pid in children[waiting.pop()]:
            if pid not in all_of_them:
                all_of_them.add(pid)
                waiting.append(pid)
    return all_of_them


def purpose(pid, root):
    """The crate that a process works on, and whether it makes its proof, its tests or tries a wrong body."""
    try:
        words = Path("/proc", str(pid), "cmdline").read_bytes().decode(errors="replace").split("\0")
        folder = os.readlink(f"/proc/{pid}/cwd")
    except OSError:
        return None
    if "--crate-name" not in words:
        return None
    crate = words[words.index("--crate-name") + 1]
    if not folder.startswith(f"{root}/crates/"):
        return crate, "edits"
    return crate, "tests" if "--test" in words else "proof"


class Watch:
    """What was seen of a run so far."""

    def __init__(self, root):
        self.root, self.purposes, self.seconds = root, {}, {}

    def look(self, pid):
        """Looks at the processes below one."""
        found = processes()
        for child in below(pid, found):
            if child not in self.purposes:
                self.purposes[child] = purpose(child, self.root)
            parent, own, waited = found[child]
            known = self.purposes[child] is not None
            # A process of a known purpose counts with what it waited for; the others only with themselves.
            if known and self.purposes.get(parent) is None:
                self.seconds[child] = own + waited
            elif not known and not self.covered(child, found):
                self.seconds[child] = own

    def covered(self, pid, found):
        """Whether a process above this one has a purpose."""
        while pid in found:
            pid = found[pid][0]
            if self.purposes.get(pid):
                return True
        return False

    def table(self):
        """The minutes of each crate by kind."""
        minutes = defaultdict(lambda: dict.fromkeys(KINDS, 0.0))
        for pid, seconds in self.seconds.items():
            crate, kind = self.purposes[pid] or ("(rt itself)", "other")
            minutes[crate][kind] += seconds / 60
        return minutes


def show(minutes, elapsed):
    """Prints the table."""
    print(f"{'crate':24}{'all':>8}" + "".join(f"{kind:>8}" for kind in KINDS))
    total = dict.fromkeys(KINDS, 0.0)
    for crate, by_kind in sorted(minutes.items(), key=lambda row: -sum(row[1].values())):
        print(f"{crate:24}{sum(by_kind.values()):8.1f}" + "".join(f"{by_kind[kind]:8.1f}" for kind in KINDS))
        for kind in KINDS:
            total[kind] += by_kind[kind]
    print(f"{'all':24}{sum(total.values()):8.1f}" + "".join(f"{total[kind]:8.1f}" for kind in KINDS))
    print(f"{elapsed / 60:.1f} minutes on {os.cpu_count()} processors")


def main():
    root = os.path.realpath(sys.argv[1])
    watch, begun = Watch(root), time.monotonic()
    if len(sys.argv) > 2:
        pid = int(sys.argv[2])
        while os.path.exists(f"/proc/{pid}"):
            watch.look(pid)
            time.sleep(0.5)
        status = 0
    else:
        run = subprocess.Popen(["rt", "ci", "--anew"], cwd=root, stdin=subprocess.DEVNULL)
        while run.poll() is None:
            watch.look(run.pid)
            time.sleep(0.5)
        status = run.returncode
    show(watch.table(), time.monotonic() - begun)
    return status


if __name__ == "__main__":
    sys.exit(main())
