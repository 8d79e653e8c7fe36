#!/usr/bin/env python3
"""Prints the processor seconds that the prover takes for each crate, read off its processes once a second while it runs.

    proof_costs.py [FOLDER]     until interrupted, or until no prover has run for two minutes; only those that run below FOLDER count

Start it beside `rt ci` from nothing, at the top of a fresh clone. What is told for a crate is its own proof, that of its tests, and
all that its must-fail edits took (the proof that they begin with among them).
"""
import collections, os, re, sys, time

TICKS = os.sysconf("SC_CLK_TCK")


def processes():
    """Yields the number, the command line, the folder and the processor seconds of each process that can be read."""
    for number in filter(str.isdigit, os.listdir("/proc")):
        try:
            words = open(f"/proc/{number}/cmdline", "rb").read().decode(errors="replace").split("\0")
            folder = os.readlink(f"/proc/{number}/cwd")
            stat = open(f"/proc/{number}/stat").read().rsplit(")", 1)[1].split()
        except OSError:
            continue
        yield int(number), words, folder, (int(stat[11]) + int(stat[12])) / TICKS, stat[19]


def kind_of(words, folder):
    """Returns the crate and what is proved of it, or None for another process."""
    if not words or os.path.basename(words[0]) != "rattle" or "--crate-name" not in words:
        return None
    crate = words[words.index("--crate-name") + 1]
    if "/crates/" not in folder:
        return crate, "edits"
    return crate, "tests" if "--test" in words else "proof"


def main():
    below = os.path.abspath(sys.argv[1]) if len(sys.argv) > 1 else "/"
    seconds, last = {}, time.time()
    try:
        while time.time() - last < 120:
            for number, words, folder, spent, begun in processes():
                kind = kind_of(words, folder)
                if kind and folder.startswith(below):
                    seconds[number, begun] = (kind, spent)
                    last = time.time()
            time.sleep(1)
    except KeyboardInterrupt:
        pass
    sums = collections.defaultdict(lambda: collections.Counter())
    for (crate, kind), spent in seconds.values():
        sums[crate][kind] += spent
    print("| Crate | Proof | Tests | Edits |\n|---|---|---|---|")
    for crate, of in sorted(sums.items(), key=lambda it: -sum(it[1].values())):
        print("| `%s` | %s |" % (crate, " | ".join("%.0f" % of[it] if of[it] else "" for it in ("proof", "tests", "edits"))))
    print("all: %.0f" % sum(sum(it.values()) for it in sums.values()))


if __name__ == "__main__":
    main()
