#!/usr/bin/env python3
"""Runs a command on the layer under many seeds, and says which statuses, outputs and replies differ.

Who goes on first, of calls that wait, is drawn by the seed. Processes are told apart by their program and by which of its
processes each is, in the order of their first calls."""
import argparse
import json
import re
import subprocess
import sys
import tempfile
from collections import defaultdict
from pathlib import Path

sys.dont_write_bytecode = True
sys.path.insert(0, str(Path(__file__).resolve().parent))
from session import Session

SHOWN = 20                                     # differences of one kind


def options():
    found = argparse.ArgumentParser(description=__doc__)
    found.add_argument("--onlayer", required=True)
    found.add_argument("--uxserve", required=True)
    found.add_argument("--uxrun", required=True)
    found.add_argument("--count", type=int, required=True)
    found.add_argument("--json", action="store_true")
    found.add_argument("--with", dest="further", action="append", default=[], help="a further option of onlayer")
    found.add_argument("command", nargs=argparse.REMAINDER)
    return found.parse_args()


def replies_of(uxrun, script):
    """What each process asked and was answered."""
    session = Session(script)
    echo = subprocess.run([uxrun, "--echo", script], capture_output=True, text=True).stdout
    titles, seen, replies = {}, defaultdict(int), defaultdict(list)
    for line in echo.split("\n"):
        found = re.match(r"(?:\d+|-) (\d+) (\w+)(\(.*\)) = (.*)$", line)
        if not found:
            continue
        process = int(found[1])
        if process not in titles:
            program = session.programs.get(process, (0, "onlayer"))[1]
            seen[program] += 1
            titles[process] = f"{program} {seen[program]}"
        replies[titles[process]].append((found[2] + found[3], found[4]))
    return replies


def run_order(chosen, folder, seed):
    script = f"{folder}/{seed}.ux"
    command = [chosen.onlayer, "--uxserve", chosen.uxserve, "--quiet", "--order", str(seed), "--script", script, "--log", f"{folder}/{seed}.log"]
    words = chosen.command[1:] if chosen.command[:1] == ["--"] else chosen.command
    run = subprocess.run(command + chosen.further + ["--"] + words, stdin=subprocess.DEVNULL, capture_output=True)
    return {"seed": seed, "status": run.returncode, "output": run.stdout.decode(errors="replace"),
            "errors": run.stderr.decode(errors="replace"), "replies": replies_of(chosen.uxrun, script)}


def groups(runs, key):
    """The seeds by what a run came to."""
    found = defaultdict(list)
    for run in runs:
        found[key(run)].append(run["seed"])
    return sorted(found.items(), key=lambda item: item[1])


def differing_replies(runs):
    """The first call of each process at which runs differ, with what it came to under which seeds."""
    for title in sorted(set().union(*(run["replies"] for run in runs))):
        longest = max(len(run["replies"].get(title, ())) for run in runs)
        for at in range(longest):
            found = groups(runs, lambda run: " = ".join(run["replies"].get(title, [])[at]) if at < len(run["replies"].get(title, [])) else "no call")
            if len(found) > 1:
                yield title, at, found
                break


def seeds(some):
    return ", ".join(map(str, some[:8])) + (" .." if len(some) > 8 else "")


def tell(runs):
    differences = 0
    for kind in ("status", "output", "errors"):
        found = groups(runs, lambda run: run[kind])
        if len(found) > 1:
            differences += 1
            for value, some in found[:SHOWN]:
                print(f"{kind} {value!r} under {len(some)} of {len(runs)} seeds: {seeds(some)}")
    for title, at, found in differing_replies(runs):
        differences += 1
        print(f"{title}, call {at}:")
        for value, some in found[:SHOWN]:
            print(f"  {value[:160]} under {len(some)} of {len(runs)} seeds: {seeds(some)}")
    print(f"{len(runs)} orders: " + (f"{differences} things differ" if differences else "nothing differs"))


def tell_as_json(kind, found, **where):
    values = [{"value": value, "seeds": some} for value, some in found]
    print(json.dumps({"kind": "difference", "of": kind, "values": values} | where, sort_keys=True))


def main():
    chosen = options()
    with tempfile.TemporaryDirectory(prefix="onlayer-orders-") as folder:
        runs = [run_order(chosen, folder, seed) for seed in range(1, chosen.count + 1)]
    if chosen.json:
        for run in runs:
            print(json.dumps({key: run[key] for key in ("seed", "status", "output", "errors")} | {"kind": "order"}, sort_keys=True))
        for kind in ("status", "output", "errors"):
            found = groups(runs, lambda run: run[kind])
            if len(found) > 1:
                tell_as_json(kind, found)
        for title, at, found in differing_replies(runs):
            tell_as_json("reply", found, process=title, call=at)
    else:
        tell(runs)
    return max(run["status"] for run in runs)


sys.exit(main())
