#!/usr/bin/env python3
"""Runs the gate from nothing and prints what it costs, crate by crate: gate_times.py [NAME..]

It runs rt ci --anew at the top of this repository, in a store of its own, and writes down the processor time of each
call of rattle that rt makes. On two processors of a larger machine: taskset -c 0,1 tools/gate_times.py. Table and sums
go to standard output, what rt says to standard error. LOG=FILE keeps the calls; with READ=FILE nothing is run, and the
table of the calls kept there is printed.
"""
import importlib.machinery
import importlib.util
import os
import re
import subprocess
import sys
import tempfile
import time

KIT = os.path.dirname(os.path.realpath(subprocess.run(["sh", "-c", "command -v rt"], capture_output=True, text=True).stdout.strip()))
ROOT = os.path.dirname(os.path.dirname(os.path.realpath(__file__)))
# a call of rattle that is timed: user and system seconds, status, folder, words
CALL = '#!/bin/bash\nexec /usr/bin/time -q -a -o "$GATE_LOG" -f "%U %S %x|$PWD|$*" {rattle} "$@"\n'


def rt_with(rattle, store):
    """The program rt, which calls another rattle and keeps nothing where others look."""
    loader = importlib.machinery.SourceFileLoader("rt_timed", f"{KIT}/rt")
    made = importlib.util.module_from_spec(importlib.util.spec_from_loader("rt_timed", loader))
    sys.modules["rt_timed"] = made
    sys.dont_write_bytecode = True
    loader.exec_module(made)
    made.rtlib.RATTLE = rattle
    made.STORE, made.WORK = store, f"{store}/work"
    return made


def run(log, names):
    """Runs the gate and answers its status."""
    with tempfile.TemporaryDirectory() as work:
        call = f"{work}/rattle"
        with open(call, "w") as it:
            it.write(CALL.format(rattle=f"{KIT}/rattle"))
        os.chmod(call, 0o755)
        os.environ["GATE_LOG"] = log
        os.chdir(ROOT)
        saved = os.dup(1)
        os.dup2(2, 1)
        status = rt_with(call, f"{work}/store").main(["ci", "--anew", *names])
        sys.stdout.flush()
        os.dup2(saved, 1)
        return status


def calls(log):
    """Crate, what the call is for, and its seconds."""
    with open(log) as lines:
        for line in lines:
            found = re.match(r"([\d.]+) ([\d.]+) (\d+)\|([^|]*)\|(\w+) .*?--crate-name (\w+)", line)
            if found:
                user, system, status, folder, verb, crate = found.groups()
                tried = "rt-edit" in folder
                kind = ("again" if status == "0" else "edit") if tried else "tests" if " --test" in line else "proof"
                yield crate, kind, float(user) + float(system)


def table(log):
    names = [line.split()[0].rstrip(":") for line in open(f"{ROOT}/crates.txt") if not line.startswith("#") and line.strip()]
    sums = {}
    for crate, kind, seconds in calls(log):
        count, much = sums.get((crate, kind), (0, 0.0))
        sums[crate, kind] = count + 1, much + seconds
    print("| crate | proof and build | tests | edits | proved again for them | all edits | whole |")
    print("|---|---:|---:|---:|---:|---:|---:|")
    kinds = "proof", "tests", "edit", "again"
    whole = dict.fromkeys(kinds, 0.0)
    edits = 0
    for crate in names:
        count = sums.get((crate, "edit"), (0, 0))[0]
        own = {kind: sums.get((crate, kind), (0, 0.0))[1] for kind in kinds}
        if any(own.values()):
            row(crate, own, count)
        edits += count
        for kind in kinds:
            whole[kind] += own[kind]
    row("all", whole, edits)


def row(name, own, edits):
    said = [f"{own['proof']:.0f}", f"{own['tests']:.0f}" if own["tests"] else "", edits or ""]
    said += [f"{own['again']:.0f}" if own["again"] else "", f"{own['edit']:.0f}" if own["edit"] else ""]
    print(f"| {name} | {' | '.join(map(str, said))} | {sum(own.values()):.0f} |")


def main():
    if "READ" in os.environ:
        table(os.environ["READ"])
        return 0
    with tempfile.TemporaryDirectory() as work:
        log = os.environ.get("LOG", f"{work}/calls")
        begun = time.monotonic()
        status = run(log, sys.argv[1:])
        took = time.monotonic() - begun
        table(log)
        cores = len(os.sched_getaffinity(0))
        print(f"\n{took // 60:.0f} min {took % 60:.0f} s on {cores} processors")
        return status


if __name__ == "__main__":
    sys.exit(main())
