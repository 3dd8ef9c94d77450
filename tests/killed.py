#!/usr/bin/env python3
"""Kills the program at random moments while it works in a directory, and looks at what stands there afterwards.

Run it by hand, with the number of times to kill it (200 without one): `tests/killed.py 200`. Run `./icerepo` once
before, since nothing is built here. Where `ICE_PROGRAM` names another program, that one is tried.

A round plays a long script over the directory and kills the program at a moment that is drawn. Then these must hold:

- the directory opens, and the next commit in it ends with status 0;
- each branch and tag names a snapshot that can be read back to the first one, with each chunk of its array;
- nothing that was committed in earlier rounds is gone: the log of `main` goes on the one before;
- each file has the name of an object, and none is left aside.

It prints the rounds that went wrong, and ends with 1 if there are any. The system goes on, so what was written but not
flushed isn't lost here: this says nothing of a loss of power.
"""
import os
import random
import re
import subprocess
import sys
import tempfile
import time

TOP = os.path.dirname(os.path.dirname(os.path.realpath(__file__)))
PROGRAM = os.environ.get("ICE_PROGRAM") or os.path.join(TOP, "crates", "ice_cli", "out", "ice_cli")
CHUNKS = 8
TASKS = 12
NAMES = re.compile(
    r"(snapshots|manifests|transactions|chunks)/[0-9A-HJKMNP-TV-Z]{20}"
    r"|refs/branch\.[^/]+/ref\.json|refs/tag\.[^/]+/ref\.json(\.deleted)?|icerepo\.lock"
)


def play(folder, lines):
    """Plays a script over the directory, and gives its status and report."""
    script = "".join(line + "\n" for line in lines).encode()
    done = subprocess.run([PROGRAM, "play", "--dir", folder], input=script, capture_output=True, timeout=120)
    return done.returncode, done.stdout.decode().splitlines()


def layout():
    """Two arrays: the chunks of one are objects, those of the other stand in manifests."""
    return [
        "task a write main 0 fail",
        "group /",
        f"array /long uint8 {600 * CHUNKS} 600 0",
        f"array /short uint8 {20 * CHUNKS} 20 0",
        "commit layout",
    ]


def work(number, at_once):
    """A long script: commits on `main` and on branches of the round, tags, and refs that move and go."""
    lines = []
    for task in range(TASKS):
        lines += [
            f"task w{task} write main 9 ours",
            f"fill /long {random.randrange(CHUNKS)} {task:02x}",
            f"fill /short {random.randrange(CHUNKS)} {task:02x}",
            f"commit round {number} task {task}",
        ]
        if task % 4 == 1:
            lines += [
                f"task r{task} refs",
                f"branch b{number}.{task} branch main",
                f"tag t{number}.{task} branch main",
                f"reset b{number}.{task} branch main",
            ]
        if task % 4 == 3:
            lines += [f"task u{task} refs", f"untag t{number}.{task - 2}", f"unbranch b{number}.{task - 2}"]
    return lines if at_once else lines + ["turns"]


def refs_of(report):
    """The refs that a report tells, as (kind, name)."""
    return [tuple(line.split(" ")[:2]) for line in report if line.split(" ")[0] in ("branch", "tag")]


def readings(refs):
    """Scripts that read each ref's snapshot, back to the first one, and its chunks: of 30 refs each."""
    for start in range(0, len(refs), 30):
        lines = []
        for at, (kind, name) in enumerate(refs[start : start + 30]):
            lines += [f"task l{at} refs", f"log {kind} {name}", f"task c{at} read {kind} {name}", "list /"]
            lines += [f"chunk {path} {k}" for path in ("/long", "/short") for k in range(CHUNKS)]
        yield lines + ["turns"]


def history(report):
    """The ids of the log that a report shows."""
    return [line.split(" ")[3] for line in report if line.split(" ")[2:3] == ["log"]]


def kill_at(folder, lines, seconds):
    """Plays a script, and kills the program after so many seconds; whether it ran until then."""
    script = "".join(line + "\n" for line in lines).encode()
    child = subprocess.Popen(
        [PROGRAM, "play", "--dir", folder], stdin=subprocess.PIPE, stdout=subprocess.DEVNULL, stderr=subprocess.DEVNULL
    )
    child.stdin.write(script)
    child.stdin.close()
    time.sleep(seconds)
    child.kill()
    return child.wait() == -9


def faults_of(folder, before):
    """What is wrong with the directory, and the log of `main`."""
    status, report = play(folder, ["task a write main 0 fail", "fill /short 0 ff", "commit after"])
    if status != 0:
        return [f"the next commit ended with {status}: {report}"], before
    faults = []
    for lines in readings(refs_of(report)):
        status, shown = play(folder, lines)
        if status != 0:
            faults.append(f"a reading ended with {status}: {[line for line in shown if 'refused' in line]}")
    after = history(play(folder, ["task l refs", "log branch main"])[1])
    if after[len(after) - len(before) :] != before:
        faults.append("commits are gone")
    for path, _, files in os.walk(folder):
        for name in files:
            if not NAMES.fullmatch(os.path.relpath(os.path.join(path, name), folder)):
                faults.append(f"a file was left: {os.path.join(path, name)}")
    return faults, after


def main():
    times = int(sys.argv[1]) if len(sys.argv) > 1 else 200
    seed = int(sys.argv[2]) if len(sys.argv) > 2 else random.randrange(10**6)
    if not os.access(PROGRAM, os.X_OK):
        sys.exit("killed: there is no program yet; run ./icerepo once")
    random.seed(seed)
    wrong = killed = 0
    with tempfile.TemporaryDirectory() as folder:
        if play(folder, layout())[0] != 0:
            sys.exit("killed: the layout can't be committed")
        start = time.monotonic()
        play(folder, work("first", False))
        whole = time.monotonic() - start
        log = history(play(folder, ["task l refs", "log branch main"])[1])
        for number in range(times):
            seconds = random.uniform(0, whole)
            killed += kill_at(folder, work(number, number % 2 == 1), seconds)
            faults, log = faults_of(folder, log)
            wrong += bool(faults)
            for fault in faults:
                print(f"round {number}, killed after {seconds:.3f} s: {fault}")
    print(f"killed: seed {seed}, {times} rounds, {killed} killed at work, {wrong} wrong, {len(log)} snapshots at the end")
    sys.exit(1 if wrong else 0)


if __name__ == "__main__":
    main()
