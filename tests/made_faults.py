#!/usr/bin/env python3
"""Plays made scripts over stores that fail at one to three calls each, and judges what is told by what the journal shows.

Run it by hand, with the number of scripts (2,000 without one) and a seed: `tests/made_faults.py 2000 1`. Build `ice_faults`
before (`rt run` in crates/ice_faults, or a whole `rt ci`), since nothing is built here. Where `ICE_FAULTS` names another program,
that one is tried.

A script has up to four tasks that edit and commit on two branches, rebase, read, make, set and drop refs, collect and expire, and a
line of turns. Each is first played without a fault, to see how many calls it makes; then with the planned faults. Of each of these
runs it is looked at in the events that it prints:

- each task commits at most once: of the puts of a branch for a commit that weren't found moved, a client has one at most, and behind
  it come gets alone;
- a task that tells `committed ID` has such a put, done, with a reference to ID; one that tells anything else but a doubt has none;
- a task in doubt has one that failed; and where no reset, drop, or cut came between, what it tells is what became of it;
- each ref that is told stands as the last done operation on its key left it;
- the status is 6 where a fault is told, and 0 or 1 where no planned call was reached;
- the journal is legal and polite, and puts nothing again (`journals.py`).

It prints the scripts that went wrong, the time that a case took in the middle and at most, and ends with 1 if any went wrong.
"""
import os
import random
import subprocess
import sys
import time

import journals

TOP = os.path.dirname(os.path.dirname(os.path.realpath(__file__)))
PROGRAM = os.environ.get("ICE_FAULTS") or os.path.join(TOP, "crates", "ice_faults", "out", "ice_faults")
ENDS = ("committed", "indoubt", "refused", "done", "collected")


def session(draw, name, branch):
    """A task that edits a few nodes and chunks of a branch, and commits."""
    lines = [f"task {name} write {branch} {draw.choice([0, 1, 2, 5])} {draw.choice(['fail', 'ours', 'theirs'])}"]
    for _ in range(draw.randint(1, 4)):
        lines.append(
            draw.choice(
                [
                    f"group /g{draw.randint(0, 3)}",
                    f"array /x{draw.randint(0, 2)} uint8 600 600 0",
                    f"fill /x{draw.randint(0, 2)} 0 {draw.randint(1, 9):02x}",
                    f"drop /g{draw.randint(0, 3)}",
                    "list /",
                ]
            )
        )
    if draw.random() < 0.9:
        lines.append(f"commit {name}")
    return lines


def refs(draw, name):
    """A task of calls on refs."""
    calls = ["branch side branch main", "reset main branch side", "reset side branch main", "unbranch side", f"tag v{draw.randint(0, 2)} branch main", "untag v0", "log branch main"]
    return [f"task {name} refs"] + draw.sample(calls, draw.randint(1, 3))


def task(draw, name):
    """Any task."""
    kind = draw.random()
    if kind < 0.6:
        return session(draw, name, draw.choice(["main", "main", "main", "side"]))
    if kind < 0.8:
        return refs(draw, name)
    if kind < 0.9:
        return [f"task {name} collect {draw.randint(0, 40)}"]
    return [f"task {name} expire {draw.randint(0, 40)} {draw.choice(['keep', 'branches', 'tags', 'both'])}"]


def script(draw):
    """The lines of a script: a base, then tasks that are mixed by turns."""
    names = "abcd"[: draw.randint(1, 4)]
    lines = ["task s write main 0 fail", "group /", "array /x0 uint8 600 600 0", "commit base"]
    for name in names:
        lines += task(draw, name)
    words = ["s*5"] + [f"{draw.choice(names)}*{draw.randint(1, 4)}" for _ in range(draw.randint(0, 14))]
    return lines + ["turns " + " ".join(words)]


def names_of(lines):
    """The names of the tasks of a script, in their order."""
    return [line.split()[1] for line in lines if line.startswith("task ")]


def status_of(printed):
    """The status that a run ended with."""
    return int(printed[-1].split()[2])


def cases(heads, scripts):
    """Plays the scripts under these heads; what is printed of each."""
    text = "".join(f"{head}\n" + "".join(line + "\n" for line in lines) for head, lines in zip(heads, scripts))
    done = subprocess.run([PROGRAM], input=text.encode(), capture_output=True, timeout=600)
    printed, part = [], []
    for line in done.stdout.decode().splitlines():
        part.append(line)
        if line.startswith("== status "):
            printed.append(part)
            part = []
    assert len(printed) == len(scripts), (len(printed), len(scripts), done.returncode, part[:5], done.stderr[:500])
    return printed


def effects(events):
    """The numbers of the events that changed where a ref stands, and the refs that stand, each with its version."""
    stands, left = {}, set()
    for event in events:
        if event.key.startswith("refs/") and journals.apply(event, stands):
            left.add(event.number)
    return left, {key: version for key, (version, _) in stands.items()}


def ending_of(name, report):
    """The words of the last line that tells how a task ended, if there is one."""
    ends = [line.split() for line in report if line.split()[0] == name and line.split()[1] in ENDS]
    return ends[-1] if ends else None


def is_untouched(version, last, tried, events, done):
    """Whether from the version on that a commit asked for up to the event `last` no other call changed what its doubt rests on."""
    for event in events:
        if version < event.number <= last:
            moved = event.number in done and event.key == tried.key and event.why in ("reset", "drop", "expire", "create")
            if moved or (event.kind == "put" and event.why == "expire"):
                return False
    return True


def judge_doubt(name, end, mine, tried, events, done):
    """What is wrong with a doubt that a task tells."""
    if not tried or not tried[0].has_failed():
        return [f"{name} is in doubt without a failed commit"]
    took = tried[0].number in done
    clean = is_untouched(tried[0].old, mine[-1].number, tried[0], events, done)
    if clean and end[3] in ("committed", "notcommitted", "notancestor") and (end[3] == "committed") != took:
        return [f"{name} tells {' '.join(end)}, and its commit {'took' if took else 'took no'} effect"]
    return []


def judge_task(name, client, report, events, done):
    """What is wrong with what a task did and tells."""
    wrong = []
    mine = [event for event in events if event.client == client]
    tried = [event for event in mine if event.kind == "put" and event.why == "commit" and not event.answer.startswith("found")]
    if len(tried) > 1:
        wrong.append(f"{name} commits twice")
    if any(event.number > first.number and event.kind != "get" for first in tried for event in mine):
        wrong.append(f"{name} does more than gets behind its commit")
    end = ending_of(name, report)
    if end is None:
        return wrong
    took = [event.number for event in tried if event.number in done]
    if (end[1] == "committed") != (bool(took) and not tried[0].has_failed()):
        wrong.append(f"{name} ends as {' '.join(end)} with {took}")
    if end[1] == "indoubt":
        wrong += judge_doubt(name, end, mine, tried, events, done)
    elif tried and tried[0].has_failed():
        wrong.append(f"{name} isn't in doubt: {' '.join(end)}")
    return wrong


def judge_status(status, report, events):
    """What is wrong with the status: want of memory comes before a fault, and a fault before a refusal."""
    wrong = []
    starved = any(" nomemory" in line for line in report)
    told = any(" storefault" in line or " indoubt " in line for line in report)
    if (status == 6) != (told and not starved):
        wrong.append(f"status {status} where a fault is {'told' if told else 'not told'}")
    if starved and status != 7:
        wrong.append(f"status {status} where want of memory is told")
    if not any(event.has_failed() for event in events) and status not in (0, 1, 7):
        wrong.append(f"status {status} without a failed call")
    return wrong


def judge_refs(report, stands):
    """What is wrong with the branches that are told."""
    if not report or any(line.startswith(("refs refused", "init refused")) for line in report):
        return []
    branches = {f"refs/branch.{line.split()[1]}/ref.json" for line in report if line.startswith("branch ")}
    wanted = {key for key in stands if key.startswith("refs/branch.")}
    return [f"branches {sorted(branches)} told, {sorted(wanted)} stand"] if branches != wanted else []


def judge(names, printed):
    """What is wrong with a run, in words."""
    report = [line for line in printed if not line.startswith(("==", "event "))]
    events = journals.events_of(printed)
    done, stands = effects(events)
    wrong = journals.faults_of(events)
    for place, name in enumerate(names):
        wrong += judge_task(name, place + 1, report, events, done)
    return wrong + judge_status(status_of(printed), report, events) + judge_refs(report, stands)


def main():
    count = int(sys.argv[1]) if len(sys.argv) > 1 else 2000
    seed = int(sys.argv[2]) if len(sys.argv) > 2 else 1
    draw = random.Random(seed)
    scripts = [script(draw) for _ in range(count)]
    calm = cases(["=="] * count, scripts)
    heads = []
    for printed in calm:
        calls = int(printed[-1].split()[4])
        assert calls > 2, printed
        chosen = sorted(draw.sample(range(2, calls), min(calls - 2, draw.randint(1, 3))))
        heads.append("== journal " + " ".join(f"{call}:{draw.choice(['done', 'not'])}" for call in chosen))
    started = time.monotonic()
    played = cases(heads, scripts)
    spent = time.monotonic() - started
    bad, doubts, failed = 0, 0, 0
    for head, lines, printed in zip(heads, scripts, played):
        names = names_of(lines)
        wrong = judge(names, printed)
        doubts += sum(" indoubt " in line for line in printed)
        failed += status_of(printed) == 6
        if wrong:
            bad += 1
            if bad <= 5:
                print("\n".join(["wrong:", *wrong, head, *lines, *printed]))
    print(f"{count} scripts, {failed} with a fault told, {doubts} doubts, {bad} wrong; {spent * 1000 / count:.2f} ms each")
    return 1 if bad else 0


if __name__ == "__main__":
    sys.exit(main())
