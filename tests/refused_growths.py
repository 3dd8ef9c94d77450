#!/usr/bin/env python3
"""Refuses each growth of memory in turn, in runs of a few scripts, and judges what is told by what the journal shows.

Run it by hand: `tests/refused_growths.py`; words behind it pick scripts by their names. Build `ice_faults` before (`rt run` in
crates/ice_faults, or a whole `rt ci`), and run `./icerepo` once, since nothing of the repository is built here. Where `ICE_FAULTS` and
`ICE_PROGRAM` name other programs, those are tried. A small library stands before the system's allocator, which refuses the growth
with a given number (`growths.py`, which needs a C compiler).

Each script is a case of `ice_faults` with its journal. It is played once with all memory, and then once for each growth, with
this one growth refused, until none is met. Of each run it is looked at that

- the program ends by itself: no crash, and status 0, or 7 where the simulator had no memory for what it prints itself;
- the report is the one without a refusal, or the status is 7; then it tells a want of memory, or nothing;
- nothing is told only where no task has made an operation, as the journal shows;
- a refusal that isn't told without a refused growth is `nomemory`, or, where one is told, follows from it as the script's row says;
- the journal is legal, polite, and puts nothing again (`journals.py`), and what each task tells is what its events show
  (`judge` of `made_faults.py`). So where the put over of the branch has failed, one whose growth is refused behind it is in doubt,
  `unsettled nomemory` at worst, and never refused.

Then `icerepo` plays the smallest commit over a directory, with each growth refused alone (`directory`), and with all behind it
(`from_there_on`). It ends with status 0 or 7; what it tells is so in the log of the branch, which the next run reads; where it tells
nothing, nothing was committed; and that one leaves nothing aside.

It prints a table: of each script how many growths a run has, how the runs ended, and what was told in those that ended otherwise.
It ends with 1 if any went wrong.
"""
import collections
import concurrent.futures
import os
import subprocess
import sys
import tempfile
from typing import NamedTuple

import growths
import journals
import made_faults

ICEREPO = os.environ.get("ICE_PROGRAM") or os.path.join(made_faults.TOP, "crates", "ice_cli", "out", "ice_cli")


class Script(NamedTuple):
    """A case, and which refusals may follow elsewhere where a task had no memory: without the array of the first task there is no
    node, with fewer operations the cutoff of a collection is ahead, and the planned call is one of the closing reading."""

    head: str
    lines: list
    follows: dict


SMALLEST = ["task a write main 0 fail", "group /", "commit first"]
CHUNKS = [
    "task s write main 0 fail",
    "group /",
    "array /x uint8 1026 513 0",
    "array /y uint8 4 2 0",
    "commit base",
    "task a write main 1 fail",
    "fill /x 0 01",
    "set /y 0 0102",
    "commit left",
    "task b write main 0 fail",
    "fill /x 1 02",
    "set /y 1 0304",
    "commit right",
    "task r read branch main",
    "chunk /x 0",
    "chunk /x 1",
    "turns s*9 a*3 b*9 a",
]
COLLECTION = [
    "task a write main 0 fail",
    "group /",
    "commit one",
    "task b write main 0 fail",
    "group /",
    "commit two",
    "task c write main 0 fail",
    "group /g",
    "commit three",
    "task d collect 12",
    "turns a b a b a b a b a b c*4 d*11 c",
]
SCRIPTS = {
    "smallest": Script("== journal", SMALLEST, {}),
    "failed_but_done": Script("== journal 6:done", SMALLEST, {"refs": ["storefault"]}),
    "failed_not_done": Script("== journal 6:not", SMALLEST, {"refs": ["storefault"]}),
    "different_chunks": Script("== journal", CHUNKS, {"a": ["nonode"], "b": ["nonode"], "r": ["nonode"]}),
    "collection": Script("== journal", COLLECTION, {"d": ["cutoffahead"]}),
}
OVER_DIRECTORIES = ("directory", "from_there_on")


class Run(NamedTuple):
    """What a run came to: how many growths it met, its exit status, and what it printed."""

    growths: int
    status: int
    printed: list
    said: str


def play(library, script, refused):
    """Plays a script with this growth refused; none is where the number is 0."""
    text = "".join(f"{line}\n" for line in [script.head, *script.lines])
    with growths.counting(library, refused, refused) as (told, counts):
        done = subprocess.run([made_faults.PROGRAM], input=text.encode(), capture_output=True, timeout=120, env=told)
        met = counts().growths
    return Run(met, done.returncode, done.stdout.decode().splitlines(), done.stderr.decode())


def is_told(run):
    """Whether all of a run was told; else the simulator had no memory for what it prints itself."""
    return run.status == 0


def report_of(run):
    """The lines of a run's report."""
    return [line for line in run.printed if not line.startswith(("==", "event "))]


def refusals(report):
    """The lines that tell a refusal."""
    return {line for line in report if " refused " in line or " unsettled " in line}


def strange_refusals(script, calm, report):
    """The refusals that are told, but not with all memory, and neither tell want of it nor may follow from one."""
    starved = any(line.endswith(" nomemory") for line in report)
    strange = []
    for line in sorted(refusals(report) - refusals(calm)):
        name, _, rest = line.partition(" refused ")
        follows = starved and any(word in rest.split() for word in script.follows.get(name, ()))
        if not line.endswith(" nomemory") and not follows:
            strange.append(line)
    return strange


def faults_of(script, calm, run):
    """What is wrong with a run, in words."""
    if not is_told(run):
        return [] if (run.status, run.said) == (7, "icerepo: no memory\n") else [f"ended with {run.status}: {run.said}"]
    wrong = made_faults.judge(made_faults.names_of(script.lines), run.printed)
    report, status = report_of(run), made_faults.status_of(run.printed)
    starved = any(line.endswith(" nomemory") for line in report)
    if status != 7 and report != report_of(calm):
        wrong.append(f"status {status} with another report")
    if status == 7 and report and not starved and report != report_of(calm)[: len(report)]:
        wrong.append("status 7 with a report that tells no want of memory")
    if status == 7 and not report and any(event.client != 0 for event in journals.events_of(run.printed)):
        wrong.append("a task made an operation, and nothing is told")
    return wrong + [f"told: {line}" for line in strange_refusals(script, report_of(calm), report)]


def ending_of(calm, run):
    """How a run ended, in a few words."""
    if not is_told(run):
        return "simulator"
    report = report_of(run)
    if report == report_of(calm) and run.printed[-1] == calm.printed[-1]:
        return "same"
    return "told" if any(line.endswith(" nomemory") for line in report) else "silent"


def shows(calm, run):
    """What a run tells otherwise than with all memory, in one line."""
    without = set(report_of(calm))
    others = [line for line in report_of(run) if line not in without]
    return "; ".join(line if len(line) < 60 else f"{line[:40]}.." for line in others)


def print_row(name, row):
    """Prints a row of the table."""
    print(f"{name:<18}" + "".join(f"{number:>11}" for number in row), flush=True)


def try_script(name, script, library, workers):
    """Plays a script with each growth refused in turn, and prints its row; how many runs went wrong."""
    calm = play(library, script, 0)
    runs = list(workers.map(lambda refused: play(library, script, refused), range(1, calm.growths + 2)))
    assert runs[-1].printed == calm.printed and runs[-1].growths == calm.growths, "the last run met its growth"
    ends, others, bad = collections.Counter(), collections.Counter(), 0
    for refused, run in enumerate(runs[:-1], 1):
        wrong = faults_of(script, calm, run)
        bad += bool(wrong)
        if wrong and bad <= 3:
            print("\n".join([f"wrong: {name}, growth {refused}:", *wrong, *run.printed, run.said]))
        ends[ending_of(calm, run)] += 1
        if ending_of(calm, run) == "told":
            others[shows(calm, run)] += 1
    print_row(name, [calm.growths, ends["same"], ends["silent"], ends["told"], ends["simulator"], bad])
    for line, count in sorted(others.items()):
        print(f"    {count:>5}  {line}")
    return bad


def icerepo(folder, lines, told=None):
    """Has `icerepo` play a script over a directory, in this environment: its status, and its report."""
    text = "".join(f"{line}\n" for line in lines)
    done = subprocess.run([ICEREPO, "play", "--dir", folder], input=text.encode(), capture_output=True, timeout=120, env=told)
    return done.returncode, done.stdout.decode().splitlines()


def hindered(library, first, last):
    """Plays the smallest commit over a new directory with these growths refused, and then reads the directory: how many growths were
    met, the status and report, and the same of the reading, with what is left aside."""
    with tempfile.TemporaryDirectory() as folder:
        with growths.counting(library, first, last) as (told, counts):
            status, report = icerepo(folder, SMALLEST, told)
            met = counts().growths
        read, log = icerepo(folder, ["task l refs", "log branch main"])
        aside = os.path.join(folder, "icerepo.new")
        return met, status, report, read, log, os.listdir(aside) if os.path.isdir(aside) else []


def faults_of_directory(status, report, read, log, aside):
    """What is wrong with a run over a directory, in words."""
    wrong = [f"{aside} is left aside"] if aside else []
    if status not in (0, 7):
        wrong.append(f"status {status}")
    if read != 0:
        wrong.append(f"it is read with status {read}: {log}")
    shown = [line.split()[3] for line in log if " log " in line]
    committed = [line.split()[2] for line in report if line.startswith("a committed ")]
    if committed and (len(shown) != 2 or shown[0] != committed[0]):
        wrong.append(f"told {committed}, and the log is {shown}")
    if status == 0 and not committed:
        wrong.append("status 0 without a commit")
    if not report and len(shown) != 1:
        wrong.append(f"told nothing, and the log is {shown}")
    if any(line.startswith("a refused") for line in report) and len(shown) != 1:
        wrong.append(f"told a refusal, and the log is {shown}")
    if any(" refused " in line and not line.endswith(" nomemory") for line in report):
        wrong.append(f"told {report}")
    return wrong


def try_directory(name, library, workers, on):
    """Plays the smallest commit over directories with each growth refused in turn, and all behind it where it goes on so, and prints
    the row; how many runs went wrong."""
    calm = hindered(library, 0, 0)[0]
    runs = workers.map(lambda first: hindered(library, first, 10**9 if on else first), range(1, calm + 1))
    ends, bad = collections.Counter(), 0
    for refused, (_, status, report, *left) in enumerate(runs, 1):
        wrong = faults_of_directory(status, report, *left)
        bad += bool(wrong)
        if wrong and bad <= 3:
            print("\n".join([f"wrong: {name}, growth {refused}:", *wrong, *report]))
        ends["same" if status == 0 else "told" if report else "silent"] += 1
    print_row(name, [calm, ends["same"], ends["silent"], ends["told"], "", bad])
    return bad


def try_named(name, library, workers):
    """Plays what has this name; how many runs went wrong."""
    if name in SCRIPTS:
        return try_script(name, SCRIPTS[name], library, workers)
    return try_directory(name, library, workers, name == "from_there_on")


def main():
    names = sys.argv[1:] or [*SCRIPTS, *OVER_DIRECTORIES]
    if not all(os.access(program, os.X_OK) for program in (made_faults.PROGRAM, ICEREPO)):
        sys.exit("refused_growths: there is no ice_faults or icerepo yet; build them first")
    with tempfile.TemporaryDirectory() as folder, concurrent.futures.ThreadPoolExecutor(4) as workers:
        library = growths.library(folder)
        print_row("script", ["growths", "as without", "7, silent", "7, told", "simulator", "wrong"])
        bad = sum(try_named(name, library, workers) for name in names)
    return 1 if bad else 0


if __name__ == "__main__":
    sys.exit(main())
