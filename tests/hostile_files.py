#!/usr/bin/env python3
"""Lays files into a directory whose parts are shared by many lists, opens them with the program, and measures memory and time.

Run it by hand: `tests/hostile_files.py`; words behind it pick files by their names. Run `./icerepo` once before, since nothing of
the repository is built here. Where `ICE_PROGRAM` names another program, that one is tried. It needs a C compiler (`growths.py`).

In a file of flat tables parts may overlap. So lists within lists can share one span, and what they say is as long as the cube of the
file. Each file here stands for a value, as FORMATS.md says, and is read by a script over a directory that else has what the script
needs: a snapshot is opened by the branch that names it, a log is met in a rebase, a manifest where a chunk is shown.

| file | what is shared |
|---|---|
| `manifests` | a snapshot's arrays share one list of manifests, and these one list of extents |
| `names` | a snapshot's arrays share one list of names of dimensions, each of which is the same long text |
| `texts` | a snapshot's groups share one long `zarr.json`, in a file of 195 kB |
| `turns` | a snapshot's groups share two long `zarr.json`, in turn |
| `log` | a log's arrays share one list of indices, each of which is a part of one long list of numbers |
| `indices` | 4,000 arrays of a log share 4,000 indices, in a file of 160 kB |
| `refs` | a manifest's arrays share one list of chunks, whose indices and bytes are parts of one long list of numbers |

The others have 20 kB. Of each the table has its length; the most bytes that the program held, and the most that were resident, both
beyond those of the same script over a small file of this kind; how many times the file's length the first of them is; the seconds of
the processor; and how it ended. Where more than `--room` MiB are asked for there is no memory, so the run ends with status 7. After
`--seconds` it is cut off, told as `out of time`: it held that much by then. `--most N` has the script end with 1 where a file takes
more than N times its length or isn't read to its end.
"""
import argparse
import os
import resource
import signal
import struct
import subprocess
import sys
import tempfile
from typing import NamedTuple

import growths

TOP = os.path.dirname(os.path.dirname(os.path.realpath(__file__)))
PROGRAM = os.environ.get("ICE_PROGRAM") or os.path.join(TOP, "crates", "ice_cli", "out", "ice_cli")
DIGITS = "0123456789ABCDEFGHJKMNPQRSTVWXYZ"
INITIAL = bytes.fromhex("0b1cc8d6787580f0e33a6534")
SNAPSHOT, MANIFEST, LOG = 1, 2, 4
GROUP = b'{"zarr_format":3,"node_type":"group"}'
ARRAY = (
    b'{"zarr_format":3,"node_type":"array","shape":[4],"data_type":"uint8",'
    b'"chunk_grid":{"name":"regular","configuration":{"chunk_shape":[2]}},'
    b'"chunk_key_encoding":{"name":"default","configuration":{"separator":"/"}},"fill_value":0,"codecs":[{"name":"bytes"}]}'
)


def id12(number):
    """An id of an object that no other number has, in the order of numbers."""
    return b"\x7f" + number.to_bytes(11, "big")


def id8(number):
    """An id of a node, in the order of numbers."""
    return number.to_bytes(8, "big")


def spelled(name):
    """The text of an id."""
    bits = int.from_bytes(name, "big") << 4
    return "".join(DIGITS[bits >> 5 * place & 31] for place in reversed(range(20)))


class Payload:
    """Flat tables that are laid out by hand, one part after another. A distance may name a part that comes later."""

    def __init__(self):
        self.bytes = bytearray(4)
        self.places = {}
        self.distances = [(0, "root")]

    def name(self, part):
        """The part begins here."""
        self.places[part] = len(self.bytes)

    def put(self, kind, *numbers):
        """Numbers, one after another."""
        self.bytes += struct.pack(f"<{kind}", *numbers)

    def to(self, part):
        """The distance to a part."""
        self.distances.append((len(self.bytes), part))
        self.bytes += bytes(4)

    def shape(self, part, size, *fields):
        """A vtable: the size of its tables, and of each slot where its field stands in them."""
        self.name(part)
        self.put(f"{2 + len(fields)}H", 4 + 2 * len(fields), size, *fields)

    def table(self, shape):
        """A table of this shape begins here."""
        self.put("i", len(self.bytes) - self.places[shape])

    def text(self, part, text):
        """A text, or a vector of bytes."""
        self.name(part)
        self.put("I", len(text))
        self.bytes += text + b"\0"

    def tables(self, part, names):
        """A vector of tables."""
        self.name(part)
        self.put("I", len(names))
        for name in names:
            self.to(name)

    def file(self, kind):
        """The whole file."""
        for place, part in self.distances:
            struct.pack_into("<I", self.bytes, place, self.places[part] - place)
        return b"ICE\xf0\x9f\xa7\x8aCHUNK" + b"hostile".ljust(24) + bytes([1, kind, 0]) + bytes(self.bytes)


def root_of_snapshot(payload, name, parent=None, listed=False):
    """The root table of a snapshot: its nodes follow, and its listed manifests where it has any."""
    payload.shape("snapshot", 48, 4, 36 if parent else 0, 16, 20, 28, 0, 32 if listed else 0)
    payload.name("root")
    payload.table("snapshot")
    payload.bytes += name
    payload.to("nodes")
    payload.put("Q", 1)
    payload.to("message")
    payload.to("listed" if listed else "message")
    payload.bytes += parent or bytes(12)
    payload.text("message", b"hostile")


def rows(payload, count, kind, *texts):
    """The root, and nodes beneath it that all have this kind, these texts in turn and the table `data`. A node's id is the eight bytes
    of its distances, so that its row is as short as can be."""
    payload.shape("row", 17, 4, 4, 8, 16, 12)
    payload.tables("nodes", [("row", at) for at in range(count)])
    for at in range(count):
        payload.name(("row", at))
        payload.table("row")
        payload.to(("path", at))
        payload.to(("text", at % len(texts)) if at else "root text")
        payload.to("data" if at else "group")
        payload.put("B", kind if at else 2)
    for at in range(count):
        payload.text(("path", at), b"/%03x" % at if at else b"/")
    payload.shape("nothing", 4)
    payload.name("group")
    payload.table("nothing")
    payload.text("root text", GROUP)
    for at, text in enumerate(texts):
        payload.text(("text", at), text)


def array_data(payload):
    """The table of all arrays: their shape, the names of their dimensions, and their manifests."""
    payload.shape("array", 16, 4, 8, 12)
    payload.name("data")
    payload.table("array")
    payload.to("dimensions")
    payload.to("names")
    payload.to("manifests")
    payload.name("dimensions")
    payload.put("I2Q", 1, 4, 2)


def empty_snapshot(name, parent):
    """A snapshot without nodes."""
    payload = Payload()
    root_of_snapshot(payload, name, parent)
    payload.tables("nodes", [])
    return payload.file(SNAPSHOT)


def manifests(name, nodes, each, extents):
    """A snapshot whose arrays share manifests, which share extents. A manifest's table lies in the list of all manifests, around its
    id: it begins 8 bytes before the id, at the end of the entry before."""
    payload = Payload()
    root_of_snapshot(payload, name, listed=True)
    rows(payload, nodes, 1, ARRAY)
    array_data(payload)
    payload.tables("names", [])
    payload.shape("manifest", 24, 8, 20)
    payload.tables("manifests", [("manifest", at) for at in range(each)])
    payload.name(("manifest", 0))
    payload.table("manifest")
    payload.name("listed")
    payload.put("I", each)
    for at in range(each):
        payload.bytes += id12(at)
        payload.to("extents")
        payload.put("Q", 1)
        payload.name(("manifest", at + 1))
        payload.table("manifest")
        payload.put("4x")
    payload.name("extents")
    payload.put(f"{1 + 2 * extents}I", extents, *[0, 2] * extents)
    return payload.file(SNAPSHOT)


def names(name, nodes, count, length):
    """A snapshot whose arrays share names of dimensions, which are one text."""
    payload = Payload()
    root_of_snapshot(payload, name)
    rows(payload, nodes, 1, ARRAY)
    array_data(payload)
    payload.tables("manifests", [])
    payload.tables("names", ["name"] * count)
    payload.shape("named", 8, 4)
    payload.name("name")
    payload.table("named")
    payload.to("long")
    payload.text("long", b"n" * length)
    return payload.file(SNAPSHOT)


def long_text(length, digit):
    """The text of a group that has a long list of one digit."""
    return GROUP[:-1] + b',"attributes":{"a":[' + b"%s," % digit * (length // 2) + digit + b"]}}"


def texts(name, nodes, *lengths):
    """A snapshot whose groups share texts of metadata, in turn."""
    payload = Payload()
    root_of_snapshot(payload, name)
    rows(payload, nodes, 2, *(long_text(length, b"%d" % digit) for digit, length in enumerate(lengths)))
    payload.shape("data of groups", 4)
    payload.name("data")
    payload.table("data of groups")
    return payload.file(SNAPSHOT)


def array_lists(payload, arrays, lists):
    """Tables of arrays by their nodes' ids, which share one vector."""
    payload.tables("arrays", [("array", at) for at in range(arrays)])
    payload.shape("array", 16, 4, 12)
    for at in range(arrays):
        payload.name(("array", at))
        payload.table("array")
        payload.bytes += id8(at)
        payload.to(lists)


def shared_numbers(payload, count, length):
    """Lists of numbers that strictly ascend and are parts of one another: each has one number more than the one before, and begins
    with the number that follows its length."""
    for at in range(2 * count + length):
        payload.name(("numbers", at))
        payload.put("I", length + at)


def root_of_lists(payload, name, slots):
    """The root table of a log or a manifest, whose last slot has the arrays."""
    payload.shape("lists", 20, 4, *[0] * slots, 16)
    payload.name("root")
    payload.table("lists")
    payload.bytes += name
    payload.to("arrays")


def log(name, arrays, indices, length):
    """A log whose arrays share indices; these are parts of one another, or, where the length is 0, of one number each."""
    payload = Payload()
    root_of_lists(payload, name, 6)
    array_lists(payload, arrays, "indices")
    payload.tables("indices", [("index", at) for at in range(indices)])
    payload.shape("indexed", 8, 4)
    for at in range(indices):
        payload.name(("index", at))
        payload.table("indexed")
        payload.to(("numbers", at))
    if length:
        shared_numbers(payload, indices, length)
    for at in range(0 if length else indices):
        payload.name(("numbers", at))
        payload.put("2I", 1, at)
    return payload.file(LOG)


def refs(name, arrays, chunks, length):
    """A manifest whose arrays share chunks, whose indices and bytes are parts of one list of numbers."""
    payload = Payload()
    root_of_lists(payload, name, 0)
    array_lists(payload, arrays, "chunks")
    payload.tables("chunks", [("chunk", at) for at in range(chunks)])
    payload.shape("chunk in a manifest", 12, 4, 8)
    for at in range(chunks):
        payload.name(("chunk", at))
        payload.table("chunk in a manifest")
        payload.to(("numbers", at))
        payload.to(("numbers", at))
    shared_numbers(payload, chunks, length)
    return payload.file(MANIFEST)


NAME = id12(0)
OPENS = ["task r read branch main", "get /"]
SHOWS = ["task r read branch main", "chunk /001 0"]
REBASES = ["task a write main 1 fail", "group /", "commit mine", "task b refs", f"reset main id {spelled(NAME)}", "turns a*2 b*9 a"]


class Hostile(NamedTuple):
    """A file: how it is made, of how many parts, what it is, and the script that reads it."""

    made: object
    parts: tuple
    kind: int
    script: list

    def small(self):
        """The same with few parts."""
        return self._replace(parts=tuple(min(part, 2) for part in self.parts))


FILES = {
    "manifests": Hostile(manifests, (210, 180, 830), SNAPSHOT, OPENS),
    "names": Hostile(names, (210, 1650, 6600), SNAPSHOT, OPENS),
    "texts": Hostile(texts, (3000, 105_000), SNAPSHOT, OPENS),
    "turns": Hostile(texts, (3000, 52_000, 53_000), SNAPSHOT, OPENS),
    "log": Hostile(log, (330, 330, 1650), LOG, REBASES),
    "indices": Hostile(log, (4000, 4000, 0), LOG, REBASES),
    "refs": Hostile(refs, (330, 270, 1650), MANIFEST, SHOWS),
}


def write(folder, key, content):
    """Lays an object into the directory."""
    path = os.path.join(folder, key)
    os.makedirs(os.path.dirname(path), exist_ok=True)
    with open(path, "wb") as file:
        file.write(content)


def lay(folder, hostile):
    """Lays a file and what its script needs into a directory; its length."""
    content = hostile.made(NAME, *hostile.parts)
    part = {SNAPSHOT: "snapshots", MANIFEST: "manifests", LOG: "transactions"}[hostile.kind]
    if hostile.kind == LOG:
        write(folder, f"snapshots/{spelled(NAME)}", empty_snapshot(NAME, INITIAL))
    if hostile.kind == MANIFEST:
        write(folder, f"snapshots/{spelled(NAME)}", manifests(NAME, 2, 1, 1))
    if hostile.kind != LOG:
        write(folder, "refs/branch.main/ref.json", b'{"snapshot":"%s"}' % spelled(NAME).encode())
    write(folder, f"{part}/{spelled(NAME)}", content)
    return len(content)


class Measured(NamedTuple):
    """What a run came to: bytes at most, bytes resident at most, seconds of the processor, and how it ended."""

    held: int
    resident: int
    seconds: float
    ending: str


def ending_of(status, printed):
    """How a run ended, in a few words: its status, and the first line of its report."""
    if status == -signal.SIGXCPU:
        return "out of time"
    first = printed.split("\n")[0]
    return f"status {status}" + (f", {first[:60]}" if first else "")


def limit(options):
    """Limits the memory and the processor time of this process."""
    resource.setrlimit(resource.RLIMIT_CPU, (options.seconds, options.seconds + 1))
    if options.room:
        resource.setrlimit(resource.RLIMIT_AS, (options.room << 20, options.room << 20))


def run(library, hostile, options):
    """Has the program read a file in a directory: its length, and what was measured."""
    with tempfile.TemporaryDirectory() as folder, growths.counting(library) as (told, counts), tempfile.TemporaryFile("w+") as printed:
        length = lay(os.path.join(folder, "store"), hostile)
        with tempfile.TemporaryFile("w+") as script:
            script.write("".join(f"{line}\n" for line in hostile.script))
            script.seek(0)
            words = [PROGRAM, "play", "--dir", os.path.join(folder, "store")]
            ends = {"stdin": script, "stdout": printed, "stderr": subprocess.DEVNULL}
            child = subprocess.Popen(words, env=told, preexec_fn=lambda: limit(options), **ends)
            _, status, used = os.wait4(child.pid, 0)
        child.returncode = os.waitstatus_to_exitcode(status)
        printed.seek(0)
        seconds = used.ru_utime + used.ru_stime
        return length, Measured(counts().most, used.ru_maxrss << 10, seconds, ending_of(child.returncode, printed.read()))


def row_of(name, library, hostile, options):
    """Measures a file against a small one, and prints its row; whether it takes too much."""
    _, small = run(library, hostile.small(), options)
    length, big = run(library, hostile, options)
    held, resident = big.held - small.held, big.resident - small.resident
    times = held / length
    print(f"{name:<10}{length:>9}{held / 2**20:>11.2f}{resident / 2**20:>11.2f}{times:>11.1f}{big.seconds:>9.2f}  {big.ending}", flush=True)
    cut = not big.ending.startswith(("status 0", "status 1"))
    return options.most is not None and (cut or times > options.most)


def options_of(words):
    """What the words of the command line say."""
    parser = argparse.ArgumentParser(description="Measures the program over files whose parts are shared by many lists.")
    parser.add_argument("names", nargs="*", help=f"files: {', '.join(FILES)}")
    parser.add_argument("--most", type=float, help="how many times its length a file may take")
    parser.add_argument("--room", type=int, default=6000, help="the memory of a run in MiB (6000); 0 is all")
    parser.add_argument("--seconds", type=int, default=120, help="the processor time of a run (120)")
    return parser.parse_args(words)


def main():
    options = options_of(sys.argv[1:])
    if not os.access(PROGRAM, os.X_OK):
        sys.exit("hostile_files: there is no program yet; run ./icerepo once")
    print(f"{'file':<10}{'bytes':>9}{'held MiB':>11}{'rss MiB':>11}{'times':>11}{'seconds':>9}  ended")
    with tempfile.TemporaryDirectory() as folder:
        library = growths.library(folder)
        large = [name for name in options.names or FILES if row_of(name, library, FILES[name], options)]
    if large:
        print(f"too large: {', '.join(large)}")
    return 1 if large else 0


if __name__ == "__main__":
    sys.exit(main())
