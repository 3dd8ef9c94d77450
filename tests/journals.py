"""Journals as `ice_faults` prints them: their events, and what is wrong with them. For the scripts beside it; it runs nothing.

The rules of legal and polite journals stand in docs/MODEL.md, sections 4, 6 and 7. A line of an event shows no bytes, so of what
a reference, a snapshot or a manifest names only that is looked at which keys and purposes show.
"""
import re
from typing import NamedTuple, Optional

LINE = re.compile(
    r"event (?P<number>\d+): client (?P<client>\d+) (?P<kind>put|get|remove|list) (?P<key>.+?)"
    r"(?: at version (?P<old>\d+))?(?:, bytes (?P<size>\d+))?(?:, for (?P<why>\w+))? => (?P<answer>.*), time (?P<time>\d+)"
)
PARTS = {
    "snapshots": "snapshots/",
    "manifests": "manifests/",
    "transactions": "transactions/",
    "chunks": "chunks/",
    "branches": "refs/branch.",
    "tags": "refs/tag.",
    "leases": "leases/",
}
INITIAL = "snapshots/1CECHNKREP0F1RSTCMT0"
MAIN = "refs/branch.main/ref.json"
WRITTEN_ONCE = ("snapshots/", "manifests/", "transactions/", "chunks/")


class Event(NamedTuple):
    """A call of the store."""

    number: int
    client: int
    kind: str
    key: str
    old: Optional[int]
    size: Optional[int]
    why: Optional[str]
    answer: str
    time: int

    def was_done(self):
        """Whether the answer says that the operation was done."""
        return self.answer.startswith("done") or self.answer == "failed, but done"

    def has_failed(self):
        """Whether the store failed it, done or not."""
        return self.answer.startswith("failed")


def number_in(text):
    """The number of a text, if there is one."""
    return None if text is None else int(text)


def events_of(lines):
    """The events that a run printed."""
    found = []
    for line in lines:
        if line.startswith("event "):
            part = LINE.fullmatch(line)
            assert part, line
            found.append(
                Event(
                    int(part["number"]),
                    int(part["client"]),
                    part["kind"],
                    part["key"],
                    number_in(part["old"]),
                    number_in(part["size"]),
                    part["why"],
                    part["answer"],
                    int(part["time"]),
                )
            )
    return found


def takes_effect(event, stands):
    """Whether the event changes what stands: of each key its version and length."""
    version = stands.get(event.key, (None, None))[0]
    if event.kind == "put":
        return version == event.old
    return event.kind == "remove" and version is not None and event.old in (None, version)


def found_at(version):
    """How an answer tells what stands."""
    return "found nothing" if version is None else f"found version {version}"


def answer_of(event, stands):
    """The one answer that the machine gives to an event that didn't fail."""
    version, size = stands.get(event.key, (None, None))
    if event.kind == "list":
        return f"found entries {sum(key.startswith(PARTS[event.key]) for key in stands)}"
    if event.kind == "get":
        return found_at(version) if version is None else f"{found_at(version)}, bytes {size}"
    if not takes_effect(event, stands):
        return found_at(version)
    return f"done, version {event.number}" if event.kind == "put" else "done"


def apply(event, stands):
    """What stands behind an event; whether it took effect."""
    if not event.was_done() or not takes_effect(event, stands):
        return False
    if event.kind == "put":
        stands[event.key] = (event.number, event.size)
    else:
        del stands[event.key]
    return True


def rude_put(event, seen):
    """What is rude in a put where the key was free, behind puts of the keys that were seen."""
    name = event.key.split("/", 1)[1]
    wanted = {"snapshots/": ("set",), "manifests/": ("set",), "transactions/": ("set",), "chunks/": ("set",), "leases/": ("lease",)}
    for part, purposes in wanted.items():
        if event.key.startswith(part) and event.key != INITIAL and event.why not in purposes:
            return f"an object for {event.why}"
    if event.key.startswith("snapshots/") and event.key != INITIAL and f"transactions/{name}" not in seen:
        return "a snapshot without a log"
    if event.key.startswith("refs/branch.") and event.why != "create" and not (event.why == "init" and event.key == MAIN):
        return f"a new branch for {event.why}"
    if event.key.startswith("refs/") and not event.key.endswith(".deleted") and not any(key.startswith("snapshots/") for key in seen):
        return "a ref without a snapshot"
    if event.key.startswith("refs/tag.") and event.key.endswith("/ref.json") and event.why != "tag":
        return f"a new tag for {event.why}"
    if event.key.endswith("/ref.json.deleted") and event.key.removesuffix(".deleted") not in seen:
        return "a tombstone without a tag"
    return None


def rude_put_over(event, mine):
    """What is rude in a put over a version, behind the client's own puts of these keys."""
    if event.key.startswith("refs/branch."):
        if event.why == "commit" and not any(key.startswith("snapshots/") for key in mine):
            return "a commit without a snapshot"
        return None if event.why in ("commit", "reset") else f"a branch is put over for {event.why}"
    if event.key.startswith("snapshots/") and event.key != INITIAL and event.why == "expire":
        return None
    return "it is put over"


def rude_removal(event):
    """What is rude in a removal."""
    if event.key.startswith(WRITTEN_ONCE):
        return None if event.why == "collect" else f"an object is removed for {event.why}"
    if event.key.startswith("leases/"):
        return None if event.why == "lease" and event.old is None else "a lease is removed"
    dropped = event.key.startswith("refs/branch.") and event.key != MAIN and event.old is not None
    return None if dropped else "a ref is removed"


def rude(event, seen, mine):
    """What is rude in an event, if anything, behind done puts of the keys that were seen, and the client's own."""
    if event.kind == "put":
        return rude_put(event, seen) if event.old is None else rude_put_over(event, mine)
    return rude_removal(event) if event.kind == "remove" else None


def faults_of(events):
    """What is wrong with a journal, in words: events that are answered in another way than the machine's, rude ones, and what is
    put again."""
    wrong, stands, seen, mine, time = [], {}, set(), {}, 0
    for place, event in enumerate(events):
        if event.number != place or event.time < time:
            wrong.append(f"event {event.number} at {place} and time {event.time}")
        time = event.time
        if not event.has_failed() and event.answer != answer_of(event, stands):
            wrong.append(f"event {event.number} is answered {event.answer}, and not {answer_of(event, stands)}")
        told = rude(event, seen, mine.get(event.client, set()))
        if told:
            wrong.append(f"event {event.number} on {event.key} is rude: {told}")
        again = event.key.startswith(WRITTEN_ONCE) and event.key in seen and event.key not in stands and event.key != INITIAL
        if event.kind == "put" and again:
            wrong.append(f"event {event.number} puts {event.key} again")
        if apply(event, stands) and event.kind == "put":
            seen.add(event.key)
            mine.setdefault(event.client, set()).add(event.key)
    return wrong
