#!/usr/bin/env python3
"""Redraws the map of crates, in the checkout that it is run at the top of.

    bench/tools/merge_crates.py [--only WHOLE,..] [--no-names] [--no-fmt]

First some crates become parts of others, as MERGES says: files are moved, and what names them, or what stands in them, is
renamed in code, contracts, definitions, proofs, edits, READMEs and documents; the lines of crates.txt are joined, and lose the
crates that nothing names any more. Then the crates of HUBS pass names on: a crate that names a hub reaches what stands below it
through the hub, and its line loses the crates that it needed for that alone. A crate whose lemmas are cited stays named.

--only WHOLE,.. merges into these crates alone, and passes no names on. --no-names leaves the second step out, --no-fmt the layout
by rt fmt at the end. A part that is there no more is passed over, so the script can be run again.

At the end each must-fail edit is looked at: its old text has to stand once in its file. RT=PATH takes another rt.
"""
import argparse
import collections
import os
import re
import shutil
import subprocess
import sys

# A part, the crate that it goes into, and the folder there that is to hold it; with no folder its files stand beside those of the
# whole. A part with one file becomes a file of that name.
MERGES = [
    ("ice_items", "ice_base", "items"),
    ("kept_ids", "ice_ids", ""),
    ("json_words", "zarr_meta", "json_words"),
    ("held_manifest", "manifest_file", ""),
    ("held_log", "txn_file", ""),
    ("live_refs", "object_store", "live_refs"),
    ("cleanup_reports", "store_api", ""),
    ("check_reports", "store_api", ""),
    ("reach", "histories", "reach"),
    ("collecting", "histories", "collecting"),
    ("settled_doubts", "settle", "settled_doubts"),
    ("whole_files", "folder", "whole_files"),
    ("object_files", "dir_store", "object_files"),
    ("two_stores", "mirror", "two_stores"),
    ("mirror_reports", "mirror", "reports"),
    ("moments", "script_values", ""),
    ("script_calls", "play_script", ""),
    ("drafts", "play_report", ""),
    ("play_refs", "players", "refs"),
    ("play_collect", "players", "collections"),
    ("play_expire", "players", "expiries"),
    ("play_check", "players", "checks"),
    ("play_at_once", "play_run", "at_once"),
    ("lone_check", "play_run", "alone"),
    ("grow_script", "made_scripts", "grown"),
    ("cells_script", "made_scripts", "cells"),
    ("run_mirror", "top_call", "mirrors"),
    ("determined_changes", "determined_sessions", "changes"),
    ("base_tests", "low_tests", ""),
    ("store_tests", "low_tests", ""),
    ("session_tests", "machine_tests", ""),
    ("region_tests", "machine_tests", ""),
    ("check_tests", "machine_tests", ""),
    ("show_files", "show_values", ""),
    ("show_trees", "show_values", ""),
]

# Wholes that are crates of today under no name: the first lines of their code, and what their READMEs begin with.
NEW = {
    "players": "The tasks of a script that call on refs, collect, expire or check, as step machines over a store.",
    "made_scripts": "Scripts that are made from words of the command line: of `grow N`, and of `cells BRANCH PATH FROM TO`.",
    "low_tests": "Tests of what no row of `ice_show` can show, of the crates on which all stands, and of stores.",
    "machine_tests": "Tests of sessions, rebases, settlings, refs, boxes of numbers and checks.",
    "show_values": "What `ice_show` tells of ids, names, paths and files, of metadata and grids, of trees and of their changes.",
}

# Parts in a folder whose names the whole brings out at its root.
BROUGHT_OUT = {"ice_items"}

# Files of parts that stand beside those of the whole and get another name: in src/ and with it in proofs/; in specs/.
MODULES = {
    ("held_manifest", "laws"): "held_laws",
    ("held_log", "laws"): "held_laws",
    ("cleanup_reports", "cases"): "ref_cases",
    ("check_reports", "faults"): "check_faults",
    ("drafts", "sending"): "drafts",
}
SPECS = {
    ("held_manifest", "Laws"): "HeldLaws",
    ("held_log", "Laws"): "HeldLaws",
}

# Crates that pass on what stands below them, from the lowest on.
HUBS = ["repo_objects", "store_api", "session", "play_tasks"]

# Parts that have a function of their own name, which prose of crates names too.
ALSO_FUNCTIONS = {"run_mirror", "cells_script"}

# What documents say of the map, and say otherwise then.
SAID = [
    (
        "docs/CONTRIBUTING.md",
        "A crate is at most about 1,500 lines and 100 functions.",
        "A crate is one layer with one public model, of 600 to 3,000 lines of code and definitions, and its folders show its parts; "
        "laws stand in a crate of their own where they change apart from the code. `bench/tools/count_map.py` counts the map.",
    ),
]
SAID_OF_NAMES = [
    (
        "docs/ARCHITECTURE.md",
        "A crate names in `crates.txt` those that it stands on, and nothing of their inside;",
        "A crate names in `crates.txt` those that it stands on, and nothing of their inside; {hubs} pass on what they stand on, and "
        "who names one of them names lower crates only for their lemmas;",
    ),
]

CODE = (".rt",)
LOGIC = (".antt",)
PROSE = (".md",)


def read(path):
    with open(path, encoding="utf-8") as file:
        return file.read()


def write(path, text):
    os.makedirs(os.path.dirname(path) or ".", exist_ok=True)
    with open(path, "w", encoding="utf-8") as file:
        file.write(text)


def move(old, new):
    if os.path.exists(new):
        sys.exit(f"{old} would go to {new}, which is there already")
    os.makedirs(os.path.dirname(new), exist_ok=True)
    shutil.move(old, new)


def camel(name):
    return "".join(word.capitalize() for word in name.split("_"))


def files_of(crate):
    for folder, below, names in os.walk(f"crates/{crate}"):
        below[:] = sorted(name for name in below if name != "out")
        for name in sorted(names):
            yield os.path.join(folder, name)


# ---- crates.txt


class Line:
    def __init__(self, text):
        half, deps = text.split(":", 1)
        words = half.split()
        self.name, self.settings, self.deps = words[0], words[1:], deps.split()

    def __str__(self):
        return " ".join([self.name] + self.settings) + ":" + "".join(" " + dep for dep in self.deps)


class Map:
    """The lines of crates.txt, by name, in their order."""

    def __init__(self):
        self.head, self.lines = [], {}
        for text in read("crates.txt").splitlines():
            if text.strip().startswith("#") or ":" not in text:
                self.head.append(text)
            else:
                line = Line(text)
                self.lines[line.name] = line

    def write(self):
        write("crates.txt", "\n".join(self.head + [str(line) for line in self.ordered()]) + "\n")

    def ordered(self):
        """Each line behind those that it names, else in the order that they had."""
        done, out = set(), []

        def put(name):
            if name in done:
                return
            done.add(name)
            for dep in self.lines[name].deps:
                if dep in self.lines:
                    put(dep)
            out.append(self.lines[name])

        for name in self.lines:
            put(name)
        return out

    def below(self, name):
        seen, left = set(), [name]
        while left:
            for dep in self.lines[left.pop()].deps:
                if dep in self.lines and dep not in seen:
                    seen.add(dep)
                    left.append(dep)
        return seen


def joined_settings(lines):
    """Counts are added, words are joined; no crate has others here."""
    counts, words = collections.Counter(), {}
    for line in lines:
        for setting in line.settings:
            key, value = setting.split("=", 1)
            if value.isdigit():
                counts[key] += int(value)
            else:
                words.setdefault(key, set()).update(value.split("+"))
    return [f"{key}={count}" for key, count in counts.items()] + [
        f"{key}={'+'.join(sorted(value))}" for key, value in words.items()
    ]


# ---- where things go


class Part:
    """What becomes of the names of one crate: of a part, or of a whole that parts go into."""

    def __init__(self, name, whole, folder):
        self.name, self.whole, self.folder = name, whole, folder
        src = f"crates/{name}/src"
        self.modules = sorted(
            {entry[:-3] for entry in os.listdir(src) if entry.endswith(".rt") and entry not in ("lib.rt", "main.rt")}
        )
        self.specs = self.capital_files("specs")
        self.inside = self.capital_files("specs/inside")
        self.lemmas = self.capital_files("proofs")
        edits = f"crates/{name}/must-fail"
        self.edits = sorted(os.listdir(edits)) if os.path.isdir(edits) else []
        self.module_names, self.spec_names, self.inside_names, self.lemma_names, self.edit_names = {}, {}, {}, {}, {}

    def capital_files(self, below):
        folder = f"crates/{self.name}/{below}"
        if not os.path.isdir(folder):
            return []
        return sorted(name[:-5] for name in os.listdir(folder) if name.endswith(".antt") and name not in ("Lib.antt",))

    @property
    def lone(self):
        return not self.modules

    # The paths below are lists of words; each answers the path in the whole.

    def module(self, words):
        """Of code, below the crate: a module, or an item of the root."""
        if self.folder:
            return [self.folder] + words
        return [self.module_names.get(words[0], words[0])] + words[1:]

    def spec(self, words):
        """Below specs."""
        if not words:
            return words
        if words[0] == "declared":
            return ["declared"] + self.module(words[1:]) if len(words) > 1 else words
        if self.folder:
            return [self.folder] + words
        if words[0] == "inside" and len(words) > 1:
            return ["inside", self.inside_names.get(words[1], words[1])] + words[2:]
        return [self.spec_names.get(words[0], words[0])] + words[1:]

    def proof(self, words):
        """Below proofs."""
        if not words:
            return words
        if words[0] in self.lemmas:
            return [self.lemma_names.get(words[0], words[0])] + words[1:]
        return self.module(words)

    def item(self, words, outside):
        """Of code, where another crate, or another part, names it."""
        if words[0] == "specs":
            return ["specs"] + self.spec(words[1:])
        if words[0] == "proofs":
            return ["proofs"] + self.proof(words[1:])
        if self.name in BROUGHT_OUT and outside and not words[0] in self.modules:
            return words
        return self.module(words)

    def file(self, path):
        """Where a file of the crate goes, from the crate's folder on."""
        words = path.split("/")
        top, rest = words[0], words[1:]
        if len(words) == 1:
            return path
        stem, dot, ending = words[-1].rpartition(".")
        names = words[1:-1] + [stem]
        if top == "src":
            if names == ["lib"]:
                return f"src/{self.folder}.rt" if self.folder else path
            return "/".join(["src"] + self.module(names)) + dot + ending
        if top == "specs":
            if names == ["Lib"]:
                return f"specs/{self.folder}.antt" if self.folder else path
            return "/".join(["specs"] + self.spec(names)) + dot + ending
        if top == "proofs":
            if names == ["Lib"]:
                return path
            if len(names) == 1:
                return "/".join(["proofs"] + self.proof(names)) + dot + ending
            return "/".join(["proofs"] + self.module(names[:-1]) + names[-1:]) + dot + ending
        if top == "must-fail":
            return "must-fail/" + self.edit_names.get(words[1], words[1])
        return path


def root_names(crate):
    """The items of a crate's root, and the names that it brings out there."""
    text = re.sub(r"//[^\n]*", "", read(f"crates/{crate}/src/lib.rt"))
    names = set(re.findall(r"^(?:pub )?(?:struct|enum|trait|fn|const|static|type) (\w+)", text, re.M))
    for found in re.finditer(r"^pub use ([^;]+);", text, re.M):
        for item in re.sub(r"^.*::\{|\}", "", found.group(1), flags=re.S).split(","):
            if item.strip():
                names.add(re.split(r"::| as ", item.strip())[-1])
    return names


def settle_names(parts):
    """Gives another name to the files of parts that would stand where others stand: parts are those of one whole, the whole
    first."""
    whole = parts[0].whole
    folders = {part.folder.lower() for part in parts if part.folder}

    def clashes(lists, taken=()):
        """The names that stand in more than one of the lists, or among the taken ones, without regard to case."""
        count = collections.Counter(name.lower() for list_ in lists for name in list_)
        return {name for list_ in lists for name in list_ if count[name.lower()] > 1 or name.lower() in taken}

    flat = [part for part in parts if not part.folder]
    for part in parts:
        if part.name == whole:
            for word in part.modules + part.specs:
                if word.lower() in folders:
                    sys.exit(f"{whole} has a file {word}: another folder has to be chosen in MERGES")
    for part in flat:
        for word in part.modules:
            if (part.name, word) in MODULES:
                part.module_names[word] = MODULES[part.name, word]
        for word in part.specs:
            if (part.name, word) in SPECS:
                part.spec_names[word] = SPECS[part.name, word]
    new = lambda part, names, words: [names.get(word, word) for word in words]
    again = clashes([new(part, part.module_names, part.modules) for part in flat], folders)
    for part in flat:
        for word in part.modules:
            if part.name != whole and part.module_names.get(word, word) in again:
                part.module_names[word] = f"{part.name}_{word}"
    again = clashes([new(part, part.spec_names, [w for w in part.specs if w != "inside"]) for part in flat], folders)
    for part in flat:
        for word in part.specs:
            if part.name != whole and word != "inside" and part.spec_names.get(word, word) in again:
                part.spec_names[word] = camel(part.name) + word
    again = clashes([part.inside for part in flat])
    for part in flat:
        for word in part.inside:
            if part.name != whole and word in again:
                part.inside_names[word] = camel(part.name) + word
    # rattle makes a module in proofs/ for each module and each name of the root
    taken = {part.module_names.get(word, word).lower() for part in flat for word in part.modules} | folders
    for part in parts:
        if not part.folder or part.name in BROUGHT_OUT:
            taken |= {name.lower() for name in root_names(part.name)}
    again = clashes([part.lemmas for part in parts], taken)
    for part in parts:
        for word in part.lemmas:
            if word in again and (part.name != whole or word.lower() in taken):
                part.lemma_names[word] = camel(part.folder or part.name) + word
    again = clashes([part.edits for part in parts])
    for part in parts:
        for word in part.edits:
            if part.name != whole and word in again:
                part.edit_names[word] = f"{part.folder or part.name}_{word}"


# ---- renaming in texts

WORDS = r"(?:\.[^\s.{}();,\[\]`'\"|]+)*"
IN_LOGIC = re.compile(r"\bRattle\.([a-z][a-z_0-9]*)\.(specs|proofs)(" + WORDS + ")")
IN_CODE = re.compile(r"(?<![\w.:«])([a-z][a-z_0-9]*)::(\{[^{}]*\}|[A-Za-z_0-9]+(?:::[A-Za-z_0-9]+)*)")


class Renaming:
    """What is renamed, and how a file of one crate says it."""

    def __init__(self, parts, old_map):
        self.parts, self.map = parts, old_map

    def whole_of(self, crate):
        return self.parts[crate].whole if crate in self.parts else crate

    def logic(self, text):
        def one(found):
            crate, kind, words = found.group(1), found.group(2), found.group(3).split(".")[1:]
            if crate not in self.parts:
                return found.group(0)
            part = self.parts[crate]
            words = part.spec(words) if kind == "specs" else part.proof(words)
            return ".".join(["Rattle", part.whole, kind] + words)

        return IN_LOGIC.sub(one, text)

    def code(self, text, crate, at_root):
        """In a .rt file of the crate; at_root: where the root of the whole is."""
        here = self.whole_of(crate)
        named = set(self.map.lines[crate].deps)

        def one(found):
            name, rest = found.group(1), found.group(2)
            own = name == "crate"
            if own:
                if crate not in self.parts:
                    return found.group(0)
                part, base = self.parts[crate], ["crate"]
            else:
                if name not in self.parts or name == crate or name not in named:
                    return found.group(0)
                part = self.parts[name]
                base = [part.whole] if part.whole != here else [] if at_root else ["crate"]
            if rest.startswith("{"):
                lists = [item.strip() for item in rest[1:-1].split(",") if item.strip()]
                paths = [part.item(item.split("::"), not own) for item in lists]
                # all items of one list stand below one folder, or none does
                common = []
                if part.folder and all(path[0] == part.folder for path in paths):
                    common, paths = [part.folder], [path[1:] for path in paths]
                inner = ["::".join(path) for path in paths]
                return "::".join(base + common + ["{" + ", ".join(inner) + "}"])
            words = rest.split("::")
            return "::".join(base + part.item(words, not own))

        return IN_CODE.sub(one, text)

    def prose(self, text, here):
        """In Markdown and comments. here: the whole whose own text this is, if any."""
        gone = {name: part for name, part in self.parts.items() if part.name != part.whole}

        def label(name):
            part = gone[name]
            if part.whole == here and part.folder:
                return part.folder
            return f"{part.whole}::{part.folder}" if part.folder and here is not None else part.whole

        def path(found):
            name, rest = found.group(2), found.group(3)
            if name not in gone:
                return found.group(0)
            part = gone[name]
            return found.group(1) + part.whole + "/" + (part.file(rest) if re.match("(src|specs|proofs|must-fail)/", rest) else rest)

        def link(found):
            name = found.group(1)
            return f"[`{label(name)}`]" if name in gone else found.group(0)

        def ticked(found):
            name = found.group(1)
            return f"`{label(name)}`" if name in gone and (here is None or name not in ALSO_FUNCTIONS) else found.group(0)

        text = re.sub(r"\[`([a-z_0-9]+)`\](?=\()", link, text)
        text = re.sub(r"(crates/|\.\./|\b)([a-z_0-9]+)/((?:src|specs|proofs|must-fail)/[\w/.-]+|README\.md)", path, text)
        text = re.sub(r"`([a-z_0-9]+)`", ticked, text)
        # a list names each crate once
        return re.sub(r"(\[?`[\w:]+`(?:\]\([^)]*\))?)(?:(?:, | )\1)+", r"\1", text)

    def folders(self, text):
        """In scripts: the folders of parts."""

        def one(found):
            part = self.parts.get(found.group(1))
            if part is None or part.name == part.whole:
                return found.group(0)
            rest = found.group(2)
            return f"crates/{part.whole}" + ("/" + part.file(rest[1:]) if re.match("/(src|specs|proofs|must-fail)/.", rest) else rest)

        return re.sub(r"\bcrates/([a-z_0-9]+)\b((?:/[\w.-]+)*)", one, text)

    def comments(self, text, mark, here):
        out = []
        for line in text.split("\n"):
            out.append(self.prose(line, here) if line.lstrip().startswith(mark) else line)
        return "\n".join(out)

    def edit(self, text, crate):
        part = self.parts.get(crate)
        out = []
        for line in text.split("\n"):
            if line.startswith("file: ") and part:
                line = "file: " + part.file(line[6:].strip())
            elif line.startswith(("old: ", "new: ")):
                line = self.logic(self.code(line, crate, False))
            out.append(line)
        return "\n".join(out)

    def file(self, path, crate):
        """Renames in a file of the crate, where it stands now."""
        if path.endswith(CODE):
            text = read(path)
            here = self.whole_of(crate)
            at_root = crate == here and path in (f"crates/{crate}/src/lib.rt", f"crates/{crate}/src/main.rt")
            new = self.logic(self.code(text, crate, at_root))
            new = self.comments(new, "//", here)
            if new != text:
                new = tidied(new)
        elif path.endswith(LOGIC):
            text = read(path)
            new = self.comments(self.logic(text), "--", self.whole_of(crate))
        elif path.endswith(".edit"):
            text = read(path)
            new = self.edit(text, crate)
        elif path.endswith(PROSE):
            text = read(path)
            new = self.prose(self.logic(text), self.whole_of(crate))
        else:
            return
        if new != text:
            write(path, new)


# ---- use lines


def tidied(text):
    """Joins the use lines of one path, and sorts each run of such lines."""
    return re.sub(r"(?:^(?:pub )?use [^;]+;\n)+", lambda found: joined_uses(found.group(0)), text, flags=re.M)


def joined_uses(run):
    seen, others = {}, []
    for found in re.finditer(r"^((?:pub )?)use ([^;]+);\n", run, re.M):
        public, what = found.group(1), re.sub(r"\s+", " ", found.group(2).strip())
        if "{" in what:
            base, inner = re.fullmatch(r"(.*)::\{(.*)\}", what).groups()
            items = [item.strip() for item in inner.split(",") if item.strip()]
        elif "::" in what:
            base, item = what.rsplit("::", 1)
            items = [item]
        else:
            base, items = "", [what]
        seen.setdefault((public, base), [])
        for item in items:
            if item not in seen[public, base]:
                seen[public, base].append(item)
    lines = []
    for (public, base), items in seen.items():
        if not base:
            lines += [(item, f"{public}use {item};") for item in items]
            continue
        items.sort()
        if len(items) == 1:
            lines.append((f"{base}::{items[0]}", f"{public}use {base}::{items[0]};"))
        else:
            lines.append((f"{base}::{{", f"{public}use {base}::{{{', '.join(items)}}};"))
    first = lambda key: (not key.startswith(("crate::", "self::", "super::")), key)
    lines.sort(key=lambda line: first(line[0]))
    return "".join(line + "\n" for _, line in lines)


# ---- joining the roots


def split_root(text):
    """The doc, the mod lines with what stands above each, the use lines, and what is left of a root file."""
    doc, mods, uses, rest = [], [], [], []
    lines = text.split("\n")
    at = 0
    while at < len(lines):
        line = lines[at]
        if line.startswith("//!"):
            doc.append(line)
        elif line.startswith("#!["):
            pass
        elif line.startswith("#[cfg(test)]") and at + 1 < len(lines) and re.match(r"(pub )?mod \w+;", lines[at + 1]):
            mods.append(line + "\n" + lines[at + 1])
            at += 1
        elif re.match(r"(pub )?mod \w+;$", line):
            mods.append(line)
        elif re.match(r"(pub )?use ", line):
            block = [line]
            while not lines[at].endswith(";"):
                at += 1
                block.append(lines[at])
            uses.append("\n".join(block))
        else:
            rest.append(line)
        at += 1
    return doc, mods, uses, re.sub(r"\n{3,}", "\n\n", "\n".join(rest)).strip("\n")


def joined_root(doc, mods, uses, rest):
    name = lambda mod: re.search(r"mod (\w+);", mod).group(1)
    ghosts = "\n".join(line for line in rest.split("\n") if line.startswith("ghost use "))
    items = "\n".join(line for line in rest.split("\n") if not line.startswith("ghost use ")).strip("\n")
    plain = [use for use in uses if not use.startswith("pub ")]
    public = [use for use in uses if use.startswith("pub ")]
    blocks = ["\n".join(doc + ["#![tactic(auto)]"])]
    if ghosts:
        blocks.append(ghosts)
    own = {name(mod) for mod in mods}
    outer = [use for use in plain if re.match(r"use (\w+)", use).group(1) not in own]
    inner = [use for use in plain if use not in outer]
    if outer:
        blocks.append(joined_uses("\n".join(outer) + "\n").rstrip("\n"))
    if mods:
        blocks.append("\n".join(sorted(set(mods), key=name)))
    if inner or public:
        blocks.append(joined_uses("\n".join(inner + public) + "\n").rstrip("\n"))
    if items:
        blocks.append(items)
    return "\n\n".join(blocks) + "\n"


def join_root(whole, parts):
    """The whole's lib.rt, of its own and of its parts' as they stand renamed but not moved."""
    own = f"crates/{whole}/src/lib.rt"
    if os.path.exists(own):
        doc, mods, uses, rest = split_root(read(own))
    else:
        doc, mods, uses, rest = ["//! " + NEW[whole]], [], [], ""
    rests = [rest] if rest else []
    for part in parts:
        if part.name == whole:
            continue
        path = f"crates/{part.name}/src/lib.rt"
        more_doc, more_mods, more_uses, more_rest = split_root(read(path))
        if part.folder:
            has_code = more_mods or more_uses or more_rest.strip()
            if has_code:
                text = re.sub(r"^#!\[tactic\(auto\)\]\n", "", read(path), flags=re.M)
                write(path, text)
                if part.name in BROUGHT_OUT:
                    mods.append(f"mod {part.folder};")
                    items = re.findall(r"^pub (?:struct|enum|trait|fn|const) (\w+)", more_rest, re.M)
                    uses.append(f"pub use {part.folder}::{{{', '.join(items)}}};")
                else:
                    mods.append(f"pub mod {part.folder};")
            else:
                os.remove(path)
            continue
        for old, new in part.module_names.items():
            more_mods = [re.sub(rf"\bmod {old};", f"mod {new};", mod) for mod in more_mods]
            more_uses = [re.sub(rf"^((?:pub )?use ){old}::", rf"\g<1>{new}::", use) for use in more_uses]
        if whole in NEW and more_doc:
            # the first paragraph says what the whole's first line says
            more_doc = more_doc[more_doc.index("//!") + 1 :] if "//!" in more_doc else []
        if more_doc:
            doc += ["//!"] + more_doc
        mods += more_mods
        uses += more_uses
        if more_rest.strip():
            rests.append(more_rest)
        os.remove(path)
    write(own, joined_root(doc, mods, uses, "\n\n".join(rests)))


def join_nodes(whole, parts):
    """specs/Lib.antt, specs/inside.antt and proofs/Lib.antt of the whole; those of a part in a folder go into the folder."""
    for below in ("specs/Lib.antt", "proofs/Lib.antt", "specs/inside.antt"):
        own = f"crates/{whole}/{below}"
        had = read(own).splitlines() if os.path.exists(own) else []
        lines = []
        for part in parts:
            path = f"crates/{part.name}/{below}"
            if not os.path.exists(path):
                continue
            if part.folder and below == "specs/Lib.antt":
                if read(path).strip():
                    lines.append(f"pub mod {part.folder}")
                else:
                    os.remove(path)
                continue
            if part.folder and below == "specs/inside.antt":
                continue
            names = {
                "specs/Lib.antt": part.spec_names,
                "proofs/Lib.antt": part.lemma_names,
                "specs/inside.antt": part.inside_names,
            }[below]
            for line in read(path).splitlines():
                line = re.sub(r"^((?:pub )?mod )(\w+)", lambda found: found.group(1) + names.get(found.group(2), found.group(2)), line)
                if line not in lines:
                    lines.append(line)
            if part.name != whole:
                os.remove(path)
        if lines != had:
            write(own, "\n".join(lines) + "\n")
    if not os.path.exists(f"crates/{whole}/specs/Lib.antt") and any(p.specs for p in parts):
        write(f"crates/{whole}/specs/Lib.antt", "")


def join_readme(whole, parts):
    own = f"crates/{whole}/README.md"
    text = read(own) if os.path.exists(own) else f"# `{whole}`: {first_lower(NEW[whole])}\n"
    for part in parts:
        path = f"crates/{part.name}/README.md"
        if part.name == whole or not os.path.exists(path):
            continue
        lines = read(path).strip("\n").split("\n")
        if lines[0].startswith("# "):
            title = re.sub(r"^# (?:`[\w:]+`: )?", "", lines[0])
            lines[0] = f"# `{part.folder}`: {title}" if part.folder else f"# {title[0].upper()}{title[1:]}"
        lines = ["#" + line if re.match(r"#+ ", line) else line for line in lines]
        text = text.rstrip("\n") + "\n\n" + "\n".join(lines) + "\n"
        os.remove(path)
    write(own, text)


def first_lower(text):
    return text[0].lower() + text[1:].rstrip(".")


# ---- the first step


def merge(only):
    old = Map()
    groups = collections.OrderedDict()
    for name, whole, folder in MERGES:
        if only and whole not in only:
            continue
        if name not in old.lines:
            print(f"passed over: {name} is no crate here")
            continue
        if whole not in old.lines and whole not in NEW:
            sys.exit(f"{whole} is no crate here")
        groups.setdefault(whole, []).append((name, folder))
    parts, by_whole = {}, {}
    for whole, list_ in groups.items():
        here = [Part(whole, whole, "")] if whole in old.lines else []
        here += [Part(name, whole, folder) for name, folder in list_]
        settle_names(here)
        by_whole[whole] = here
        for part in here:
            parts[part.name] = part
    renaming = Renaming(parts, old)
    for name in old.lines:
        for path in list(files_of(name)):
            renaming.file(path, name)
    for path in tracked_outside():
        text = read(path)
        new = renaming.prose(renaming.logic(text), None) if path.endswith(PROSE) else renaming.folders(text)
        if new != text:
            write(path, new)
    for whole, list_ in by_whole.items():
        join_root(whole, list_)
        join_nodes(whole, list_)
        join_readme(whole, list_)
        for part in list_:
            for path in list(files_of(part.name)):
                below = os.path.relpath(path, f"crates/{part.name}")
                if part.name != whole or part.file(below) != below:
                    move(path, f"crates/{whole}/{part.file(below)}")
            if part.name != whole:
                shutil.rmtree(f"crates/{part.name}")
        for part in list_:
            for old_name, new_name in (
                list(part.module_names.items())
                + [("specs/" + o, "specs/" + n) for o, n in list(part.spec_names.items()) + list(part.inside_names.items())]
                + [("proofs/" + o, "proofs/" + n) for o, n in part.lemma_names.items()]
                + [("must-fail/" + o, "must-fail/" + n) for o, n in part.edit_names.items()]
            ):
                print(f"renamed, of {part.name} in {whole}: {old_name} to {new_name}")
    # crates.txt
    place = {}
    for name in old.lines:
        place.setdefault(renaming.whole_of(name), name)
    lines = {}
    for whole in place:
        members = [part.name for part in by_whole[whole]] if whole in by_whole else [whole]
        line = Line(f"{whole}:")
        line.settings = joined_settings([old.lines[name] for name in members])
        for name in members:
            for dep in old.lines[name].deps:
                dep = renaming.whole_of(dep)
                if dep != whole and dep not in line.deps:
                    line.deps.append(dep)
        lines[whole] = line
    old.lines = lines
    old.write()


def tracked_outside():
    """The texts outside of crates/, but for these tools."""
    out = subprocess.run(["git", "ls-files", "-z"], capture_output=True, check=True, text=True).stdout.split("\0")
    apart = ("crates/", "bench/tools/")
    return [path for path in out if path and not path.startswith(apart) and path != "crates.txt" and is_text(path)]


def is_text(path):
    try:
        return os.path.isfile(path) and read(path) is not None
    except UnicodeDecodeError:
        return False


def say(rows, **words):
    for path, old, new in rows:
        text = read(path) if os.path.exists(path) else ""
        new = new.format(**words)
        if new in text:
            continue
        if text.count(old) != 1:
            print(f"{path} says no longer: {old}")
        else:
            write(path, text.replace(old, new))


def say_longest():
    """The sentence on the longest chain of crates."""
    map_, path = Map(), "docs/ARCHITECTURE.md"
    longest = {}
    for line in map_.ordered():
        chains = [longest[dep] for dep in line.deps if dep in map_.lines]
        longest[line.name] = max(chains, key=len, default=[]) + [line.name]
    chain = max(longest.values(), key=len)
    ticks = [f"`{name}`" for name in chain]
    new = f"The longest chain has {len(chain)} crates, from {ticks[0]} by {', '.join(ticks[1:-2])} and {ticks[-2]} to {ticks[-1]}."
    text = read(path)
    if not re.search(r"The longest chain has [^.]*\.", text):
        print(f"{path} says no longer which chain of crates is the longest")
    write(path, re.sub(r"The longest chain has [^.]*\.", lambda _: new, text))


# ---- what a crate names


def named_by(crate, names):
    """Of these crates, those that the crate's files name, and those of them that can't be reached through another: their lemmas
    are cited, or a #[tactic] names something of theirs."""
    used, cited = set(), set()
    for path in files_of(crate):
        if not path.endswith(CODE + LOGIC):
            continue
        text = read(path)
        for found in re.finditer(r"\bRattle\.([a-z][a-z_0-9]*)\.(specs|proofs)\b", text):
            if found.group(1) in names and found.group(1) != crate:
                used.add(found.group(1))
                if found.group(2) == "proofs":
                    cited.add(found.group(1))
        if path.endswith(CODE):
            code = re.sub(r"//[^\n]*", "", text)
            # what a #[tactic] names has to have a file: it isn't reached through another crate
            for found in re.finditer(r"(?<![\w.:«])([a-z][a-z_0-9]*)::((?:proofs|specs)\b)?", code):
                if found.group(1) in names and found.group(1) != crate:
                    used.add(found.group(1))
                    if found.group(2):
                        cited.add(found.group(1))
            for found in re.finditer(r"^(?:pub )?use (\w+)(?: as \w+)?;", code, re.M):
                if found.group(1) in names and found.group(1) != crate:
                    used.add(found.group(1))
    return used, cited


def drop_unused():
    map_ = Map()
    for line in map_.lines.values():
        used, _ = named_by(line.name, set(map_.lines))
        gone = [dep for dep in line.deps if dep in map_.lines and dep not in used]
        if gone:
            print(f"{line.name} names no longer: {' '.join(gone)}")
        line.deps = [dep for dep in line.deps if dep not in gone]
        missing = used - set(line.deps)
        if missing:
            print(f"{line.name} names without its line: {' '.join(sorted(missing))}")
    map_.write()


# ---- the second step: names are passed on


def pass_names_on():
    map_ = Map()
    names = set(map_.lines)
    hubs = [hub for hub in HUBS if hub in names]
    below = {hub: map_.below(hub) for hub in hubs}
    used = {name: named_by(name, names) for name in names}
    through = {}
    for name, line in map_.lines.items():
        at_hand = [hub for hub in hubs if hub in line.deps]
        cited = used[name][1]
        keeps = [
            hub
            for hub in at_hand
            if hub in cited or not any(hub in below[other] for other in at_hand if other != hub)
        ]
        ways = {}
        for dep in line.deps:
            if dep not in names or dep in cited or dep in keeps:
                continue
            hub = next((hub for hub in hubs if hub in keeps and hub != dep and dep in below[hub]), None)
            if hub:
                ways[dep] = hub
        through[name] = ways
    # what each hub passes on, and from where it has it: from the highest hub down, since one asks the next
    passed = {hub: set() for hub in hubs}
    for ways in through.values():
        for dep, hub in ways.items():
            passed[hub].add(dep)
    for hub in reversed(hubs):
        line = map_.lines[hub]
        for dep in sorted(passed[hub]):
            if dep in through[hub]:
                passed[through[hub][dep]].add(dep)
            elif dep not in line.deps:
                lower = next((other for other in hubs if other in line.deps and other not in through[hub] and dep in below[other]), None)
                if lower:
                    through[hub][dep] = lower
                    passed[lower].add(dep)
                else:
                    print(f"{hub} names {dep} to pass it on")
                    line.deps.append(dep)
    brought = {hub: brought_out(hub) for hub in hubs}
    for name, ways in through.items():
        if ways:
            reach_through(name, ways, brought)
            map_.lines[name].deps = [dep for dep in map_.lines[name].deps if dep not in ways]
    for hub in hubs:
        add_passing(hub, sorted(passed[hub]), through[hub])
    map_.write()


def brought_out(hub):
    """The items that a hub's root brings out by name, by the crate that they are of."""
    out = collections.defaultdict(set)
    for found in re.finditer(r"^pub use ([a-z_0-9]+)::(?:\{([^{}]*)\}|(\w+));", read(f"crates/{hub}/src/lib.rt"), re.M):
        out[found.group(1)] |= {item.strip() for item in (found.group(2) or found.group(3)).split(",") if item.strip()}
    return out


def reach_through(crate, ways, brought):
    def logic(text):
        def one(found):
            dep, kind, words = found.groups()
            if dep not in ways or kind != "specs":
                return found.group(0)
            return f"Rattle.{ways[dep]}.specs.{dep}{words}"

        return IN_LOGIC.sub(one, text)

    def code(text):
        def list_(found):
            public, dep, items = found.group(1), found.group(2), [item.strip() for item in found.group(3).split(",") if item.strip()]
            if dep not in ways:
                return found.group(0)
            hub = ways[dep]
            plain = [item for item in items if item in brought[hub][dep]]
            other = [item for item in items if item not in plain]
            lines = [f"{public}use {hub}::{{{', '.join(plain)}}};"] if plain else []
            lines += [f"{public}use {hub}::{dep}::{{{', '.join(other)}}};"] if other else []
            return "\n".join(lines)

        def one(found):
            dep, rest = found.groups()
            if dep not in ways:
                return found.group(0)
            if rest.split("::")[0] in brought[ways[dep]][dep]:
                return f"{ways[dep]}::{rest}"
            return f"{ways[dep]}::{dep}::{rest}"

        text = re.sub(r"^((?:pub )?)use ([a-z_0-9]+)::\{([^{}]*)\};", list_, text, flags=re.M)
        return IN_CODE.sub(one, text)

    for path in list(files_of(crate)):
        if not path.endswith(CODE + LOGIC + (".edit",)):
            continue
        text = read(path)
        if path.endswith(".edit"):
            new = "\n".join(logic(code(line)) if line.startswith(("old: ", "new: ")) else line for line in text.split("\n"))
        elif path.endswith(CODE):
            new = logic(code(text))
        else:
            new = logic(text)
        if new != text:
            write(path, tidied(new) if path.endswith(CODE) else new)


def add_passing(hub, deps, ways):
    if not deps:
        return
    path = f"crates/{hub}/src/lib.rt"
    doc, mods, uses, rest = split_root(read(path))
    if not any("It passes names on" in line for line in doc):
        doc += ["//!", f"//! It passes names on: a crate above it reaches what it stands on through it, as `{hub}::{deps[0]}`."]
    uses += [f"pub use {ways[dep]}::{dep};" if dep in ways else f"pub use {dep};" for dep in deps]
    write(path, joined_root(doc, mods, uses, rest))
    path = f"crates/{hub}/README.md"
    if "It passes names on" not in read(path):
        text = (
            "It passes names on: a crate above it needn't name in `crates.txt` what it reaches through it, "
            f"{', '.join(f'`{dep}`' for dep in deps)}. In code that is `{hub}::{deps[0]}`, in contracts and proofs "
            f"`Rattle.{hub}.specs.{deps[0]}`. Lemmas aren't passed on, nor what a `#[tactic]` names: who cites these names the "
            "crate itself."
        )
        write(path, read(path).rstrip("\n") + f"\n\n{text}\n")
    path = f"crates/{hub}/specs/Lib.antt"
    lines = read(path).splitlines()
    taken = {found.group(1).lower() for line in lines for found in [re.match(r"(?:pub )?mod (\w+)", line)] if found}
    for dep in deps:
        if dep in taken:
            sys.exit(f"{hub} has a file {dep} in specs/, and passes on a crate of that name")
        source = f"Rattle.{ways[dep]}.specs.{dep}" if dep in ways else f"Rattle.{dep}.specs"
        if not any(line.endswith(f" as {dep}") for line in lines):
            lines.append(f"pub use {source} as {dep}")
    write(path, "\n".join(lines) + "\n")


# ---- the end


def look_at_edits():
    bad = 0
    for name in Map().lines:
        folder = f"crates/{name}/must-fail"
        if not os.path.isdir(folder):
            continue
        for edit in sorted(os.listdir(folder)):
            if not edit.endswith(".edit"):
                continue
            texts, where, old = {}, None, None
            for line in read(f"{folder}/{edit}").split("\n"):
                if line.startswith("file: "):
                    where = f"crates/{name}/{line[6:].strip()}"
                    if where not in texts:
                        texts[where] = read(where) if os.path.exists(where) else ""
                elif line.startswith("old: "):
                    old = line[5:]
                    if texts[where].count(old) != 1:
                        print(f"{folder}/{edit}: in {where} stands {texts[where].count(old)} times: {old}")
                        bad += 1
                elif line.startswith("new: "):
                    texts[where] = texts[where].replace(old, line[5:])
    return bad


def lay_out(names):
    for name in sorted(names):
        done = subprocess.run([os.environ.get("RT", "rt"), "fmt"], cwd=f"crates/{name}", capture_output=True, text=True, check=False)
        if done.returncode:
            print(f"rt fmt in {name}: {(done.stdout + done.stderr).strip()[-500:]}")


def main():
    words = argparse.ArgumentParser(description=__doc__, formatter_class=argparse.RawDescriptionHelpFormatter)
    words.add_argument("--only", default="", metavar="WHOLE,..")
    words.add_argument("--no-names", action="store_true")
    words.add_argument("--no-fmt", action="store_true")
    given = words.parse_args()
    if not os.path.exists("crates.txt"):
        sys.exit("no crates.txt here")
    only = set(given.only.split(",")) - {""}
    merge(only)
    drop_unused()
    if not only:
        say(SAID)
        if not given.no_names:
            pass_names_on()
            say(SAID_OF_NAMES, hubs=", ".join(f"`{hub}`" for hub in HUBS))
        say_longest()
    if not given.no_fmt:
        lay_out(Map().lines)
    sys.exit(1 if look_at_edits() else 0)


if __name__ == "__main__":
    main()
