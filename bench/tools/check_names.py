#!/usr/bin/env python3
"""Looks for names that lead nowhere, in the checkout that it is run at the top of, and proves nothing: each path that a file of
src/, specs/ or proofs/ imports from a crate of the repository has to lead to a file there that has the items, through what other
crates pass on, and the crate has to stand in the importing crate's line of crates.txt; each file of specs/, and each lemma file,
has to be declared beside it; each folder of proofs/ has to be that of a function or type of the code. It takes seconds.

    bench/tools/check_names.py

It reads by patterns and not as antt does: it can miss a fault, and what it tells is one."""
import functools
import os
import re
import sys

IMPORT = re.compile(
    r"^[ \t]*(?:ghost )?(?:unfoldable )?(?:pub )?use Rattle\.([a-z][a-z_0-9]*)\.(specs|proofs)((?:\.[^\s.{};,()]+)*)"
    r"(?:\.\{([^{}]*)\})?(?: as ([^\s;]+))?",
    re.M,
)
CITED = re.compile(r"(?<![\w.:])([a-z][a-z_0-9]*)::(specs|proofs)((?:::\w+)+)")


@functools.lru_cache(None)
def read(path):
    with open(path, encoding="utf-8") as file:
        return file.read()


def lines_of_map():
    deps = {}
    for line in read("crates.txt").split("\n"):
        line = line.split("#")[0]
        if ":" in line:
            half, list_ = line.split(":", 1)
            deps[half.split()[0]] = list_.split()
    return deps


DEPS = lines_of_map()


@functools.lru_cache(None)
def passed_on(crate, path):
    """What a file of specs/ passes on under another name."""
    out = {}
    if os.path.exists(path):
        for found in IMPORT.finditer(read(path)):
            if found.group(5) and "pub use" in found.group(0):
                out[found.group(5)] = (found.group(1), found.group(2), tuple(found.group(3).split(".")[1:]))
    return out


def code_file(crate, words):
    """The longest module that the words name, as a file, and the words behind it."""
    base, at = f"crates/{crate}/src", 0
    root = next(f"{base}/{name}" for name in ("lib.rt", "main.rt") if os.path.exists(f"{base}/{name}"))
    file, folder = root, base
    while at < len(words) and os.path.exists(f"{folder}/{words[at]}.rt"):
        file, folder = f"{folder}/{words[at]}.rt", f"{folder}/{words[at]}"
        at += 1
    return file, words[at:]


def has_word(path, word):
    return re.search(r"(?<![\w-])" + re.escape(word.strip("«»")) + r"(?![\w-])", read(path)) is not None


def fault_of_declared(crate, words, items):
    file, rest = code_file(crate, words)
    if not rest:
        return None
    if rest[0] in ("TheVariants", "TheConstants"):
        return None
    name = rest[0]
    if not re.search(rf"\b(?:struct|enum|trait|fn|type|const|static|union)\s+{re.escape(name)}\b", read(file)):
        if not any(re.search(rf"\b{re.escape(name[:at])}\b", read(file)) for at in range(3, len(name))):
            return f"{file} has no {name}"
    for word in rest[1:]:
        if word != "TheVariants" and not has_word(file, word) and not re.search(r"[A-Z]", word):
            return f"{file} has no {word}"
    if "TheVariants" in rest:
        for item in items:
            if not has_word(file, item):
                return f"{file} has no variant {item}"
    return None


def fault_of(crate, kind, words, items, depth=0):
    """Why this path doesn't lead to the items."""
    if crate not in DEPS:
        return None
    if depth > 8:
        return "it goes in a circle"
    if not words:
        return None
    if kind == "specs":
        if words[0] == "declared":
            return fault_of_declared(crate, words[1:], items)
        folder, at = f"crates/{crate}/specs", 0
        lib = f"{folder}/Lib.antt"
        file = None
        while at < len(words) and os.path.exists(f"{folder}/{words[at]}.antt"):
            file, folder = f"{folder}/{words[at]}.antt", f"{folder}/{words[at]}"
            at += 1
        if at == 0:
            aliases = passed_on(crate, lib)
            if words[0] in aliases:
                there, its, more = aliases[words[0]]
                return fault_of(there, its, list(more) + words[1:], items, depth + 1)
            return f"specs of {crate} has no {words[0]}"
        rest = words[at:]
        if rest and not all(has_word(file, word) for word in rest):
            return f"{file} has no {'.'.join(rest)}"
        for item in items:
            if not has_word(file, item) and not re.search(r"\W", item):
                return f"{file} has no {item}"
        return None
    lemma = f"crates/{crate}/proofs/{words[0]}.antt"
    if os.path.exists(lemma):
        for item in items:
            if not has_word(lemma, item) and not re.search(r"[^\w-]", item):
                return f"{lemma} has no {item}"
        return None
    file, rest = code_file(crate, words)
    for at, word in enumerate(rest):
        if word in ("Goals", "Start", "Given", "Answers", "Invariants", "Proof"):
            break
        if word.startswith("+") or re.search(r"[A-Z]", word):
            continue
        if not has_word(file, word) and not (at and re.search(rf"\b{re.escape(word)}\b", code_of(crate))):
            return f"{file} has no {word}"
    if file.endswith(("/lib.rt", "/main.rt")) and rest and not has_word(file, rest[0]):
        if not any(re.search(rf"\b{re.escape(rest[0][:at])}\b", read(file)) for at in range(3, len(rest[0]))):
            return f"{file} has no {rest[0]}"
    return None


@functools.lru_cache(None)
def code_of(crate):
    """All of the crate's code: methods may stand in another file than their type."""
    out = []
    for folder, _, names in os.walk(f"crates/{crate}/src"):
        out += [read(os.path.join(folder, name)) for name in names if name.endswith(".rt")]
    return "\n".join(out)


def root_names(text):
    """Modules and items of a crate's root, and the names that it brings out there."""
    text = re.sub(r"//[^\n]*", "", text)
    names = set(re.findall(r"^(?:pub )?(?:mod|struct|enum|trait|fn|const|static|type) (\w+)", text, re.M))
    for found in re.finditer(r"^pub use ([^;]+);", text, re.M):
        for item in re.sub(r"^.*::\{|\}", "", found.group(1), flags=re.S).split(","):
            if item.strip():
                names.add(re.split(r"::| as ", item.strip())[-1])
    return names


def items_of(text):
    if text is None:
        return []
    return [item.split(" as ")[0].strip() for item in text.split(",") if item.strip()]


def main():
    count = faults = 0

    def tell(path, what):
        nonlocal faults
        faults += 1
        print(f"{path}: {what}")

    for crate, deps in DEPS.items():
        mine = set(deps) | {crate}
        for folder, below, names in os.walk(f"crates/{crate}"):
            below[:] = sorted(name for name in below if name != "out")
            for name in sorted(names):
                path = os.path.join(folder, name)
                if not name.endswith((".rt", ".antt")):
                    continue
                text = read(path)
                for found in IMPORT.finditer(text):
                    there, kind, words, items = found.group(1), found.group(2), found.group(3).split(".")[1:], items_of(found.group(4))
                    count += 1
                    if there in DEPS and there not in mine:
                        tell(path, f"{there} isn't in the line of {crate}")
                    fault = fault_of(there, kind, words, items)
                    if fault:
                        tell(path, f"{found.group(0).strip()}: {fault}")
                for found in re.finditer(r"\bRattle\.([a-z][a-z_0-9]*)\.(specs|proofs)", text):
                    if found.group(1) in DEPS and found.group(1) not in mine:
                        tell(path, f"{found.group(0)} isn't in the line of {crate}")
                if name.endswith(".rt"):
                    code = re.sub(r"//[^\n]*", "", text)
                    for found in CITED.finditer(code):
                        there, kind, words = found.group(1), found.group(2), found.group(3).split("::")[1:]
                        there = crate if there == "crate" else there
                        count += 1
                        fault = fault_of(there, kind, words[:-1], words[-1:])
                        if fault:
                            tell(path, f"{found.group(0)}: {fault}")
        # declarations beside each file
        specs = f"crates/{crate}/specs"
        for folder, below, names in os.walk(specs):
            node = f"{specs}/Lib.antt" if folder == specs else f"{folder}.antt"
            for name in sorted(names):
                if name == "Lib.antt" or not name.endswith(".antt"):
                    continue
                if not os.path.exists(node):
                    tell(f"{folder}/{name}", f"no {node}")
                elif not re.search(rf"^(?:pub )?mod {name[:-5]}$", read(node), re.M):
                    tell(f"{folder}/{name}", f"{node} doesn't declare it")
        proofs = f"crates/{crate}/proofs"
        for folder, below, names in os.walk(proofs):
            words = os.path.relpath(folder, proofs).split("/")
            for name in sorted(names):
                if folder == proofs:
                    node = f"{proofs}/Lib.antt"
                    if name.endswith(".antt") and name != "Lib.antt":
                        if not os.path.exists(node) or not re.search(rf"^(?:pub )?mod {name[:-5]}$", read(node), re.M):
                            tell(f"{folder}/{name}", f"{node} doesn't declare it")
                else:
                    fault = fault_of(crate, "proofs", words, [])
                    if fault:
                        tell(folder, fault)
        root = f"crates/{crate}/src/lib.rt"
        if os.path.exists(root):
            taken = {name.lower() for name in root_names(read(root))}
            for name in sorted(os.listdir(proofs)) if os.path.isdir(proofs) else []:
                if name.endswith(".antt") and name != "Lib.antt" and name[:-5].lower() in taken:
                    tell(f"{proofs}/{name}", "the root of the code has that name")
        for node in [f"{specs}/Lib.antt", f"{proofs}/Lib.antt"]:
            if os.path.exists(node):
                for found in re.finditer(r"^(?:pub )?mod (\S+)", read(node), re.M):
                    if not os.path.exists(f"{os.path.dirname(node)}/{found.group(1)}.antt"):
                        tell(node, f"no file {found.group(1)}.antt")
    print(f"names={count} faults={faults}")
    sys.exit(1 if faults else 0)


if __name__ == "__main__":
    main()
