#!/usr/bin/env python3
"""Brings the repository's own definitions and lemmas to today's spelling, once, after the kit's port.py: words are in snake case.

usage: tools/respell.py        at the top of the repository: rewrites specs/, proofs/ and the clauses of src/
       tools/respell.py --list  prints each old name and its new one

A name that only a proof file of one function declares, for a goal (its type names `tie.` or `goal.`), keeps the spelling that the prover gives it,
and a name that a file takes from the kit keeps the kit's. In a clause a word under an alias with a middle dot, as `Groups·has`,
is written by its module, as `Groups.has`.
"""

import collections
import glob
import os
import re
import sys

DECLARED = re.compile(r"^\s*(?:abbrev\s+|unfoldable\s+|pub\s+)*([^\s:(){}.,;]+)\s*:(?:\s|$)")
NAME = re.compile(r"[^\s(){}\[\].,;:`\"|]+")
USE = re.compile(r"(?:ghost )?use\s+([\w·.+'-]+)\.\{([^}]*)\}")


def antt_files():
    return sorted(p for p in glob.glob("crates/**/*.antt", recursive=True) if "/out/" not in p)


def rt_files():
    return sorted(p for p in glob.glob("crates/**/*.rt", recursive=True) if "/out/" not in p)


def read(path):
    with open(path, encoding="utf-8") as file:
        return file.read()


def new_name(old):
    return old.replace("-", "_").replace("′", "'")


def declared():
    """Each own name that changes, with its new spelling."""
    names = set()
    for path in antt_files():
        function = re.search(r"/proofs/(?:[^/]+/)*(?:Proof|Answers|Invariants)\.antt$", path)
        for line in read(path).splitlines():
            found = DECLARED.match(line)
            if not found or line.lstrip().startswith("--"):
                continue
            name = found.group(1)
            if not re.search(r"\w-\w|′", name):
                continue
            if not (function and re.search(r"\b(tie|goal)\.", line)):
                names.add(name)
    turned = {name: new_name(name) for name in names}
    for name in list(turned):
        if "◌" in name:
            for part in name.split("◌"):
                if "-" in part:
                    turned[part] = new_name(part)
    return turned


def own(module):
    return module.startswith("Rattle.") and not module.startswith("Rattle.std.")


def kept(text):
    """The names that a file takes from the kit: those are not the repository's."""
    taken = set()
    for module, list_ in USE.findall(text):
        if not own(module):
            for item in list_.split(","):
                taken.update(item.split(" as ")[0].split())
    return taken


def turn_code(code, turned, taken):
    return NAME.sub(lambda m: turned[m.group()] if m.group() in turned and m.group() not in taken else m.group(), code)


def turn_ticks(text, turned):
    return re.sub(r"`[^`\n]+`", lambda m: turn_code(m.group(), turned, ()), text)


def turn_antt(text, turned):
    taken, lines = kept(text), []
    for line in text.split("\n"):
        cut = re.search(r"(^|\s)--(\s|$)", line)
        code, comment = (line[: cut.start()], line[cut.start() :]) if cut else (line, "")
        pieces = re.split(r'("[^"]*")', code)
        pieces[::2] = [turn_code(piece, turned, taken) for piece in pieces[::2]]
        lines.append("".join(pieces) + turn_ticks(comment, turned))
    return "\n".join(lines)


CLAUSE = re.compile(r"^[ \t]*(?:ghost use |requires|ensures|ghost )", re.M)


def clauses(text):
    """The spans of a source file that are antt: `ghost use` lines, and clauses with their braces."""
    for found in CLAUSE.finditer(text):
        if text[found.start() : found.end()].strip() == "ghost use":
            yield found.start(), text.index(";", found.end())
            continue
        at = text.find("{", found.end())
        if at < 0 or "\n" in text[found.end() : at]:
            continue
        depth = 0
        for end in range(at, len(text)):
            depth += {"{": 1, "}": -1}.get(text[end], 0)
            if depth == 0:
                break
        yield at, end + 1


def turn_rt(text, turned):
    taken, out, last = kept(text), [], 0
    for start, end in sorted(clauses(text)):
        out += [turn_ticks(text[last:start], turned), turn_code(text[start:end], turned, taken)]
        last = end
    return by_module("".join(out) + turn_ticks(text[last:], turned))


def by_module(text):
    """A word under an alias with a middle dot is named by its module."""
    modules = set()

    def line(found):
        module, items = found.group(1), [item.strip() for item in found.group(2).split(",")]
        plain = [item for item in items if "·" not in item]
        dotted = [item for item in items if "·" in item]
        for item in dotted:
            word, alias = item.split(" as ")
            head, tail = alias.split("·")
            if not (own(module) and module.split(".")[-1] == head and word == tail):
                return found.group(0)
        if dotted:
            modules.add(module.split(".")[-1])
        lines = [f"ghost use {module}.{{{', '.join(plain)}}};"] if plain else []
        return "\n".join(lines + ([f"ghost use {module};"] if dotted else []))

    text = re.sub(r"ghost use ([\w.]+)\.\{([^}]*)\};", line, text)
    for module in modules:
        text = re.sub(rf"\b{module}·(\w)", rf"{module}.\1", text)
    return text


def main(argv):
    turned = declared()
    if argv == ["--list"]:
        print("\n".join(f"{old} {new}" for old, new in sorted(turned.items())))
        return 0
    seen = collections.defaultdict(set)
    for path in antt_files():
        for word in NAME.findall(read(path)):
            seen[word].add(path)
    for old, new in sorted(turned.items()):
        if new in seen:
            print(f"look: {old} falls together with {new}: {' '.join(sorted(seen[new])[:4])}")
    for path in antt_files() + rt_files():
        text = read(path)
        turn = turn_antt if path.endswith(".antt") else turn_rt
        after = turn(text, turned)
        if after != text:
            with open(path, "w", encoding="utf-8") as file:
                file.write(after)
    return 0


if __name__ == "__main__":
    os.chdir(os.path.join(os.path.dirname(os.path.abspath(__file__)), ".."))
    raise SystemExit(main(sys.argv[1:]))
