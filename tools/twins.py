"""Twins: the same wrong reading of document 01 in specs/ and in the code. tools/strength.py asks which theorem and which run notices each.

A twin also edits the proofs of the functions where they name the case, so that the prover accepts every function: each meets its contract, which is
wrong. What the prover then refuses is a theorem: a number of document 01 by computation, or a law that states the rule in other words.

The twins are in tools/twins/. A head gives the part of document 01, or what a request adds, and what is wrong. Below it are the document's words,
then each file with its edits: the old text, which occurs there once, ⇒, the new. A text of more than one line has - before each old line and +
before each new one; + lines alone make a new file. `every` before a text means that it is changed wherever it occurs.
"""
import os
import re
import shutil
import sys
import time

from edits import asked_for
from proving import A_NAME, ROOT, TOP, place_in, short
from reporting import row, write

# The parts of document 01 by the word in a twin's head, each with its heading in the report.
PARTS = {"control point": "The control point", "spin down": "Spin down", "steps": "Steps", "layouts": "The layouts", "feature": "The Feature value",
         "well-formedness": "Well-formed records", "splitting": "Splitting", "reading": "Reading", "collecting": "Collecting", "listing": "The listing",
         "the C host": "The C host", "reference": "The printed tables"}

# A part whose words are another document's: a request of document 02.
REQUESTS = {"spin down": "W-201", "steps": "W-206"}
FILES = ["machine", "calls", "judging", "op_codes", "spin_down", "steps", "layouts", "records", "splitting", "reading", "collecting", "listing", "host", "reference"]


class Twin:
    def __init__(self, part, words):
        self.part, self.words, self.quote = part, words, ""
        self.edits = []  # each a file, an old text, a new one, and whether it is changed everywhere

    def texts(self, read):
        """The texts of its files with the edits made."""
        found = {}
        for file, old, new, everywhere in self.edits:
            text = found[file] if file in found else read(file) if old else new + "\n"
            count = text.count(old) if old else 1
            if count == 0 or count > 1 and not everywhere:
                sys.exit(f"strength: {self.words}: `{old}` occurs {count} times in {file}")
            found[file] = text.replace(old, new) if old else text
        return found


def twins_of(path):
    """The twins of a file: a head, the document's words, and for each file its edits."""
    found, file, kind = [], None, ""
    for number, line in enumerate(open(path), 1):
        text, before = line.rstrip("\n")[4:], kind
        kind = text[:1] if line.startswith("    ") and " ⇒ " not in line else ""
        if not line.strip() or line.startswith("#"):
            continue
        if not line.startswith(" "):
            found.append(Twin(*line.strip().split(": ", 1)))
        elif re.fullmatch(r"  \w+/(specs|src|proofs)/\S+\n", line):
            file = line.strip()
        elif not line.startswith("    "):
            found[-1].quote = line.strip()
        elif kind == "":
            everywhere = text.startswith("every ")
            old, new = text[6 * everywhere:].split(" ⇒ ")
            found[-1].edits.append((file, old, new, everywhere))
        elif kind == "-" and before == "-":
            found[-1].edits[-1][1].append(text[2:])
        elif kind == "-":
            found[-1].edits.append((file, [text[2:]], [], False))
        elif kind == "+" and before in ("-", "+"):
            found[-1].edits[-1][2].append(text[2:])
        elif kind == "+":
            found[-1].edits.append((file, [], [text[2:]], False))
        else:
            sys.exit(f"strength: {path}:{number}: not a line of a twin")
    for twin in found:
        twin.edits = [(file, joined(old), joined(new), everywhere) for file, old, new, everywhere in twin.edits]
    return found


def joined(text):
    """A text that may be given line by line."""
    return "\n".join(text) if isinstance(text, list) else text


class Verdict:
    """The prover's answer to a twin: which functions it did not accept, and which definitions failed, except those that only depend on one."""

    def __init__(self, copy):
        self.verdict, self.where, said = copy.check_all()
        self.functions = [name for name in re.findall(r"^fn (\S+): (?!proved)", said, re.M) if not name.startswith(TOP + "::")]
        self.computed, self.laws, self.errors = [], [], []
        for file, at, name, words in re.findall(r"^(\S+?):(\d+:\d+): error: `([^`]+)`: (.*)", said, re.M):
            place = (place_in(TOP, file), name)
            found = self.computed if by_computation(copy.path(place[0]), name) else self.laws
            if "was not admitted" not in words and place not in found:
                found.append(place)
                self.errors.append(f"{place[0]}:{at}: {name}: {words[:300]}")

    def word(self):
        if self.functions and self.verdict in ("refused", A_NAME):
            return "not carried through"
        if self.verdict != "refused":
            return self.verdict
        return "by computation" if self.computed else "by a law"


def by_computation(file, name):
    """Whether a definition's whole proof is that both sides compute to the same value."""
    text = open(file).read()
    computed = r" = (record \{ )?[(]?((\w+ = )?refl[,;)]* ?)+\}?|( \w+)* = every .* refl"
    return bool(re.search(rf"^ *{re.escape(name)}({computed})$", text, re.M))


def modules(copy):
    """The modules of all crates, each with those that it names: the files and folders directly in a crate's src/ count as modules."""
    graph = {}
    for crate in copy.below:
        top = copy.path(crate + "/src")
        for folder, _, bases in os.walk(top):
            for base in bases:
                path = os.path.join(folder, base)
                text = open(path).read()
                pairs = re.findall(r"\b(\w+)::(\w+)", text)
                pairs += [(first, second) for first, listed in re.findall(r"\b(\w+)::\{([^}]*)\}", text) for second in re.findall(r"\w+", listed)]
                names = {(crate if first == "crate" else first, second) for first, second in pairs}
                if base == "main.rt":
                    names |= {(crate, name) for name in re.findall(r"^mod (\w+);", text, re.M)}
                module = os.path.relpath(path, top).split("/")[0].removesuffix(".rt")
                graph.setdefault((crate, module), set()).update(names)
    return graph


def reaching(copy, files):
    """The programs that use, directly or indirectly, a module of which a source file was edited."""
    graph = modules(copy)
    edited = {(file.split("/")[0], file.split("/")[2].removesuffix(".rt")) for file in files if "/src/" in file}
    for program in copy.programs:
        seen, todo = set(), [(program, "main")]
        while todo:
            node = todo.pop()
            node = node if node in graph else (node[0], "lib")
            if node in graph and node not in seen:
                seen.add(node)
                todo += graph[node]
        if seen & edited:
            yield program


def noticing(copy, files):
    """The first program, those with the fewest dependencies first, that reaches an edited file and does not print its `stdout`; or none."""
    for name in sorted(reaching(copy, files), key=lambda name: len(copy.below[name])):
        said, status = copy.run(name, "try", "--cases", case_of(copy, name))
        if status == 5 and re.search(r"^case=run run=ended .* output=differs ", said, re.M):
            return name
        if status != 0:
            sys.exit(f"strength: {name} does not run: " + said.strip().split("\n")[-1])
    return "none"


def case_of(copy, name):
    """A folder with what a program reads and must print, as `rt try` takes it."""
    case = os.path.join(copy.where, "target", "cases", name)
    os.makedirs(case, exist_ok=True)
    for file, given in (("run", "stdin"), ("run.stdout", "stdout")):
        given = copy.path(f"{name}/{given}")
        shutil.copyfile(given if os.path.exists(given) else os.devnull, os.path.join(case, file))
    return case


def shown(theorems):
    """Names with their files, for a table: three at the most."""
    words = [f"`{name}` in `{file}`" for file, name in theorems[:3]]
    return ", ".join(words) + (f" and {len(theorems) - 3} more" if len(theorems) > 3 else "") or "none"


def judge(copy, twin, run):
    """The verdict on a twin, and the program that notices it: programs are run if that is asked for, or if no computation notices the twin."""
    texts = twin.texts(lambda file: open(copy.path(file)).read())
    with copy.edited(texts):
        verdict = Verdict(copy)
        program = noticing(copy, texts) if run or verdict.word() in ("survived", "by a law") else "not run"
    return verdict, program


def reported(asked, rows):
    """Writes the report: a table for each part, with the twins of that part."""
    columns = ["the wrong reading, in `specs/` and code", "theorems that notice", "a program that notices"]
    parts = [(part, [line for other, line in rows if other == part]) for part in PARTS]
    write(asked, "The twins of tools/twins/", [(PARTS[part], [REQUESTS.get(part, "document 01")] + columns, lines) for part, lines in parts if lines])


def try_twins(copy, asked):
    twins = [twin for name in FILES for twin in twins_of(os.path.join(ROOT, "tools", "twins", name + ".txt"))
             if asked_for(asked.only, f"{twin.part}: {twin.words}")]
    for twin in twins:
        twin.texts(lambda file: open(copy.path(file)).read())
    copy.together()
    rows, tally, good = [], {}, True
    for number, twin in enumerate(twins, 1):
        began = time.time()
        verdict, program = judge(copy, twin, asked.run)
        word = verdict.word()
        if word == "survived":
            word = "by a run alone" if program != "none" else "UNNOTICED"
        good = good and word.startswith("by ")
        tally[word] = tally.get(word, 0) + 1
        theorems = verdict.computed + verdict.laws
        named = ", ".join(f"{name} ({file})" for file, name in theorems) or "none"
        print(f"{number} {twin.part}: {twin.words}: {word}; theorems: {named}; run: {program} ({time.time() - began:.0f} s)", flush=True)
        if not word.startswith("by "):
            for line in [verdict.where] + [f"not proved: {name}" for name in verdict.functions] + verdict.errors:
                print("    " + line, flush=True)
        rows.append((twin.part, row(short(twin.quote), twin.words, shown(theorems), program)))
    print(f"{len(twins)} twins: " + ", ".join(f"{n} {word}" for word, n in sorted(tally.items())))
    reported(asked, rows)
    return good
