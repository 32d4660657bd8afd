"""The places in the libraries' code that an edit may change, and the list of wrong programs: what tools/strength.py tries.

A place is one token of code that runs: an operator, a numeral, a named constant, a field, a variant, true or false, or a key. Comments,
contracts, imports, declared types and the heads of functions are skipped.
"""
import os
import re
import sys

LIBRARIES = ["record", "service", "text", "reference", "output", "listing", "demands", "phone", "phone_c"]

# A program whose proof depends on more of a library than the contracts of its calls: on how long a step's lines are.
RELYING = ["ftlist"]

# The crate whose calls print: no contract says what they print, so a random edit of them shows nothing; only its other calls are tried.
PRINTING = "output"

TOKEN = re.compile(
    r"(?P<comment>//[^\n]*)|(?P<string>b?\"(?:[^\"\\]|\\.)*\"|b'(?:[^'\\]|\\.)')"
    r"|(?P<number>0x[0-9A-Fa-f]+|\d[\d_]*(?:u8|u16|u32|usize|i16)?)|(?P<word>[A-Za-z_]\w*)"
    r"|(?P<sign><<=|>>=|\.\.=|=>|->|::|&&|\|\||==|!=|<=|>=|\+=|-=|<<|>>|\.\.|\S)")

OTHER = {
    "<": ["<="], "<=": ["<"], ">": [">="], ">=": [">"], "==": ["!="], "!=": ["=="], "&&": ["||"], "||": ["&&"], "+": ["-"], "-": ["+"],
    "*": ["+"], "/": ["%"], "%": ["/"], "&": ["|"], "|": ["&"], "<<": [">>"], ">>": ["<<"], "+=": ["-="], "-=": ["+="], "..": ["..="],
}
BINARY = {"<", ">", "+", "-", "*", "/", "%", "&", "|", ".."}
KEYWORDS = {"return", "in", "if", "else", "match", "while", "for", "let", "mut", "as"}


class Token:
    def __init__(self, kind, start, text):
        self.kind, self.start, self.end, self.text = kind, start, start + len(text), text


def tokens_of(text):
    return [Token(m.lastgroup, m.start(), m.group()) for m in TOKEN.finditer(text) if m.lastgroup != "comment"]


def behind(tokens, i, ends):
    """The index after the first of the signs `ends` that is in no bracket."""
    depth = 0
    while i < len(tokens):
        t = tokens[i].text
        if depth == 0 and t in ends:
            return i + 1
        depth += (t in "([{") - (t in ")]}")
        i += 1
    return i


def closed(tokens, i):
    """The index after the bracket that closes the one at i."""
    return behind(tokens, i + 1, {")", "]", "}"})


def body(tokens, i):
    """The index of the bracket that opens the body of the function whose head is at i: it follows the contract, whose clauses may have names."""
    while tokens[i].text != "{" or {tokens[i - 1].text, tokens[i - 2].text} & {"requires", "ensures"}:
        i = closed(tokens, i) if tokens[i].text in "([{" else i + 1
    return i


def running(tokens):
    """The tokens of code that runs: the values of constants, and the bodies of functions."""
    kept, i = [], 0
    while i < len(tokens):
        t = tokens[i].text
        if t in ("use", "mod"):
            i = behind(tokens, i, {";"})
        elif t == "#":
            i = closed(tokens, i + 1 + (tokens[i + 1].text == "!"))
        elif t in ("struct", "enum"):
            while tokens[i].text not in "{(":
                i += 1
            i = closed(tokens, i)
        elif t == "const":
            start = behind(tokens, i, {"="})
            i = behind(tokens, start, {";"})
            kept += tokens[start:i]
        elif t == "fn":
            start = body(tokens, i)
            i = closed(tokens, start)
            kept += tokens[start:i]
        else:
            i += 1
    return kept


class Source:
    """What the libraries declare: constants, structs and enums."""

    def __init__(self, crates):
        self.text, self.files = {}, []
        self.constants, self.structs, self.enums = {}, [], {}
        for name in LIBRARIES:
            for folder, _, bases in sorted(os.walk(os.path.join(crates, name, "src"))):
                for base in sorted(bases):
                    file = os.path.relpath(os.path.join(folder, base), crates)
                    self.files.append(file)
                    self.text[file] = open(os.path.join(crates, file)).read()
                    self.declared(file)

    def declared(self, file):
        text, family, at = self.text[file], 0, 0
        for m in re.finditer(r"(?:pub )?const (\w+): ([^=]+) = ([^;]*(?:;[^;\n]*\][^;]*)*);", text):
            family += bool(text[at:m.start()].strip())
            at = m.end()
            name, type_, value = m.groups()
            self.constants.setdefault(name, []).append((f"{file} {family} " + re.sub(r"\d+", "N", type_), value))
        text = re.sub(r"//[^\n]*", "", text)
        for _, fields in re.findall(r"\bstruct (\w+)(?:<[^>]*>)? \{((?:[^{}]|\{[^}]*\})*)\}", text):
            self.structs.append(dict(re.findall(r"(\w+): ([^,\n]+)", fields)))
        for _, fields in re.findall(r"\bstruct (\w+)\(([^;]*)\);", text):
            self.structs.append({str(i): f.replace("pub ", "").strip() for i, f in enumerate(re.split(r",\s*(?![^\[]*\])", fields))})
        for name, body in re.findall(r"\benum (\w+) \{((?:[^{}]|\{[^}]*\})*)\}", text):
            self.enums.setdefault(name, {}).update(re.findall(r"(\w+)\s*(\([^)]*\)|\{[^}]*\})?(?: = \w+)?,(?![^{]*\})", body))


class Site:
    def __init__(self, source, file, token, candidates):
        text = source.text[file]
        self.file, self.start, self.end, self.old, self.candidates = file, token.start, token.end, token.text, candidates
        line = text.count("\n", 0, token.start) + 1
        self.place = f"{file}:{line}:{token.start - text.rfind(chr(10), 0, token.start)}"
        self.shown = text.split("\n")[line - 1].strip()


def numeral(text):
    digits, kind = re.fullmatch(r"(0x[0-9A-Fa-f]+|[\d_]+?)(u8|u16|u32|usize|i16)?", text).groups()
    n = int(digits.replace("_", ""), 0)
    spell = (lambda x: f"0x{x:0{len(digits) - 2}x}") if digits.startswith("0x") else str
    return [spell(x) + (kind or "") for x in (n + 1, n - 1) if x >= 0]


def misspelt(text):
    return [text[:i] + chr((ord(c) - 96) % 26 + 97) + text[i + 1:] for i, c in enumerate(text) if i > 1 and c.islower()]


def constants(source, file, name, by_path):
    """The other constants of a family, which are declared one after the other with the same type, that can be named here."""
    named = {token.text for token in tokens_of(source.text[file])}
    found = set()
    for family, value in source.constants[name]:
        for other, homes in source.constants.items():
            if (by_path or other in named) and any(f == family and v != value for f, v in homes):
                found.add(other)
    return sorted(found)


def candidates_of(source, file, tokens, i):
    token = tokens[i]
    before = tokens[i - 1] if i else Token("sign", 0, ";")
    after = tokens[i + 1].text if i + 1 < len(tokens) else ""
    if token.kind == "number":
        if before.text == ".":
            return fields(source, token.text)
        return numeral(token.text)
    if token.kind == "string":
        return misspelt(token.text)
    if token.kind == "sign":
        if token.text == "!":
            return [""]
        operand = before.kind == "number" or before.text in ")]" or before.kind == "word" and before.text not in KEYWORDS
        if token.text in BINARY and not operand:
            return []
        return OTHER.get(token.text, [])
    if token.text in ("true", "false"):
        return ["false" if token.text == "true" else "true"]
    if before.text == "." and after != "(":
        return fields(source, token.text)
    if before.text == "::" and i > 1 and tokens[i - 2].text in source.enums:
        variants = source.enums[tokens[i - 2].text]
        return sorted(v for v, shape in variants.items() if v != token.text and shape == variants.get(token.text))
    if token.text in source.constants:
        return constants(source, file, token.text, before.text == "::")
    return []


def fields(source, name):
    return sorted({other for struct in source.structs if name in struct for other in struct if other != name and struct[other] == struct[name]})


def sites_of(source, file):
    if file.startswith(PRINTING + "/"):
        return []
    tokens = running(tokens_of(source.text[file]))
    found = []
    for i, token in enumerate(tokens):
        candidates = candidates_of(source, file, tokens, i)
        if candidates:
            found.append(Site(source, file, token, candidates))
    return found


def constant_sites(source):
    """A place in the value of each constant that is no table: its first token that an edit may change."""
    found = []
    for file in source.files:
        if file.startswith(PRINTING + "/"):
            continue
        tokens = tokens_of(source.text[file])
        for i, token in enumerate(tokens):
            start = behind(tokens, i, {"="})
            if token.text != "const" or tokens[start].text == "[":
                continue
            for j in range(start, behind(tokens, start, {";"})):
                candidates = candidates_of(source, file, tokens, j)
                if candidates:
                    found.append(Site(source, file, tokens[j], candidates))
                    break
    return found


def asked_for(only, text):
    """Whether a text has one of the words that are asked for, which have a comma between two; all are asked for where none is."""
    return any(word in text for word in only.split(","))


class Program:
    def __init__(self, file, function, place, words, part):
        self.file, self.function, self.place, self.words = file, function, place, words
        self.searched = f"{part}: {file} {function}"
        self.old = self.new = None


def wrong_programs(path):
    """The wrong programs of a file: a head `crate/file.rt function [in place]: words`, and below it `old ⇒ new`; `## part` begins a part of the list."""
    found, part = [], ""
    for line in open(path):
        line = line.strip()
        if line.startswith("## "):
            part = line[3:]
        if not line or line.startswith("#"):
            continue
        if "⇒" in line:
            found[-1].old, found[-1].new = line.split(" ⇒ ")
            continue
        head = re.fullmatch(r"(\w+)/([\w/]+\.rt) (\w+)(?: in (\w+))?: (.*)", line)
        if not head:
            sys.exit(f"strength: not a head of a wrong program: {line}")
        crate, base, function, place, words = head.groups()
        found.append(Program(f"{crate}/src/{base}", function, place, words, part))
    return found


def public_functions(source):
    """The public functions, by their file and name, with their full names."""
    found = {}
    for file in source.files:
        crate, _, base = file.split("/", 2)
        for name, head in re.findall(r'\bpub (?:extern "C" )?fn (\w+)([^{]*)\{', source.text[file]):
            if crate != PRINTING or "ensures" in head:
                found[file, name] = "::".join([crate] + base[:-3].split("/") * (base != "lib.rt") + [name])
    return found


def full_name(source, program):
    """The full name of the function that a wrong program gets wrong. It may be in another file than the edit: the edited file comes first, then the
    file of the module around it, then the rest of the crate."""
    public = public_functions(source)
    crate = program.file.split("/")[0]
    outer = program.file.rpartition("/")[0] + ".rt"
    homes = [program.file, outer] + [file for file in source.files if file.startswith(crate + "/")]
    found = [public[file, program.function] for file in homes if (file, program.function) in public]
    return found[0] if found else sys.exit(f"strength: {crate} has no public function {program.function}")


def untried(source, programs):
    """The public functions for which the list has fewer than two wrong programs."""
    named = [full_name(source, program) for program in programs]
    return [name for name in public_functions(source).values() if named.count(name) < 2]


def region(text, name, old):
    """Where a text is in the running code of a function or constant; it must occur there once."""
    tokens = tokens_of(text)
    for i, token in enumerate(tokens):
        if token.text == name and i and tokens[i - 1].text in ("fn", "const"):
            first = behind(tokens, i, {"="}) if tokens[i - 1].text == "const" else body(tokens, i)
            last = behind(tokens, first, {";"}) if tokens[i - 1].text == "const" else closed(tokens, first)
            start, stop = tokens[first].start, tokens[last - 1].end
            if text.count(old, start, stop) != 1:
                sys.exit(f"strength: `{old}` occurs {text.count(old, start, stop)} times in {name}")
            return text.index(old, start)
    sys.exit(f"strength: no function or constant {name}")
