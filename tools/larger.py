"""Larger edits of the libraries' code than those of tools/edits.py, found in its text by rule: what `tools/strength.py --larger` tries.

A statement left out: an assignment or a call. Two arguments of a call exchanged. A stale value: a use of a local, replaced by something that the
local was computed from. A turn left out: a loop's first iteration, or its last. Two early returns exchanged that follow each other.
"""
import random
import time

from edits import KEYWORDS, PRINTING, RELYING, asked_for, body, closed, tokens_of
from proving import SHOWING_NOTHING, TOP, short, told
from reporting import row, write

ASSIGN = {"=", "+=", "-="}
EACH = 8  # how many of each rule are judged
RULES = ["a statement left out", "two arguments exchanged", "a stale value", "a turn left out", "two early returns exchanged"]


class Larger:
    """A place, and what may replace it."""

    def __init__(self, rule, file, text, start, end, candidates):
        self.rule, self.file, self.start, self.end, self.candidates = rule, file, start, end, candidates
        self.old = text[start:end]
        line = text.count("\n", 0, start) + 1
        self.place = f"{file}:{line}:{start - text.rfind(chr(10), 0, start)}"


def functions(tokens):
    """The tokens of each function: its parameters' names, and its body."""
    for i, token in enumerate(tokens):
        if token.text == "fn":
            head = next(j for j in range(i, len(tokens)) if tokens[j].text == "(")
            end = closed(tokens, head)
            names = [tokens[j - 1].text for j in range(head, end) if tokens[j].text == ":" and tokens[j - 1].kind == "word"]
            start = body(tokens, i)
            yield names + ["self"], tokens[start:closed(tokens, start)]


def split_at(tokens, sign):
    """The runs of tokens between signs that are in no bracket."""
    runs, depth = [[]], 0
    for token in tokens:
        depth += (token.text in "([{") - (token.text in ")]}")
        if token.text == sign and depth == 0:
            runs.append([])
        else:
            runs[-1].append(token)
    return runs


def text_of(text, run):
    return text[run[0].start:run[-1].end]


def statements(text, tokens):
    """Assignments and calls that are statements, each with its `;`."""
    start = None
    for i, token in enumerate(tokens):
        if token.text in "{};":
            run = tokens[start:i] if start is not None else []
            if token.text == ";" and run and run[0].text not in ("let", "return", "break", "continue") and run[0].text != "}":
                called = run[-1].text == ")" and not any(t.text in ASSIGN for t in run)
                if called or any(t.text in ASSIGN for t in run):
                    yield run[0].start, token.end, [""]
            start = i + 1


def arguments(text, tokens):
    """Calls of functions with two arguments or more: any two neighbours exchanged."""
    for i in range(1, len(tokens)):
        if tokens[i].text == "(" and tokens[i - 1].text[0].islower() and tokens[i - 1].text not in KEYWORDS:
            runs = [run for run in split_at(tokens[i + 1:closed(tokens, i) - 1], ",") if run]
            for first, second in zip(runs, runs[1:]):
                a, b = text_of(text, first), text_of(text, second)
                if a != b:
                    yield first[0].start, second[-1].end, [b + text[first[-1].end:second[0].start] + a]


def stale(text, names, tokens):
    """Uses of a local, each replaced by a parameter or an earlier local that it was computed from."""
    known = list(names)
    for i, token in enumerate(tokens):
        if token.text != "let":
            continue
        at = i + 2 if tokens[i + 1].text == "mut" else i + 1
        name, end = tokens[at].text, next(j for j in range(at, len(tokens)) if tokens[j].text == ";")
        used = {tokens[k].text for k in range(at + 1, end)
                if tokens[k].text in known and tokens[k - 1].text != "." and tokens[k + 1].text not in ("(", "::", ":")}
        for k in range(end, len(tokens)):
            if tokens[k].text == name and tokens[k - 1].text not in (".", "let", "mut") and tokens[k + 1].text not in (":", "=", "+=", "-=", "("):
                if used - {name}:
                    yield tokens[k].start, tokens[k].end, sorted(used - {name})
        known.append(name)


def turns(text, tokens):
    """Loops: the first iteration left out, and the last."""
    for i, token in enumerate(tokens):
        if token.text == "for":
            open_ = next(j for j in range(i, len(tokens)) if tokens[j].text == "{")
            in_ = next(j for j in range(i, open_) if tokens[j].text == "in")
            dots = next((j for j in range(in_, open_) if tokens[j].text == ".."), None)
            if dots is None:
                all_ = text_of(text, tokens[in_ + 1:open_])
                new = [f"{all_}.iter().skip(1)", f"{all_}.iter().take({all_}.len().saturating_sub(1))"]
            else:
                low, high = text_of(text, tokens[in_ + 1:dots]), text_of(text, tokens[dots + 1:open_])
                new = ["1.." + high if low == "0" else f"{low} + 1..{high}", f"{low}..{high} - 1"]
            yield tokens[in_ + 1].start, tokens[open_ - 1].end, new
        if token.text == "while":
            open_ = next(j for j in range(i, len(tokens)) if tokens[j].text == "{")
            less = [j for j in range(i, open_) if tokens[j].text == "<"]
            if less:
                low, high = text_of(text, tokens[i + 1:less[0]]), text_of(text, tokens[less[0] + 1:open_])
                yield tokens[i + 1].start, tokens[open_ - 1].end, [f"{low} + 1 < {high}"]


def early(tokens, i):
    """The index after an `if` at i whose block does nothing but return, and what it returns; or None."""
    if i >= len(tokens) or tokens[i].text != "if":
        return None
    start = next((j for j in range(i, len(tokens)) if tokens[j].text == "{"), None)
    if start is None or tokens[start + 1].text != "return":
        return None
    end = closed(tokens, start)
    if end < len(tokens) and tokens[end].text == "else":
        return None
    return end, [t.text for t in tokens[start + 1:end - 1]]


def returns(text, tokens):
    """Two early returns, one after the other, that return different values."""
    for i in range(len(tokens)):
        first = early(tokens, i)
        second = first and early(tokens, first[0])
        if second and first[1] != second[1]:
            a, b = tokens[i:first[0]], tokens[first[0]:second[0]]
            yield a[0].start, b[-1].end, [text_of(text, b) + text[a[-1].end:b[0].start] + text_of(text, a)]


def larger_sites(source):
    """All places, by rule."""
    found = {rule: [] for rule in RULES}
    for file in source.files:
        if file.startswith(PRINTING + "/"):
            continue
        text = source.text[file]
        for names, tokens in functions(tokens_of(text)):
            sites = (statements(text, tokens), arguments(text, tokens), stale(text, names, tokens), turns(text, tokens), returns(text, tokens))
            for rule, some in zip(found, sites):
                found[rule] += [Larger(rule, file, text, *site) for site in some]
    return found


def judge(copy, site, new):
    """The verdict of all the libraries on an edit, and of what depends on more of them than their contracts."""
    text = open(copy.path(site.file)).read()
    with copy.settled({site.file: text[:site.start] + new + text[site.end:]}, TOP, copy.check_all) as (verdict, where):
        for name in RELYING if verdict == "survived" else []:
            verdict, where, _ = copy.check(name)
    return verdict, where


def try_larger(copy, source, asked):
    """A sample of each rule; an edit that is no program is skipped."""
    copy.together()
    rows, tally = [], {}
    for rule, sites in larger_sites(source).items():
        draw, judged = random.Random(f"{asked.seed} {rule}"), 0
        draw.shuffle(sites)
        for site in sites:
            new = draw.choice(site.candidates)
            if judged == EACH or not asked_for(asked.only, rule):
                break
            began = time.time()
            verdict, where = judge(copy, site, new)
            tally[verdict] = tally.get(verdict, 0) + 1
            print(f"{rule}: {site.place} `{short(site.old)}` -> `{short(new)}`: {verdict} {where} ({time.time() - began:.0f} s)", flush=True)
            if verdict not in SHOWING_NOTHING:
                judged += 1
                rows.append(row(rule, f"`{site.place}`", f"`{short(site.old)}` → `{short(new)}`", told(verdict, where)))
    print(f"seed {asked.seed}: " + ", ".join(f"{n} {verdict}" for verdict, n in sorted(tally.items())))
    write(asked, f"The sample of {EACH * len(RULES)} edits of more than one token", [("", ["rule", "place", "edit", "first refused at"], rows)])
    return tally.keys() <= {"refused", *SHOWING_NOTHING}
