#!/usr/bin/env python3
"""Edits the code of the libraries, or code and specs/ alike, and asks the prover to refuse each edit.

    python3 tools/strength.py                   a random sample of 60 edits of one token each, from a fixed seed
    python3 tools/strength.py --constants       an edit of each constant that is no table
    python3 tools/strength.py --wrong           the wrong programs of tools/wrong.txt, two at least for each public function
    python3 tools/strength.py --larger          a sample of 40 larger edits (tools/larger.py), from a fixed seed
    python3 tools/strength.py --twins           the twins of tools/twins/: which theorem notices each
    python3 tools/strength.py --list            the places that the sample is drawn from, and proves nothing

    -n N           how many edits are judged            --seed S       another sample
    --copy DIR     the copy to work in (below /tmp)      --only WORDS  the wrong programs, twins or rules of --larger with one of these words
    --skip WORDS   the sample leaves out files with one of these words in their name (here, and in --only, a comma between two)
    --run          for each twin, also a program whose output changes
    --report FILE  writes the rows to this file of docs/strength/, whole

An edit is made in a copy of the repository and checked there by `rt check`, and the file is restored. `refused`: the prover does not prove the code.
`no program`: the compiler rejects the text; the edit shows nothing, and another is drawn. `a name alone`: it is refused only where a proof names what the
edit took away, as a goal that is called by a value; this too shows nothing, and another is drawn. Before that, answers that do so are left out, and the
prover looks for a proof itself. `survived`: the crate is still proved, and so is every library above it, and `ftlist`. One prover runs at a time; its last
output is in the copy's target/last.out. The exit status is 0 if nothing survived.

A twin is noticed `by computation` if a theorem fails whose proof is that both sides compute to the same value, and `by a law` if another theorem
fails; then the programs are run even without --run. `UNNOTICED`: all is proved, and no program's output changes. `not carried through`: a function
is not proved, since an edit of its own proof is missing. In the last two cases the exit status is 1.
"""
import argparse
import os
import random
import re
import sys
import tempfile
import time

sys.dont_write_bytecode = True

from edits import Source, asked_for, constant_sites, full_name, region, sites_of, untried, wrong_programs
from larger import try_larger
from proving import ROOT, SHOWING_NOTHING, Copy, short, told
from reporting import command, row, write
from twins import try_twins

SEED = 20260101
COUNT = 60


def sites(source, asked):
    """The places that are tried, in the order of the code, and how many of them are judged: all where that is none."""
    if asked.constants:
        return constant_sites(source), None
    skip = [word for word in asked.skip.split(",") if word]
    return [site for file in source.files if not any(word in file for word in skip) for site in sites_of(source, file)], asked.n


def title(asked):
    """The heading of the report of a sample."""
    if asked.constants:
        return "The value of each constant"
    return f"The sample of {asked.n}" + (", without the tables: " + asked.skip.replace(",", ", ") if asked.skip else "")


def sample(copy, asked):
    """A random sample, with one candidate for each place; or, for each constant, the first candidate that is a program."""
    draw = random.Random(asked.seed)
    places, count = sites(Source(os.path.join(ROOT, "crates")), asked)
    if not asked.constants:
        draw.shuffle(places)
    tally, rows = {}, []
    for site in places:
        if len(rows) == count:
            break
        for new in site.candidates if asked.constants else [draw.choice(site.candidates)]:
            began = time.time()
            verdict, where = copy.judge(site.file, site.start, site.end, new)
            tally[verdict] = tally.get(verdict, 0) + 1
            number = "-" if verdict in SHOWING_NOTHING else str(len(rows) + 1)
            print(f"{number} {site.place} `{site.shown}` {site.old} -> {new or '(nothing)'}: {verdict} {where} "
                  f"({time.time() - began:.0f} s)", flush=True)
            if verdict not in SHOWING_NOTHING:
                rows.append(row(number, f"`{site.place}`", f"`{short(site.shown)}`", f"`{short(site.old)}` → `{short(new)}`", told(verdict, where)))
                break
    print(f"{len(places)} places, seed {asked.seed}: " + ", ".join(f"{n} {verdict}" for verdict, n in sorted(tally.items())))
    write(asked, title(asked), [("", ["no.", "place", "line", "edit", "first refused at"], rows)])
    return tally.keys() <= {"refused", *SHOWING_NOTHING}


def place_of(text, program):
    """Where the old text of a wrong program is: in its function or constant, or in the methods of its type, where it must occur once."""
    methods = re.search(rf"^impl {program.place} \{{.*?^\}}", text, re.M | re.S)
    if not methods:
        return region(text, program.place or program.function, program.old)
    if methods.group().count(program.old) != 1:
        sys.exit(f"strength: `{program.old}` occurs {methods.group().count(program.old)} times in {program.place}")
    return methods.start() + methods.group().index(program.old)


def wrong(copy, asked):
    """The wrong programs of tools/wrong.txt."""
    programs = wrong_programs(os.path.join(ROOT, "tools", "wrong.txt"))
    source = Source(os.path.join(ROOT, "crates"))
    for name in untried(source, programs):
        print(f"{name}: fewer than two wrong programs")
    tally, rows = {}, []
    for number, program in enumerate(programs, 1):
        if not asked_for(asked.only, program.searched):
            continue
        start = place_of(source.text[program.file], program)
        began = time.time()
        verdict, where = copy.judge(program.file, start, start + len(program.old), program.new)
        tally[verdict] = tally.get(verdict, 0) + 1
        name = full_name(source, program)
        print(f"{number} {name}: {program.words}: {verdict} {where} ({time.time() - began:.0f} s)", flush=True)
        rows.append(row(f"`{name}`", program.words, told(verdict, where)))
    print(", ".join(f"{n} {verdict}" for verdict, n in sorted(tally.items())))
    write(asked, "The wrong programs of tools/wrong.txt", [("", ["function", "wrong program", "first refused at"], rows)])
    return tally.keys() <= {"refused"}


def arguments():
    """What is asked for, with the command that asks for it."""
    words = argparse.ArgumentParser(description=__doc__, formatter_class=argparse.RawDescriptionHelpFormatter)
    words.add_argument("-n", type=int, default=COUNT)
    words.add_argument("--seed", type=int, default=SEED)
    words.add_argument("--constants", action="store_true")
    words.add_argument("--wrong", action="store_true")
    words.add_argument("--larger", action="store_true")
    words.add_argument("--twins", action="store_true")
    words.add_argument("--run", action="store_true")
    words.add_argument("--list", action="store_true")
    words.add_argument("--only", default="")
    words.add_argument("--skip", default="")
    words.add_argument("--copy", default=os.path.join(tempfile.gettempdir(), "hordivasz-strength"))  # `rt ci` wants no code beside crates/
    words.add_argument("--report")
    asked = words.parse_args()
    asked.command = command(asked, words.get_default)
    return asked


def main():
    asked = arguments()
    if asked.list:
        for site in sites(Source(os.path.join(ROOT, "crates")), asked)[0]:
            print(f"{site.place} {site.old} -> {' '.join(c or '(nothing)' for c in site.candidates)}")
        return
    copy = Copy(os.path.abspath(asked.copy))
    if asked.larger:
        sys.exit(0 if try_larger(copy, Source(os.path.join(ROOT, "crates")), asked) else 1)
    if asked.twins:
        sys.exit(0 if try_twins(copy, asked) else 1)
    copy.warm()
    if asked.wrong:
        good = wrong(copy, asked)
    else:
        good = sample(copy, asked)
    copy.warm()
    sys.exit(0 if good else 1)


main()
