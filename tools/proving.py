"""A copy of the repository in which files are edited, checked by `rt`, and put back: what tools/strength.py works in."""
import contextlib
import os
import re
import shutil
import signal
import subprocess
import sys
import time

from edits import LIBRARIES, RELYING

LIMIT = 600  # seconds for one check
A_NAME = "a name alone"
SHOWING_NOTHING = ("no program", A_NAME)  # the verdicts on an edit that say nothing of the contracts
ROUNDS = 4  # how often answers are left out that name what an edit took away
MADE = "out"  # the folder of a crate in which `rt` keeps its work

# The libraries that are checked in one run: the top one, with the others as source.
TOP, UNDER = "demands", ["record", "service", "text", "listing", "phone", "phone_c", "reference"]

# A line of the prover with a place, and one of a proof that names what is not there or stands on such a proof.
PLACE = re.compile(r"^(note: )?(\S+:\d+:\d+):.*", re.M)
NAMES = re.compile(r"(?:note: )?\S*\bproofs/.*(?:has no field|is not in scope|has no `|was not admitted)")

ROOT = os.path.dirname(os.path.dirname(os.path.abspath(__file__)))


class Copy:
    """A copy of the repository whose libraries are proved, in which files are edited and put back."""

    def __init__(self, where):
        self.where = where
        for top, folders, files in os.walk(os.path.join(where, "crates"), topdown=False):
            if MADE not in os.path.relpath(top, where).split(os.sep):
                for file in files:
                    os.remove(os.path.join(top, file))
                if not os.listdir(top):
                    os.rmdir(top)
        shutil.copytree(os.path.join(ROOT, "crates"), os.path.join(where, "crates"), ignore=shutil.ignore_patterns(MADE), dirs_exist_ok=True)
        shutil.copy2(os.path.join(ROOT, "crates.txt"), where)
        self.below = {}
        for line in open(os.path.join(where, "crates.txt")):
            name, _, below = line.partition("#")[0].partition(":")
            if name.strip():
                self.below[name.split()[0]] = below.split()
        self.above = {name: [other for other in LIBRARIES + RELYING if name in self.below[other]] for name in LIBRARIES}
        self.programs = [name for name in self.below if os.path.exists(self.path(name + "/src/main.rt"))]

    def path(self, file):
        return os.path.join(self.where, "crates", file)

    def run(self, crate, *words):
        """What a command of `rt` prints in a crate's folder, and its exit status: None if it took too long and was stopped."""
        run = subprocess.Popen(["rt", *words], cwd=self.path(crate), stdin=subprocess.DEVNULL, stdout=subprocess.PIPE, stderr=subprocess.STDOUT,
                               text=True, errors="replace", start_new_session=True)
        try:
            said, _ = run.communicate(timeout=LIMIT)
        except subprocess.TimeoutExpired:
            os.killpg(run.pid, signal.SIGKILL)
            run.communicate()
            return "", None
        os.makedirs(os.path.join(self.where, "target"), exist_ok=True)
        with open(os.path.join(self.where, "target", "last.out"), "w") as last:
            last.write(said)
        return said, run.returncode

    def check(self, crate, *words):
        """The verdict on a crate and its dependencies, where it was first refused, and the whole output."""
        said, status = self.run(crate, "check", *words)
        if status == 0 and re.search(r"^logic=proved", said, re.M):
            return "survived", "", said
        if status == 1 and re.search(r"^logic=not-proved", said, re.M):
            return *first_refused(said, crate), said
        if status in (1, 2):
            return "no program", first_error(said, crate), said
        return "undecided", f"no answer in {LIMIT} s" if status is None else f"exit {status}", said

    def together(self):
        """Has the libraries checked in one run from now on, so that what an edit does not touch is not checked again."""
        path = os.path.join(self.where, "crates.txt")
        lines = open(path).read()
        with open(path, "w") as out:  # without its dependencies, which are given as source below
            out.write(re.sub(rf"^{TOP}:.*$", f"{TOP}:", lines, flags=re.M))
        self.words = [word for name in UNDER for word in ("--lib", f"{name}:{','.join(['std', *self.below[name]])}=../{name}/src/lib.rt")]
        began = time.time()
        verdict, where, _ = self.check_all()
        word = "proved" if verdict == "survived" else verdict + " " + where
        print(f"the libraries as they stand: {word} ({time.time() - began:.0f} s)", flush=True)
        if verdict != "survived":
            sys.exit("strength: a library is not proved before any edit")

    def check_all(self):
        return self.check(TOP, *self.words)

    def warm(self):
        for name in LIBRARIES + RELYING:
            began = time.time()
            verdict, why, _ = self.check(name)
            print(f"{name} as it stands: {'proved' if verdict == 'survived' else verdict + ' ' + why} ({time.time() - began:.0f} s)", flush=True)
            if verdict != "survived":
                sys.exit("strength: a library is not proved before any edit")

    @contextlib.contextmanager
    def edited(self, texts):
        """Gives some files other texts, and restores them whatever happens; a file that was not there is removed, with its folder."""
        kept = {file: (open(self.path(file)).read(), os.stat(self.path(file))) for file in texts if os.path.exists(self.path(file))}
        try:
            for file, text in texts.items():
                os.makedirs(os.path.dirname(self.path(file)), exist_ok=True)
                with open(self.path(file), "w") as out:
                    out.write(text)
            yield
        finally:
            for file in texts.keys() - kept.keys():
                shutil.rmtree(os.path.dirname(self.path(file)))
            for file, (text, times) in kept.items():
                with open(self.path(file), "w") as out:
                    out.write(text)
                os.utime(self.path(file), ns=(times.st_atime_ns, times.st_mtime_ns))

    @contextlib.contextmanager
    def settled(self, texts, crate, check):
        """Gives some files other texts, and the verdict of a check on them. Where a function's answers name what is gone, it is checked again without these, so
        that the prover looks for proofs itself."""
        with contextlib.ExitStack() as edits:
            edits.enter_context(self.edited(texts))
            verdict, where, said = check()
            for _ in range(ROUNDS):
                fewer = self.without_answers(crate, said) if verdict == A_NAME else {}
                if not fewer:
                    break
                edits.enter_context(self.edited(fewer))
                verdict, where, said = check()
            yield verdict, where

    def without_answers(self, crate, said):
        """The files of answers in which the prover named one that speaks of what is gone, without those answers."""
        gone = {}
        for found in PLACE.finditer(said):
            path, line, _ = place_in(crate, found[2]).rsplit(":", 2)
            if NAMES.match(found[0]) and path.endswith("/Answers.antt"):
                gone.setdefault(path, set()).add(int(line))
        return {path: without(open(self.path(path)).read(), lines) for path, lines in gone.items()}

    def judge(self, file, start, end, new):
        """Judges a replacement in one file: its crate, then each library above it."""
        crate = file.split("/")[0]
        text = open(self.path(file)).read()
        with self.settled({file: text[:start] + new + text[end:]}, crate, lambda: self.check(crate)) as (verdict, where):
            if verdict == "survived":
                for name in self.above[crate]:
                    verdict, where, _ = self.check(name)
                    if verdict != "survived":
                        return verdict, f"{name}: {where}"
        return verdict, where


def short(text):
    """A text on one line of a table."""
    return " ".join(text.split()).replace("|", "\\|") or "(nothing)"


def told(verdict, where):
    return f"`{where}`" if verdict == "refused" else f"**{verdict}** {where}"


def place_in(crate, path):
    """A path as `rt` prints it, from the crate's folder, as one from the folder of all crates."""
    return os.path.normpath(os.path.join(crate, path))


def first_refused(said, crate):
    """The first place that the prover names: a function whose proof fails, or a file; and whether it refuses more than proofs that name what the edit
    took away, as a goal that is called by a value."""
    places = [found for found in PLACE.finditer(said) if found[1] or ": error" in found[0]]
    real = [found for found in places if not NAMES.match(found[0])]
    verdict = "refused" if real or not places else A_NAME
    return verdict, place_in(crate, (real or places)[0][2]) if places else "?"


def without(text, lines):
    """A file of answers without those that stand on some lines: each begins with its type, at the left edge."""
    kept, block = [], []
    for number, line in enumerate([*text.split("\n"), None], 1):
        if line is None or re.match(r"(pub )?[^\s:]+ :( |$)|--|use ", line):
            kept += [] if any(at in lines for at, _ in block) else block
            block = []
        block.append((number, line))
    return "\n".join(line for _, line in kept)


def first_error(said, crate):
    """Why the compiler rejects a text."""
    found = re.search(r"^(\S+)(: error.*)", said, re.M)
    return (place_in(crate, found[1]) + found[2])[:120] if found else said.strip().split("\n")[-1][:120]
