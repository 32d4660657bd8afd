"""The files of docs/strength/: `tools/strength.py --report FILE` writes one whole, from the rows of its run."""

import shlex

# The options that say which edits are tried, in the order in which they are shown.
OPTIONS = ["constants", "wrong", "larger", "twins", "run", "n", "seed", "skip", "only", "report"]


def command(asked, default):
    """The command of a run, as it would be typed again: options that have their default are left out."""
    words = ["python3 tools/strength.py"]
    for name in OPTIONS:
        value = getattr(asked, name)
        if value != default(name):
            words.append(("-" if len(name) == 1 else "--") + name + ("" if value is True else f" {shlex.quote(str(value))}"))
    return " ".join(words)


def row(*cells):
    return "| " + " | ".join(cells) + " |"


def whole(title, words, tables):
    """A file: its heading, the line that names the command, and each table, under a heading of its own where it has one."""
    parts = [f"# {title}\n", f"Written by `{words}`, not by hand. [STRENGTH](../STRENGTH.md) says what the rows mean.\n"]
    for heading, columns, rows in tables:
        parts += [f"## {heading}\n"] if heading else []
        parts.append("\n".join([row(*columns), "|---" * len(columns) + "|", *rows]) + "\n")
    return "\n".join(parts)


def write(asked, title, tables):
    """Writes the report of a run, if one is asked for."""
    if asked.report:
        with open(asked.report, "w", encoding="utf-8") as out:
            out.write(whole(title, asked.command, tables))
