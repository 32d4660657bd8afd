"""The prose of a file, block by block: the comments of code, the text of a document, the heads of tools' data."""
import ast
import io
import os
import re
import tokenize

from .marks import Block

# The string literals of code, in which no comment begins, and a comment.
RATTLE = re.compile(r'b?"(?:\\.|[^"\\])*"|b?\'(?:\\.|[^\'\\])\'|(//[^\n]*)', re.DOTALL)
PROOF = re.compile(r'"(?:\\.|[^"\\])*"|(?:(?<=\s)|^)(--(?:[ -][^\n]*)?)$', re.MULTILINE)
C = re.compile(r'"(?:\\.|[^"\\])*"|\'(?:\\.|[^\'\\])\'|(//[^\n]*|/\*.*?\*/)', re.DOTALL)


def read(path):
    with open(path, encoding="utf-8") as file:
        return file.read()


def joined(lines):
    """Blocks of the lines whose numbers follow each other; an empty line ends one."""
    block = []
    for number, text in lines:
        if block and (number != block[-1][0] + 1 or not text.strip()):
            yield Block(block)
            block = []
        if text.strip():
            block.append((number, text))
    if block:
        yield Block(block)


def comments(text, pattern):
    """The lines of the comments of code, without their signs."""
    for found in pattern.finditer(text):
        if found[1]:
            first = text.count("\n", 0, found.start()) + 1
            for i, line in enumerate(found[1].split("\n")):
                yield first + i, re.sub(r"^\s*(//+!?|/\*+|\*+/|\*|-{2,})|\*/$", "", line).strip()


def hashed(text):
    """The lines that are comments behind a `#`."""
    for number, line in enumerate(text.split("\n"), 1):
        if line.lstrip().startswith("#"):
            yield number, line.lstrip().lstrip("#!").strip()


def python(text):
    """The blocks of the comments and docstrings of a Python program."""
    tokens = tokenize.generate_tokens(io.StringIO(text).readline)
    yield from joined((token.start[0], token.string.lstrip("#").strip()) for token in tokens if token.type == tokenize.COMMENT)
    for node in ast.walk(ast.parse(text)):
        if isinstance(node, (ast.Module, ast.ClassDef, ast.FunctionDef)) and ast.get_docstring(node) is not None:
            first = node.body[0].lineno
            yield from joined((first + i, line.strip()) for i, line in enumerate(node.body[0].value.value.split("\n")))


def cells(line):
    """The cells of a table's row, with the signs that Markdown escapes there."""
    return [cell.replace("\\|", "|").strip() for cell in re.split(r"(?<!\\)\|", line.strip().strip("|"))]


def markdown(text):
    """The blocks of a document: its paragraphs, the items of its lists, and the cells of its tables; no code."""
    block, fenced, blank = [], False, True
    for number, line in enumerate(text.split("\n"), 1):
        fence = line.lstrip().startswith("```")
        code = fenced or fence or blank and line.startswith("    ")
        fenced ^= fence
        line = line if code else re.sub(r"^> ?", "", line)
        begins = re.match(r"\s*([-*] |#+ |\d+\. |\|)", line)
        if block and (code or begins or not line.strip()):
            yield Block(block)
            block = []
        if not code and line.startswith("|"):
            yield from (Block([(number, cell)]) for cell in cells(line))
        elif not code and line.strip():
            block.append((number, re.sub(r"^\s*(?:[-*]|#+|\d+\.) ", "", line).strip()))
        blank = not line.strip() or code
    if block:
        yield Block(block)


def twins(text):
    """The comments of a list of twins, and the lines that are document 01's words."""
    for number, line in enumerate(text.split("\n"), 1):
        if line.startswith("#") or re.match(r'  ["“]', line):
            yield number, line.lstrip("# ")
        else:
            yield number, ""


def blocks(path):
    """The blocks of prose of a file, by the kind of file that it is."""
    text, ending = read(path), os.path.splitext(path)[1]
    if ending == ".md":
        return markdown(text)
    if ending in (".rt", ".rs"):
        return joined(comments(text, RATTLE))
    if ending == ".antt":
        return joined(comments(text, PROOF))
    if ending in (".c", ".h", ".css"):
        return joined(comments(text, C))
    if ending == ".py" or re.match(r"#!.*python", text):
        return python(text)
    return joined(twins(text) if "/twins/" in path else hashed(text))
