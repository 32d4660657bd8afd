"""The code in README, what programs print there, and its table of calls: each is cut out of the file that the line `<!-- FILE: NAME NAME -->` above it names."""
import re

from . import code
from .printed import Fault, read, section

BLOCK = re.compile(r"(<!-- (\S+):((?: [\w-]+)*) -->\n)(```.*?^```$)", re.DOTALL | re.MULTILINE)

TABLE = re.compile(r"(<!-- (\S+\.md): -->\n)((?:\|.*\n)+)")


def block(path, names):
    """Code by its names; what a program prints by its heading, or all of it."""
    if path.endswith((".rt", ".c", ".h")):
        return code.cut(path, names)
    return ["```", *section(path, " ".join(names)).splitlines(), "```"]


def renewed(path="README.md"):
    """README with its blocks as they stand in the files."""
    text = read(path)
    if 2 * len(BLOCK.findall(text)) != len(re.findall(r"^```", text, re.MULTILINE)):
        raise Fault(f"{path} has a block that is not cut out of a file")
    text = TABLE.sub(lambda found: found[1] + read(found[2]), text)
    return BLOCK.sub(lambda found: found[1] + "\n".join(block(found[2], found[3].split())), text)
