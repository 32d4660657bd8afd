"""The crates by crates.txt, and the picture of them beside docs/MAP.md."""
import os

import drawing

from .printed import Fault, read

PICTURE = "docs/map.svg"


def crates():
    """What each crate uses, by its name, in the order of the file."""
    found = {}
    for line in read("crates.txt").splitlines():
        name, colon, used = line.partition(":")
        if not colon:
            raise Fault(f"crates.txt: a line without a colon: {line}")
        found[name.split()[0]] = used.split()  # the name may have `staticlib` behind it
    return found


def programs(names):
    """Those that are programs."""
    return [name for name in names if os.path.exists(f"crates/{name}/src/main.rt")]


def picture():
    """The picture of the crates."""
    found = crates()
    try:
        return drawing.layers_picture("The two layers, and what is built on them", found, programs(found))
    except ValueError as fault:
        raise Fault(f"{PICTURE}: {fault}") from None
