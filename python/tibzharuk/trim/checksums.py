"""The checksums of outputs, as `sha256sum -c` reads them."""

import hashlib
import os
from typing import List, Sequence

from .faults import Fault
from .files import Output

PIECE = 1 << 20
ESCAPES = {"\\": r"\\", "\n": r"\n", "\r": r"\r"}


def sha256_of(name: str) -> str:
    """The checksum of a file, in hexadecimal digits."""
    found = hashlib.sha256()
    with open(name, "rb", buffering=0) as file:
        for piece in iter(lambda: file.read(PIECE), b""):
            found.update(piece)
    return found.hexdigest()


def name_from(folder: str, name: str) -> str:
    """The name of a file, as a process sees it whose directory is `folder`."""
    parent, last = os.path.split(name)
    path = os.path.join(os.path.realpath(parent), last)
    found = os.path.relpath(path, os.path.realpath(folder))
    return os.path.join(".", found) if found == "-" else found


def line_of(checksum: str, name: str) -> bytes:
    """The line of a file. It begins with a backslash if some of the name's bytes are escaped."""
    escaped = "".join(ESCAPES.get(each, each) for each in name)
    return os.fsencode(f"{'' if escaped == name else chr(92)}{checksum}  {escaped}\n")


def sums_of(names: Sequence[str]) -> List[str]:
    """The checksums of these files, several of which are read at a time."""
    from concurrent.futures import ThreadPoolExecutor   # what it imports takes longer than the rest
    pool = ThreadPoolExecutor(max(1, len(names)))
    try:
        return list(pool.map(sha256_of, names))
    except RuntimeError:
        raise Fault(6, "cannot start the threads that make checksums")
    finally:
        pool.shutdown(wait=False)   # a signal doesn't wait for their end


def checksums(outputs: Sequence[Output], name: str) -> bytes:
    """The lines of these outputs, which still have hidden names, for a file of this name."""
    found = sums_of([output.written() for output in outputs])
    folder = os.path.dirname(name)
    return b"".join(line_of(checksum, name_from(folder, output.name))
                    for checksum, output in zip(found, outputs))
