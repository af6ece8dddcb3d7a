"""What a report says of how its run was made: the call, the programs, and the inputs. Nothing of it
depends on the time, so equal runs by equal programs have equal reports."""

import sys
from typing import Any, Dict, List, Mapping, Optional, Sequence

from .. import VERSION
from .files import Input, Output, Side, readable
from .plan import OURS
from .tools import Tools, version_in, which

ASKED = "version of "   # and a program's name: the role of the child that prints it
UNKNOWN = "unknown"


def programs_beside(sides: Sequence[Side], outputs: Mapping[str, Output], tools: Tools
                    ) -> List[str]:
    """The programs that decompress and compress in a run."""
    used = {each.command(tools.decompressor)[0] for side in sides for each in side.inputs}
    used |= {tools.compressor for output in outputs.values()
             if output.is_compressed and output.role not in OURS}
    return sorted(used - {"cat"})


def versions(said: Mapping[str, str], cutadapt: Optional[str]) -> Dict[str, str]:
    """The versions of all programs, by what those beside printed for theirs."""
    found = {name: version_in(text) or UNKNOWN for name, text in said.items()}
    if cutadapt:
        found["cutadapt"] = cutadapt
    found["python"] = ".".join(map(str, sys.version_info[:3]))
    return {**found, "tibzharuk": VERSION}


def sum_of_program(name: str) -> Optional[str]:
    """The checksum of the program, or None if it may only be started."""
    from .checksums import sha256_of    # its import takes time, which others use meanwhile
    try:
        return sha256_of(which(name) or name)
    except OSError:
        return None


def provenance(call: Sequence[str], program: Optional[str], programs: Mapping[str, str],
               inputs: Sequence[Input], sums: Mapping[str, str]) -> Dict[str, Any]:
    """How the run was made. `sums`: the checksums of inputs, if they were asked for."""
    return {
        "call": [readable(word) for word in call],
        "fq_prog_sha256": program,
        "inputs": [{"bytes": each.size, "name": readable(each.name), "sha256": sums.get(each.name)}
                   for each in inputs],
        "programs": dict(programs),
    }
