"""What --adapters names, as options of cutadapt."""

import os
import re
from typing import List

from .fasta import Entry, other_strand, read_fasta
from .faults import Fault
from .known_adapters import AUTO, KnownAdapter, known_adapters, names_of_known

LETTERS = "[ACGTUNRYSWKMBDHVI]"
SEQUENCES = f"{LETTERS}+(,{LETTERS}+)?$"
# The names of Trimmomatic's palindrome entries begin so, and end in /1 and /2.
PALINDROME = "Prefix"


def adapter_options(adapters: List[str]) -> List[str]:
    """All adapters of a call. They add up, as those of cutadapt's -a do."""
    return [word for given in adapters for word in options_of(given)]


def options_of(given: str) -> List[str]:
    """A known name, a FASTA file for both sides, one sequence for both, or one for each."""
    known = known_adapters().get(given.lower())
    if known:
        name, forward, reverse = known
        return ["-a", f"{name}_1={forward}", "-A", f"{name}_2={reverse}"]
    if os.path.exists(given):
        check_fasta(given)
        return ["-a", f"file:{given}", "-A", f"file:{given}"]
    if not re.match(SEQUENCES, given, re.I):
        raise Fault(
            2, f"--adapters: {given} is neither a file nor a sequence nor {AUTO}, "
               f"{names_of_known()}")
    forward, _, reverse = given.partition(",")
    return ["-a", forward, "-A", reverse or forward]


def check_fasta(name: str) -> None:
    """Refuses a file from which cutadapt would take other adapters than those that are meant."""
    if ";" in name:
        raise Fault(2, f"--adapters: cutadapt takes no name with ; in it: {name}")
    entries = read_fasta(name)
    if not entries:
        raise Fault(2, f"--adapters: {name} has no adapters")
    for entry in entries:
        if not entry.sequence:
            raise Fault(2, f"--adapters: {name} has no sequence for {entry.name or 'an adapter'}")
    palindromes = [entry for entry in entries if entry.name.startswith(PALINDROME)]
    if palindromes:
        raise Fault(2, f"--adapters: {name} has palindrome entries of Trimmomatic "
                       f"({palindromes[0].name}): use --adapters {instead_of(palindromes)}")


def instead_of(palindromes: List[Entry]) -> str:
    """The 3' adapters of such entries. A read that is longer than its insert goes on with the other
    strand of the mate's entry."""
    by_name = {entry.name: entry.sequence for entry in palindromes}
    found = []
    for name, sequence in by_name.items():
        mate = by_name.get(name[:-1] + "2")
        if name.endswith("/1") and mate:
            found.append(shortest_name(other_strand(mate), other_strand(sequence)))
    return " --adapters ".join(found) or f"{names_of_known()}, or a FASTA file of the 3' adapters"


def shortest_name(forward: str, reverse: str) -> str:
    """Two adapters as --adapters takes them: by the name of known ones that begin as they do."""
    def is_meant(known: KnownAdapter) -> bool:
        return forward.startswith(known.forward) and reverse.startswith(known.reverse)
    name = next((known.name for known in known_adapters().values() if is_meant(known)), None)
    return name or f"{forward},{reverse}"
