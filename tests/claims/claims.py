"""docs/claims.tsv. The head of that file says what its columns are."""

from typing import List, NamedTuple, Tuple

COLUMNS = ['claim', 'document', 'promise', 'state', 'proof', 'trial']


class Claim(NamedTuple):
    """A row. `proof` and `trial` are the parts of those columns."""
    name: str
    document: str
    promise: str
    state: str
    proof: Tuple[str, ...]
    trial: Tuple[str, ...]


def claims_of(text: str) -> List[Claim]:
    """The rows of the file's text."""
    head, *rows = [line.split('\t') for line in text.splitlines() if not line.startswith('#')]
    for row in rows:
        if head != COLUMNS or len(row) != len(COLUMNS):
            raise SystemExit(f'claims: the columns are {head}, and a row is {row}')
    return [Claim(name, document, promise, state, parts(proof), parts(trial))
            for name, document, promise, state, proof, trial in rows]


def parts(cell: str) -> Tuple[str, ...]:
    return tuple(filter(None, cell.split('; ')))
