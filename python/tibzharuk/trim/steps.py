"""The words of steps, which need no -- before them."""

import re
from typing import Optional

STEPS = ("LEADING", "TRAILING", "SLIDINGWINDOW", "CROP", "HEADCROP", "AVGQUAL", "MINLEN",
         "TOPHRED33")
# Steps of Trimmomatic that have no equal here, and what to do instead.
WITHOUT = {
    "MAXINFO": "SLIDINGWINDOW trims by quality, and MINLEN drops short reads",
    "BASECOUNT": "--cutadapt '--max-n 5' drops pairs with more than 5 N",
    "TAILCROP": "--cutadapt '-u -5 -U -5' removes the last 5 bases",
    "MAXLEN": "--cutadapt '-M 300' drops pairs with reads of more than 300 bases",
    "TOPHRED64": "TOPHRED33 writes Phred+33, and without it qualities stay as they are",
}
CLIP = "ILLUMINACLIP"
NAMED = re.compile(f"({'|'.join((*STEPS, *WITHOUT, CLIP))})(:|$)")
# So is a step that was misspelled: the program says what is wrong with it.
LIKE_ONE = re.compile("[A-Z][A-Z0-9]{3,}:[0-9][0-9.:]*$")


def is_step(word: str) -> bool:
    """Whether it has the form of a step. A file of such a name is ./NAME."""
    return bool(NAMED.match(word) or LIKE_ONE.match(word))


def name_of(step: str) -> str:
    return step.partition(":")[0]


def meant(word: str) -> Optional[str]:
    """The step that a misspelled word seems to be, also one in small letters."""
    import difflib
    name, colon, numbers = word.partition(":")
    if name in STEPS:
        return None
    near = difflib.get_close_matches(name.upper(), STEPS, 1, 0.75)
    return near[0] + colon + numbers if near else None
