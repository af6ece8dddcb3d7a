"""Numbers and texts as the page shows them."""

from html import escape

from .reading import plain


def shown(text: str) -> str:
    """Text from outside, as HTML that shows it and does nothing else."""
    return escape(plain(text))


def share(part: float, whole: float, digits: int = 1) -> str:
    """Per cent of a whole: 100 % is all of it, and 0 % is none of it."""
    if not whole:
        return "–"
    percent, least = 100 * part / whole, 10**-digits
    if 0 < percent < least:
        return f"under {least:g} %"
    if 100 - least < percent < 100:
        return f"over {100 - least:g} %"
    return f"{percent:.{digits}f} %"


def short(number: int) -> str:
    """A count of at most four digits and a letter, such as 1.52 M."""
    for size, letter in ((10**12, "T"), (10**9, "G"), (10**6, "M")):
        if number >= size:
            return f"{number / size:.2f} {letter}"
    return f"{number:,}"


def mean(total: int, number: int, digits: int = 1) -> str:
    return f"{total / number:,.{digits}f}" if number else "–"


def unbroken(text: str) -> str:
    """Text that stays on one line."""
    return text.replace(" ", "\u00a0")


def section(title: str, said: str, *parts: str) -> str:
    return f'<section><h2>{title}</h2><p class="soft">{said}</p>{"".join(parts)}</section>'
