#!/usr/bin/env python3
"""Makes the manual pages of tibzharuk and its commands, man/tibzharuk*.1, from what each prints with
--help. The help has headings in capitals, or is that of Python's argparse. Version and day are the
first of CHANGELOG.md that has both."""

import argparse
import difflib
import re
import sys

from offers import COMMANDS, TREE, help_of

VERBATIM = ('SYNOPSIS', 'EXAMPLE', 'EXAMPLES')
SEE_ALSO = r'''and the project's
.IR docs/GUIDE.md ,
which with the Debian package is in
.IR /usr/share/doc/tibzharuk .
'''
ENDING = r'''.SH AUTHORS
The Tibzharuk maintainers.
.SH COPYRIGHT
Copyright 2026 The Tibzharuk maintainers.
Tibzharuk is under the MIT licence or the Apache License 2.0, at your choice.
There is no warranty, as far as the law permits.
'''


def plain(text):
    """Text as roff prints it unchanged."""
    text = text.replace('\\', '\\e').replace('-', '\\-').replace("'", "\\(aq").replace('`', '\\(ga').replace('^', '\\(ha').replace('~', '\\(ti')
    return '\\&' + text if text.startswith('.') else text


def term(text):
    """What comes before an explanation: options are bold, and words in capitals are in italics."""
    def shown(word):
        if word.group()[0] == '-' or word.group()[0].isdigit():
            return '\\fB' + plain(word.group()) + '\\fR'
        return '\\fI' + plain(word.group()) + '\\fR' if word.group().isupper() else plain(word.group())
    return re.sub(r"[^\s,\[\]'.]+", shown, text)


def sentences(lines):
    """A line for each sentence, as roff wants it."""
    text = re.sub(r'(?<=[^.][.?!]) (?=[A-Z])', '\n', ' '.join(line.strip() for line in lines))
    return [plain(line) for line in text.split('\n')]


def listed(block):
    """The terms of a list with their explanations, or nothing if the block isn't a list."""
    items = []
    for line in block:
        split = re.match(r'(\S.*?)(?:\s{2,}(\S.*))?$', line)
        if split and (split[2] or items or line.startswith('-')):
            if not split[2] and not line.startswith('-'):
                return []
            items.append((split[1], [split[2]] if split[2] else []))
        elif not split and items:
            items[-1][1].append(line)
        else:
            return []
    return items


def body(lines):
    """Paragraphs, lists and code, which is indented by four columns, below one heading."""
    out = []
    for block in blocks(lines):
        # A list may come right after the lines that lead to it.
        start = next((k for k in range(len(block)) if len(listed(block[k:])) > (k > 0)), len(block))
        before = block[:start]
        if before and out:
            out.append('.PP')
        if before and all(line.startswith('    ') for line in before):
            out += ['.nf', '.RS', *(plain(line[4:]) for line in before), '.RE', '.fi']
        elif before:
            out += sentences(before)
        for name, text in listed(block[start:]):
            out += ['.TP', term(name), *sentences(text)]
    return out


def blocks(lines):
    """The parts between empty lines."""
    part = []
    for line in [*lines, '']:
        if line.strip():
            part.append(line)
        elif part:
            yield part
            part = []


def of_headings(text):
    """The sections of a help with headings in capitals, with their lines."""
    sections = {}
    for line in text.splitlines():
        if re.fullmatch(r'[A-Z][A-Z ]*', line):
            lines = sections.setdefault(line, [])
        else:
            lines.append(re.sub('^ {4}', '', line))
    return sections


def of_argparse(text, name):
    """The same of a help by argparse: usage, what the script does, and groups of arguments."""
    usage, *rest = blocks(text.splitlines())
    about, groups = [], []
    for block in rest:
        if re.fullmatch(r'[a-z][a-z ]*:', block[0]):
            groups += [re.sub('^  ', '', line) for line in block[1:]]
        else:
            about += [*block, '']
    first = re.match(r'(.*?)\.(?:\s|$)', ' '.join(about), re.S)[1].strip()
    return {'NAME': [f'{name} - {first[0].lower()}{first[1:]}'],
            'SYNOPSIS': [line[7:] for line in ['usage: ' + usage[0][7:], *usage[1:]]],
            'DESCRIPTION': about, 'OPTIONS': groups}


def see_also(name, names):
    """The other pages of the command, and that of the program."""
    return [f'.BR {plain(each)} (1){"," * (each != "fq_prog")}'
            for each in [*names, 'fq_prog'] if each != name]


def page(name, names, text):
    """The page of this name, one of several, from the help of its command."""
    sections = of_argparse(text, name) if text.startswith('usage:') else of_headings(text)
    changes = (TREE / 'CHANGELOG.md').read_text()
    version, day = re.search(r'^## ([0-9.]+) \(([0-9-]+)\)$', changes, re.M).groups()
    out = [f'.\\" Made by packaging/man_page.py from what {name.replace("-", " ")} prints with --help.',
           f'.TH {name.upper()} 1 {day} "Tibzharuk {version}" "User Commands"']
    for heading, lines in sections.items():
        out.append(f'.SH {heading}')
        if heading == 'NAME':
            about = ' '.join(' '.join(lines).split(' - ', 1)[1].split())
            out.append(f'{plain(name)} \\- {plain(about)}')
        elif heading in VERBATIM:
            code = '\n'.join(lines).strip('\n').split('\n')
            out += ['.nf', *(plain(line) for line in code), '.fi']
        else:
            out += body(lines)
    out += ['.SH SEE ALSO', *see_also(name, names)]
    return '\n'.join(out) + '\n' + SEE_ALSO + ENDING


def main():
    parser = argparse.ArgumentParser(description=__doc__)
    parser.add_argument('--check', action='store_true', help='change nothing, print what differs, and '
                        'end with status 1 if a page does')
    is_check = parser.parse_args().check
    calls = {'tibzharuk': [], **{f'tibzharuk-{name}': [name] for name in COMMANDS}}
    different = 0
    for name, words in calls.items():
        path = TREE / 'man' / f'{name}.1'
        before = path.read_text() if path.exists() else ''
        made = page(name, list(calls), help_of(*words))
        if made != before and is_check:
            sys.stdout.writelines(difflib.unified_diff(
                before.splitlines(True), made.splitlines(True), f'man/{name}.1', 'made', n=0))
            different = 1
        elif made != before:
            path.write_text(made)
    return different


if __name__ == '__main__':
    sys.exit(main())
