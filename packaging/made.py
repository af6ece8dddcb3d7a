#!/usr/bin/env python3
"""Makes the parts of files that follow from what fq_prog does, from the help of tibzharuk, from
docs/report.schema.json and from worked rows: of the manual page of fq_prog, the completions, the
description for CWL, docs/FORMAT.md and what reads reports. A part lies between the lines 'made by
packaging/made.py: NAME' and 'end of NAME', which are comments of the file. docs/report.example.json
is made as a whole."""

import argparse
import difflib
import json
import re
import subprocess
import sys
import tempfile
from pathlib import Path
from typing import Any, Callable, Dict, Iterable, Iterator, List, NamedTuple, Tuple

import offers
from man_page import plain, sentences
from offers import brief, fish_text, lower, zsh_text

TREE = Path(__file__).resolve().parent.parent
FILES = ['man/fq_prog.1', 'completions/fq_prog.bash', 'completions/fq_prog.fish',
         'completions/_fq_prog', 'completions/tibzharuk.bash', 'completions/tibzharuk.fish',
         'completions/_tibzharuk', 'workflow/cwl/tibzharuk.cwl', 'docs/FORMAT.md',
         'python/tibzharuk/report/reading.py']
EXAMPLE_FILE = 'docs/report.example.json'
PART = re.compile(r'(?ms)^([^\n]*made by packaging/made\.py: ([a-z-]+)[^\n]*\n)'
                  r'.*?^([^\n]*end of \2\b[^\n]*)$')


class Option(NamedTuple):
    """An option of the help. `value` is empty if it takes none."""
    short: str
    name: str
    value: str
    text: str
    default: str


class Help(NamedTuple):
    """What the help of a trimming command names: terms with their texts, and options."""
    inputs: List[Tuple[str, str]]
    outputs: List[Tuple[str, str]]
    options: List[Option]
    before_steps: str
    steps: List[Tuple[str, str]]
    after_steps: str
    statuses: List[Tuple[str, str]]


Makers = Dict[str, Callable[[], List[str]]]


# ---- The help

def items(lines: List[str]) -> List[Tuple[str, str]]:
    """The terms of a list with their texts, which may go on in lines that are indented further."""
    found: List[Tuple[str, str]] = []
    for line in lines:
        begun = re.match(r'(?: {2}| {6})(\S.*?)(?: {2,}(\S.*))?$', line)
        if begun:
            found.append((begun[1], begun[2] or ''))
        elif found and line.strip():
            found[-1] = (found[-1][0], f'{found[-1][1]} {line.strip()}'.strip())
    return found


def section(text: str, heading: str) -> List[str]:
    """The lines after the one with this heading, up to an empty line."""
    found = re.search(rf'(?ms)^{heading}:\n(.*?)(?:\n\n|\Z)', text)
    if not found:
        raise SystemExit(f'made: the help has no {heading}')
    return found[1].split('\n')


def option_of(term: str, text: str) -> Option:
    """An option by its line of help, such as `-h, --help` or `--threads <N>`."""
    parts = re.fullmatch(r'(?:(-\w), )?(--[a-z-]+)(?: <(\w+)>)?', term)
    if not parts:
        raise SystemExit(f'made: not an option: {term}')
    about = re.fullmatch(r'(.*?)\s*(?:\[default: ([^]]*)\])?', text, re.S)
    assert about
    return Option(parts[1] or '', parts[2], parts[3] or '', about[1], about[2] or '')


def help_of(text: str) -> Help:
    """The parts of the help of PE or IL."""
    arguments = [(term.strip('<>[].'), about) for term, about in items(section(text, 'Arguments'))]
    files = [(term, about) for term, about in arguments if term != 'STEPS']
    steps = re.search(r'(?ms)^(Steps run .*?:\n)((?: {2}[^\n]*\n)+)(.*?)\n\n', text)
    statuses = re.search(r'(?s)Exit status: (.*?)\.\s*\Z', text)
    if not steps or not statuses:
        raise SystemExit('made: the help has no steps or no exit status')
    numbered = re.split(r'; (?=\d )', ' '.join(statuses[1].split()))
    return Help(
        inputs=[file for file in files if not file[1].startswith('Output: ')],
        outputs=[(term, about[len('Output: '):]) for term, about in files
                 if about.startswith('Output: ')],
        options=[option_of(*item) for item in items(section(text, 'Options'))],
        before_steps=' '.join(steps[1].split()),
        steps=items(steps[2].split('\n')),
        after_steps=' '.join(steps[3].split()),
        statuses=[(each.split(' ', 1)[0], each.split(' ', 1)[1]) for each in numbered])


def encodings(options: List[Option]) -> List[str]:
    """The names that the help of --encoding explains, as `sanger (score + 33)`."""
    text = next(option.text for option in options if option.name == '--encoding')
    return re.findall(r'\b([a-z][a-z0-9]*) \((?=[^)]*score)', text)


# ---- The manual page

def italic(text: str) -> str:
    """A line of the page, with the letters of the steps' numbers in italics."""
    return re.sub(r"(?<![\w'])([tmw])(?![\w'])", r'\\fI\1\\fR', text)


def upper(text: str) -> str:
    return text[:1].upper() + text[1:] + ('' if text.endswith('.') else '.')


def man_options(options: List[Option]) -> Iterator[str]:
    for option in options:
        yield '.TP'
        name = plain(option.name)
        if option.value:
            yield f'.BI {name} " {option.value}"'
        elif option.short:
            yield f'.BR {plain(option.short)} ", " {name}'
        else:
            yield f'.B {name}'
        yield from sentences([upper(option.text)])
        if option.default:
            yield f'Default: {plain(option.default)}.'


def man_steps(found: Help) -> Iterator[str]:
    yield from map(italic, sentences([re.sub(r':$', '.', found.before_steps)]))
    for term, text in found.steps:
        parts = term.split(':')
        yield '.TP'
        yield f'.BI {parts[0]}: {" : ".join(parts[1:])}' if parts[1:] else f'.B {parts[0]}'
        yield from map(italic, sentences([upper(text)]))
    yield '.PP'
    yield from sentences([found.after_steps])


def man_files(pairs: Help, interleaved: Help) -> Iterator[str]:
    inputs = dict(pairs.inputs + interleaved.inputs)
    outputs = [(term, f'Written: {text}') for term, text in pairs.outputs]
    for term, text in [*inputs.items(), *outputs]:
        yield '.TP'
        yield f'.I {term}'
        yield from sentences([upper(text)])


def man_statuses(found: Help) -> Iterator[str]:
    for number, text in found.statuses:
        yield from ['.TP', f'.B {number}', *sentences([upper(text)])]


# ---- Completions

def names(options: List[Option], values: Callable[[str], bool]) -> List[str]:
    return [option.name for option in options if values(option.value)]


def step_words(found: Help) -> List[str]:
    """The steps as they are offered: one that takes a number ends in a colon."""
    return [term.split(':')[0] + ':' * (':' in term) for term, _ in found.steps]


def bash_lines(commands: List[Tuple[str, str]], pairs: Help, interleaved: Help) -> List[str]:
    lists = {
        'commands': [name for name, _ in commands],
        'with_file': names(pairs.options, lambda value: value == 'FILE'),
        'with_value': names(pairs.options, lambda value: value not in ('', 'FILE')),
        'flags': names(pairs.options, lambda value: not value),
        'encodings': encodings(pairs.options),
        'steps': step_words(pairs),
    }
    counts = {'PE': pairs, 'IL': interleaved}
    return [*(f"  {name}='{' '.join(words)}'" for name, words in lists.items()),
            '  case $command in',
            *(f'    {name}) files={len(each.inputs + each.outputs)} ;;'
              for name, each in counts.items()),
            '  esac']


def fish_lists(pairs: Help, interleaved: Help) -> List[str]:
    lines = ['# The options that take a value.', 'function __fq_prog_valued',
             f"    printf '%s\\n' {' '.join(names(pairs.options, bool))}", 'end', '',
             '# The number of files that a command takes.', 'function __fq_prog_files',
             '    switch $argv[1]']
    for name, each in (('PE', pairs), ('IL', interleaved)):
        lines += [f'        case {name}', f'            echo {len(each.inputs + each.outputs)}']
    return [*lines, "        case '*'", '            return 1', '    end', 'end']


def fish_lines(commands: List[Tuple[str, str]], pairs: Help) -> Iterator[str]:
    start = 'complete -c fq_prog -n'
    for name, text in commands:
        yield f"{start} '__fq_prog_wants command' -a {name} -d {fish_text(brief(text))}"
    yield f"{start} '__fq_prog_wants step' -a {fish_text(' '.join(step_words(pairs)))}"
    for option in pairs.options:
        if option.name in ('--help', '--version'):  # these go with every command
            continue
        takes = {'': '', 'FILE': ' -rF'}.get(option.value, ' -x')
        if option.name == '--encoding':
            takes += f" -a {fish_text(' '.join(encodings(pairs.options)))}"
        yield (f"{start} '__fq_prog_wants trimming' -l {option.name[2:]}{takes}"
               f' -d {fish_text(brief(option.text))}')


def zsh_options(options: List[Option]) -> Iterator[str]:
    for option in options:
        about = f'[{zsh_text(option.text)}]'
        if option.short:
            yield f"    '({option.short} {option.name})'{{{option.short},{option.name}}}'{about}'"
        elif not option.value:
            yield f"    '{option.name}{about}'"
        elif option.value == 'FILE':
            yield f"    '{option.name}={about}:file:_files'"
        elif option.name == '--encoding':
            yield f"    '{option.name}={about}:encoding:({' '.join(encodings(options))})'"
        else:
            yield f"    '{option.name}={about}:number: '"


def zsh_files(files: List[Tuple[str, str]]) -> Iterator[str]:
    for _, text in files:
        yield f"    ':{zsh_text(text)}:_files'"


def zsh_steps(found: Help) -> List[str]:
    words = step_words(found)
    return ["  compadd -S '' -- " + ' '.join(word for word in words if word.endswith(':')),
            '  compadd -- ' + ' '.join(word for word in words if not word.endswith(':'))]


def zsh_commands(commands: List[Tuple[str, str]]) -> List[str]:
    named = ' '.join(f'{name}\\:"{zsh_text(text)}"' for name, text in commands)
    return [f"  local commands='(({named}))'"]


# ---- Tables

def option_table(options: List[Option]) -> Iterator[str]:
    yield from ['', '| Option | Default | What it does |', '|---|---|---|']
    for option in options:
        term = f'`{option.name} {option.value}`' if option.value else f'`{option.name}`'
        if option.short:
            term = f'`{option.short}`, {term}'
        yield f'| {term} | {option.default} | {lower(option.text)} |'
    yield ''


def rows(properties: Dict[str, Any], prefix: str = '') -> Iterator[Tuple[str, str]]:
    """The fields of an object of the schema, with those of the objects in it that it writes out."""
    for name, field in properties.items():
        yield prefix + name, field.get('description', '')
        inner = field.get('items', field)
        yield from rows(inner.get('properties', {}) if not name == 'reads' else {},
                        f'{prefix}{name}[].' if 'items' in field else f'{prefix}{name}.')


def field_table(properties: Dict[str, Any]) -> Iterator[str]:
    yield from ['', '| Field | What it is |', '|---|---|']
    for name, text in rows(properties):
        yield f'| `{name}` | {lower(text).rstrip(".")} |'
    yield ''


# ---- Reports

# The pairs of the example: the bases and the quality of each mate.
EXAMPLE = (('GcANn', '#5?>I'), ('ACG', 'III')), (('gTC', '#4~'), ('TTTT', 'IIII'))


def example_report(program: str) -> Any:
    """The report of the example's pairs under LEADING:3 MINLEN:3."""
    with tempfile.TemporaryDirectory() as room:
        for name, mates in zip(('r1.fq', 'r2.fq'), EXAMPLE):
            Path(room, name).write_text(''.join(
                f'@p{number}\n{seq}\n+\n{qual}\n' for number, (seq, qual) in enumerate(mates)))
        subprocess.run([program, 'PE', '--trimlog', 'trim.log', '--report', 'report', 'r1.fq', 'r2.fq',
                        'fp.fq', 'fu.fq', 'rp.fq', 'ru.fq', 'LEADING:3', 'MINLEN:3'],
                       cwd=room, check=True, stdout=subprocess.DEVNULL)
        return json.loads(Path(room, 'report').read_text())


def laid_out(value: Any, room: int) -> List[str]:
    """JSON in lines of at most `room` characters, with a line for each field that needs several, and
    for each item of a list that does."""
    flat = json.dumps(value)
    if len(flat) <= room or not isinstance(value, (dict, list)):
        return [flat]
    lines: List[str] = []
    if isinstance(value, list):
        for item in value:
            lines += [f' {line}' for line in laid_out(item, room - 2)]
            lines[-1] += ','
        return ['[' + lines[0][1:], *lines[1:-1], lines[-1][:-1] + ']']
    full = True
    for name, field in value.items():
        short = f'{json.dumps(name)}: {json.dumps(field)},'
        if len(short) >= room:
            lines += [f' {json.dumps(name)}:', *(f'  {line}' for line in laid_out(field, room - 3))]
            lines[-1] += ','
        elif full or len(lines[-1]) + 1 + len(short) > room:
            lines.append(f' {short}')
        else:
            lines[-1] += f' {short}'
        full = len(short) >= room
    return ['{' + lines[0][1:], *lines[1:-1], lines[-1][:-1] + '}']


def example_text(program: str) -> str:
    return ''.join(f'{line}\n' for line in laid_out(example_report(program), 96))


def tuple_of(name: str, words: Iterable[str]) -> List[str]:
    """A tuple of words in Python."""
    return [f'{name} = ({", ".join(json.dumps(word) for word in words)})']


# ---- Reasons

def reason_table(rows: str) -> Iterator[str]:
    """The reasons for the faults of a record, by kind, as worked rows have them. Of reasons that
    differ in a number only, it is the first."""
    kinds: Dict[str, Dict[str, str]] = {}
    for kind, reason in re.findall(r'(?m)(?:^= err:|\|) input: \w+ record \d+: (\w+): \w: (.*?)\\n(?:$| \|)', rows):
        if kind != 'MateMissing':
            kinds.setdefault(kind, {}).setdefault(re.sub(r'\d+$', '', reason), f'`{reason}`')
    yield from ['', '| Kind | Reason |', '|---|---|']
    for kind, reasons in kinds.items():
        yield f'| `{kind}` | {"; ".join(sorted(reasons.values(), key=len))} |'
    yield ''


# ---- All parts

def makers(program: str) -> Makers:
    def printed(*words: str) -> str:
        return subprocess.run([program, *words], check=True, stdout=subprocess.PIPE,
                              universal_newlines=True).stdout
    commands = [item for item in items(section(printed('--help'), 'Commands')) if item[0] != 'help']
    pairs, interleaved = (help_of(printed(name, '--help')) for name in ('PE', 'IL'))
    schema = json.loads((TREE / 'docs/report.schema.json').read_text())
    inner = schema['$defs']
    return {
        'files-of-the-page': lambda: list(man_files(pairs, interleaved)),
        'options-of-the-page': lambda: list(man_options(pairs.options)),
        'steps-of-the-page': lambda: list(man_steps(pairs)),
        'statuses-of-the-page': lambda: list(man_statuses(pairs)),
        'words-for-bash': lambda: bash_lines(commands, pairs, interleaved),
        'words-for-fish': lambda: fish_lists(pairs, interleaved),
        'offers-for-fish': lambda: list(fish_lines(commands, pairs)),
        'steps-for-zsh': lambda: zsh_steps(pairs),
        'options-for-zsh': lambda: list(zsh_options(pairs.options)),
        'inputs-of-pe-for-zsh': lambda: list(zsh_files(pairs.inputs)),
        'inputs-of-il-for-zsh': lambda: list(zsh_files(interleaved.inputs)),
        'outputs-for-zsh': lambda: list(zsh_files(pairs.outputs)),
        'commands-for-zsh': lambda: zsh_commands(commands),
        **offers.makers(step_words(pairs)),
        'encodings': lambda: [f'        symbols: [{", ".join(encodings(pairs.options))}]'],
        'options': lambda: list(option_table(pairs.options)),
        'fields': lambda: list(field_table(schema['properties'])),
        'fields-of-adapters': lambda: list(field_table(inner['adapters']['properties'])),
        'fields-of-a-side': lambda: list(field_table(inner['side']['properties'])),
        'fields-of-reads': lambda: list(field_table(inner['reads']['properties'])),
        'lists-of-positions': lambda: list(field_table(inner['positions']['properties'])),
        'reasons-of-records': lambda: list(reason_table(
            (TREE / 'crates/fq_test_rows/data/explain.rows').read_text())),
        'names-of-positions': lambda: tuple_of('POSITIONS', inner['positions']['properties']),
    }


def remade(text: str, made: Makers) -> str:
    """The text of a file with each of its parts made anew."""
    def part(found: 're.Match[str]') -> str:
        return found[1] + ''.join(line + '\n' for line in made[found[2]]()) + found[3]
    return PART.sub(part, text)


def main() -> int:
    parser = argparse.ArgumentParser(description=__doc__)
    parser.add_argument('program', type=Path, help='fq_prog, whose help is asked for')
    parser.add_argument('--check', action='store_true', help='change nothing, print each part that '
                        'differs, and end with status 1 if one does')
    arguments = parser.parse_args()
    program = str(arguments.program.resolve())
    made = makers(program)
    used, different = set(), 0
    for name in [*FILES, EXAMPLE_FILE]:
        path = TREE / name
        text = path.read_text() if path.exists() else ''
        used |= {found[2] for found in PART.finditer(text)}
        new = example_text(program) if name == EXAMPLE_FILE else remade(text, made)
        if new != text and arguments.check:
            sys.stdout.writelines(difflib.unified_diff(
                text.splitlines(True), new.splitlines(True), name, f'{name}, made', n=0))
            different = 1
        elif new != text:
            path.write_text(new)
    for name in sorted(made.keys() - used):
        print(f'made: no file has the part {name}')
        different = 1
    return different


sys.exit(main())
