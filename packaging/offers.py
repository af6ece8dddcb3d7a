"""What the completions of tibzharuk offer, made from the help of its subcommands. packaging/made.py
puts it into the files of completions/."""

import os
import re
import subprocess
import sys
from pathlib import Path
from typing import Callable, Dict, Iterator, List, NamedTuple, Tuple

TREE = Path(__file__).resolve().parent.parent
sys.path.insert(0, str(TREE / 'python'))
from tibzharuk.command import COMMANDS  # noqa: E402
from tibzharuk.trim.steps import CLIP  # noqa: E402

# The words of help for a value that is a file.
FILES = ('FILE', 'OUT', 'PATH', 'PREFIX', 'WHAT', 'LANE')
# How many files a command takes before its steps.
BEFORE_STEPS = {'trim': 0, 'PE': 6}
# Options of trim for what PE names in another way.
OF_TRIM_ALONE = ('--paired1', '--unpaired1', '--paired2', '--unpaired2', '--no-unpaired',
                 '--interleaved', '--through', '--expect-pairs')
# A name of an option with the words for its values.
NAMED = r"-[-0-9A-Za-z]+(?: '?[A-Z]+'?(?:\.\.)?)*"


class Option(NamedTuple):
    """An option of the help, with its short name first."""
    names: List[str]
    values: List[str]       # the words for its values, such as FILE
    text: str

    @property
    def takes_several(self) -> bool:
        return self.values[-1:] == ['FILE..']

    @property
    def takes_file(self) -> bool:
        return self.values[:1] != [] and self.values[0].rstrip('.') in FILES

    @property
    def choices(self) -> List[str]:
        """The values that the help names, as `bgzip or gzip`."""
        found = re.search(r'(?:^|: )((?:[a-z0-9]+, )*[a-z0-9]+ or [a-z0-9]+)\b', self.text)
        named = self.values[:1] in (['NAME'], ['WHAT'])
        return re.split(', | or ', found[1]) if found and named else []


class Command(NamedTuple):
    name: str
    text: str
    options: List[Option]
    steps: List[str]


# ---- The help

def lower(text: str) -> str:
    return text[:1].lower() + text[1:]


def brief(text: str) -> str:
    """The first part of a help text, as completions show it."""
    return lower(re.split(r'[:;]| \(|\. ', text)[0])


def help_of(*words: str) -> str:
    """What the command of this tree prints with --help."""
    return subprocess.run(
        [sys.executable, '-B', str(TREE / 'python/tibzharuk/__main__.py'), *words, '--help'],
        env={**os.environ, 'COLUMNS': '80'}, check=True, stdout=subprocess.PIPE,
        universal_newlines=True).stdout


def listed(text: str, start: str) -> Iterator[Tuple[str, str]]:
    """The terms of lists whose first words match, with their explanations."""
    term, lines = '', []    # type: str, List[str]
    for line in [*text.splitlines(), '']:
        begun = re.match(rf'(?: {{2}}| {{4}})({start}.*?)(?: {{2,}}(\S.*))?$', line)
        if term and (begun or not re.match(r' {10,}\S', line)):
            yield term, ' '.join(lines)
            term = ''
        if begun:
            term, lines = begun[1], [begun[2]] if begun[2] else []
        elif term:
            lines.append(line.strip())


def options_in(text: str) -> List[Option]:
    """The options of a help: those of its lists, and those that only its synopsis has. Two short
    names in one line are two options."""
    found: List[Option] = []
    for term, about in listed(text, '-'):
        for part in term.split(', ') if re.fullmatch(f'{NAMED}(?:, {NAMED})*', term) else []:
            name, *values = part.replace("'", '').split()
            if name.startswith('--') and not term.startswith(name):
                found[-1] = Option([*found[-1].names, name], values, about)
            else:
                found.append(Option([name], values, about))
    known = {name for option in found for name in option.names}
    synopsis = ''.join(re.findall(r'(?ms)^SYNOPSIS\n(.*?)\n\n', text))
    for name, value in re.findall(r'[\[|] ?(-[a-z]\w+)(?: ([A-Z]+))?', synopsis):
        if name not in known:
            found.append(Option([name], [value] if value else [], ''))
    return found


def commands(steps: List[str]) -> List[Command]:
    """All commands. PE takes the long options of trim, too."""
    about = dict(listed(help_of(), r'(?:' + '|'.join(COMMANDS) + r')\b'))
    found = {name: Command(name, about[name], options_in(help_of(name)), [])
             for name in COMMANDS}
    own = found['PE'].options
    known = {*OF_TRIM_ALONE, *long_names(own)}
    long = [Option(option.names[-1:], option.values, option.text)
            for option in found['trim'].options
            if option.names[-1].startswith('--') and option.names[-1] not in known]
    found['PE'] = found['PE']._replace(options=own + long, steps=[f'{CLIP}:', *steps])
    found['trim'] = found['trim']._replace(steps=steps)
    return list(found.values())


def long_names(options: List[Option]) -> List[str]:
    return [name for option in options for name in option.names]


# ---- bash

def bash_lines(known: List[Command]) -> Iterator[str]:
    yield f"  commands='{' '.join(command.name for command in known)}'"
    yield '  case $command in'
    for command in known:
        several = [option for option in command.options if option.takes_several]
        others = [option for option in command.options if not option.takes_several]
        lists = {
            'several': several,
            'with_file': [option for option in others if option.takes_file],
            'with_value': [option for option in others if option.values and not option.takes_file],
            'flags': [option for option in others if not option.values],
        }
        yield f'    {command.name})'
        for name, options in lists.items():
            if options:
                yield f"      {name}='{' '.join(long_names(options))}'"
        if command.steps:
            yield f"      steps='{' '.join(command.steps)}'"
            yield f'      files={BEFORE_STEPS[command.name]}'
        yield '      ;;'
    yield '  esac'
    yield '  case $previous in'
    choices = {' | '.join(option.names): option.choices for command in known
               for option in command.options if option.choices}
    for names, words in choices.items():
        yield f"    {names}) choices='{' '.join(words)}' ;;"
    yield '  esac'


# ---- fish

def fish_text(text: str) -> str:
    return "'" + text.replace('\\', '\\\\').replace("'", "\\'") + "'"


def fish_lists(known: List[Command]) -> Iterator[str]:
    def several(command: Command) -> List[str]:
        return long_names([option for option in command.options if option.takes_several])

    def valued(command: Command) -> List[str]:
        return long_names([option for option in command.options
                           if option.values and not option.takes_several])
    yield from fish_list('several', 'The options of a command that take several files.',
                         {command.name: several(command) for command in known})
    yield from fish_list('valued', 'The options of a command that take one value.',
                         {command.name: valued(command) for command in known})
    yield from fish_list('steps', 'The names of the steps of a command.', {
        command.name: [step.rstrip(':') for step in command.steps] for command in known})
    yield from fish_list('files', 'The number of files before the steps of a command.', {
        name: [str(count)] for name, count in BEFORE_STEPS.items()})


def fish_list(name: str, about: str, lists: Dict[str, List[str]]) -> Iterator[str]:
    """A function that prints a list for a command."""
    yield from [f'# {about}', f'function __tibzharuk_{name}', '    switch $argv[1]']
    for command, words in lists.items():
        if words:
            yield f'        case {command}'
            yield f"            printf '%s\\n' {' '.join(words)}"
    yield from ['    end', 'end', '']


def fish_lines(known: List[Command]) -> Iterator[str]:
    start = 'complete -c tibzharuk -n'
    for command in known:
        yield (f'{start} __tibzharuk_begins -a {command.name} '
               f'-d {fish_text(brief(command.text))}')
    for command in known:
        if command.steps:
            yield (f"{start} '__tibzharuk_wants step {command.name}' "
                   f"-a {fish_text(' '.join(command.steps))}")
        for option in command.options:
            yield f"{start} '__tibzharuk_wants option {command.name}'{fish_option(option)}"


def fish_option(option: Option) -> str:
    words = ''
    for name in option.names:
        kind = '-l' if name.startswith('--') else '-s' if len(name) == 2 else '-o'
        words += f' {kind} {name.lstrip("-")}'
    if option.values:
        words += ' -rF' if option.takes_file else ' -x'
    if option.choices:
        words += f" -a {fish_text(' '.join(option.choices))}"
    return words + (f' -d {fish_text(brief(option.text))}' if option.text else '')


# ---- zsh

def zsh_text(text: str) -> str:
    """Text in single quotes, where brackets and colons have a meaning."""
    return re.sub(r'([\[\]:\\])', r'\\\1', brief(text)).replace("'", "'\\''")


def zsh_steps(words: List[str]) -> List[str]:
    """Offers of steps. One that takes a number gets it at once, without a space."""
    with_number = [word for word in words if word.endswith(':')]
    alone = [word for word in words if not word.endswith(':')]
    return ["compadd -S '' -- " + ' '.join(with_number), 'compadd -- ' + ' '.join(alone)]


def zsh_option(option: Option) -> str:
    about = f'[{zsh_text(option.text)}]' if option.text else ''
    values = ''
    if option.takes_several:
        values = ':*-*:file:_files'
    elif option.choices and option.takes_file:
        values = f":name: _tibzharuk_named {' '.join(option.choices)}"
    elif option.choices:
        values = f":name:({' '.join(option.choices)})"
    else:
        for value in option.values:
            values += ':file:_files' if value in FILES else f':{value.lower()}: '
    again = option.takes_several or re.search('again|once for each', option.text)
    if len(option.names) == 1:
        return f"'{'*' if again else ''}{option.names[0]}{about}{values}'"
    return f"'({' '.join(option.names)})'{{{','.join(option.names)}}}'{about}{values}'"


def zsh_lines(known: List[Command]) -> Iterator[str]:
    yield '  local -a known=('
    for command in known:
        yield f"    '{command.name}:{zsh_text(command.text)}'"
    yield '  )'
    yield '  case $command in'
    for command in known:
        yield f'    {command.name})'
        yield f'      files={BEFORE_STEPS.get(command.name, "")}'
        yield f"      steps=({' '.join(command.steps)})"
        yield '      valued=(' + ' '.join(long_names(
            [option for option in command.options if option.values])) + ')'
        yield '      options=('
        yield from (f'        {zsh_option(option)}' for option in command.options)
        yield '      )'
        yield '      ;;'
    yield '  esac'


def makers(steps: List[str]) -> Dict[str, Callable[[], List[str]]]:
    """The parts of the completions, by their names. `steps`: those of the program."""
    known = commands(steps)
    return {
        'command-for-bash': lambda: list(bash_lines(known)),
        'command-lists-for-fish': lambda: list(fish_lists(known)),
        'command-for-fish': lambda: list(fish_lines(known)),
        'command-for-zsh': lambda: list(zsh_lines(known)),
    }
