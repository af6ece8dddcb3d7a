#!/usr/bin/env python3
"""usage: typed.py bash|zsh SETUP < LINES
Types each line into an interactive shell and asks it there for what it offers. Prints the line, a
tab, and the offered words in their order, separated by spaces. SETUP is a file that the shell
sources first. The environment's TYPED_IN is a directory in which the shell runs as in a system of
its own (by chroot)."""

import fcntl
import os
import pty
import re
import select
import struct
import sys
import termios

SHELLS = {
    'bash': (['bash', '--norc', '--noprofile', '-i'],
             ["bind 'set page-completions off'", "bind 'set completion-query-items 0'", "bind 'set completion-display-width 0'",
              "bind 'set enable-bracketed-paste off'", r'''bind '"\C-t": possible-completions' ''']),
    'zsh': (['zsh', '-f', '-i'],
            ['unsetopt prompt_cr prompt_sp always_last_prompt', 'unset zle_bracketed_paste',
             'LISTMAX=10000 PROMPT="> " RPROMPT=', "bindkey '^T' list-choices", "bindkey '^U' kill-whole-line"]),
}
MARK = 'end-of-what-is-offered'
SECONDS = 60


class Shell:
    """An interactive shell on a terminal of its own."""

    def __init__(self, words):
        child, self.terminal = pty.fork()
        if child == 0:
            os.environ.update(TERM='vt100', COLUMNS='200', LINES='200', PS1='> ', LC_ALL='C.UTF-8')
            os.execvp(words[0], words)
        self.child = child
        fcntl.ioctl(self.terminal, termios.TIOCSWINSZ, struct.pack('4H', 200, 200, 0, 0))

    def type(self, text):
        os.write(self.terminal, text.encode())

    def until_mark(self):
        """What the shell prints up to the mark and the prompt after it, without cursor codes."""
        raw = ''
        while True:
            text = re.sub(r'\x1b(\[[0-9;?]*[A-Za-z]|[=>]|\([A-B])|[\x00\x07\x0f\r]', '', raw)
            if re.search(MARK + r'\n+> $', text):
                return text
            ready, _, _ = select.select([self.terminal], [], [], SECONDS)
            if not ready:
                sys.exit('typed.py: no answer: %r' % text[-500:])
            raw += os.read(self.terminal, 65536).decode(errors='replace')

    def mark(self):
        # The shell joins the two parts, so what is typed is not the mark.
        self.type('echo %s""%s\r' % (MARK[:6], MARK[6:]))


def offered(shell, line):
    shell.type(line + '\x14\x15')
    shell.mark()
    first, *lines = shell.until_mark().split('\n')
    # After a line with no offer, bash completes the word in its place if there is exactly one.
    typed = first.split('echo ' + MARK[:6])[0].rstrip()
    if typed.startswith(line) and len(typed) > len(line.rstrip()):
        return typed.split()[-1:]
    words = []
    for each in lines:
        if each.startswith('> ') or MARK[6:] in each:
            break
        # zsh puts a description after two dashes.
        words += each.split(' -- ')[0].split()
    return words


def main():
    name, setup = sys.argv[1:]
    words, settings = SHELLS[name]
    if 'TYPED_IN' in os.environ:
        # bash's `< <(..)` needs /proc. The mount goes away with the shell.
        mounted = 'mount -t proc proc "$0/proc" && exec chroot "$0" "$@"'
        words = ['unshare', '--mount', 'sh', '-c', mounted, os.environ['TYPED_IN'], *words]
    shell = Shell(words)
    for each in [*settings, '. ' + setup]:
        shell.type(each + '\r')
        shell.mark()
        shell.until_mark()
    for line in sys.stdin:
        line = line.rstrip('\n')
        print(line, ' '.join(offered(shell, line)), sep='\t', flush=True)


main()
