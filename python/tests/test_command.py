"""The command: its subcommands and what it says of others."""

import pytest

from tibzharuk import command


@pytest.mark.parametrize("words, status, line", (
    ([], 1, "a command is missing: trim, PE, page, sum, samples, workflow, selftest"),
    (["tirm"], 1, "tirm is not a command; did you mean trim?"),
    (["pe"], 1, "pe is not a command; did you mean PE?"),
    (["xyz"], 1, "xyz is not a command"),
    (["IL"], 1, "IL is not a command; tibzharuk trim -i takes interleaved files"),
    (["SE"], 1, "SE is not a command; single-end reads are for another trimmer"),
    (["/dev/null"], 1,
     "/dev/null: a file comes after a command, as in tibzharuk trim -1 /dev/null"),
))
def test_what_is_refused(words, status, line, capfd, monkeypatch):
    monkeypatch.setattr(command, "ready_for_signals", lambda: None)
    assert command.main(words) == status
    assert capfd.readouterr().err == f"tibzharuk: {line} (tibzharuk --help)\n"


@pytest.mark.parametrize("name", ["", *command.COMMANDS])
def test_help(name, capfd, monkeypatch):
    monkeypatch.setattr(command, "ready_for_signals", lambda: None)
    try:
        status = command.main([name, "--help"] if name else ["--help"])
    except SystemExit as end:   # argparse
        status = end.code
    out = capfd.readouterr().out
    assert not status and f"tibzharuk {name}".strip() in out
    assert all(len(line) <= 80 for line in out.splitlines())
