"""The manual page, from the same words as the commands' help."""

import argparse
import sys

from .__main__ import STATUSES, parser


def manual() -> str:
    """The manual page in the language of man(7)."""
    top = parser()
    (commands,) = (action for action in top._actions if isinstance(action, argparse._SubParsersAction))
    lines = [".TH LEVERETPLATE 1",
             ".SH NAME", r"leveretplate \- the proved path finder for researchers",
             ".SH SYNOPSIS", r"\fBleveretplate\fR \fICOMMAND\fR \fIFILE\fR [\fIOPTIONS\fR]",
             ".SH DESCRIPTION", *_words(top.description), *_options(top),
             ".SH COMMANDS"]
    for name, command in commands.choices.items():
        lines += [f".SS {name}", *_words(command.description), *_options(command)]
        # Above the exit statuses a command's help may have a table, whose lines must stay as they are.
        table, _, _ = (command.epilog or "").partition(" ".join(STATUSES.split())[:30])
        lines += [".PP", ".nf", *map(_escaped, table.strip().splitlines()), ".fi"] if table.strip() else []
    return "\n".join([*lines, ".SH EXIT STATUS", *_words(STATUSES)]) + "\n"


def _options(command: argparse.ArgumentParser) -> list[str]:
    lines: list[str] = []
    for action in command._actions:
        if action.help and not isinstance(action, argparse._SubParsersAction):
            names = ", ".join(action.option_strings) or action.dest
            taken = rf" \fI{_escaped(str(action.metavar))}\fR" if action.metavar else ""
            lines += [".TP", rf"\fB{_escaped(names)}\fR{taken}", _escaped(action.help)]
    return lines


def _words(words: str | None) -> list[str]:
    return [".PP", _escaped(" ".join((words or "").split()))]


def _escaped(words: str) -> str:
    """Words in which no character means something to man; a line must not begin with a dot or a quote."""
    escaped = words.replace("\\", r"\e").replace("-", r"\-").replace("'", r"\(aq")
    return r"\&" + escaped if escaped.startswith(".") else escaped


if __name__ == "__main__":
    sys.stdout.write(manual())
