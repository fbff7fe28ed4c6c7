"""The commands: slip, sheet, refine, trail, read, check and page.

What is wrong with an input is said in one line on standard error. The exit status is 0 for an answer, 1 for a refusal
by number, for the answer no and for a sheet that differs, and 2 for a command or an input that cannot be read.
"""

import argparse
import os
import pathlib
import re
import sys
import textwrap
from collections.abc import Callable
from itertools import zip_longest
from typing import Any, NoReturn, TextIO

from . import VERSION, calls, inputs, pages, refining, sheets, texts, trails
from .malformed import Malformed
from .questions import Refused
from .slips import decode

Arguments = argparse.Namespace


def slip(arguments: Arguments) -> None:
    """Write the bytes of the slip, or with --text its fields as text."""
    brought = _brought(arguments)
    if arguments.text:
        note = f"{brought.title}; {brought.losses.map()}" if brought.losses else texts.note(brought.text or "")
        print(texts.of_slip(decode(brought.slip), note), end="")
    else:
        _say_rounding(brought, sys.stderr)
        sys.stdout.buffer.write(brought.slip)


def sheet(arguments: Arguments) -> None:
    """Print the sheet of the path."""
    printed = _sheet(_brought(arguments))
    print(printed, end="", flush=True)
    word, number, *_ = printed.split()
    if word == "refused":
        raise Refused(int(number))


def refine(arguments: Arguments) -> None:
    """Solve the game on finer and finer grids, and print each level's centre and the largest gain that is left there.

    Behind it stand the largest gain at the first vertex whose label is of the block, and what it is proved to be at
    most. Gains are in payoffs where a Gambit file was brought, and else in losses. A grid has at most 60,000 points; below
    stands how fine one division for all blocks can be, and --finest leads there from the corner.
    """
    brought = _brought(arguments)
    game = decode(brought.slip)
    factor, levels = 2 if arguments.factor is None else arguments.factor, arguments.levels
    if arguments.finest:
        if any(vars(arguments)[name] is not None for name in ("divisions", "start", "factor", "levels")):
            raise Malformed("--finest chooses divisions, start, factor and levels itself")
        _, factor, levels = refining.to_finest(game.sizes)
    elif levels is None:
        levels = refining.most_levels(game, factor)
    rows = refining.rows(game, factor, levels, brought.exact_losses(), brought.unit())
    print(refining.aligned([refining.HEADINGS, *rows]), end="")
    _say_rounding(brought)


def trail(arguments: Arguments) -> None:
    """Print the path in words, move by move, or with --bytes write the bytes of its trail."""
    brought = _brought(arguments)
    if arguments.bytes:
        _, written = trails.written(decode(brought.slip))
        _say_rounding(brought, sys.stderr)
        sys.stdout.buffer.write(written)
        return
    for line in trails.lines(decode(brought.slip)):
        print(line)
    _say_rounding(brought)


def read(arguments: Arguments) -> None:
    """Read a trail that is brought, as bytes or in hex, and print its places in words, or the place at one record.

    Of the file only the grid and the start count, no labels: every record is held to the rules, not to a table.
    """
    slip = decode(_brought(arguments).slip)
    arguments.named = arguments.trail
    trail = trails.of_text(inputs.read_bytes(arguments.trail))
    whole = arguments.record is None
    for line in trails.read_lines(slip, trail) if whole else trails.record_lines(slip, trail, arguments.record):
        print(line)


def check(arguments: Arguments) -> int:
    """Say whether points are a complete simplex, and for which block first; with --whole compare a sheet's every line.

    The points are the vertices of a sheet, lines of points, or a text's field points.
    """
    brought = _brought(arguments)
    problem = decode(brought.slip)
    if arguments.whole:
        return _compare(_sheet(brought), _second_text(arguments))
    if arguments.points:
        sheet = sheets.read(_second_text(arguments), sum(problem.sizes))
    else:
        sheet = sheets.Sheet(texts.points(brought.text or "", sum(problem.sizes)), {})
    block = calls.check(problem.sizes, problem.divisions, problem.label_table(), sheet.vertices)
    print("no" if block is None else f"yes\nblock {block}")
    false = sheet.false(block, problem.sizes, problem.divisions)
    for said in false:
        print(f"differs: {said}")
    if sheet.of_the_path():
        print(f"not compared: {', '.join(sheet.of_the_path())}; --whole reruns and compares")
    _say_rounding(brought)
    return 1 if block is None or false else 0


def _sheet(brought: inputs.Brought) -> str:
    """The sheet of what was brought; behind its lines stands how payoffs were rounded, if they were."""
    rounding = brought.rounding()
    return calls.sheet(brought.slip) + (f"{rounding}\n" if rounding else "")


def _say_rounding(brought: inputs.Brought, output: TextIO | None = None) -> None:
    """Says how payoffs were rounded, where they were, so that no answer is taken for that of the payoffs themselves."""
    if rounding := brought.rounding():
        print(rounding, file=output)


def _compare(rerun: str, sheet: str) -> int:
    """Says line by line where a sheet differs from that of the run, the last line included that one of them lacks."""
    ours, theirs = (text.rstrip().splitlines() for text in (rerun, sheet))
    count = 0
    for at, (run_line, sheet_line) in enumerate(zip_longest(ours, theirs), 1):
        if run_line != (sheet_line if sheet_line is None else sheet_line.rstrip()):
            count += 1
            print(f"line {at} differs: the sheet has {_quoted(sheet_line)}, and the run gives {_quoted(run_line)}")
    print(f"{count} lines differ" if count else "every line agrees")
    return 1 if count else 0


def _quoted(line: str | None) -> str:
    return "no such line" if line is None else repr(line[:200])


def _second_text(arguments: Arguments) -> str:
    """The text of the second file. What is wrong with it is said under its own name."""
    if not arguments.points:
        raise Malformed("a sheet is needed behind the slip")
    arguments.named = arguments.points
    return inputs.read_text(arguments.points)


def page(arguments: Arguments) -> None:
    """Write a page for a browser that shows the path place by place."""
    brought = _brought(arguments)
    names = (brought.game.players, brought.game.strategies) if brought.game else ([], [])
    heading = pages.Heading(arguments.title or brought.title, *names, brought.rounding())
    written = pages.page(decode(brought.slip), heading)
    if arguments.output == "-":
        print(written, end="")
    else:
        pathlib.Path(arguments.output).write_text(written, "utf-8")


# The options that take several numbers, with spaces or commas between them.
SEVERAL = ("--divisions", "--start")


def _numbers(items: str) -> list[int]:
    if not re.fullmatch("[0-9]{1,9}(,[0-9]{1,9})*", items):
        raise argparse.ArgumentTypeError(f"whole numbers are needed, not {items[:40]!r}")
    return [int(item) for item in items.split(",")]


def _brought(arguments: Arguments) -> inputs.Brought:
    chosen = {name: value for name in inputs.Choices._fields if (value := getattr(arguments, name, None)) is not None}
    return inputs.read(arguments.file, inputs.Choices(**chosen))


# The options that more than one command has. A command has those that change what it does, and no others.
SHARED: dict[str, dict[str, Any]] = {
    "--divisions": {"type": _numbers, "metavar": "D ...", "help": "one for all blocks, or one for each"},
    "--start": {"type": _numbers, "metavar": "Y ...", "help": "a number for each index"},
    "--budget": {"type": int, "metavar": "PLACES", "help": "the most places to visit"},
    "--round": {"action": "store_true", "dest": "rounding",
                "help": "round payoffs that have no exact losses to 999 units, and say how far off one is"},
}
OF_A_RUN = tuple(SHARED)


FILES = """A file has the fields of a slip as text, one to a line, a game of Gambit's in strategic form (.nfg), or the
bytes of a slip. A game of Gambit's has no divisions, so --divisions gives them."""
STATUSES = """The exit status is 0 for an answer; 1 for a refusal by number, for the answer no, and for a sheet that
differs; 2 for a command or an input that cannot be read."""


def parser() -> argparse.ArgumentParser:
    """The commands and their options, with the help of each."""
    layout = argparse.RawDescriptionHelpFormatter
    top = argparse.ArgumentParser(prog="leveretplate", allow_abbrev=False, formatter_class=layout,
                                  description=_filled("The proved path finder for researchers. " + FILES),
                                  epilog=_filled(STATUSES))
    top.add_argument("--version", action="version", version=f"leveretplate {VERSION}",
                     help="print the version of the library's interface")
    commands = top.add_subparsers(required=True, metavar="COMMAND")

    def command(act: Callable[[Arguments], int | None], *shared: str, table: str = "") -> argparse.ArgumentParser:
        summary, _, rest = (act.__doc__ or "").partition("\n")
        made = commands.add_parser(act.__name__, help=summary, description=_filled(summary + rest), allow_abbrev=False,
                                   formatter_class=layout, epilog=table + _filled(STATUSES))
        made.add_argument("file", help="a text of a slip's fields, a Gambit .nfg file, or a slip; - is standard input")
        for option in shared:
            made.add_argument(option, **SHARED[option])
        made.set_defaults(act=act)
        return made

    command(slip, *OF_A_RUN).add_argument("--text", action="store_true", help="write text instead of bytes")
    command(sheet, *OF_A_RUN)
    finer = command(refine, "--divisions", "--start", "--round",
                    table=refining.aligned(refining.finest_table()) + "\n")
    finer.add_argument("--factor", type=int, metavar="K", help="how much finer each next grid is; 2 to 10, else 2")
    finer.add_argument("--levels", type=int, metavar="L", help="1 to 8; as many as fit if not given")
    finer.add_argument("--finest", action="store_true", help="end on the finest grid, by as many levels as lead there")
    command(trail, *OF_A_RUN).add_argument("--bytes", action="store_true", help="write bytes instead of words")
    reader = command(read, "--divisions", "--start", "--round")
    reader.add_argument("trail", help="the trail; - is standard input")
    reader.add_argument("--record", type=int, metavar="NUMBER", help="the record to read, counted from 1")
    checked = command(check, "--divisions", "--round")
    checked.add_argument("points", nargs="?", help="a sheet, or lines of points; else the text's field points")
    checked.add_argument("--whole", action="store_true", help="run again, and compare the sheet line by line")
    shown = command(page, *OF_A_RUN)
    shown.add_argument("--output", default="-", metavar="HTML", help="the file to write; standard output if not given")
    shown.add_argument("--title", help="the heading; the title of a Gambit file, the note of a text, if not given")
    return top


def _filled(words: str) -> str:
    return textwrap.fill(" ".join(words.split()), 78)


def _joined(words: list[str]) -> list[str]:
    """The words with the numbers behind an option that takes several joined to one word, so that it takes no other.

    >>> _joined(["sheet", "--divisions", "4", "4", "game.nfg"])
    ['sheet', '--divisions', '4,4', 'game.nfg']
    """
    made: list[str] = []
    several = False
    for word in words:
        is_number = re.fullmatch("[0-9]+", word) is not None
        if several and is_number and made[-1] not in SEVERAL:
            made[-1] += f",{word}"
        else:
            several = word in SEVERAL or several and is_number
            made.append(word)
    return made


# The options that take nothing.
FLAGS = ("-h", "--help", "--text", "--round", "--whole", "--bytes", "--finest")


def _files_first(words: list[str]) -> list[str]:
    """The words of a command with its files before its options, so that a second file may stand behind an option.

    >>> _files_first(["check", "game.nfg", "--divisions", "4,4", "--round", "sheet"])
    ['check', 'game.nfg', 'sheet', '--divisions', '4,4', '--round']
    """
    files: list[str] = []
    options: list[str] = []
    rest = iter(words[1:])
    for word in rest:
        if not word.startswith("-") or word == "-":
            files.append(word)
        else:
            taken = [] if word in FLAGS or "=" in word else [next(rest, None)]
            options += [word, *(value for value in taken if value is not None)]
    return [*words[:1], *files, *options]


def main(words: list[str] | None = None) -> int:
    """Runs a command, and says in one line what was wrong with it."""
    arguments = parser().parse_args(_files_first(_joined(sys.argv[1:] if words is None else words)))
    arguments.named = arguments.file
    try:
        status: int = arguments.act(arguments) or 0
        sys.stdout.flush()
        return status
    except Refused as refusal:
        return _fail(1, f"{arguments.named}: {refusal}")
    except ValueError as error:
        return _fail(2, f"{arguments.named}: {error}")
    except BrokenPipeError:
        # Whoever reads the output has seen enough of it.
        os.dup2(os.open(os.devnull, os.O_WRONLY), sys.stdout.fileno())
        return 0
    except OSError as error:
        return _fail(2, f"{error.filename}: {error.strerror}" if error.filename else str(error))


def _fail(status: int, message: str) -> int:
    print(f"leveretplate: {message}", file=sys.stderr)
    return status


def run_and_exit() -> NoReturn:
    """Runs the command of the installed package."""
    sys.exit(main())


if __name__ == "__main__":
    run_and_exit()
