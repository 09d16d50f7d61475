"""smblease-run(1) and its kin, of their parsers of command lines."""
from __future__ import annotations

import argparse
import importlib
import os
import re
import sys
import textwrap
from typing import Iterator

from man_pages.writing import Page, literal, prose, see_also

from smblease.drive.called import INSTALLED

# (what argparse folds the usage to)
WIDTH = 76
OTHERS = ("leasecheck(1)", "smblease(3)")


def parser_of(command: str) -> argparse.ArgumentParser:
    """That of a command as it is installed, which drive/run in a clone is too."""
    sys.argv = [INSTALLED[command]]
    made: argparse.ArgumentParser = importlib.import_module(f"smblease.{command.replace('/', '.')}_command").parser()
    return made


def values_of(action: argparse.Action) -> str:
    """What stands behind an option."""
    if action.nargs == 0:
        return ""
    one = str(action.metavar) if action.metavar else "{" + ",".join(map(str, action.choices or ())) + "}"
    return f" {one} .." if action.nargs == "+" else f" {one}"


def entry(action: argparse.Action) -> str:
    """An option or an argument as an entry of a list, with its choices where the usage has a name in their place."""
    words = ", ".join(f"{it}{values_of(action)}" for it in action.option_strings) or str(action.metavar)
    told = [prose(str(action.help).rstrip(". "))]
    if action.choices and action.metavar:
        told.append("One of: " + ", ".join(f"`{it}`" for it in action.choices) + ".")
    return f"`{words}`\n:   " + "\n\n    ".join(told) + "\n"


def usage_of(parser: argparse.ArgumentParser) -> str:
    os.environ["COLUMNS"] = str(WIDTH)
    return textwrap.indent(parser.format_usage().removeprefix("usage: ").replace("\n       ", "\n"), "    ")


def epilog_parts(text: str) -> Iterator[str]:
    """The text that comes after the options, and the statuses as a list."""
    told, _, statuses = text.partition("Exit status")
    yield from (prose(it) + "\n" for it in told.strip().split("\n\n"))
    yield "# EXIT STATUS\n"
    yield from (f"`{number}`\n:   {prose(' '.join(what.split()))}\n"
                for number, what in re.findall(r"(?:^|[:;,]\s)(\d+) ([^;]+?)(?=[;.]|$)", statuses))


def command_page(command: str) -> Page:
    parser = parser_of(command)
    about = str(parser.description).rstrip(".")
    [*told] = epilog_parts(str(parser.epilog))
    at = told.index("# EXIT STATUS\n")
    actions = sorted(parser._actions, key=lambda it: bool(it.option_strings))  # pylint: disable=protected-access
    others = [f"{it}(1)" for it in INSTALLED.values() if it != parser.prog]
    return Page(parser.prog, 1, "\n".join(
        ["# NAME\n", f"{literal(parser.prog)} - {literal(about[0].lower() + about[1:])}\n", "# SYNOPSIS\n", usage_of(parser),
         "# DESCRIPTION\n", *told[:at], "# OPTIONS\n", *map(entry, actions), *told[at:], see_also(*OTHERS, *others)]))


def command_pages() -> list[Page]:
    return [command_page(it) for it in INSTALLED]
