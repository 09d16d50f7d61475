"""What can go wrong, each with a text for the user."""
from smblease.faults import ToolFault


class DriveFault(ToolFault):
    """The schedule can't be driven, or not to its end."""


class Undrivable(DriveFault):
    """One event can't be driven; with `--skip` it is left out."""


class Usage(Exception):
    """The command line is refused."""
