"""The commands that read a collection: what the parts of the gate try of each command goes over this table.

They are those that fcanon_runs.h numbers, and tests/program/help holds these against the program's help.
"""

from typing import NamedTuple

from lib.headers import TASKS


class Command(NamedTuple):
    requests: int  # how many requests for memory two records more may take, of which one has a list
    again: tuple  # the commands that do with what it prints as with what it reads, if it prints a collection


# Those that take more than two requests, and those that print a collection.
REQUESTS = {"closed": 5, "expand": 3, "group": 5, "share": 11}
AGAIN = {"show": ("show",), "canon": ("check", "canon"), "expand": ("expand",), "group": ("group",), "share": ("share",),
         "unique": ("unique", "group")}
COMMANDS = {name: Command(REQUESTS.get(name, 2), AGAIN.get(name, ())) for name in TASKS}
