"""Keeps positions of FreeCell, Baker's Game and Eight Off with their records and solutions.

boards       keys of canonical boards, passages, and lists carried through them
collection   the records of a collection, read by fcanon's library or by the program
schema       the tables and views of a store
store        what is asked of a store
solver       looks for solutions by a solver of any kind
commands     what the command fcanon-store does
"""


class Fault(Exception):
    """Why a run gives up, in one line."""
