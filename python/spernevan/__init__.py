"""Spernevan: shortens saved conjunctive queries with the dependencies that their tables obey.

    from spernevan import Record, Table

    record = Record.open([Table("burst", ("flight", "height"))]).add("burst: flight -> height")
    record = record.put(0, "ans(f, low, high) :- burst(f, low), burst(f, high)")
    print(record.reduce(0, 1).record)               # .. 1: ans(f, low, low) :- burst(f, low)
    print(record.evaluate(0, {"burst": [("F-101", 31200)]}))  # [('F-101', 31200, 31200)]
"""

__version__ = "1.0.0"

from .data import Database, DataError
from .engine import EngineMissing, Refused
from .files import Failure
from .model import CodePair, Constant, Dependency, Entry, JoinDependency, Mapping, Query, Row, Variable
from .notation import Names, NotationError, Table, format_mapping, format_query, parse_query, read_names
from .record import Broken, BrokenJoin, Comparison, Record, Reduction
from .sources import read_database
from .text import pack, unpack
from .values import Value, Values

__all__ = [
    "Broken",
    "BrokenJoin",
    "CodePair",
    "Comparison",
    "Constant",
    "DataError",
    "Database",
    "Dependency",
    "EngineMissing",
    "Entry",
    "Failure",
    "JoinDependency",
    "Mapping",
    "Names",
    "NotationError",
    "Query",
    "Record",
    "Reduction",
    "Refused",
    "Row",
    "Table",
    "Value",
    "Values",
    "Variable",
    "format_mapping",
    "format_query",
    "pack",
    "parse_query",
    "read_database",
    "read_names",
    "unpack",
]
