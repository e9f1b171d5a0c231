"""cqa: load lists, look at what they dispute, ask for what is certain, keep the state.

    import cqa
    with cqa.Session() as db:
        db.load("customer", {"crm": "crm.csv", "shop": "shop.csv"}, key="id")
        print(db.conflicts("customer"))
        db.certain("select id, name from customer").to_csv("certain.csv")

The answers are those of the program `cqa`, which is proved; this package starts it and reads its replies.
"""

from .answers import Attack, Classification, Explanation, Group, Range, UnionClassification
from .conflicts import Conflicts, Disputed
from .database import Answers, Blocking, Database, Explained, Kept
from .errors import (Closed, CqaError, DatabaseFault, Ended, InputTooLong, LoadFault, LoadWarning, MemoryRanOut, NoSuchName, NotBuilt,
                     QueryRefused, ReadingFailed, Refused, ReplyFault, ScaleFault, ScaleWarning, StateFault, UnknownStatement,
                     WordsUnreadable, WritingFailed)
from .rows import Rows
from .scripts import Schema
from .session import Session

__all__ = [
    "Answers", "Attack", "Blocking", "Classification", "Closed", "Conflicts", "CqaError", "Database", "DatabaseFault", "Disputed",
    "Ended", "Explained", "Explanation", "Group", "InputTooLong", "Kept", "LoadFault", "LoadWarning", "MemoryRanOut",
    "NoSuchName", "NotBuilt", "QueryRefused", "Range", "ReadingFailed", "Refused", "ReplyFault", "Rows", "ScaleFault", "ScaleWarning", "Schema",
    "Session", "StateFault", "UnionClassification", "UnknownStatement", "WordsUnreadable", "WritingFailed",
]
