"""Certain answers of ordinary SQL over a database of the user's own.

    import cqa
    db = cqa.Database("shop.db", keys={"customer": "id", "orders": "oid"})
    for row in db.certain("select name from customer where city in ('Oslo', 'Bergen') and since > :day", day="2024-01-01"):
        print(row)

The database finds the lists of rows that make each answer, and the proved program `cqa judge` decides them.
"""

from .answering import Kept
from .front import Answers, Blocking, Database, Explained

__all__ = ["Answers", "Blocking", "Database", "Explained", "Kept"]
