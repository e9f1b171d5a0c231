"""Columns with places: their numbers are stored as ints, times a power of ten."""

from __future__ import annotations

from decimal import Decimal
from typing import Mapping, Sequence, Tuple, Union

#: The number of places by table and column.
Places = Mapping[Tuple[str, str], int]


def places_of(column: str, tables: Sequence[str], places: Places) -> int:
    """The places of a column as a query names it; 0 where it has none."""
    owner, _, name = column.rpartition(".")
    return next((places[table, name] for table in ([owner] if owner else tables) if (table, name) in places), 0)


def stored(value: object, places: int, name: str) -> Union[int, str]:
    """What is stored for a value in a column with so many places. Raises TypeError for what is no int, Decimal or text, and
    ValueError where it has more places."""
    if isinstance(value, str):
        return value
    if isinstance(value, bool) or not isinstance(value, (int, Decimal)):
        raise TypeError("%s: int, Decimal or str is wanted, and not %s: %r" % (name, type(value).__name__, value))
    if isinstance(value, int):
        return int(value) * int(10 ** places)
    if not value.is_finite() or value != round(value, places):
        raise ValueError("%s: %s has more than %d places" % (name, value, places))
    return int(value.scaleb(places).to_integral_value()) if places else int(value)


def stored_note(column: str, places: int) -> str:
    """What to say of a column with places: how statements write its numbers."""
    return "%s is stored times %s: statements write 1000 as %s%s" % (
        column, factor(places), shown_number(Decimal(1000), places), "" if not places else ", or as %d" % (1000 * 10 ** places))


def shown_number(value: Decimal, places: int) -> str:
    """A number with so many places, as 1000.00."""
    return format(value.quantize(Decimal(1).scaleb(-places)), "f")


def factor(places: int) -> str:
    """What a number with so many places is stored times, as 1,000."""
    return format(10 ** places, ",")
