"""Values in the place of the marks of a query."""

from __future__ import annotations

import unittest
import warnings
from decimal import Decimal
from typing import Sequence

from support import ProgramCase

import cqa
from cqa.parameters import filled


def none(column: str, tables: Sequence[str]) -> int:
    """A column without places."""
    return 0


class Filled(unittest.TestCase):
    def test_texts_are_quoted_wherever_a_mark_stands(self) -> None:
        self.assertEqual(filled("select id from c where name = ? and city <> ?", ["O'Neill", "?"], none), "select id from c where name = 'O''Neill' and city <> '?'")
        self.assertEqual(filled("select id from c where a = :one and b = :two or c = :one", {"one": "x' or 'y", "two": -3}, none),
                         "select id from c where a = 'x'' or ''y' and b = -3 or c = 'x'' or ''y'")
        self.assertEqual(filled("select id -- ? :no\nfrom c where a = '?:b' and b = ?", [":a"], none), "select id -- ? :no\nfrom c where a = '?:b' and b = ':a'")

    def test_numbers_have_the_places_of_their_column(self) -> None:
        def places(column: str, tables: Sequence[str]) -> int:
            return 2 if column.endswith("credit") and "c" in tables else 0

        self.assertEqual(filled("select id from c where credit >= ? and id > ? and c.credit < ?", [1000, 5, Decimal("12.5")], places),
                         "select id from c where credit >= 1000.00 and id > 5 and c.credit < 12.50")
        self.assertEqual(filled("select id from d where id = ? union select id from c where credit = ? and id = ?", [1, 2, Decimal("3")], places),
                         "select id from d where id = 1 union select id from c where credit = 2.00 and id = 3")
        self.assertEqual(filled("delete from c where credit = :x and id = :x", {"x": 7}, places), "delete from c where credit = 7.00 and id = 7")
        for values in ([1, Decimal("1.005")], [Decimal("1.5"), 1]):
            with self.assertRaisesRegex(ValueError, "has more than"):
                filled("select id from c where id = ? and credit = ?", values, places)

    def test_what_is_missing_or_left_over(self) -> None:
        for query, values, told in (("a = ? and b = ?", [1], "no value for the . number 2"), ("a = ?", [1, 2], "2 values, and the query has 1 ."), ("a = :b", {}, "no value for :b"),
                                    ("a = :b", {"b": 1, "c": 2}, "the query has no :c"), ("a = ?", {"a": 1}, "this query has ."), ("a = :b", [1], "no value for :b"),
                                    ("a = ?", [Decimal("NaN")], "is no number")):
            with self.subTest(query), self.assertRaisesRegex(ValueError, told):
                filled("select id from c where " + query, values, none)
        for value in (1.5, None, True, b"x"):
            with self.assertRaises(TypeError):
                filled("select id from c where a = ?", [value], none)  # type: ignore[list-item]
        with self.assertRaises(TypeError):
            filled("select id from c where a = ?", "x", none)


class Asked(ProgramCase):
    def test_each_method_takes_them(self) -> None:
        path = self.file("c.csv", "id,name,credit\n1,O'Neill,9.50\n1,O'Neill,8\n2,a ? :b,1000\n")
        with cqa.Session() as db, warnings.catch_warnings():
            db.load("c", path, key="id", decimal={"credit": 2})
            warnings.simplefilter("error")
            self.assertEqual(db.certain("select id from c where name = ?", ["O'Neill"]), [(1,)])
            self.assertEqual(db.certain("select id from c where name = :n", {"n": "a ? :b"}), [(2,)])
            self.assertEqual(db.certain("select id from c where credit >= ?", [1000]), [(2,)])
            self.assertEqual(db.disputed("select id from c where credit > ?", [9]), [(1,)])
            self.assertEqual(db.possible("select credit from c where credit < :most", {"most": Decimal("9")}), [(Decimal("8.00"),)])
            self.assertTrue(db.explain((1,), "select id from c where credit >= ?", [8]).is_certain)
            self.assertFalse(db.against((1,), "select id from c where credit > ?", [Decimal("8.5")]).is_certain)
            self.assertEqual(db.prove((2,), "select id from c where name = ?", ["a ? :b"]).kind, "rewriting")
            self.assertEqual(db.range("sum credit from c where name = ?", ["O'Neill"])[:2], (Decimal("8.00"), Decimal("9.50")))
            self.assertEqual(db.ranges("count from c where credit > ? group by id", [9])[0][:3], (1, 0, 1))
            self.assertEqual(db.plan("select id from c where id = ?", [1]), ["c"])
            self.assertIn("'O''Neill'", db.sql("select id from c where name = ?", ["O'Neill"]) or "")
            self.assertEqual(db.classify("select id from c where name = ?", ["x"]).name, "first-order")
            self.assertEqual(db.prefer("c", "credit = ?", [8]), 1)
            self.assertEqual(db.delete("c", "name = :n and credit = :c", {"n": "O'Neill", "c": 8}), 1)
            self.assertEqual(db.rows("c"), [(2, "a ? :b", Decimal("1000.00"))])

    def test_a_range_by_groups_and_one_without(self) -> None:
        with cqa.Session() as db:
            db.tell("create table c (id int, n int, primary key (id))")
            with self.assertRaisesRegex(ValueError, "`ranges` gives them"):
                db.range("count from c group by id")
            with self.assertRaisesRegex(ValueError, "`range` gives them"):
                db.ranges("count from c")


if __name__ == "__main__":
    unittest.main()
