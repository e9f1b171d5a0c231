#!/usr/bin/env python3
"""What of docs/LANGUAGE.md is made: its contents, from its headings, and its table "If you come from SQL", from python/cqa/habits.py.

    tools/language.py          says whether the page has them
    tools/language.py write    writes them into the page
"""

import os
import re
import sys

TOP = os.path.dirname(os.path.dirname(os.path.abspath(__file__)))
PAGE = os.path.join(TOP, "docs", "LANGUAGE.md")
sys.path.insert(0, os.path.join(TOP, "python"))
sys.dont_write_bytecode = True

from cqa.habits import language_table  # noqa: E402


def link(heading):
    """A link to a heading, whose anchor is made as GitHub makes it."""
    anchor = re.sub(r"[^\w\- ]", "", heading.lower()).replace(" ", "-")
    return "[%s](#%s)" % (heading, anchor)


def contents(page):
    """A line for each section, with its parts."""
    lines = []
    outside = re.sub(r"^```.*?^```$", "", page, flags=re.M | re.S)
    for marks, heading in re.findall(r"^(##|###) (.*)$", outside, flags=re.M):
        if marks == "##":
            lines.append("- " + link(heading))
        else:
            lines[-1] += (", " if "): [" in lines[-1] else ": ") + link(heading)
    return "".join(line + "\n" for line in lines)


def made(page):
    """The page with what is made of it."""
    page = re.sub(r"^\| Written \| Reply \| Write \|\n(?:\|.*\n)*", lambda _: language_table(), page, count=1, flags=re.M)
    return re.sub(r"^(?:- \[.*\n)+(?=\n## )", lambda _: contents(page), page, count=1, flags=re.M)


def main():
    with open(PAGE, encoding="utf-8") as file:
        page = file.read()
    if sys.argv[1:] == ["write"]:
        with open(PAGE, "w", encoding="utf-8") as file:
            file.write(made(page))
    elif made(page) != page:
        print("docs/LANGUAGE.md: its contents or its table of habits differ; tools/language.py write makes them anew")
        return 1
    return 0


if __name__ == "__main__":
    sys.exit(main())
