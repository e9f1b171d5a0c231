#!/usr/bin/env python3
"""Makes the tables of docs/DEFINITIONS.md from the comments in the crates' specs, so that each definition has its sentence
at one place.

    tools/definitions.py          says whether the page is as it would be made (status 1 if it isn't)
    tools/definitions.py write    makes it

It also says whether README's headline is the one that stands at the call that carries it.

A section `## CRATE: ..` begins with words of its own. All from its first line `**..** [FILE]` on is made: for each file of
`crates/CRATE/specs` its first comment, and a row for each public definition with the comment right above it. A definition
without one is so short that it stands there itself, by its equation or its type.
"""

import glob
import os
import re
import sys

TOP = os.path.dirname(os.path.dirname(os.path.abspath(__file__)))
PAGE = os.path.join(TOP, "docs", "DEFINITIONS.md")
PUBLIC = re.compile(r"(?:abbrev |unfoldable |inductive )*pub (?!use |mod )(?:record |data |inductive |abbrev )?(([^\s(:]+).*)")
A_TABLE = re.compile(r"(?m)^\*\*.*\*\* \[")


def sentence(comment):
    text = " ".join(line[2:].strip() for line in comment).rstrip(".,")
    first = text if re.match(r"[B-Zb-z]\b|\w+\(|`", text) else text[:1].upper() + text[1:]
    return first.replace("|", "\\|") + "."


def itself(lines, i, name, declared):
    """A definition without a comment: its equation if it has one short one, or else its type."""
    equations = [line for line in lines[i + 1:i + 3] if line.startswith(name + " ")]
    said = equations[0] if len(equations) == 1 and len(equations[0]) <= 70 and equations[0][-1] != "=" else declared.removesuffix(" where")
    return "`" + said.replace("|", "\\|") + "`"


def table(path, specs):
    with open(path, encoding="utf-8") as file:
        lines = file.read().split("\n")
    comment, rows, head = [], [], ""
    for i, line in enumerate(lines):
        public = PUBLIC.match(line)
        if public:
            rows.append("| `%s` | %s |" % (public[2], sentence(comment) if comment else itself(lines, i, public[2], public[1])))
        if line.startswith(("use ", "pub use ")) and comment and not head:
            head = sentence(comment)
        comment = comment + [line] if line.startswith("--") else []
    title = "**%s** [%s]\n\n| Name | Meaning |\n|---|---|\n" % (head, os.path.relpath(path, specs)[:-len(".antt")])
    return title + "\n".join(rows) + "\n" if rows else ""


def tables(crate):
    specs = os.path.join(TOP, "crates", crate, "specs")
    made = [table(path, specs) for path in sorted(glob.glob(os.path.join(specs, "**", "*.antt"), recursive=True))]
    return "\n".join(text for text in made if text)


def page(text):
    first, *sections = re.split(r"(?m)^(?=## )", text)
    made = [first]
    for section in sections:
        crate = section[len("## "):].split(":")[0].strip()
        is_crate = os.path.isdir(os.path.join(TOP, "crates", crate))
        made.append(A_TABLE.split(section)[0].rstrip("\n") + "\n\n" + tables(crate) + "\n" if is_crate else section)
    return re.sub(r"\n\n\n+", "\n\n", "".join(made)).rstrip("\n") + "\n"


def headline(path, mark):
    """The lines of a file that begin with a mark and the headline's first words, without the mark."""
    with open(os.path.join(TOP, path), encoding="utf-8") as file:
        return [line[len(mark):] for line in file.read().split("\n") if line.startswith(mark + "For every list of words")]


def main():
    if headline("README.md", "> ") != headline("crates/command_shell/src/top.rt", "/// "):
        print("README's headline isn't the one of run_words in crates/command_shell/src/top.rt")
        return 1
    with open(PAGE, encoding="utf-8") as file:
        text = file.read()
    crates = [os.path.basename(os.path.dirname(specs)) for specs in glob.glob(os.path.join(TOP, "crates", "*", "specs"))]
    lacking = [crate for crate in crates if not crate.endswith("_tests") and tables(crate) and "\n## %s: " % crate not in text]
    for crate in lacking:
        print("%s has no section" % crate)
    if sys.argv[1:] == ["write"]:
        with open(PAGE, "w", encoding="utf-8") as file:
            file.write(page(text))
    elif page(text) != text:
        print("the page isn't what the comments make: tools/definitions.py write")
        return 1
    return 1 if lacking else 0


if __name__ == "__main__":
    sys.exit(main())
