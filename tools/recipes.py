#!/usr/bin/env python3
"""Runs the recipes of README.md, docs/LANGUAGE.md, docs/SQL.md and docs/DATABASE.md as they stand there, over good lists and over broken ones.

    tools/recipes.py

A block ```csv NAME is a list, and a block ```sh or ```python a recipe; a block ```text behind it is what it has to write. One
that is named `alone` needs no list. Each
page is a folder of its own, in which its recipes follow one after the other. Then each recipe that stands behind a list is run
in a folder where things are broken: a list has an empty key, an unended quote, or isn't there; a script has a refused
statement, or isn't there. There it has to fail: a status that isn't 0, and no file that it writes by -o or by Python. The recipe
with `./cqa try` compiles the program without its proofs: once, since a broken list ends it before.
"""

import os
import re
import subprocess
import sys
import tempfile

TOP = os.path.dirname(os.path.dirname(os.path.abspath(__file__)))
PAGES = ("README.md", os.path.join("docs", "LANGUAGE.md"), os.path.join("docs", "SQL.md"), os.path.join("docs", "DATABASE.md"))
BLOCK = re.compile(r"^```(csv|sh|python)( [\w.]+)?\n(.*?)^```\n(?:\n```text\n(.*?)^```\n)?", re.M | re.S)
EMPTY_KEY = "id,name,city,credit\n1,Ada Holm,Oslo,1\n,Nobody,Voss,2\n"
OPEN_QUOTE = "id,name,city,credit\n1,\"Ada Holm,Oslo,1\n2,Bo Lind,Bergen,2\n"
REFUSED = "create table customer (id int, primary key (id));\ncopy customer;\nx\n\\.\n"
BROKEN = {
    "a list with an empty key, a script with a refused block": (EMPTY_KEY, REFUSED),
    "a list with an unended quote, a script with an unended text": (OPEN_QUOTE, "create table customer (id int, primary key (id));\ndelete from customer where id = 'x;\n"),
    "no list, no script": (None, None),
}


def run(kind, recipe, folder):
    """The status and the output of a recipe."""
    command = ["bash", "-c", recipe] if kind == "sh" else [sys.executable, "-B", "-c", recipe]
    environment = dict(os.environ, PYTHONPATH=os.path.join(TOP, "python"), PYTHONDONTWRITEBYTECODE="1")
    ran = subprocess.run(command, cwd=folder, env=environment, stdin=subprocess.DEVNULL, stdout=subprocess.PIPE, stderr=subprocess.PIPE, timeout=900, check=False)
    return ran.returncode, ran.stdout.decode(), ran.stderr.decode()


def write(folder, name, text):
    """Makes a file, or takes it away where it has no text."""
    path = os.path.join(folder, name)
    if text is None:
        if os.path.exists(path):
            os.unlink(path)
    else:
        with open(path, "w", encoding="utf-8") as file:
            file.write(text)


def outputs(recipe):
    """The files that a recipe writes whole or not at all."""
    return re.findall(r" -o (\S+)|to_csv\(\"(\S+?)\"\)|save\(\"(\S+?)\"\)", recipe)


def good(page, blocks, folder):
    """How many recipes differ from what the page says, one after the other in a folder."""
    failed = 0
    for kind, name, text, wanted in blocks:
        if kind == "csv":
            write(folder, name.strip(), text)
            continue
        status, out, told = run(kind, text, folder)
        if status or (wanted and out != wanted):
            failed += 1
            print("%s: status %d\n%s-- expected:\n%s-- written:\n%s%s" % (page, status, text, wanted, out, told))
    return failed


def broken(page, blocks, folder, scripts):
    """How many recipes don't fail where their list and their script are broken."""
    failed, lists = 0, []
    for kind, name, text, _ in blocks:
        if kind == "csv":
            lists.append(name.strip())
            write(folder, lists[-1], text)
            continue
        if not lists or name.strip() == "alone":
            continue
        for what, (a_list, script) in BROKEN.items():
            write(folder, lists[-1], a_list)
            for path in scripts:
                write(folder, path, script)
            written = [name for names in outputs(text) for name in names if name]
            for path in written:
                write(folder, path, None)
            status, _, told = run(kind, text, folder)
            left = [path for path in written if os.path.exists(os.path.join(folder, path))]
            if status == 0 or not told or left:
                failed += 1
                print("%s, with %s: status %d, left %s\n%s%s" % (page, what, status, left, text, told))
    return failed


def main():
    failed = 0
    for page in PAGES:
        with open(os.path.join(TOP, page), encoding="utf-8") as file:
            blocks = BLOCK.findall(file.read())
        scripts = sorted(set(re.findall(r">(\w+\.cqa)|\"(\w+\.cqa)\"", "".join(text for _, _, text, _ in blocks))))
        scripts = [name for names in scripts for name in names if name]
        for check in (lambda folder: good(page, blocks, folder), lambda folder: broken(page, blocks, folder, scripts)):
            with tempfile.TemporaryDirectory() as folder:
                for name in ("cqa", "tools", "crates", "examples"):
                    os.symlink(os.path.join(TOP, name), os.path.join(folder, name))
                failed += check(folder)
    print("%d recipes differ" % failed if failed else "all recipes run, and fail where they have to")
    return 1 if failed else 0


if __name__ == "__main__":
    sys.exit(main())
