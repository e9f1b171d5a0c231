#!/usr/bin/env python3
"""Whether a run ends well wherever memory is refused.

    tools/out_of_memory.py [--program FILE] [--most N] [SCRIPT ...]

For each script the number of allocations of a run is counted. Then the script is run again for each of them, with this one
allocation refused, and once more with this one and all after it refused. Such a run has to end with status 5 after a front
of the output, or with the output and the status of a run that isn't refused any. A file NAME.lrat or NAME.rewriting is checked, and not run.
Without scripts, nineteen of the tests are run, a formula with its refutation and two certificates are checked, and `demo 1` is run. The last line says
whether all runs ended so; the status is 0 then. A C compiler is needed, for a library of a few lines that is put before the
program's allocator, and a program that is linked to the C library when it starts.
"""

import argparse
import os
import subprocess
import sys
import tempfile

TOP = os.path.dirname(os.path.dirname(os.path.abspath(__file__)))
PROGRAM = os.path.join(TOP, "crates", "cqa_cli", "out", "cqa_cli")
DATA = os.path.join(TOP, "crates", "script_tests", "data")

OUT_OF_MEMORY = 5

FILES = ["certain_answers.cqa", "disputed_rows.cqa", "rows_against.cqa", "conflicts_of_tables.cqa", "prefer.cqa", "searches.cqa", "dumps.cqa",
         "explains_by_search.cqa", "explains_by_plans.cqa", "ranges.cqa", "ranges_of_values.cqa", "join_ranges.cqa", "copies.cqa",
         "changed_keys.cqa", "sql_of_worked_queries.cqa", "certificates.cqa", "unions.cqa", "pairs.cqa", "merged_lists.cqa", "proof_of_a_bigger_formula.lrat",
         "certificate_of_a_join.rewriting", "certificate_with_a_block_again_without_a_row.rewriting"]
"""Rows through one block and through different ones, disputed ones, what stands against rows, conflicts that are counted and settled,
dumps, refutations, plans with mended repairs, ranges over a table and over joins, blocks of CSV, other keys, queries in SQL, certificates that are printed, unions, weak pairs,
merged lists, a refutation that is checked, and certificates that are."""

DEMO = ["demo", "1"]

SHIM = r"""
#define _GNU_SOURCE
#include <dlfcn.h>
#include <errno.h>
#include <link.h>
#include <stddef.h>
#include <stdio.h>
#include <stdlib.h>

static unsigned long low, high, count, first, last;
static int ready;

static int own(struct dl_phdr_info *info, size_t size, void *data) {
    for (int i = 0; i < info->dlpi_phnum; i++) {
        const ElfW(Phdr) *part = &info->dlpi_phdr[i];
        if (part->p_type == PT_LOAD) {
            unsigned long from = info->dlpi_addr + part->p_vaddr;
            if (!low || from < low) low = from;
            if (from + part->p_memsz > high) high = from + part->p_memsz;
        }
    }
    return 1; /* the program comes first, and the libraries don't count */
}

__attribute__((constructor)) static void begin(void) {
    const char *text = getenv("REFUSED_FROM");
    first = text ? strtoul(text, NULL, 10) : 0;
    text = getenv("REFUSED_TO");
    last = text ? strtoul(text, NULL, 10) : 0;
    dl_iterate_phdr(own, NULL);
    ready = 1;
}

__attribute__((destructor)) static void end(void) {
    const char *name = getenv("COUNTED");
    FILE *file = name ? fopen(name, "w") : NULL;
    ready = 0;
    if (file) {
        fprintf(file, "%lu\n", count);
        fclose(file);
    }
}

static int refused(void *caller) {
    unsigned long at = (unsigned long)caller;
    if (!ready || at < low || at >= high) return 0;
    count++;
    return count >= first && count <= last;
}

extern void *__libc_malloc(size_t), *__libc_calloc(size_t, size_t), *__libc_realloc(void *, size_t), *__libc_memalign(size_t, size_t);

#define REFUSE if (refused(__builtin_return_address(0))) { errno = ENOMEM; return NULL; }

void *malloc(size_t size) { REFUSE return __libc_malloc(size); }
void *calloc(size_t n, size_t size) { REFUSE return __libc_calloc(n, size); }
void *realloc(void *old, size_t size) { if (size) REFUSE return __libc_realloc(old, size); }
void *aligned_alloc(size_t to, size_t size) { REFUSE return __libc_memalign(to, size); }
"""


def build_shim(folder):
    """The library that refuses."""
    source, library = os.path.join(folder, "refuse.c"), os.path.join(folder, "refuse.so")
    with open(source, "w", encoding="utf-8") as file:
        file.write(SHIM)
    subprocess.run(["cc", "-O1", "-fPIC", "-shared", "-o", library, source, "-ldl"], check=True)
    return library


def run(program, words, script, library, first=0, last=0, counted=None):
    """What a run writes, and its status, where the allocations from one number to another are refused."""
    settings = dict(os.environ, LD_PRELOAD=library, REFUSED_FROM=str(first), REFUSED_TO=str(last))
    if counted:
        settings["COUNTED"] = counted
    ended = subprocess.run([program, *words], input=script, stdout=subprocess.PIPE, env=settings, timeout=120, check=False)
    return ended.stdout, ended.returncode


def is_well(whole, given):
    """Whether a run with a refused allocation ended well."""
    return given == whole or (given[1] == OUT_OF_MEMORY and whole[0].startswith(given[0]))


def try_call(program, name, words, script, library, folder, most):
    """Refuses each allocation of a call in turn, and gives how many runs ended badly and whether there are allocations."""
    counted = os.path.join(folder, "counted")
    whole = run(program, words, script, library, counted=counted)
    with open(counted, encoding="utf-8") as file:
        allocations = int(file.read())
    bad = stopped = 0
    step = max(1, -(-allocations // most))
    for number in range(1, allocations + 1, step):
        for last in (number, 2 ** 60):
            given = run(program, words, script, library, number, last)
            stopped += given[1] == OUT_OF_MEMORY
            if not is_well(whole, given):
                bad += 1
                print("%s: refused from %d to %d, it ends with %d after %d of %d bytes" % (
                    name, number, last, given[1], len(given[0]), len(whole[0])))
    tried = len(range(1, allocations + 1, step))
    print("%s: %d allocations, %d of them refused in turn; %d of %d runs ended early" % (
        name, allocations, tried, stopped, 2 * tried))
    return bad, allocations > 0


def try_file(program, path, library, folder, most):
    """The same of the call for a file."""
    words = ["check"] if path.endswith((".lrat", ".rewriting")) else ["run"]
    with open(path, "rb") as file:
        return try_call(program, os.path.basename(path), words, file.read(), library, folder, most)


def main():
    parser = argparse.ArgumentParser(description=__doc__.splitlines()[0])
    parser.add_argument("--program", default=PROGRAM)
    parser.add_argument("--most", type=int, default=2_000, help="the most allocations of a script that are tried, spread evenly")
    parser.add_argument("scripts", nargs="*", metavar="SCRIPT")
    options = parser.parse_args()
    files = options.scripts or [os.path.join(DATA, name) for name in FILES]
    with tempfile.TemporaryDirectory() as folder:
        library = build_shim(folder)
        ended = [try_file(options.program, path, library, folder, options.most) for path in files]
        if not options.scripts:
            ended.append(try_call(options.program, " ".join(DEMO), DEMO, b"", library, folder, options.most))
    bad = sum(bad for bad, _ in ended)
    if not ended or not all(counts for _, counts in ended):
        print("no allocation was counted: is the program linked to the C library when it starts?")
        return 1
    print("%d runs end badly" % bad if bad else "wherever memory is refused, each run ends with status 5 or as it would")
    return 1 if bad else 0


if __name__ == "__main__":
    sys.exit(main())
