#!/usr/bin/env python3
"""Runs the built program with one of its allocations refused: the first, the second, and so on up to its last.

    bench/refused_memory.py PROGRAM [--only NAME ..]

PROGRAM is the built program (./run says where it is). Each run has to end with Done (0) or NoMemory (5). With Done it
has written one of the texts that its case allows, and with NoMemory a front part of one. A library that stands before
the C library counts the calls of `malloc` and `realloc`, and refuses the one whose number it is given; `cc` makes it.

A line has the case, how many allocations its run takes, and how many of the runs with a refused one ended with
NoMemory and with Done. A run that ends otherwise is printed, and the status is 1 then.
"""
import argparse
import mmap
import os
import struct
import subprocess
import sys
import tempfile

REFUSER = r"""
#define _GNU_SOURCE
#include <dlfcn.h>
#include <fcntl.h>
#include <stdatomic.h>
#include <stdlib.h>
#include <sys/mman.h>
#include <unistd.h>

/* Two words that the script reads: how many allocations there were, and which one is refused. */
static _Atomic unsigned long *words;
static void *(*next_malloc)(size_t);
static void *(*next_realloc)(void *, size_t);

__attribute__((constructor)) static void start(void) {
    next_malloc = dlsym(RTLD_NEXT, "malloc");
    next_realloc = dlsym(RTLD_NEXT, "realloc");
    int file = open(getenv("REFUSER_WORDS"), O_RDWR);
    words = mmap(0, 4096, PROT_READ | PROT_WRITE, MAP_SHARED, file, 0);
    close(file);
}

static int is_refused(void) {
    return words && atomic_fetch_add(words, 1) + 1 == words[1];
}

void *malloc(size_t size) {
    if (!next_malloc) next_malloc = dlsym(RTLD_NEXT, "malloc");
    return is_refused() ? 0 : next_malloc(size);
}

void *realloc(void *old, size_t size) {
    if (!next_realloc) next_realloc = dlsym(RTLD_NEXT, "realloc");
    return is_refused() ? 0 : next_realloc(old, size);
}
"""

MODEL = """MODEL 1;
DIM 'Version';
N 'Actual'; N 'Budget';
C 'Variance': 'Actual', 'Budget' * -1;
END;
DIM 'Month';
N 'Jan'; N 'Feb'; N 'Mar';
C 'Q1': 'Jan', 'Feb', 'Mar';
END;
DIM 'Measure';
N 'Units'; N 'Price'; N 'Sales'; N 'Cost';
N 'Opening'; N 'Closing'; N 'Margin%';
C 'Margin': 'Sales', 'Cost' * -1;
END;
CUBE 'Plan' ('Version', 'Month', 'Measure');
RULES 'plan.rux';
ORDER 'Month', 'Measure' ('Sales' 1, 'Opening' 1, 'Closing' 2, 'Margin%' 2);
END;
SCRIPT 'import' 'import.ti';
SCRIPT 'bump' 'bump.ti';
SCRIPT 'follow' 'follow.ti';
"""

RULES = """SKIPCHECK;
['Sales'] = N: ['Units'] * ['Price'];
['Opening'] = N: DB('Plan', !Version, DIMNM('Month', DIMIX('Month', !Month) - 1), 'Closing');
['Closing'] = N: ['Opening'] + ['Units'];
['Margin%'] = C: ['Margin'] \\ ['Sales'];
FEEDERS;
['Units'] => ['Sales'], ['Closing'];
['Opening'] => ['Closing'];
['Closing'] => DB('Plan', !Version, DIMNM('Month', DIMIX('Month', !Month) + 1), 'Opening');
"""

BUMP = """Prolog: CellPutN(5, 'Plan', 'Actual', 'Jan', 'Units'); CellPutN(2, 'Plan', 'Actual', 'Jan', 'Price');
s = CellGetN('Plan', 'Actual', 'Jan', 'Sales'); CellIncrementN(s, 'Plan', 'Actual', 'Jan', 'Units');
"""

FILES = {
    "model.txt": MODEL,
    "plan.rux": RULES,
    "import.ti": "Data: CellPutN(StringToNumber(V4), 'Plan', V1, V2, V3);\n",
    "bump.ti": BUMP,
    "follow.ti": "Prolog: x = CellGetN('Plan', 'Actual', 'Jan', 'Units');\n"
    "CellPutN(x + 1, 'Plan', 'Actual', 'Jan', 'Price');\n",
    "x.csv": "Actual,Jan,Units,10\nActual,Feb,Units,20\nActual,Q1,Units,30\nActual,Mar,Units,40\n",
}


def put(month, measure, number):
    return f"PUT 'Plan' ('Actual', '{month}', '{measure}') = {number};\n"


def get(month, measure):
    return f"GET 'Plan' ('Actual', '{month}', '{measure}');\n"


def entry(place, user, command, cells):
    return f"{place} user {user} command {command} cells {cells}\n"


VIEW = (
    "VIEW 'Plan' ROWS 'Month': 'Jan', 'Feb', 'Q1' COLUMNS 'Measure': 'Units', 'Sales'"
    " AT 'Version': 'Actual';\n"
)

# The commands of each user, and the texts that a run may write, worked out from the rules.
CASES = {
    "put and get": (
        [put("Jan", "Units", 12.5) + get("Q1", "Units")],
        ["user 1\n1 @0 committed 1\n2 @1 12.5\nhistory\n" + entry(0, 1, 1, 1)],
    ),
    "a view": (
        [put("Jan", "Units", 10) + put("Jan", "Price", 2.5) + put("Feb", "Price", 4) + VIEW],
        [
            "user 1\n1 @0 committed 1\n2 @1 committed 1\n3 @2 committed 1\n4 @3 table 3 2\n"
            "\tUnits\tSales\nJan\t10\t25\nFeb\t0\t0\nQ1\t10\t25\nhistory\n"
            + entry(0, 1, 1, 1) + entry(1, 1, 2, 1) + entry(2, 1, 3, 1)
        ],
    ),
    "a load that is rejected": (
        ["LOAD 'import' FROM 'x.csv';\n" + get("Q1", "Units")],
        ["user 1\n1 @0 rejected Data record 3 statement 1 NotALeaf\n2 @0 0\nhistory\n"],
    ),
    "a load that adds to what it wrote": (
        ["LOAD 'bump';\n" + get("Jan", "Sales")],
        ["user 1\n1 @0 committed 2\n2 @1 30\nhistory\n" + entry(0, 1, 1, 2)],
    ),
    # either user's commit comes first; the first user may ask before or after the second user's commit
    "two users": (
        ["LOAD 'follow';\n" + get("Jan", "Price"), put("Jan", "Units", 4)],
        [
            "user 1\n1 @1 committed 1\n2 @2 5\nuser 2\n1 @0 committed 1\n"
            "history\n" + entry(0, 2, 1, 1) + entry(1, 1, 1, 1),
            "user 1\n1 @0 committed 1\n2 @1 1\nuser 2\n1 @1 committed 1\n"
            "history\n" + entry(0, 1, 1, 1) + entry(1, 2, 1, 1),
            "user 1\n1 @0 committed 1\n2 @2 1\nuser 2\n1 @1 committed 1\n"
            "history\n" + entry(0, 1, 1, 1) + entry(1, 2, 1, 1),
        ],
    ),
}

DONE, NO_MEMORY = 0, 5


class Refuser:
    """Runs a program with one of its allocations refused."""

    def __init__(self, folder, program):
        self.program, self.library = program, os.path.join(folder, "refuser.so")
        source = os.path.join(folder, "refuser.c")
        with open(source, "w") as file:
            file.write(REFUSER)
        compile = [os.environ.get("CC", "cc"), "-O2", "-shared", "-fPIC", "-o", self.library, source, "-ldl"]
        subprocess.run(compile, check=True)
        self.file = os.path.join(folder, "words")
        with open(self.file, "wb") as file:
            file.write(bytes(4096))
        self.opened = open(self.file, "r+b")
        self.words = mmap.mmap(self.opened.fileno(), 4096)

    def run(self, folder, words, refused):
        """The status, what was written, and how many allocations there were, where this one is refused."""
        self.words[:16] = struct.pack("QQ", 0, refused)
        how = {"cwd": folder, "env": {"LD_PRELOAD": self.library, "REFUSER_WORDS": self.file}}
        ended = subprocess.run([self.program, *words], **how, stdin=subprocess.DEVNULL, capture_output=True, timeout=60)
        return ended.returncode, ended.stdout.decode(), struct.unpack("Q", self.words[:8])[0]


def is_right(status, text, allowed):
    if status == DONE:
        return text in allowed
    return status == NO_MEMORY and any(whole.startswith(text) for whole in allowed)


def tried(refuser, folder, name):
    """Prints a line of a case, and answers whether each of its runs ended as it may."""
    users, allowed = CASES[name]
    words = ["model.txt", *(f"user{number}.txt" for number in range(1, len(users) + 1))]
    for word, text in [*FILES.items(), *zip(words[1:], users)]:
        with open(os.path.join(folder, word), "w") as file:
            file.write(text)
    ends, wrong, refused = {DONE: 0, NO_MEMORY: 0}, 0, 0
    while True:
        status, text, count = refuser.run(folder, words, refused)
        if refused > count:
            break
        if not is_right(status, text, allowed):
            wrong += 1
            print(f"{name}: allocation {refused} refused: status {status}, {text!r}")
        elif refused:
            ends[status] += 1
        refused += 1
    counts = f"{ends[NO_MEMORY]} NoMemory, {ends[DONE]} Done, {wrong} otherwise"
    print(f"{name}: {refused - 1} allocations; with one refused {counts}", flush=True)
    return not wrong


def main():
    words = argparse.ArgumentParser(description=__doc__.splitlines()[0])
    words.add_argument("program")
    words.add_argument("--only", nargs="*", default=list(CASES))
    words = words.parse_args()
    with tempfile.TemporaryDirectory() as folder:
        refuser = Refuser(folder, os.path.abspath(words.program))
        all_right = [tried(refuser, folder, name) for name in words.only]
    sys.exit(0 if all(all_right) else 1)


if __name__ == "__main__":
    main()
