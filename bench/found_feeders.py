#!/usr/bin/env python3
"""Accepted models whose written feeders are taken out, and found again.

    found_feeders.py PROGRAM CASES..     CASES: files of cases, as crates/run_cases/stdin and crates/layer_cases/stdin

Of each case with a model that is accepted and has feeders, all feeders are taken out, and each rule file with rules
says `FEEDERS AUTO;`. Where the model is accepted then, its users must read the same as before; where it isn't, the
refusal is listed. And where a rule text says all that is found, the text that `--feeders` prints is put in place of
`AUTO`, and must give the same again. Users run on threads, so a run is repeated until its order of commits is the same.
"""
import re
import subprocess
import sys
import tempfile
from pathlib import Path

FEEDERS = re.compile(rb"FEEDERS\s*;.*", re.S)
# a line of what `--feeders` prints that no rule text can say
UNSAID = re.compile(rb"(?m)^# (statement|and feeders)")
# how often a run is repeated
RUNS = 60
# the words of a rule file that other words of it may not be mistaken for
RULES = ("rules", ".rux")


def spelled(line):
    """The bytes of a line of a file: what stands behind `|`, with its line end."""
    return line[1:].encode() + b"\n"


def parts_of(path):
    """The cases of a file: each is a heading and its lines."""
    for part in path.read_text().split("\n\n"):
        lines = [it for it in part.split("\n") if it and not it.startswith("# ") and not it.startswith(">")]
        if lines and ": " in lines[0]:
            yield lines[0], lines[1:]


def texts(lines, named):
    """Lines with the lines of named texts in their places."""
    for line in lines:
        if line.startswith("+"):
            yield from named.get(line[1:], [])
        else:
            yield line


def files_of(lines, named, bundles):
    """The files of a case by name, and the words of its run."""
    files, words, now = {}, None, None
    for line in texts(lines, named):
        if line.startswith("file "):
            now = line[5:]
            files[now] = b""
        elif line.startswith("files "):
            files = dict(bundles.get(line[6:], {})) | files
        elif line.startswith("words "):
            words = line[6:].split()
        elif line.startswith("|") and now is not None:
            files[now] += spelled(line)
    return files, words


def cases_of(path):
    """The cases with a model: their titles, files and words."""
    named, bundles = {}, {}
    for heading, lines in parts_of(path):
        kind, title = heading.split(": ", 1)
        if kind == "text":
            named[title] = list(texts(lines, named))
        elif kind == "files":
            bundles[title] = files_of(lines, named, bundles)[0]
        else:
            yield title, *as_run(*files_of(lines, named, bundles))


def as_run(files, words):
    """The files and words of a run: a case of one layer names its files otherwise."""
    if words is not None or "model" not in files:
        return files, words
    model = files.pop("model")
    cube = 0
    for name in [it for it in files if it.startswith("rules")]:
        number = int(name[5:].strip() or 0)
        files[f"{name}.rux"] = files.pop(name)
        model = with_rules(model, number, f"{name}.rux")
        cube += 1
    files["model.txt"] = model
    return files, ["model.txt", "user"]


def with_rules(model, number, name):
    """The model with a line for the rule file of its cube of this number."""
    heads = list(re.finditer(rb"CUBE\s*'[^']*'\s*\([^)]*\)\s*;", model))
    if number >= len(heads):
        return model
    at = heads[number].end()
    return model[:at] + f"\nRULES '{name}';".encode() + model[at:]


def run(program, files, words):
    """What the program prints, and its status."""
    with tempfile.TemporaryDirectory() as at:
        for name, content in files.items():
            Path(at, name).write_bytes(content)
        done = subprocess.run([program, *words], cwd=at, capture_output=True, timeout=120)
        return done.returncode, done.stdout


def agree(program, files, other, words):
    """Whether some run with these files ends as some run with the other ones."""
    ends, ends_of_other = set(), set()
    for _ in range(RUNS):
        ends.add(run(program, files, words))
        ends_of_other.add(run(program, other, words))
        if ends & ends_of_other:
            return True
    return False


def without_feeders(files, stated):
    """The files, in which each rule file with statements says `FEEDERS AUTO;` and has no other feeder."""
    found = {}
    for name, content in files.items():
        if name.endswith(RULES):
            content = FEEDERS.sub(b"", content)
            if b"=" in content:
                content += stated
        found[name] = content
    return found


def written(files, printed):
    """The files with what `--feeders` printed in place of `AUTO`: the lines behind `# 'Cube'` go to that cube's file."""
    model = files["model.txt"]
    rules = {}
    for cube in re.finditer(rb"CUBE\s*'((?:[^']|'')*)'(.*?)(?=CUBE|\Z)", model, re.S):
        name = re.search(rb"RULES\s*'([^']*)'", cube[2])
        rules[cube[1]] = name and name[1].decode()
    blocks = re.split(rb"(?m)^# '((?:[^']|'')*)'$", printed)[1:]
    found = dict(files)
    for cube, block in zip(blocks[::2], blocks[1::2]):
        name = rules.get(cube)
        if name is None:
            return None
        found[name] = found[name] + block
    return found


def outcome(program, files, words):
    """What comes of a case without its feeders, beside what comes of it as it stands."""
    status, _ = run(program, files, words)
    fed = any(FEEDERS.search(content) for name, content in files.items() if name.endswith(RULES))
    if status != 0 or not fed:
        return None
    auto = without_feeders(files, b"\nFEEDERS AUTO;\n")
    other, answer = run(program, auto, words)
    if other != 0:
        return "refused", answer.decode(errors="replace").strip()
    if not agree(program, files, auto, words):
        return "WRONG", answer.decode(errors="replace")
    _, text = run(program, auto, ["--feeders", "model.txt"])
    if UNSAID.search(text):
        return "same", "with what no rule text says"
    pasted = written(without_feeders(files, b"\nFEEDERS;\n"), text)
    if pasted is None:
        return "same", "with feeders of a cube without a rule file"
    if not agree(program, files, pasted, words):
        return "WRONG", "as it is printed:\n" + text.decode(errors="replace")
    return "same", ""


def main():
    program = str(Path(sys.argv[1]).resolve())
    counts = {}
    for path in map(Path, sys.argv[2:]):
        for title, files, words in cases_of(path):
            if words is None or "model.txt" not in files or any(it.startswith("--") for it in words):
                continue
            came = outcome(program, files, words)
            if came is None:
                continue
            counts[came[0]] = counts.get(came[0], 0) + 1
            if came[0] != "same" or came[1]:
                print(f"{came[0]}: {title}: {came[1]}")
    print(", ".join(f"{kind} {count}" for kind, count in sorted(counts.items())))
    return 1 if counts.get("WRONG") else 0


if __name__ == "__main__":
    sys.exit(main())
