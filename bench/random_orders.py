#!/usr/bin/env python3
"""Small random models with `ORDER AUTO` and `ORDER AUTO TOTALS`, and what deployment must say of each.

    random_orders.py cases           prints the models as cases of crates/run_cases/stdin
    random_orders.py PROGRAM         runs the program on each, and compares its answer with what is found here

Here the arrows are made cell by cell, and ranks are raised until they fit, so that nothing is shared with the program:
a model is accepted exactly where some ranks fit, and each walk that a refusal names is closed, is made of arrows, has a
strict one, and begins with its first reference. The first models are without the word `TOTALS`; of each of the others
at least one cube has it.
"""
import itertools
import random
import subprocess
import sys
import tempfile
from pathlib import Path

MODELS = 40
WITH_TOTALS = 60


class Dimension:
    """Leaves, and consolidated elements with their components, by name."""

    def __init__(self, name, leaves, totals):
        self.name, self.totals = name, dict(totals)
        self.elements = leaves + [it for it, _ in totals]

    def leaves_below(self, element):
        if element not in self.totals:
            return {element}
        return set().union(*(self.leaves_below(it) for it in self.totals[element]))

    def level(self, element):
        return 1 + max(map(self.level, self.totals[element])) if element in self.totals else 0

    def lag(self, element):
        return max(self.elements.index(it) + 1 for it in self.leaves_below(element))

    def text(self):
        lines = [f"N '{it}';" for it in self.elements if it not in self.totals]
        for it, parts in self.totals.items():
            names = ", ".join(f"'{part}'" for part in parts)
            lines.append(f"C '{it}': {names};")
        return [f"DIM '{self.name}';", *lines, "END;"]


class Cube:
    def __init__(self, name, dimensions, lag):
        self.name, self.dimensions, self.lag, self.statements = name, dimensions, lag, []
        self.has_kinds = False

    def node(self, element, is_total):
        """The node of cells with this element in the last dimension; those of a kind have one where the cube says so."""
        return (self.name, element, is_total and self.has_kinds)

    def cells(self):
        return itertools.product(*(it.elements for it in self.dimensions))

    def is_total(self, cell):
        return any(element in it.totals for it, element in zip(self.dimensions, cell))

    def level(self, cell):
        return sum(it.level(element) for it, element in zip(self.dimensions, cell))

    def lag_of(self, cell):
        return 0 if self.lag is None else self.dimensions[self.lag].lag(cell[self.lag])


def argument(random, own, dimension):
    """An argument of a `DB`: its text, and what it names from a cell of the own cube."""
    same = [k for k, it in enumerate(own.dimensions) if it is dimension]
    way = random.choice("fixed same moved moved moved".split() if same else ["fixed"])
    if way == "fixed":
        name = random.choice(dimension.elements)
        return f"'{name}'", lambda cell: name
    k = same[0]
    if way == "same":
        return f"!{dimension.name}", lambda cell: cell[k]
    step = random.choice([-1, -1, -1, -1, -1, 1])

    def moved(cell):
        at = dimension.elements.index(cell[k]) + step
        return dimension.elements[at] if 0 <= at < len(dimension.elements) else None

    sign = "-" if step < 0 else "+"
    return f"DIMNM('{dimension.name}', DIMIX('{dimension.name}', !{dimension.name}) {sign} 1)", moved


def reference(random, own, cubes):
    if random.random() < 0.6:
        k = len(own.dimensions) - 1 if random.random() < 0.8 else 0
        name = random.choice(own.dimensions[k].elements)
        named = lambda cell: (own, tuple(name if at == k else it for at, it in enumerate(cell)))
        return f"['{own.dimensions[k].name}':'{name}']", named
    cube = random.choice(cubes)
    made = [argument(random, own, it) for it in cube.dimensions]

    def named(cell):
        found = tuple(it(cell) for _, it in made)
        return None if None in found else (cube, found)

    return f"DB('{cube.name}', {', '.join(it for it, _ in made)})", named


def statement(random, own, cubes):
    """Its text, its area, and its references with the kinds of cell that they are read for."""
    last = own.dimensions[-1]
    area = {last.name: random.sample(last.elements, random.choice([1, 1, 2]))}
    if random.random() < 0.2:
        area[own.dimensions[0].name] = [random.choice(own.dimensions[0].elements)]
    inside = lambda cell: all(it.name not in area or e in area[it.name] for it, e in zip(own.dimensions, cell))
    entries = ", ".join(f"'{name}':{{{', '.join(map(repr, it))}}}" for name, it in area.items())
    form = random.choice(["N", "N", "both", "C", "NC"])
    references, parts = [], []
    for part in {"both": ["leaf and total"], "N": ["leaf"], "C": ["total"], "NC": ["leaf", "total"]}[form]:
        read = [reference(random, own, cubes) for _ in range(random.choice([1, 1, 2]))]
        kinds = [kind for kind, word in ((False, "leaf"), (True, "total")) if word in part]
        references += [(kinds, named) for _, named in read]
        mark = {"leaf": "N: ", "total": "C: "}.get(part, "")
        parts.append(mark + " + ".join(it for it, _ in read) + ";")
    return f"[{entries}] = " + " ".join(parts), inside, references


def made(number):
    """The model of this number."""
    chance = random.Random(number)
    month = Dimension("Month", ["m1", "m2", "m3"][: chance.choice([2, 3])], [])
    if chance.random() < 0.5:
        month = Dimension("Month", month.elements, [("year", month.elements)])
    size = chance.choice([2, 3])
    leaves = [f"a{k}" for k in range(size)]
    measure = Dimension("Measure", leaves, [("total", leaves[:2])] if chance.random() < 0.6 else [])
    lag = chance.choice([None, 0, 0])
    cubes = [Cube("Plan", [month, measure], lag)]
    if chance.random() < 0.4:
        other = Dimension("Account", ["b0", "b1"], [])
        cubes.append(Cube("Other", [month, other], chance.choice([None, 0])))
    for cube in cubes:
        cube.statements = [statement(chance, cube, cubes) for _ in range(chance.choice([1, 1, 2, 3]))]
    if number >= MODELS:
        for cube in chance.sample(cubes, chance.choice(range(1, len(cubes) + 1))):
            cube.has_kinds = True
    return cubes


def files(cubes):
    dimensions = list(dict.fromkeys(it for cube in cubes for it in cube.dimensions))
    version = 2 if any(it.has_kinds for it in cubes) else 1
    lines = [f"MODEL {version};"] + [line for it in dimensions for line in it.text()]
    for k, cube in enumerate(cubes):
        names = ", ".join(f"'{it.name}'" for it in cube.dimensions)
        order = "" if cube.lag is None else f" '{cube.dimensions[cube.lag].name}'"
        totals = " TOTALS" if cube.has_kinds else ""
        said = "" if k and cube.lag is None and not totals else f" ORDER AUTO{totals}{order};"
        lines.append(f"CUBE '{cube.name}' ({names}); RULES '{cube.name.lower()}.rux';{said} END;")
    found = {"model.txt": lines}
    for cube in cubes:
        found[f"{cube.name.lower()}.rux"] = [text for text, _, _ in cube.statements]
    return found


def looked_at(cubes):
    """The first reference that isn't level, else None; and the arrows: (from, to, strict, what makes it)."""
    arrows = []
    for cube in cubes:
        last = cube.dimensions[-1]
        for element in last.elements if cube.has_kinds else last.totals:
            for leaf in last.leaves_below(element):
                arrows.append((cube.node(element, True), cube.node(leaf, False), False, None))
    for at, cube in enumerate(cubes):
        for s, (_, inside, references) in enumerate(cube.statements):
            for r, (kinds, named) in enumerate(references):
                for kind in kinds:
                    pairs = [(cell, named(cell)) for cell in cube.cells() if inside(cell) and cube.is_total(cell) == kind]
                    pairs = [(cell, *it) for cell, it in pairs if it]
                    if any(to.lag_of(read) > cube.lag_of(cell) for cell, to, read in pairs):
                        return (cube, s + 1, r + 1), []
                    if all(to.lag_of(read) < cube.lag_of(cell) for cell, to, read in pairs):
                        continue
                    strict = not all(to.level(read) < cube.level(cell) for cell, to, read in pairs)
                    for cell, to, read in pairs:
                        own, its = cube.node(cell[-1], kind), to.node(read[-1], to.is_total(read))
                        arrows.append((own, its, strict, (at, s + 1, r + 1)))
    return None, arrows


def some_ranks_fit(arrows):
    rank = {node: 0 for at, to, _, _ in arrows for node in (at, to)}
    for _ in range(len(rank) + 1):
        raised = {at: rank[to] + strict for at, to, strict, _ in arrows if rank[to] + strict > rank[at]}
        if not raised:
            return True
        for at, to, strict, _ in arrows:
            rank[at] = max(rank[at], rank[to] + strict)
    return False


def begins(found, first, s):
    """Whether the steps, each with the arrows that it may be, can be a walk with a strict arrow that begins with a
    reference of this statement, and holds none that comes before that one."""
    for start in found[0]:
        if not start[3] or start[3][:2] != (first, s):
            continue
        rest = [[it for it in step if it[3] is None or it[3] >= start[3]] for step in found[1:]]
        if all(rest) and (start[2] or any(it[2] for step in rest for it in step)):
            return True
    return False


def is_shown(cubes, arrows, file, s, names):
    """Whether these names are a closed walk that begins so."""
    first = next(k for k, it in enumerate(cubes) if f"{it.name.lower()}.rux" == file)
    own = {it: {node for at, to, _, _ in arrows for node in (at, to) if node[1] == it} for it in names}
    for nodes in map(list, itertools.product(*(own[it] for it in names))):
        steps = list(zip(nodes, nodes[1:] + nodes[:1]))
        if begins([[it for it in arrows if it[:2] == step] for step in steps], first, s):
            return True
    return False


def judged(cubes, said):
    """What is wrong with the program's answer, or nothing."""
    unlagged, arrows = looked_at(cubes)
    if unlagged:
        cube, s, r = unlagged
        wanted = f"refused {cube.name.lower()}.rux: statement {s}: Unlagged reference {r}"
        return None if said == wanted else f"wanted {wanted}"
    if some_ranks_fit(arrows):
        return None if said.startswith("accepted ") else "some ranks fit"
    words = said.split(": ")
    if len(words) != 3 or not words[2].startswith("Cycle "):
        return "no ranks fit"
    names = [it.strip("'") for it in words[2].split()[1:]]
    file, s = words[0].removeprefix("refused "), int(words[1].removeprefix("statement "))
    return None if is_shown(cubes, arrows, file, s, names) else "this is no closed walk with a strict arrow"


def answer(program, cubes):
    with tempfile.TemporaryDirectory() as room:
        for name, lines in files(cubes).items():
            Path(room, name).write_text("".join(f"{it}\n" for it in lines))
        ran = subprocess.run([program, "--check", "model.txt"], cwd=room, capture_output=True, text=True)
    return (ran.stdout or ran.stderr).strip()


def main(words):
    if words == ["cases"]:
        for n in range(MODELS + WITH_TOTALS):
            print(f"run: random model {n} with an order that is to be found\nwords --check model.txt")
            for name, lines in files(made(n)).items():
                print(f"file {name}\n" + "\n".join(f"|{it}" for it in lines))
            print()
        return 0
    wrong, kinds = 0, {}
    for n in range(MODELS + WITH_TOTALS):
        said = answer(words[0], made(n))
        fault = judged(made(n), said)
        kind = "accepted" if said.startswith("accepted") else said.split(": ")[-1].split()[0]
        kinds[kind] = kinds.get(kind, 0) + 1
        if fault:
            wrong += 1
            print(f"model {n}: {said}: {fault}")
    print(f"{MODELS + WITH_TOTALS} models, {wrong} wrong; {kinds}")
    return 1 if wrong else 0


if __name__ == "__main__":
    sys.exit(main(sys.argv[1:]))
