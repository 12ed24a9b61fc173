#!/usr/bin/env python3
"""Small random models with order lines that tell leaf cells and consolidated cells apart, and what deployment must say.

    random_totals.py cases           prints the models as cases of crates/run_cases/stdin
    random_totals.py PROGRAM         runs the program on each, and compares its answer with what is found here

Here each cell is looked at, so that nothing is shared with the program: an order line is bad exactly where a leaf cell
comes behind a consolidated cell in which it counts, and a reference is refused exactly where no one position, nor the
level, decides for all cells of its area. What is read in an accepted model is less deep than the cell that reads it.
"""
import random
import subprocess
import sys
import tempfile
from pathlib import Path

from random_orders import Cube, Dimension, statement

MODELS = 100
POSITIONS = 8


class Weighted(Dimension):
    """A dimension in which components may have weight 0, so that nothing below them counts."""

    def __init__(self, name, leaves, totals, unweighted=()):
        super().__init__(name, leaves, totals)
        self.unweighted = set(unweighted)

    def leaves_below(self, element):
        if element not in self.totals:
            return {element}
        counted = [it for it in self.totals[element] if (element, it) not in self.unweighted]
        return set().union(*(self.leaves_below(it) for it in counted))

    def text(self):
        lines = [f"N '{it}';" for it in self.elements if it not in self.totals]
        for it, parts in self.totals.items():
            weights = {part: " * 0" if (it, part) in self.unweighted else "" for part in parts}
            lines.append(f"C '{it}': " + ", ".join(f"'{part}'{weights[part]}" for part in parts) + ";")
        return [f"DIM '{self.name}';", *lines, "END;"]


class Constant:
    def __init__(self, number):
        self.number, self.is_bad, self.by_kind = number, False, False

    def text(self):
        return str(self.number)

    def at(self, cell, is_total):
        return self.number


class Totals:
    is_bad, by_kind = False, True

    def text(self):
        return "TOTALS"

    def at(self, cell, is_total):
        return int(is_total)


class Listed:
    """The index of a dimension, or ranks by one list, or by one for leaf cells and one for consolidated cells."""

    def __init__(self, cube, k, lists):
        self.dimension, self.k, self.lists = cube.dimensions[k], k, lists
        self.by_kind = len(lists) == 2
        given = self.dimension.totals if self.by_kind else {}
        self.is_bad = self.by_kind and any(it in given for it in lists[0])

    def text(self):
        shown = ["(" + ", ".join(f"'{it}' {rank}" for it, rank in one.items()) + ")" for one in self.lists]
        return f"'{self.dimension.name}' " + " TOTALS ".join(shown)

    def leaf_rank(self, leaf):
        return self.lists[0].get(leaf, 0) if self.lists else self.dimension.elements.index(leaf) + 1

    def at(self, cell, is_total):
        element = cell[self.k]
        if self.by_kind:
            return self.lists[is_total].get(element, 0)
        if self.lists and element in self.lists[0]:
            return self.lists[0][element]
        return max(map(self.leaf_rank, self.dimension.leaves_below(element)), default=0)

    def holds_leaves(self):
        """Whether no leaf ranks above an element in which it counts."""
        rank = lambda it: self.at([it] * (self.k + 1), False)
        below = ((it, leaf) for it in self.dimension.elements for leaf in self.dimension.leaves_below(it))
        return all(self.leaf_rank(leaf) <= rank(it) for it, leaf in below)


def ruled(cube):
    """The elements of the last dimension that a statement of the cube is for."""
    return {it for text, _, _ in cube.statements for it in cube.dimensions[-1].elements if f"'{it}'" in text.split("]")[0]}


def position(chance, cube):
    way = chance.choice("index list list kinds kinds kinds kinds totals totals constant".split())
    if way == "constant":
        return Constant(chance.choice([0, 1]))
    if way == "totals":
        return Totals()
    k = 0 if way == "index" else chance.choice([0, 1, 1, 1])
    elements = cube.dimensions[k].elements
    leaves = [it for it in elements if it not in cube.dimensions[k].totals]
    high = ruled(cube)
    rank = lambda it: chance.choice([1, 2, 2, 3] if it in high else [0, 0, 1])
    ranks = lambda names: {it: rank(it) for it in chance.sample(names, chance.randint(1, len(names)))}
    if way == "index":
        return Listed(cube, k, [])
    if way == "list":
        return Listed(cube, k, [ranks(elements if chance.random() < 0.3 else leaves)])
    first = ranks(elements if chance.random() < 0.1 else leaves)
    return Listed(cube, k, [first, ranks(elements)])


class Ordered:
    """A cube with its order line."""

    def __init__(self, chance, cube):
        self.cube = cube
        first = chance.choice([[], [Totals()], [Totals()], [Listed(cube, 0, [])]])
        self.positions = first + [position(chance, cube) for _ in range(chance.choice([1, 1, 2]))]

    def numbers(self, cell):
        shown = [it.at(cell, self.cube.is_total(cell)) for it in self.positions]
        return shown + [0] * (POSITIONS - len(shown))

    def leaf_cells(self, cell):
        found = [()]
        for dimension, element in zip(self.cube.dimensions, cell):
            found = [(*before, leaf) for before in found for leaf in dimension.leaves_below(element)]
        return found

    def is_bad(self):
        if any(it.is_bad for it in self.positions):
            return True
        if not any(it.by_kind for it in self.positions):
            return not all(it.holds_leaves() for it in self.positions if isinstance(it, Listed))
        return any(
            self.numbers(leaf) > self.numbers(cell)
            for cell in self.cube.cells()
            if self.cube.is_total(cell)
            for leaf in self.leaf_cells(cell)
        )


def made(number):
    """The cubes of the model of this number, each with its order line."""
    chance = random.Random(number)
    months = ["m1", "m2", "m3"][: chance.choice([2, 3])]
    month = Weighted("Month", months, [("year", months)] if chance.random() < 0.6 else [])
    leaves = [f"a{k}" for k in range(chance.choice([2, 3]))]
    total = [("total", leaves[:2])] if chance.random() < 0.5 else []
    measure = Weighted("Measure", leaves, total, [("total", leaves[1])] if chance.random() < 0.3 else [])
    cubes = [Cube("Plan", [month, measure], None)]
    if chance.random() < 0.3:
        cubes.append(Cube("Other", [month, Weighted("Account", ["b0", "b1"], [])], None))
    for cube in cubes:
        cube.statements = [statement(chance, cube, cubes) for _ in range(chance.choice([1, 1, 1, 2]))]
    return [Ordered(chance, it) for it in cubes]


def files(orders):
    dimensions = list(dict.fromkeys(it for order in orders for it in order.cube.dimensions))
    lines = ["MODEL 2;"] + [line for it in dimensions for line in it.text()]
    for order in orders:
        cube = order.cube
        names = ", ".join(f"'{it.name}'" for it in cube.dimensions)
        lines.append(f"CUBE '{cube.name}' ({names}); RULES '{cube.name.lower()}.rux';")
        lines.append(f"ORDER {', '.join(it.text() for it in order.positions)};")
        lines.append("END;")
    found = {"model.txt": lines}
    for order in orders:
        found[f"{order.cube.name.lower()}.rux"] = [text for text, _, _ in order.cube.statements]
    return found


def is_decided(pairs):
    """Whether one position, or the level, decides for all pairs of numbers and levels of a cell and of what it reads."""
    for q in range(POSITIONS):
        if all(read[0][q] < cell[0][q] for cell, read in pairs):
            return True
        if any(read[0][q] > cell[0][q] for cell, read in pairs):
            return False
    return all(read[1] < cell[1] for cell, read in pairs)


def read_pairs(orders, order, inside, named, kind):
    """The numbers and levels of each cell of this kind, and of what it reads."""
    by_name = {it.cube.name: it for it in orders}
    seen = lambda order, cell: (order.numbers(cell), order.cube.level(cell))
    for cell in order.cube.cells():
        if inside(cell) and order.cube.is_total(cell) == kind and named(cell):
            to, read = named(cell)
            yield seen(order, cell), seen(by_name[to.name], read)


def references(orders):
    for order in orders:
        for s, (_, inside, references) in enumerate(order.cube.statements):
            for r, (kinds, named) in enumerate(references):
                yield order, s + 1, r + 1, [list(read_pairs(orders, order, inside, named, kind)) for kind in kinds]


def wanted(orders):
    """What the program prints, up to what an accepted model counts."""
    lines = files(orders)["model.txt"]
    own = [at + 1 for at, it in enumerate(lines) if it.startswith("ORDER ")]
    for order, line in zip(orders, own):
        if order.is_bad():
            return f"refused model.txt: line {line}: BadOrder"
    for order, s, r, by_kind in references(orders):
        if not all(map(is_decided, by_kind)):
            return f"refused {order.cube.name.lower()}.rux: statement {s}: NotEarlier reference {r}"
    return "accepted"


def is_less_deep(orders):
    """Whether each cell that is read in a model is less deep than the cell that reads it."""
    return all(read < cell for _, _, _, by_kind in references(orders) for pairs in by_kind for cell, read in pairs)


def answer(program, orders):
    with tempfile.TemporaryDirectory() as room:
        for name, lines in files(orders).items():
            Path(room, name).write_text("".join(f"{it}\n" for it in lines))
        ran = subprocess.run([program, "--check", "model.txt"], cwd=room, capture_output=True, text=True)
    return (ran.stdout or ran.stderr).strip()


def cases():
    for n in range(MODELS):
        print(f"run: random model {n} with an order line of its own for consolidated cells\nwords --check model.txt")
        for name, lines in files(made(n)).items():
            print(f"file {name}\n" + "\n".join(f"|{it}" for it in lines))
        print()
    return 0


def main(words):
    if words == ["cases"]:
        return cases()
    wrong, kinds = 0, {}
    for n in range(MODELS):
        orders = made(n)
        if not words:
            said = wanted(orders)
        else:
            said = answer(words[0], orders)
        kind = "accepted" if said.startswith("accepted") else said.split(": ")[-1].split()[0]
        kinds[kind] = kinds.get(kind, 0) + 1
        is_right = said.split(" ")[0] == "accepted" if wanted(orders) == "accepted" else said == wanted(orders)
        if not is_right or (kind == "accepted" and not is_less_deep(orders)):
            wrong += 1
            print(f"model {n}: {said}: wanted {wanted(orders)}")
    print(f"{MODELS} models, {wrong} wrong; {kinds}")
    return 1 if wrong else 0


if __name__ == "__main__":
    sys.exit(main(sys.argv[1:]))
