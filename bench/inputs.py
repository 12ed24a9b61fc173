"""The shapes: models, scripts and command files within the limits that cost much in a careless program.

Each function writes the files of one shape of size n into a folder, and returns the words to call the program with.
"""
import os


def write(folder, **files):
    """Writes files: in their names `_` is a point."""
    for name, text in files.items():
        with open(os.path.join(folder, name.replace("_", ".")), "wb" if isinstance(text, bytes) else "w") as file:
            file.write(text)
    return ["m.txt", "u.txt"]


def leaves(letter, n):
    return "".join(f"N '{letter}{i}';\n" for i in range(1, n + 1))


def total(name, letter, n, weight=""):
    return f"C '{name}': " + ", ".join(f"'{letter}{i}'{weight}" for i in range(1, n + 1)) + ";\n"


def dimension(name, body):
    return f"DIM '{name}';\n{body}END;\n"


def model(*parts):
    return "MODEL 2;\n" + "".join(parts)


# Binding.


def equal_moves(folder, n):
    """n references with the same move, a hundred in each statement, over n elements."""
    m = model(dimension("T", leaves("t", n)), dimension("K", "N 'A'; N 'B';\n"))
    m += "CUBE 'C' ('T', 'K'); RULES 'r.rux'; ORDER 'T'; END;\n"
    one = " + ".join(["DB('C', DIMNM('T', DIMIX('T', !T) - 1), 'A')"] * 100)
    r = "".join(f"['A', 't{i + 1}'] = N: {one};\n" for i in range(min(1000, max(1, n // 100))))
    return write(folder, m_txt=m, r_rux=r, u_txt="GET 'C' ('t3', 'A');\n")


def unmarked_moves(folder, n):
    """The same in formulas for both kinds of cells."""
    m = model(dimension("T", leaves("t", n)), dimension("K", "N 'A'; N 'B';\n"))
    m += "CUBE 'C' ('T', 'K'); RULES 'r.rux'; ORDER 'T'; END;\n"
    one = " + ".join(["DB('C', DIMNM('T', DIMIX('T', !T) - 1), 'A')"] * 100)
    r = "".join(f"['A', 't{i + 1}'] = {one};\n" for i in range(min(1000, max(1, n // 100))))
    return write(folder, m_txt=m, r_rux=r, u_txt="GET 'C' ('t3', 'A');\n")


def wide_area(folder, n):
    """A feeder whose area lists n elements and that has n / 100 targets."""
    names = ", ".join(f"'i{i}'" for i in range(1, n + 1))
    targets = ", ".join(["['S']"] * max(1, n // 100))
    m = model(dimension("I", leaves("i", n)), dimension("K", "N 'U'; N 'S';\n"))
    m += "CUBE 'C' ('I', 'K'); RULES 'r.rux'; ORDER 'K' ('S' 1); END;\n"
    r = f"SKIPCHECK;\n['S'] = N: ['U'];\nFEEDERS;\n['U', {{{names}}}] => {targets};\n['U'] => ['S'];\n"
    return write(folder, m_txt=m, r_rux=r, u_txt="PUT 'C' ('i1', 'U') = 2;\nGET 'C' ('i1', 'S');\n")


def shared_rule_file(folder, n):
    """64 cubes name one rule file of n / 100 statements."""
    m = model(dimension("I", leaves("i", n)), dimension("K", "N 'U'; N 'S';\n"))
    m += "".join(f"CUBE 'C{c}' ('I', 'K'); RULES 'r.rux'; ORDER 'K' ('S' 1); END;\n" for c in range(64))
    r = "".join(f"['S', 'i{i}'] = N: ['U'] * 2;\n" for i in range(1, min(1000, max(1, n // 100)) + 1))
    return write(folder, m_txt=m, r_rux=r, u_txt="GET 'C0' ('i1', 'S');\n")


def attributes(folder, n):
    """n attributes of a name each, and a reference that follows them."""
    m = model(dimension("T", leaves("t", n) + "".join(f"A 't{i}' 'Next' = 't{i % n + 1}';\n" for i in range(1, n + 1))))
    m += dimension("K", "N 'A'; N 'B';\n") + "CUBE 'C' ('T', 'K'); RULES 'r.rux'; ORDER 'K' ('A' 1); END;\n"
    return write(folder, m_txt=m, r_rux="['A'] = N: DB('C', ATTRS('T', !T, 'Next'), 'B');\n", u_txt="GET 'C' ('t1', 'A');\n")


def attribute_moves(folder, n):
    """n / 1,000 references by one attribute, and as many into another dimension of the same names, over n elements."""
    named = "".join(f"A 't{i}' 'Next' = 't{i % n + 1}';\n" for i in range(1, n + 1))
    m = model(dimension("T", leaves("t", n) + named), dimension("U", leaves("t", n)), dimension("K", "N 'A'; N 'B';\n"))
    m += "CUBE 'C' ('T', 'K'); RULES 'r.rux'; ORDER 'K' ('A' 1); END;\nCUBE 'D' ('U', 'K'); END;\n"
    one = "DB('C', ATTRS('T', !T, 'Next'), 'B') + DB('D', !T, 'B')"
    r = "".join(f"['A', 't{i}'] = {one};\n" for i in range(1, max(1, n // 1000) + 1))
    return write(folder, m_txt=m, r_rux=r, u_txt="GET 'C' ('t1', 'A');\n")


# The cover.


def turned_references(folder, n):
    """n / 100 statements of a hundred references each, for a leaf of their own. A feeder is found for each reference."""
    k = max(1, n // 100)
    m = model(dimension("I", leaves("i", max(200, k))), dimension("K", "N 'S';\n" + leaves("u", 100)))
    m += "CUBE 'C' ('K', 'I'); RULES 'r.rux'; ORDER 'K' ('S' 1); END;\n"
    r = "SKIPCHECK;\n"
    for i in range(1, k + 1):
        r += f"['S', 'i{i}'] = N: " + " + ".join(f"['u{j}', 'i{i}']" for j in range(1, 101)) + ";\n"
    return write(folder, m_txt=m, r_rux=r + "FEEDERS AUTO;\n", u_txt="PUT 'C' ('u1', 'i1') = 2;\nGET 'C' ('S', 'i1');\n")


def moved_back(n, feeders):
    """500 statements for n months, each of which reads another measure one to six months before."""
    k = 500
    m = model(dimension("T", leaves("t", n)), dimension("K", leaves("a", k) + leaves("b", k)))
    order = ", ".join(f"'a{i}' 1" for i in range(1, k + 1))
    m += f"CUBE 'C' ('T', 'K'); RULES 'r.rux'; ORDER 'K' ({order}); END;\n"
    r = "SKIPCHECK;\n"
    r += "".join(f"['a{i}'] = N: DB('C', DIMNM('T', DIMIX('T', !T) - {i % 6 + 1}), 'b{i}');\n" for i in range(1, k + 1))
    return dict(m_txt=m, r_rux=r + feeders(k), u_txt="PUT 'C' ('t1', 'b1') = 2;\nGET 'C' ('t3', 'a1');\n")


def lags(folder, n):
    """500 statements for n months, each of which reads another measure one to six months before, and their feeders."""
    def feeders(k):
        one = "".join(f"['b{i}'] => DB('C', DIMNM('T', DIMIX('T', !T) + {i % 6 + 1}), 'a{i}');\n" for i in range(1, k + 1))
        return "FEEDERS;\n" + one

    return write(folder, **moved_back(n, feeders))


def turned_lags(folder, n):
    """The same, where the feeders are found."""
    return write(folder, **moved_back(n, lambda k: "FEEDERS AUTO;\n"))


def listed_source(folder, n):
    """A reference to a total, and a feeder whose area lists each leaf of it."""
    names = ", ".join(f"'i{i}'" for i in range(1, n + 1))
    m = model(dimension("I", leaves("i", n) + total("All", "i", n)), dimension("K", "N 'U'; N 'S';\n"))
    m += "CUBE 'C' ('I', 'K'); RULES 'r.rux'; ORDER 'K' ('S' 1); END;\nSCRIPT 'put' 'put.ti';\n"
    r = f"SKIPCHECK;\n['K': 'S'] = N: ['K': 'U', 'I': 'All'];\nFEEDERS;\n['K': 'U', 'I': {{{names}}}] => ['K': 'S', 'I': 'All'];\n"
    csv = "".join(f"i{i},U,1\n" for i in range(1, n + 1))
    u = "LOAD 'put' FROM 'x.csv';\nGET 'C' ('i1', 'S');\n"
    return write(folder, m_txt=m, r_rux=r, x_csv=csv, put_ti="DATA:\nCellPutN(V3, 'C', V1, V2);\n", u_txt=u)


def climbing_target(folder, n):
    """A feeder whose target is an attribute that names the total from every element."""
    up = "".join(f"A 't{i}' 'Up' = 'All';\n" for i in range(1, n + 1))
    m = model(dimension("T", leaves("t", n) + total("All", "t", n) + up), dimension("K", "N 'U'; N 'S';\n"))
    m += "CUBE 'C' ('T', 'K'); RULES 'r.rux'; ORDER 'K' ('S' 1); END;\n"
    r = "SKIPCHECK;\n['S'] = N: DB('C', ATTRS('T', !T, 'Up'), 'U');\nFEEDERS;\n['U'] => DB('C', ATTRS('T', !T, 'Up'), 'S');\n"
    return write(folder, m_txt=m, r_rux=r, u_txt="PUT 'C' ('t1', 'U') = 2;\nGET 'C' ('All', 'S');\n")


def many_feeders(folder, n):
    """n statements with a C part, of a reference each, and n feeders of which the last covers."""
    m = model(dimension("I", leaves("i", 1000) + total("All", "i", 1000)), dimension("K", "N 'U'; N 'V'; N 'S';\n"))
    m += "CUBE 'C' ('I', 'K'); RULES 'r.rux'; ORDER 'K' ('S' 1); END;\n"
    r = "SKIPCHECK;\n" + "".join(f"['S', 'i{i}'] = N: ['U']; C: ['U'];\n" for i in range(1, n + 1))
    r += "FEEDERS;\n" + "['V'] => ['S'];\n" * (n - 1) + "['U'] => ['S'];\n"
    return write(folder, m_txt=m, r_rux=r, u_txt="GET 'C' ('i1', 'S');\n")


def fed_by_leaf(n, words, last):
    """n / 100 statements of a hundred references each, for a leaf of their own, and a feeder for each of the references.
    These words are elements that no feeder names, and this stands at the end of the last formula."""
    k = max(1, n // 100)
    m = model(dimension("I", leaves("i", max(200, k))), dimension("K", "N 'S';\n" + leaves("u", 100) + words))
    m += "CUBE 'C' ('K', 'I'); RULES 'r.rux'; ORDER 'K' ('S' 1); END;\n"
    one = " + ".join(f"['u{j}']" for j in range(1, 101))
    r = "SKIPCHECK;\n" + "".join(f"['S', 'i{i}'] = N: {one}{last if i == k else ''};\n" for i in range(1, k + 1))
    targets = ", ".join(f"['S', 'i{i}']" for i in range(1, k + 1))
    r += "FEEDERS;\n" + "".join(f"['u{j}'] => {targets};\n" for j in range(1, 101))
    return dict(m_txt=m, r_rux=r, u_txt="PUT 'C' ('u1', 'i1') = 2;\nGET 'C' ('S', 'i1');\n")


def own_feeders(folder, n):
    """n references, each covered by a feeder of its own, whose target names the leaf of the reference's statement."""
    return write(folder, **fed_by_leaf(n, "", ""))


def uncovered_feeders(folder, n):
    """The same with one reference more, the last, which no feeder covers: the model is refused after all were asked for."""
    return write(folder, **fed_by_leaf(n, "N 'v';\n", " + ['v']"))


# The order and deployment.


def long_order(folder, n):
    """n statements of n references, over 100,000 elements, at eight positions."""
    m = model(dimension("T", leaves("t", 100000)), dimension("K", "N 'A'; N 'B';\n"))
    m += "CUBE 'C' ('T', 'K'); RULES 'r.rux'; ORDER 1, 2, 3, 4, 5, 6, 7, 'T'; END;\n"
    one = " + ".join(["DB('C', DIMNM('T', DIMIX('T', !T) - 1), 'A')"] * n)
    return write(folder, m_txt=m, r_rux=f"['A'] = N: {one};\n" * n, u_txt="GET 'C' ('t3', 'A');\n")


# Orders that are found.


def months_behind(folder, n, statements, order="ORDER AUTO 'T';"):
    """A plan of 12 months and n measures with these statements."""
    m = model(dimension("T", leaves("t", 12)), dimension("K", leaves("k", n)))
    m += f"CUBE 'C' ('T', 'K'); RULES 'r.rux'; {order} END;\n"
    return write(folder, m_txt=m, r_rux=statements, u_txt="GET 'C' ('t3', 'k1');\n")


def found_statements(folder, n):
    """n / 100 statements for a measure each, of one reference to the measure before, over n measures."""
    r = "".join(f"['k{i + 1}'] = N: ['k{i}'];\n" for i in range(1, n // 100 + 1))
    return months_behind(folder, n, r)


def found_chain(folder, n):
    """1,000 statements of n / 1,000 references each to measures before their own, over n measures."""
    r = "".join(f"['k{1000 + i}'] = N: " + " + ".join(f"['k{k}']" for k in range(i, i + max(1, n // 1000))) + ";\n" for i in range(1, 1001))
    return months_behind(folder, n, r)


def found_area(folder, n):
    """One statement for n measures, with n / 100 references to measures of the month before and of this one."""
    names = ", ".join(f"'k{i}'" for i in range(n // 2, n + 1))
    r = f"[{{{names}}}] = N: " + " + ".join(f"['k{k}']" for k in range(1, n // 100 + 1)) + ";\n"
    return months_behind(folder, n, r)


def found_shared(folder, n):
    """n statements for all of 100,000 measures, each with the same n / 4 references to another cube."""
    m = model(dimension("T", leaves("t", 12)), dimension("K", leaves("k", 100000)), dimension("X", leaves("x", 1000)))
    m += "CUBE 'C' ('T', 'K'); RULES 'r.rux'; ORDER AUTO 'T'; END;\nCUBE 'D' ('T', 'X'); ORDER AUTO 'T'; END;\n"
    one = " + ".join(f"DB('D', !T, 'x{k}')" for k in range(1, n // 4 + 1))
    return write(folder, m_txt=m, r_rux=f"[] = N: {one};\n" * n, u_txt="GET 'C' ('t3', 'k1');\n")


def found_moves(folder, n):
    """One statement for n / 2 measures, with n / 1,000 references that each move by other places along the measures."""
    names = ", ".join(f"'k{i}'" for i in range(n // 2, n + 1))
    moves = " + ".join(f"DB('C', !T, DIMNM('K', DIMIX('K', !K) - {k}))" for k in range(1, n // 1000 + 1))
    return months_behind(folder, n, f"[{{{names}}}] = N: {moves};\n")


def found_equal_moves(folder, n):
    """n / 125 statements for all of 100,000 measures, of 125 references that each move by two to five places along them."""
    moves = " + ".join(f"DB('C', !T, DIMNM('K', DIMIX('K', !K) - {k % 4 + 2}))" for k in range(125))
    return months_behind(folder, 100000, f"[] = N: {moves};\n" * (n // 125))


def found_circle(folder, n):
    """n / 100 statements of which each reads the measure before, and the first one the last."""
    r = f"['k1'] = N: ['k{n // 100}'];\n" + "".join(f"['k{i + 1}'] = N: ['k{i}'];\n" for i in range(1, n // 100))
    return months_behind(folder, n, r)


# Spreading.


def spread_plan(n, how):
    """A plan of n products under one total, each with a number, over which an amount is spread."""
    m = model(dimension("P", leaves("p", n) + total("All", "p", n)), dimension("K", "N 'U'; N 'V';\n"))
    m += "CUBE 'C' ('P', 'K'); END;\nSCRIPT 'a' 'a.ti';\n"
    a = "DATA:\nCellPutN(StringToNumber(V2), 'C', V1, 'U');\n"
    x = "".join(f"p{i},{i}\n" for i in range(1, n + 1))
    u = f"LOAD 'a' FROM 'x.csv';\nSPREAD 'C' ('All', 'U') = 1000000 {how};\nGET 'C' ('All', 'U');\n"
    return {"m_txt": m, "a_ti": a, "x_csv": x, "u_txt": u}


def spread_equal(folder, n):
    """An amount is spread in equal shares over n cells."""
    return write(folder, **spread_plan(n, "EQUAL"))


def spread_proportional(folder, n):
    """An amount is spread over n cells in proportion to their numbers."""
    return write(folder, **spread_plan(n, "PROPORTIONAL"))


def totals_above_loop(folder, n):
    """n totals stand above one loop, and before it."""
    body = "".join(f"C 'c{i}': 'c{i + 1}', 'c{i + 2}';\n" for i in range(1, n + 1))
    body += f"C 'c{n + 1}': 'c{n + 2}';\nC 'c{n + 2}': 'c{n + 1}';\n"
    return write(folder, m_txt=model(dimension("A", body)), u_txt="")


def cancelling_weights(folder, n):
    """Ten totals of n leaves, and n elements that name all ten with the weight 0."""
    body = leaves("l", n) + "".join(total(f"T{t}", "l", n) for t in range(10))
    body += "".join(f"C 'z{i}': " + ", ".join(f"'T{t}' * 0" for t in range(10)) + ";\n" for i in range(1, n + 1))
    m = model(dimension("A", body), dimension("B", "N 'b';\n"), "CUBE 'C' ('A', 'B'); END;\n")
    return write(folder, m_txt=m, u_txt="PUT 'C' ('l1', 'b') = 1;\nGET 'C' ('z1', 'b');\n")


def dense_leaves(folder, n):
    """A cube with rules and without SKIPCHECK, with a dimension of one leaf and n totals."""
    g = "N 'l';\n" + "".join(f"C 'g{i}': 'l';\n" for i in range(1, n + 1))
    m = model(dimension("A", leaves("a", 300)), dimension("B", leaves("b", 300)), dimension("G", g))
    m += "CUBE 'C' ('A', 'B', 'G'); RULES 'r.rux'; ORDER 'A'; END;\n"
    u = "PUT 'C' ('a2', 'b1', 'l') = 3;\nGET 'C' ('a2', 'b1', 'g1');\n"
    return write(folder, m_txt=m, r_rux="['a1'] = N: 1;\n", u_txt=u)


# Writes.


def continued(folder, n):
    """One cell that n statements govern, each of n primaries, which all continue; it is put 1,000 times."""
    m = model(dimension("T", leaves("t", 10)), dimension("K", "N 'A'; N 'B';\n"))
    m += "CUBE 'C' ('T', 'K'); RULES 'r.rux'; ORDER 'K' ('A' 1); END;\n"
    test = " + ".join(["['B']"] * (n - 4))
    r = f"['A'] = N: IF({test} > 1, 1, CONTINUE);\n" * n
    return write(folder, m_txt=m, r_rux=r, u_txt="PUT 'C' ('t1', 'A') = 2;\n" * 1000)


def plan(n, text):
    """A plan of n / 10 products in which Units feed Sales, with the records of n of its cells."""
    k = max(10, n // 10)
    m = model(dimension("P", leaves("p", k) + total("All", "p", k)), dimension("M", leaves("m", 12) + total("Year", "m", 12)))
    m += dimension("K", "N 'Units'; N 'Price'; N 'Sales';\n")
    m += "CUBE 'C' ('P', 'M', 'K'); RULES 'r.rux'; ORDER 'K' ('Sales' 1); END;\nSCRIPT 'put' 'put.ti'; SCRIPT 's' 's.ti';\n"
    r = "SKIPCHECK;\n['Sales'] = N: ['Units'] * ['Price'];\nFEEDERS;\n['Units'] => ['Sales'];\n"
    csv = "".join(f"p{i % k + 1},m{i // k % 12 + 1},Units,{i % 90 + 1}\n" for i in range(k * 10))
    put = "DATA:\nCellPutN(V4, 'C', V1, V2, V3);\n"
    return dict(m_txt=m, r_rux=r, x_csv=csv, put_ti=put, s_ti="DATA:\n" + text)


def puts_of_0(folder, n):
    """Each stored cell is put to 0, one after another, in a model with feeders."""
    k = max(10, n // 10)
    u = "LOAD 'put' FROM 'x.csv';\n"
    u += "".join(f"PUT 'C' ('p{i % k + 1}', 'm{i // k + 1}', 'Units') = 0;\n" for i in range(k * 10))
    return write(folder, u_txt=u + "GET 'C' ('All', 'Year', 'Sales');\n", **plan(n, ""))


def overfed_total(folder, n):
    """Each of n stored cells feeds the total of two dimensions."""
    k = max(2, int(n**0.5))
    m = model(dimension("P", leaves("p", k) + total("All", "p", k)), dimension("Q", leaves("q", k) + total("Any", "q", k)))
    m += dimension("K", "N 'Units'; N 'Sales';\n")
    m += "CUBE 'C' ('P', 'Q', 'K'); RULES 'r.rux'; ORDER 'K' ('Sales' 1); END;\nSCRIPT 'put' 'put.ti';\n"
    r = "SKIPCHECK;\n['Sales'] = N: ['Units'] * 2;\nFEEDERS;\n['Units'] => ['Sales', 'P': 'All', 'Q': 'Any'];\n"
    csv = "".join(f"p{i % k + 1},q{i // k + 1},Units,1\n" for i in range(k * k))
    u = "LOAD 'put' FROM 'x.csv';\nGET 'C' ('All', 'Any', 'Sales');\n"
    return write(folder, m_txt=m, r_rux=r, x_csv=csv, put_ti="DATA:\nCellPutN(V4, 'C', V1, V2, V3);\n", u_txt=u)


def priced_plan(n, puts):
    """A plan in which n / 2 Units and as many prices are stored, and as many Sales are fed, and then 1,000 puts."""
    k = max(100, n // 20)
    m = model(dimension("P", leaves("p", k) + total("All", "p", k)), dimension("M", leaves("m", 10) + total("Year", "m", 10)))
    m += dimension("K", "N 'Units'; N 'Price'; N 'Sales';\n")
    m += "CUBE 'C' ('P', 'M', 'K'); RULES 'r.rux'; ORDER 'K' ('Sales' 1); END;\nSCRIPT 'put' 'put.ti';\n"
    r = "SKIPCHECK;\n['Sales'] = N: ['Units'] * ['Price'];\nFEEDERS;\n['Units'] => ['Sales'];\n"
    csv = "".join(f"p{i % k + 1},m{i // k + 1},{w},{i % 90 + 1}\n" for w in ("Units", "Price") for i in range(k * 10))
    u = "LOAD 'put' FROM 'x.csv';\n"
    u += "".join(f"PUT 'C' ('p{i * 37 % k + 1}', 'm{i % 10 + 1}', 'Units') = {puts(i)};\n" for i in range(1000))
    return dict(m_txt=m, r_rux=r, x_csv=csv, put_ti="DATA:\nCellPutN(V4, 'C', V1, V2, V3);\n", u_txt=u)


def puts(folder, n):
    """1,000 stored cells are put to other numbers, where n cells are stored and n / 2 fed."""
    return write(folder, **priced_plan(n, lambda i: i + 7))


def zeros(folder, n):
    """1,000 stored cells are put to 0, where n cells are stored and n / 2 fed."""
    return write(folder, **priced_plan(n, lambda i: 0))


def opened_total(folder, n):
    """n stored cells feed one total of 4,000,000 leaf cells."""
    k = 2000
    m = model(dimension("P", leaves("p", k) + total("All", "p", k)), dimension("Q", leaves("q", k) + total("Any", "q", k)))
    m += dimension("K", "N 'Units'; N 'Sales';\n")
    m += "CUBE 'C' ('P', 'Q', 'K'); RULES 'r.rux'; ORDER 'K' ('Sales' 1); END;\nSCRIPT 'put' 'put.ti';\n"
    r = "SKIPCHECK;\n['Sales'] = N: ['Units'] * 2;\nFEEDERS;\n['Units'] => ['Sales'];\n['Units'] => ['Sales', 'P': 'All', 'Q': 'Any'];\n"
    csv = "".join(f"p{i % k + 1},q{i // k + 1},Units,1\n" for i in range(n))
    u = "LOAD 'put' FROM 'x.csv';\n"
    return write(folder, m_txt=m, r_rux=r, x_csv=csv, put_ti="DATA:\nCellPutN(V4, 'C', V1, V2, V3);\n", u_txt=u)


def opened_zeros(folder, n):
    """Ten of n stored cells that feed one total of 4,000,000 leaf cells are put to 0, so that all fed cells are found anew."""
    words = opened_total(folder, n)
    with open(f"{folder}/u.txt", "a") as file:
        file.write("".join(f"PUT 'C' ('p{i + 1}', 'q1', 'Units') = 0;\n" for i in range(10)))
    return words


# Loads.


def clearing_load(folder, n):
    """A load puts n cells of a model with feeders, and another clears them."""
    u = "LOAD 'put' FROM 'x.csv';\nLOAD 's' FROM 'x.csv';\nGET 'C' ('All', 'Year', 'Sales');\n"
    return write(folder, u_txt=u, **plan(n, "CellPutN(0, 'C', V1, V2, V3);\n"))


def adding_load(folder, n):
    """Two loads of n records add to the same cells of a model with feeders."""
    u = "LOAD 's' FROM 'x.csv';\nLOAD 's' FROM 'x.csv';\nGET 'C' ('All', 'Year', 'Sales');\n"
    return write(folder, u_txt=u, **plan(n, "CellIncrementN(V4, 'C', V1, V2, V3);\n"))


def paired_load(folder, n):
    """A load adds a number to n cells and takes it away again."""
    pair = "CellIncrementN(V4, 'C', V1, V2, V3);\nCellIncrementN(-V4, 'C', V1, V2, V3);\n"
    u = "LOAD 's' FROM 'x.csv';\nGET 'C' ('All', 'Year', 'Sales');\n"
    return write(folder, u_txt=u, **plan(n, pair))


def faulty_records(folder, n):
    """Every second of n records is at fault, when it has written a cell and read one that a rule governs."""
    text = "CellPutN(V4, 'C', V1, V2, V3);\nx = CellGetN('C', V1, V2, 'Sales');\n"
    text += "IF (MOD(NUMBR(V4), 2) = 0);\nCellPutN(1, 'C', 'All', V2, V3);\nENDIF;\n"
    u = "LOAD 's' FROM 'x.csv' REJECTS 1000000;\nGET 'C' ('All', 'Year', 'Sales');\n"
    return write(folder, u_txt=u, **plan(n, text))


def faulty_variables(folder, n):
    """Each record sets n variables and is at fault then, until the statements of a load are used up."""
    s = "DATA:\n" + "".join(f"x{i} = {i};\n" for i in range(n)) + "CellPutN(1, 'C', 'none', 'A');\n"
    return write(folder, m_txt=SMALL, s_ti=s, x_csv="1\n" * (1000000 // (n + 1)), u_txt="LOAD 's' FROM 'x.csv' REJECTS 1000000;\n")


def large_plan(folder, n):
    """A load of n records, each of which feeds a cell, in a model of 9,600,000 cells."""
    k = 100000
    m = model(dimension("P", leaves("p", k)), dimension("T", leaves("t", 12)))
    m += dimension("K", "N 'Units'; N 'Sales';\n" + leaves("k", 6))
    m += "CUBE 'C' ('P', 'T', 'K'); RULES 'r.rux'; ORDER 'K' ('Sales' 1); END;\nSCRIPT 'put' 'put.ti';\n"
    r = "SKIPCHECK;\n['Sales'] = N: ['Units'] * 2;\nFEEDERS;\n['Units'] => ['Sales'];\n"
    csv = "".join(f"p{i // 8 + 1},t{i % 8 + 1},Units,{i % 97 + 1}\n" for i in range(n))
    u = "LOAD 'put' FROM 'x.csv';\nGET 'C' ('p1', 't1', 'Sales');\n"
    return write(folder, m_txt=m, r_rux=r, x_csv=csv, put_ti="DATA:\nCellPutN(V4, 'C', V1, V2, V3);\n", u_txt=u)


def plain_increments(folder, n):
    """A load of n records adds to cells of a cube without rules."""
    k = max(2, n // 10)
    m = model(dimension("I", leaves("i", k)), dimension("J", leaves("j", 10)))
    m += "CUBE 'C' ('I', 'J'); END;\nSCRIPT 's' 's.ti';\n"
    csv = "".join(f"i{i % k + 1},j{i // k + 1},1\n" for i in range(k * 10))
    return write(folder, m_txt=m, s_ti="DATA:\nCellIncrementN(V3, 'C', V1, V2);\n", x_csv=csv, u_txt="LOAD 's' FROM 'x.csv';\n")


def equal_loads(folder, n):
    """n loads of one file of 1,000 records."""
    m = model(dimension("T", leaves("t", 1000)), dimension("K", "N 'A';\n"), "CUBE 'C' ('T', 'K'); END;\nSCRIPT 's' 's.ti';\n")
    csv = "".join(f"t{i},A,{i}\n" for i in range(1, 1001))
    return write(folder, m_txt=m, s_ti="DATA:\nItemSkip;\n", x_csv=csv, u_txt="LOAD 's' FROM 'x.csv';\n" * n)


SMALL = model(dimension("T", leaves("t", 3)), dimension("K", "N 'A';\n"), "CUBE 'C' ('T', 'K'); END;\nSCRIPT 's' 's.ti';\n")


def variables(folder, n):
    """A script sets n variables, once each; it is loaded twice."""
    return write(folder, m_txt=SMALL, s_ti="PROLOG:\n" + "".join(f"x{i} = {i};\n" for i in range(n)), u_txt="LOAD 's';\n" * 2)


def parameters(folder, n):
    """A load sets n parameters."""
    words = ", ".join(f"x{i} = {i}" for i in range(n))
    return write(folder, m_txt=SMALL, s_ti="PROLOG:\nIF (x1 = 1);\nENDIF;\n", u_txt=f"LOAD 's' WITH {words};\n")


def joins(folder, n):
    """A script doubles a text n times."""
    s = f"PROLOG:\nx = 'a';\ni = 0;\nWHILE (i < {n});\nx = x | x;\ni = i + 1;\nEND;\n"
    return write(folder, m_txt=SMALL, s_ti=s, u_txt="LOAD 's';\n")


# Reading.


def recurrence(folder, n):
    """A value of a month reads two values of the month before, whose slots of a memory meet."""
    m = model(dimension("T", leaves("t", n)), dimension("K", "N 'A'; N 'B';\n"), dimension("Z", leaves("z", 2048)))
    m += "CUBE 'C' ('T', 'K', 'Z'); RULES 'r.rux'; ORDER 'T'; END;\n"
    before = "DB('C', DIMNM('T', DIMIX('T', !T) - 1), '{}', !Z)"
    r = f"{before.format('A')} + {before.format('B')} + 1;\n"
    return write(folder, m_txt=m, r_rux=f"['A'] = N: {r}['B'] = N: {r}", u_txt=f"GET 'C' ('t{n}', 'A', 'z1');\n")


def stock(folder, n):
    """A stock that n months carry over: its year, and the whole view."""
    m = model(dimension("T", leaves("t", n) + total("All", "t", n)), dimension("K", "N 'Opening'; N 'In'; N 'Closing';\n"))
    m += "CUBE 'C' ('T', 'K'); RULES 'r.rux'; ORDER 'T', 'K' ('Opening' 1, 'Closing' 2); END;\n"
    r = "SKIPCHECK;\n['Opening'] = N: DB('C', DIMNM('T', DIMIX('T', !T) - 1), 'Closing');\n['Closing'] = N: ['Opening'] + ['In'];\n"
    r += "FEEDERS;\n['In'] => ['Closing'];\n['Opening'] => ['Closing'];\n['Closing'] => DB('C', DIMNM('T', DIMIX('T', !T) + 1), 'Opening');\n"
    u = "PUT 'C' ('t1', 'In') = 1;\nGET 'C' ('All', 'Closing');\nVIEW 'C' ROWS 'T' COLUMNS 'K';\n"
    return write(folder, m_txt=m, r_rux=r, u_txt=u)


def wide_formula(folder, n):
    """One formula of n references to cells that another statement governs."""
    m = model(dimension("T", leaves("t", n + 1)), dimension("K", "N 'A'; N 'B';\n"))
    m += "CUBE 'C' ('T', 'K'); RULES 'r.rux'; ORDER 'K' ('A' 1); END;\n"
    r = "['A', 't1'] = N: " + " + ".join(f"['t{i}', 'B']" for i in range(1, n + 1)) + ";\n['B'] = N: 1 + 1;\n"
    return write(folder, m_txt=m, r_rux=r, u_txt="VIEW 'C' ROWS 'T' COLUMNS 'K';\n")


def ruled_total(folder, n):
    """A total over the ruled cells that n stored cells feed, asked twice."""
    u = "LOAD 'put' FROM 'x.csv';\nGET 'C' ('All', 'Year', 'Sales');\nGET 'C' ('All', 'Year', 'Sales');\n"
    return write(folder, u_txt=u, **plan(n, ""))


def traced_total(folder, n):
    """n cells are loaded, and their total is traced."""
    return write(folder, u_txt="LOAD 'put' FROM 'x.csv';\nTRACE 'C' ('All', 'Year', 'Units');\n", **plan(n, ""))


def empty_axis(folder, n):
    """A view whose rows are n by n, and whose columns have no element."""
    m = model(dimension("A", leaves("a", n)), dimension("B", leaves("b", n)), dimension("E", ""), "CUBE 'C' ('A', 'B', 'E'); END;\n")
    return write(folder, m_txt=m, u_txt="VIEW 'C' ROWS 'A' BY 'B' COLUMNS 'E' NOZEROS;\n")


def many_views(folder, n):
    """n views of 10,000 cells."""
    m = model(dimension("A", leaves("a", 100)), dimension("B", leaves("b", 100)), "CUBE 'C' ('A', 'B'); END;\n")
    return write(folder, m_txt=m, u_txt="VIEW 'C' ROWS 'A' COLUMNS 'B';\n" * n)


# Explanations.


def noted_references(folder, n):
    """n references that name nothing, up to 100 in each statement: each has a note."""
    m = model(dimension("T", leaves("t", 4)), dimension("I", leaves("i", max(1, n // 100))), dimension("K", "N 'A'; N 'B';\n"))
    m += "CUBE 'C' ('T', 'I', 'K'); RULES 'r.rux'; ORDER 'T'; END;\n"
    one = " + ".join(["DB('C', DIMNM('T', DIMIX('T', !T) - 9), !I, 'A')"] * 100)
    r = "".join(f"['A', 'i{i}'] = N: {one};\n" for i in range(1, max(1, n // 100) + 1))
    write(folder, m_txt=m, r_rux=r)
    return ["--explain", "m.txt"]


def noted_elements(folder, n):
    """n consolidated elements without components: each has a note."""
    m = model(dimension("T", "".join(f"C 't{i}';\n" for i in range(1, n + 1))), dimension("K", "N 'A'; N 'B';\n"))
    write(folder, m_txt=m + "CUBE 'C' ('T', 'K'); END;\n")
    return ["--explain", "m.txt"]


def near_areas(folder, n):
    """1,000 statements for n / 1,000 elements each, all but the last of which are those of the others."""
    own = n // 1000
    m = model(dimension("I", leaves("i", own + 1000)), dimension("K", "N 'A'; N 'B';\n"))
    m += "CUBE 'C' ('I', 'K'); RULES 'r.rux'; ORDER 'K' ('A' 1); END;\n"
    same = ", ".join(f"'i{i}'" for i in range(1, own))
    r = "".join(f"['A', {{{same}, 'i{own + s}'}}] = N: ['B'];\n" for s in range(1, 1001))
    write(folder, m_txt=m, r_rux=r)
    return ["--explain", "m.txt"]


def late_reference(folder, n):
    """1,000 statements for all of n elements; the last reads a cell that comes late."""
    m = model(dimension("T", leaves("t", n)), dimension("K", "".join(f"N 'K{k}';\n" for k in range(1001))))
    m += "CUBE 'C' ('T', 'K'); RULES 'r.rux'; ORDER 'T'; END;\n"
    r = "".join(f"['K{s}'] = N: DB('C', DIMNM('T', DIMIX('T', !T) - 1), 'K0');\n" for s in range(1, 1000))
    r += "['K1000'] = N: DB('C', DIMNM('T', DIMIX('T', !T) + 1), 'K0');\n"
    write(folder, m_txt=m, r_rux=r)
    return ["--explain", "m.txt"]


# Texts and files.


def semicolons(folder, n):
    """A command file of n bytes, wrong at its first."""
    m = model(dimension("A", leaves("a", 3)), dimension("B", leaves("b", 3)), "CUBE 'C' ('A', 'B'); END;\n")
    return write(folder, m_txt=m, u_txt=";" * n)


def semicolon_model(folder, n):
    """A model of n bytes, wrong at its first."""
    return write(folder, m_txt=b";" * n, u_txt="")


def semicolon_rules(folder, n):
    """A rule file of n bytes, wrong at its first."""
    m = model(dimension("A", leaves("a", 3)), dimension("B", leaves("b", 3)), "CUBE 'C' ('A', 'B'); RULES 'r.rux'; END;\n")
    return write(folder, m_txt=m, r_rux=b";" * n, u_txt="")


def semicolon_script(folder, n):
    """A script of n bytes, wrong at its first."""
    return write(folder, m_txt=SMALL, s_ti=b";" * n, u_txt="")


def load_files(folder, n):
    """n loads, each of a file of its own."""
    for i in range(n):
        write(folder, **{f"x{i}_csv": ""})
    u = "".join(f"LOAD 's' FROM 'x{i}.csv';\n" for i in range(n))
    return write(folder, m_txt=SMALL, s_ti="DATA:\nItemSkip;\n", u_txt=u)


def endless_model(folder, n):
    write(folder, u_txt="")
    return ["/dev/zero", "u.txt"]


def endless_rules(folder, n):
    return write(folder, m_txt=SMALL.replace("END;\nSCRIPT", "RULES '/dev/zero';\nEND;\nSCRIPT"), u_txt="")


def endless_script(folder, n):
    return write(folder, m_txt=SMALL.replace("'s.ti'", "'/dev/zero'"), u_txt="")


def endless_commands(folder, n):
    write(folder, m_txt=SMALL, s_ti="DATA:\nItemSkip;\n")
    return ["m.txt", "/dev/zero"]


# Each kind of text, where its file has no end.
ENDLESS = {"model": endless_model, "rules": endless_rules, "script": endless_script, "commands": endless_commands}

# Each shape with its full size. Half and a quarter of it are measured too.
SHAPES = [
    (equal_moves, 100000), (unmarked_moves, 100000), (wide_area, 90000), (shared_rule_file, 100000), (attributes, 100000),
    (attribute_moves, 100000),
    (listed_source, 90000), (climbing_target, 90000), (many_feeders, 1000), (own_feeders, 100000), (uncovered_feeders, 100000),
    (turned_references, 100000), (lags, 99000), (turned_lags, 99000),
    (long_order, 900), (found_statements, 99000), (found_chain, 99000), (found_area, 90000), (found_moves, 90000), (found_equal_moves, 1000),
    (found_shared, 1000), (found_circle, 99000),
    (spread_equal, 99000), (spread_proportional, 99000), (totals_above_loop, 90000), (cancelling_weights, 50000), (dense_leaves, 90000),
    (continued, 900), (puts_of_0, 30000), (puts, 800000), (zeros, 800000), (opened_total, 100000), (opened_zeros, 100000), (overfed_total, 1000000),
    (clearing_load, 100000), (adding_load, 100000), (paired_load, 100000), (faulty_records, 100000), (faulty_variables, 100000), (large_plan, 800000), (plain_increments, 1000000), (equal_loads, 2000),
    (variables, 100000), (parameters, 100000), (joins, 40),
    (recurrence, 240), (stock, 20000), (wide_formula, 900), (ruled_total, 800000), (traced_total, 800000), (empty_axis, 90000), (many_views, 2000),
    (noted_references, 16000), (noted_elements, 100000), (near_areas, 1000000), (late_reference, 65000),
    (semicolons, 100000000), (semicolon_model, 2**30), (semicolon_rules, 100000000), (semicolon_script, 100000000), (load_files, 65000),
]
