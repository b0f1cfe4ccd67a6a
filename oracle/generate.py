"""Writes the scripts of the comparison: short inputs exhaustively, long ones at random around every boundary, and
damaged copies of good ones. The same seed gives the same scripts.

    python3 generate.py FOLDER [SEED [SIZE]]

SIZE multiplies the number of random lines; 1 is the default.
"""

import itertools
import os
import random
import sys

TOP = 2**64 - 1
MODULUS = 2013265921
KINDS = {"residue": 1, "word": 1, "pair-residue": 2, "pair-word": 2, "pair-pair-residue": 4, "pair-pair-word": 4}
EDGES = [0, 1, 2, 3, 4, 5, 7, 8, 63, 64, 65, 127, 128, 255, 256, 257, 4095, 4096, 2**31 - 1, 2**31, 2**32 - 1, 2**32,
         2**32 + 1, 2**62, 2**63 - 1, 2**63, 2**63 + 1, 2**64 - 2, TOP]
COORDINATES = [0, 1, 2, 3, MODULUS - 1, MODULUS, MODULUS + 1, 2 * MODULUS, 2**32 - 1, 2**32, 2**63, TOP]


class Writer:
    """One script; `of` draws at random, from the seed and the script's own name."""

    def __init__(self, folder, name, seed, size):
        self.path = os.path.join(folder, name + ".script")
        self.random = random.Random(f"{seed} {name}")
        self.size = size
        self.lines = []

    def say(self, *words):
        self.lines.append(" ".join(map(str, words)))

    def close(self):
        with open(self.path, "w") as file:
            file.write("\n".join(self.lines) + "\n")
        return len(self.lines)

    def times(self, count):
        return range(max(1, int(count * self.size)))

    def kind(self):
        return self.random.choice(list(KINDS))

    def chance(self, probability):
        return self.random.random() < probability

    def number(self):
        """A number at or beside an edge, or any."""
        draw = self.random.random()
        if draw < 0.7:
            return self.random.choice(EDGES)
        if draw < 0.9:
            return min(TOP, max(0, 2**self.random.randrange(64) + self.random.choice([-1, 0, 1])))
        return self.random.getrandbits(64)

    def coordinate(self):
        return self.random.choice(COORDINATES) if self.chance(0.5) else self.random.getrandbits(64)

    def cells(self, kind, count):
        return joined(self.coordinate() for _ in range(KINDS[kind] * count))

    def room(self, required):
        """A length around the required one: exact, one short, longer, none."""
        return max(0, required + self.random.choice([0, 0, 0, 0, -1, 1, 3, -required]))

    def buffer(self, kind, required):
        room = KINDS[kind] * self.room(required)
        return f"9*{room}" if room else "-"


def joined(numbers):
    return ",".join(map(str, numbers)) or "-"


def heights_up_to(columns, tallest):
    for count in range(columns + 1):
        yield from itertools.product(range(tallest + 1), repeat=count)


# ---- ring kinds: these hold two readings of the rules against each other, and not the original ----

def ring(w):
    for kind, width in KINDS.items():
        for call in ("byte_length", "zero", "one"):
            w.say(call, kind)
        for truth in ("true", "false", "1", "True"):
            w.say("from_bool", kind, truth)
        for edge in COORDINATES:
            for other in COORDINATES:
                a = joined([edge] + [other] * (width - 1))
                b = joined([other] * (width - 1) + [edge])
                for call in ("plus", "minus", "times", "equal"):
                    w.say(call, kind, a, b)
            w.say("read", kind, (edge.to_bytes(8, "big") * width).hex())
        for room in range(8 * width + 3):
            w.say("encode", kind, w.cells(kind, 1), room)
            w.say("read", kind, "00" * room if room else "-")
    for _ in w.times(6000):
        kind = w.kind()
        call = w.random.choice(["plus", "minus", "times", "times", "equal"])
        w.say(call, kind, w.cells(kind, 1), w.cells(kind, 1))
    for _ in w.times(2000):
        kind = w.kind()
        found = b"".join(w.coordinate().to_bytes(8, "big") for _ in range(KINDS[kind]))
        w.say("read", kind, found.hex())
        w.say("encode", kind, w.cells(kind, 1), w.room(8 * KINDS[kind]))


# ---- layouts ----

def asked_layout(w, slot, columns):
    w.say("show", slot)
    required = 32 + 8 * columns
    w.say("encode_layout", slot, w.room(required))


def layouts_small(w):
    for heights in heights_up_to(4, 3):
        for rows in range(3):
            w.say("new", "a", rows, joined(heights))
            asked_layout(w, "a", max(1, len(heights)))
            for minimum in range(4):
                w.say("with_min_dense_variables", "b", rows, joined(heights), minimum)
                asked_layout(w, "b", max(1, len(heights)))
            for column in range(len(heights) + 2):
                w.say("column_height", "b", column)


def edge_height(w, rows):
    bound = 2**min(rows, 63)
    near = [0, 1, bound - 1, bound, bound + 1, bound // 2, bound // 2 + 1]
    return min(TOP, w.random.choice(near) if w.chance(0.8) else w.number())


def layouts_edges(w):
    counts = [0, 1, 1, 1, 2, 2, 3, 4, 4, 5, 7, 8, 9, 16, 31, 32, 64, 127, 128, 255, 256, 256, 257, 300, 511, 512, 512,
              513, 1024]
    for _ in w.times(9000):
        rows = w.random.choice([0, 1, 2, 3, 5, 8, 31, 32, 33, 61, 62, 63, 63, 63, 64, 65, 2**31, 2**32 - 1, 2**32, TOP])
        count = w.random.choice(counts)
        if w.chance(0.3):
            heights = f"{edge_height(w, rows)}*{count}" if count else "-"
        else:
            few = [edge_height(w, rows) for _ in range(w.random.choice([1, 1, 2, 3]))]
            heights = joined(w.random.choice(few) if w.chance(0.4) else 0 for _ in range(count))
        slot = w.random.choice("abcde")
        if w.chance(0.4):
            w.say("new", slot, rows, heights)
        else:
            minimum = w.random.choice([0, 1, 5, 32, 62, 63, 63, 64, 65, 2**32, TOP])
            w.say("with_min_dense_variables", slot, rows, heights, minimum)
        asked_layout(w, slot, w.random.choice([count or 1, 1, 256]))
        w.say("column_height", slot, w.random.choice([0, count - 1 if count else 0, count, w.number()]))


# ---- tables ----

def tables_small(w):
    alphabet = ["dense:0:0", "dense:0:1", "dense:1:2", f"dense:0:{TOP}", "interleaved:0:3:1:1:2", "bits:0:1:3",
                "chunked:0:0", "chunked:1:0", "chunked:1:1", "chunked:1:2", "chunked:2:0", "chunked:2:1",
                f"chunked:1:{TOP}", "chunked:3:0", "chunked:2:2"]
    for count in range(4):
        for records in itertools.product(alphabet, repeat=count):
            table = ";".join(records) or "-"
            for sources in range(3):
                w.say("height", table, sources, max(0, sources - 1))
                w.say("pass", table, sources, 0)
                w.say("heights", table, sources, f"7*{w.random.choice([sources, sources + 1, max(0, sources - 1)])}")
            w.say("check_order", table, w.random.randrange(5))
            if w.chance(0.3):
                w.say("piece_height", table, w.number())


class Rows:
    """A column's record and the records of its chunks, and how many rows it has."""

    def __init__(self, w, kinds, cells, words, depth, most):
        self.w, self.kinds, self.cells, self.words = w, kinds, cells, words
        self.tree, self.height = self.grow(depth, most)

    def grow(self, depth, most):
        kind = self.w.random.choice(self.kinds if depth else [k for k in self.kinds if k != "chunked"])
        if kind == "chunked":
            parts = [self.grow(depth - 1, most) for _ in range(self.w.random.choice([0, 1, 1, 2, 2, 3]))]
            return ("chunked", [tree for tree, _ in parts]), sum(height for _, height in parts)
        return getattr(self, kind)(most)

    def some(self, most):
        """A count up to the most: often all, seldom none."""
        return self.w.random.choice([0, most, most, self.w.random.randint(0, most), self.w.random.randint(0, most)])

    def dense(self, most):
        place = self.cells - self.some(self.cells)
        height = self.some(min(most, self.cells - place))
        return f"dense:{place}:{height}", height

    def interleaved(self, most):
        place = self.cells - self.some(self.cells)
        length = self.some(self.cells - place)
        if not length or self.w.chance(0.1):
            return f"interleaved:{place}:{length}:{self.w.number()}:{self.w.number()}:0", 0
        first = self.w.random.randrange(length) // 2
        stride = self.w.random.randint(1, max(1, length // 2))
        height = self.some(min(most, (length - 1 - first) // stride + 1))
        if height == 1 and self.w.chance(0.3):
            stride = max(1, self.w.number())
        return f"interleaved:{place}:{length}:{first}:{stride}:{height}", height

    def bits(self, most):
        place = self.words - self.some(self.words)
        words = self.some(self.words - place)
        return f"bits:{place}:{words}:{(height := self.some(min(most, 64 * words)))}", height


def flattened(trees):
    """The table of nested trees: the columns, then the run of each chunk in the order of the chunks."""
    records, waiting, place = [], list(trees), 0
    while place < len(waiting):
        tree = waiting[place]
        if isinstance(tree, tuple):
            records.append(f"chunked:{len(waiting)}:{len(tree[1])}")
            waiting += tree[1]
        else:
            records.append(tree)
        place += 1
    return records


def trace(w, kind):
    """A good input of `read_columns`: the layout's line, and the call's words."""
    columns = w.random.choice([1, 1, 2, 2, 4, 4, 8, 16])
    cells, words = w.random.randint(0, 12), w.random.randint(0, 3)
    kinds = w.random.choice([["dense"], ["interleaved", "dense"], ["bits", "dense"], ["chunked", "dense", "bits"],
                             ["dense", "interleaved", "bits", "chunked", "chunked"]])
    most = w.random.choice([3, 6, 70])
    grown = [Rows(w, kinds, cells, words, w.random.choice([0, 1, 2, 4]), most) for _ in range(columns)]
    heights = [rows.height for rows in grown]
    rows = max(max(heights) - 1, 0).bit_length() + w.random.choice([0, 0, 1, 3])
    minimum = w.random.choice([0, 0, 0, 1, 3, 6])
    capacity = max(2**minimum, 2**max(sum(heights) - 1, 0).bit_length())
    layout = ("with_min_dense_variables", "t", min(rows, 63), joined(heights), minimum)
    records = flattened([r.tree for r in grown])
    call = ["read_columns", kind, "t", ";".join(records), columns, w.cells(kind, cells),
            joined(w.random.getrandbits(64) for _ in range(words)), w.buffer(kind, capacity)]
    return layout, call, heights


def damaged_records(w, table):
    records = [] if table == "-" else table.split(";")
    if not records:
        return "dense:0:0"
    place = w.random.randrange(len(records))
    draw = w.random.random()
    if draw < 0.55:
        kind, *fields = records[place].split(":")
        field = w.random.randrange(len(fields))
        number = int(fields[field])
        fields[field] = str(w.random.choice([w.number(), max(0, number - 1), min(TOP, number + 1), 0]))
        records[place] = ":".join([kind] + fields)
    elif draw < 0.7:
        del records[place]
    elif draw < 0.85:
        records.insert(place, records[w.random.randrange(len(records))])
    else:
        records[place] = w.random.choice(["dense:0:0", "dense:0:1", "bits:0:0:0", f"bits:0:0:{2**63}",
                                          "interleaved:0:0:0:0:0", "interleaved:0:1:0:0:1",
                                          f"interleaved:0:1:0:{2**63}:3", f"interleaved:0:1:{TOP}:1:1",
                                          f"chunked:{len(records)}:0", f"chunked:{place}:1"])
    return ";".join(records) or "-"


def damaged(w, call):
    """The call with one argument changed."""
    call = list(call)
    place = w.random.choice([3, 3, 3, 3, 4, 5, 6, 7])
    if place == 3:
        call[3] = damaged_records(w, call[3])
        if w.chance(0.2):
            call[3] = damaged_records(w, call[3])
    elif place == 4:
        call[4] = w.random.choice([call[4] + 1, max(0, call[4] - 1), w.number()])
    elif place == 7:
        call[7] = w.buffer(call[1], w.random.choice([0, 1, 2, 4, 8]))
    else:
        width = KINDS[call[1]] if place == 5 else 1
        entries = [] if call[place] == "-" else call[place].split(",")
        call[place] = joined(entries[:-width] if w.chance(0.7) else entries + ["5"] * width)
    return call


def asked_table(w, call, heights):
    table, sources = call[3], call[4]
    w.say("height", table, sources, w.random.randrange(len(heights) + 1))
    w.say("pass", table, sources, w.random.randrange(len(heights)))
    room = w.room(len(heights))
    w.say("heights", table, sources, f"7*{room}")
    if w.chance(0.3):
        w.say("check_order", table, sources)


def reads(w):
    for _ in w.times(8000):
        kind = w.kind()
        layout, call, heights = trace(w, kind)
        w.say(*layout)
        w.say(*call)
        if w.chance(0.5):
            asked_table(w, call, heights)
        for _ in range(2):
            worse = damaged(w, call)
            w.say(*worse)
            if w.chance(0.3):
                asked_table(w, worse, heights)
        if w.chance(0.15):
            damaged_layout = list(layout)
            tall = [max(0, h + w.random.choice([0, 0, -1, 1])) for h in heights]
            damaged_layout[2:4] = [63, joined(tall)]
            w.say(*damaged_layout)
            w.say(*call)
        if w.chance(0.1):
            other = (heights * 2 if w.chance(0.5) else heights[:max(1, len(heights) // 2)])
            w.say("new", "t", 63, joined(other))
            w.say(*call)


def reads_wide(w):
    """Many columns, deep chunks, empty chunks, layouts of no memory."""
    for _ in w.times(40):
        kind = w.kind()
        count = w.random.choice([32, 64, 128, 256])
        heights = [w.random.choice([0, 1, 2]) for _ in range(count)]
        w.say("new", "t", 1, joined(heights))
        capacity = 2**max(sum(heights) - 1, 0).bit_length()
        table = ";".join(f"dense:{w.random.randrange(3)}:{h}" for h in heights)
        w.say("read_columns", kind, "t", table, count, w.cells(kind, 4), "-", w.buffer(kind, capacity))
        w.say("read_columns", kind, "t", damaged_records(w, table), count, w.cells(kind, 4), "-", w.buffer(kind, capacity))
        w.say("heights", table, count, f"7*{w.room(count)}")
    for depth in [1, 2, 3, 10, 63, 64, 65, 255, 1000, 2047, 4093, 4094, 4095, 4096]:
        chain = ";".join(f"chunked:{i}:1" for i in range(1, depth + 1))
        for leaf in ("dense:0:2", "bits:0:1:2", "interleaved:0:3:0:2:2", f"chunked:{depth + 1}:0"):
            height = 0 if leaf.startswith("chunked") else 2
            w.say("new", "t", 1, height)
            w.say("read_columns", w.kind(), "t", f"{chain};{leaf}", 1, "5,6,7,8,9,10,11,12,13,14,15,16", "2", "9*12")
            w.say("height", f"{chain};{leaf}", 1, 0)
            w.say("pass", f"{chain};{leaf}", 1, 0)
    for count in [1, 2, 4094, 4095, 4096, 4097, 5000]:
        w.say("new", "t", 13, count)
        w.say("read_columns", "residue", "t", f"chunked:1:{count};dense:0:1*{count}", 1, "5", "-", "9*8192")
        w.say("height", f"chunked:1:{count};dense:0:1*{count}", 1, 0)
        w.say("heights", f"dense:0:1*{count}", count, f"7*{count}")
        w.say("check_order", f"dense:0:1*{count}", count)
        w.say("pass", f"dense:0:1*{count}", count, count - 1)
    for minimum in [27, 30, 32, 40, 62, 63]:
        for kind in KINDS:
            w.say("with_min_dense_variables", "t", 0, "0", minimum)
            w.say("read_columns", kind, "t", "dense:0:0", 1, "-", "-", w.buffer(kind, 4))
            w.say("table", kind, "t", "-", "-", w.buffer(kind, 4))
            w.say("read_committed", kind, "t", w.cells(kind, 2))
            w.say("witness_of_buffer", kind, "t", w.cells(kind, 2))
            w.say("evaluate", kind, "t", "-", "-", w.cells(kind, minimum))


def wraps(w):
    """Heights that add up past every number, strides past every block."""
    for _ in w.times(3000):
        parts = w.random.choice([1, 2, 2, 3, 5])
        heights = [w.number() for _ in range(parts)]
        leaves = [w.random.choice([f"bits:0:0:{h}", f"dense:0:{h}", f"interleaved:0:4:0:1:{h}"]) for h in heights]
        columns = w.random.choice([1, 1, 2])
        if columns == 1:
            table = f"chunked:1:{parts};" + ";".join(leaves)
        else:
            split = w.random.randint(0, parts)
            table = f"chunked:2:{split};chunked:{2 + split}:{parts - split};" + ";".join(leaves)
        w.say("height", table, columns, w.random.randrange(columns))
        w.say("pass", table, columns, w.random.randrange(columns))
        w.say("heights", table, columns, f"7*{w.room(columns)}")
        total = min(sum(heights), 2**63)
        w.say("new", "t", 63, joined([total] + [0] * (columns - 1)))
        kind = w.kind()
        w.say("read_columns", kind, "t", table, columns, w.cells(kind, 4), "5,6", w.buffer(kind, 4))
        if columns == 1 and w.chance(0.5):
            w.say("piece_height", table, w.number())
            w.say("write_piece", kind, table, w.number(), w.cells(kind, 4), "5,6", w.buffer(kind, 4))
    for _ in w.times(4000):
        kind, height = w.kind(), w.random.choice([0, 1, 1, 2, 2, 3, 3, 4, w.number()])
        length, first, stride = w.random.randint(0, 5), w.number(), w.number()
        if w.chance(0.3):
            first = w.random.choice([0, 0, 1, TOP, TOP - 1, length])
        if w.chance(0.3) and height > 1:
            stride = min(TOP, max(0, (TOP - first) // (height - 1) + w.random.choice([-1, 0, 1])))
        leaf = f"interleaved:0:{length}:{first}:{stride}:{height}"
        if height <= 2**63:
            w.say("new", "t", 63, height)
            w.say("read_columns", kind, "t", leaf, 1, w.cells(kind, 5), "-", w.buffer(kind, 4))
        w.say("write_piece", kind, f"chunked:1:2;dense:0:1;{leaf}", w.number(), w.cells(kind, 5), "-",
              w.buffer(kind, 4))
    for _ in w.times(1500):
        kind, height = w.kind(), w.number()
        words = w.random.choice([0, 1, 2, 3])
        if height <= 2**63:
            w.say("new", "t", 63, height)
            w.say("read_columns", kind, "t", f"bits:0:{words}:{height}", 1, "-", "5,6", w.buffer(kind, 4))


def pieces(w):
    for _ in w.times(2500):
        kind = w.kind()
        cells, words = w.random.randint(0, 10), w.random.randint(0, 2)
        grown = Rows(w, ["dense", "interleaved", "bits", "chunked"], cells, words, 3, 70)
        table = ";".join(flattened([grown.tree]))
        block, packed = w.cells(kind, cells), joined(w.random.getrandbits(64) for _ in range(words))
        w.say("write_piece", kind, table, w.number(), block, packed, w.buffer(kind, grown.height))
        w.say("piece_height", table, w.number())
        worse = damaged_records(w, table)
        w.say("write_piece", kind, worse, w.number(), block, packed, w.buffer(kind, grown.height))
        w.say("piece_height", worse, w.number())


def committed(w):
    for _ in w.times(2500):
        kind = w.kind()
        heights = [w.random.randrange(4) for _ in range(w.random.choice([1, 2, 4]))]
        minimum = w.random.choice([0, 0, 1, 4])
        capacity = max(2**minimum, 2**max(sum(heights) - 1, 0).bit_length())
        w.say("with_min_dense_variables", "t", 2, joined(heights), minimum)
        for call in ("read_committed", "witness_of_vector", "witness_of_buffer"):
            w.say(call, kind, "t", w.cells(kind, w.room(capacity)))


# ---- the selector ----

def spread(kind, numbers):
    """Small coordinates as elements of a kind: the number, then zeros."""
    return joined(n for number in numbers for n in [number] + [0] * (KINDS[kind] - 1))


def points_small(w):
    for kind in KINDS:
        for width in range(4):
            for point in itertools.product(range(3), repeat=width):
                for room in range(10):
                    w.say("equality_prefix", kind, spread(kind, point), f"9*{room * KINDS[kind]}")
    number = 0
    kinds = list(KINDS)
    for heights in itertools.chain(heights_up_to(2, 3), [(4,), (2, 4), (4, 4), (1, 0, 3, 2), (0, 4, 0, 4)]):
        if len(heights) not in (1, 2, 4):
            continue
        for rows in range(3):
            if max(heights) > 2**rows:
                continue
            dense = max(sum(heights) - 1, 0).bit_length()
            columns = len(heights).bit_length() - 1
            w.say("new", "t", rows, joined(heights))
            for row in itertools.product(range(3), repeat=rows):
                for column in itertools.product(range(3), repeat=columns):
                    number += 1
                    kind = kinds[number % 6]
                    w.say("table", kind, "t", spread(kind, row), spread(kind, column), w.buffer(kind, 2**dense))
                    for point in itertools.product(range(3), repeat=dense):
                        if dense == 3 and columns == 2 and not w.chance(0.3):
                            continue
                        number += 1
                        kind = kinds[number % 6]
                        w.say("evaluate", kind, "t", spread(kind, row), spread(kind, column), spread(kind, point))


def damaged_width(w, width):
    return max(0, width + w.random.choice([0, 0, 0, 0, 0, 0, 0, 1, -1, 2, -width]))


def selector(w):
    for _ in w.times(4000):
        count = w.random.choice([1, 1, 2, 2, 4, 8, 16])
        tallest = w.random.choice([1, 2, 3, 4, 5, 8, 9, 16])
        heights = [w.random.choice([0, tallest, w.random.randint(0, tallest)]) for _ in range(count)]
        rows = min(63, max(tallest - 1, 0).bit_length() + w.random.choice([0, 0, 0, 1, 2, 5, 60]))
        minimum = w.random.choice([0, 0, 0, 0, 1, 4, 8])
        dense = max(minimum, max(sum(heights) - 1, 0).bit_length())
        columns = count.bit_length() - 1
        w.say("with_min_dense_variables", "t", rows, joined(heights), minimum)
        for _ in range(2):
            kind = w.kind()
            row = w.cells(kind, damaged_width(w, rows))
            column = w.cells(kind, damaged_width(w, columns))
            w.say("table", kind, "t", row, column, w.buffer(kind, 2**dense))
            for _ in range(2):
                w.say("evaluate", kind, "t", row, column, w.cells(kind, damaged_width(w, dense)))
            bits = lambda width: spread(kind, [w.random.randrange(2) for _ in range(width)])
            w.say("evaluate", kind, "t", bits(rows), bits(columns), bits(dense))
            value, required = w.cells(kind, 1), 32 + 8 * count + 8 * KINDS[kind] * (rows + columns + 1)
            w.say("encode_statement", kind, "t", row, column, value, w.room(required))


def selector_tall(w):
    """Heights that no memory holds: only the automaton can answer."""
    for _ in w.times(2500):
        count = w.random.choice([1, 2, 4, 8, 256])
        rows = w.random.choice([20, 31, 32, 33, 61, 62, 63])
        few = [min(2**rows, max(0, 2**w.random.randint(0, rows) + w.random.choice([-1, 0, 1]))) for _ in range(3)]
        heights = [w.random.choice(few) if w.chance(0.5) else 0 for _ in range(count)]
        if w.chance(0.2):
            # The whole of the largest envelope, and perhaps empty columns that begin at its end.
            count, rows = w.random.choice([(1, 63), (2, 63), (2, 62), (4, 62), (8, 61)])
            heights = [2**rows] * min(count, 2**(63 - rows)) + [0] * (count - min(count, 2**(63 - rows)))
            w.random.shuffle(heights)
        if not 0 < sum(heights) <= 2**63:
            continue
        minimum = w.random.choice([0, 0, 0, 32, 63])
        dense = max(minimum, (sum(heights) - 1).bit_length())
        w.say("with_min_dense_variables", "t", rows, joined(heights), minimum)
        for _ in range(3):
            kind = w.kind()
            row, column = w.cells(kind, rows), w.cells(kind, count.bit_length() - 1)
            w.say("evaluate", kind, "t", row, column, w.cells(kind, damaged_width(w, dense)))
        # The original makes the weights of the tallest column first: those have to be few, or too many at once.
        if dense > 26 and not 2**12 < max(heights) <= 2**26:
            kind = w.kind()
            row, column = w.cells(kind, rows), w.cells(kind, count.bit_length() - 1)
            w.say("table", kind, "t", row, column, w.buffer(kind, 4))


def prefixes(w):
    for _ in w.times(6000):
        kind = w.kind()
        width = w.random.choice([0, 1, 2, 3, 4, 5, 6, 8, 31, 32, 33, 63, 64, 65, 100])
        room = w.random.choice([0, 1, 2, 3, 4, 5, 7, 8, 9, 15, 16, 17, 33])
        w.say("equality_prefix", kind, w.cells(kind, width), f"{w.coordinate()}*{room * KINDS[kind]}" if room else "-")


# ---- lines that are no calls ----

def damaged_words(w):
    good = ["new a 3 5,3,0,6", "with_min_dense_variables a 3 5,3 6", "show a", "column_height a 1",
            "encode_layout a 64", "byte_length residue", "encode pair-residue 3,5 18", "read word 0000000000000001",
            "zero word", "one pair-word", "plus residue 1 2", "minus word 1 2", "times pair-word 1,2 3,4",
            "from_bool residue true", "equal residue 7 2013265928", "equality_prefix residue 3 9*3",
            "table word t 3 5 9*5", "evaluate residue t 3 5 7,2", "height chunked:1:2;dense:0:2;bits:0:1:3 1 0",
            "pass chunked:1:2;dense:0:2;bits:0:1:3 1 0", "heights dense:0:1*3 3 7*4", "check_order dense:0:1*3 3",
            "read_columns residue t dense:0:2;bits:0:1:1 2 10,20 1 9*5", "read_committed word t 1,2,3,4",
            "witness_of_vector word t 1,2,3,4", "witness_of_buffer word t 1,2,3,4", "piece_height dense:0:2 7",
            "write_piece word dense:0:2 7 1,2 - 9*3"]
    w.say("new t 1 2,1")
    for line in good:
        w.say(line)
    for _ in w.times(7000):
        words = w.random.choice(good).split(" ")
        place = w.random.randrange(len(words))
        draw = w.random.random()
        if draw < 0.15:
            del words[place]
        elif draw < 0.3:
            words.insert(place, w.random.choice(words))
        elif draw < 0.4:
            words[place] = w.random.choice(["-", "0", "x", "1,", ",1", "1*", "*1", "1*2*3", "+1", "18446744073709551616",
                                            "dense:0", "dense:0:0:0", "dense:0:0;", "1*16777217", "dense:0:0*65537",
                                            "0*16777217", "a.b", "0x1", "1*0", "dense:0:0*0", "#", "00000001",
                                            "DENSE:0:0", "shared:0:0", "chunked:1:0*1", "chunked:1:0*2"])
        else:
            word = words[place]
            at = w.random.randrange(len(word) + 1)
            if draw < 0.7 and at < len(word):
                words[place] = word[:at] + word[at + 1:]
            else:
                words[place] = word[:at] + w.random.choice("0123456789abcxyz,;:*-_+#. \t") + word[at:]
        w.lines.append(w.random.choice([" ", " ", " ", "  ", "\t", " \r"]).join(words))


SCRIPTS = [ring, layouts_small, layouts_edges, tables_small, reads, reads_wide, wraps, pieces, committed, points_small,
           selector, selector_tall, prefixes, damaged_words]


def generate(folder, seed, size):
    """Writes all scripts into a folder and tells their names."""
    os.makedirs(folder, exist_ok=True)
    paths = []
    for script in SCRIPTS:
        writer = Writer(folder, script.__name__, seed, size)
        script(writer)
        writer.close()
        paths.append(writer.path)
    return paths


if __name__ == "__main__":
    if not 2 <= len(sys.argv) <= 4:
        sys.exit(__doc__)
    asked = generate(sys.argv[1], sys.argv[2] if len(sys.argv) > 2 else "1", float(sys.argv[3]) if len(sys.argv) > 3 else 1)
    print("\n".join(asked))
