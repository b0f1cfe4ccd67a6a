"""A third reading of the rules in docs/: what a line of a script has to answer, by the pages alone.

It is slow and plain: weights are products over digits, the selector's value is the published sum, heights are whole
numbers. The comparison asks it where the original cannot be asked, and to say which of two answers keeps the rules.
"""

MODULUS = 2013265921
TOP = 2**64 - 1
MOST_CELLS = 2**24
MOST_RECORDS = 2**16
TABLE_RECORDS = 4096
KINDS = {"residue": (1, MODULUS), "word": (1, 2**64), "pair-residue": (2, MODULUS), "pair-word": (2, 2**64),
         "pair-pair-residue": (4, MODULUS), "pair-pair-word": (4, 2**64)}
FIELDS = {"dense": 2, "interleaved": 5, "bits": 3, "chunked": 2}
NAMES = {1: "NoColumns", 2: "ColumnCountNotPowerOfTwo", 3: "TooManyColumns", 4: "RowVariablesOverflow",
         5: "HeightExceedsRowBound", 6: "AreaOverflow", 7: "DenseAreaOverflow", 8: "DenseVariablesOverflow",
         9: "CommittedVectorTooShort", 10: "ColumnCountMismatch", 11: "ColumnHeightMismatch", 12: "ZeroStride",
         13: "StrideOutOfRange", 14: "PackedWordsTooShort", 15: "TableOutOfOrder", 16: "PlaceOutsideBlock",
         17: "ColumnHeightOverflow", 18: "BufferTooShort", 20: "NoSuchColumn", 24: "RowPointWidthMismatch",
         25: "ColumnPointWidthMismatch", 26: "DensePointWidthMismatch"}
# Above these the plain reading is too slow, and says nothing.
MOST_WORK = 1 << 13


class NoCall(Exception):
    """The words say no call."""


class Fault(Exception):
    """The call is refused."""

    def __init__(self, number, **fields):
        super().__init__(number)
        self.number = number
        self.text = " ".join([f"fault {number} {NAMES[number]}"] + [f"{name}={value}" for name, value in fields.items()])


class Unread(Exception):
    """The plain reading would take too long."""


# ---- words ----

def number(word):
    if not word or not word.isascii() or not word.isdigit() or int(word) > TOP:
        raise NoCall
    return int(word)


def size(word):
    if number(word) > MOST_CELLS:
        raise NoCall
    return int(word)


def items(word, separator, most, read):
    found = []
    if word == "-":
        return found
    for item in word.split(separator):
        text, star, times = item.partition("*")
        times = number(times) if star else 1
        value = read(text)
        if times > most - len(found):
            raise NoCall
        found += [value] * times
    return found


def numbers(word):
    return items(word, ",", MOST_CELLS, number)


def record(text):
    kind, *fields = text.split(":")
    if FIELDS.get(kind) != len(fields):
        raise NoCall
    return (kind, *map(number, fields))


def table(word):
    return items(word, ";", MOST_RECORDS, record)


def raw_bytes(word):
    if word == "-":
        return b""
    if len(word) % 2 or any(c not in "0123456789abcdef" for c in word) or not word:
        raise NoCall
    return bytes.fromhex(word)


def name(word):
    if not word.isascii() or not all(c.isalnum() or c in "_-" for c in word):
        raise NoCall
    return word


# ---- ring kinds: an element is a tuple of its canonical numbers ----

class Ring:
    def __init__(self, kind):
        if kind not in KINDS:
            raise NoCall
        self.width, self.modulus = KINDS[kind]
        self.zero = (0,) * self.width
        self.one = (1 % self.modulus,) + (0,) * (self.width - 1)

    def element(self, found):
        if len(found) != self.width:
            raise NoCall
        return tuple(n % self.modulus for n in found)

    def cells(self, word):
        found = numbers(word)
        if len(found) % self.width:
            raise NoCall
        return [self.element(found[i:i + self.width]) for i in range(0, len(found), self.width)]

    def plus(self, a, b):
        return tuple((x + y) % self.modulus for x, y in zip(a, b))

    def minus(self, a, b):
        return tuple((x - y) % self.modulus for x, y in zip(a, b))

    def times(self, a, b):
        return tuple(x % self.modulus for x in product(a, b))

    def bytes(self, a):
        return b"".join(n.to_bytes(8, "big") for n in a)

    def read(self, found):
        if len(found) != 8 * self.width:
            return None
        parts = [int.from_bytes(found[i:i + 8], "big") for i in range(0, len(found), 8)]
        return tuple(parts) if all(n < self.modulus for n in parts) else None


def product(a, b):
    """(a + b u)(c + e u) = (a c + 11 b e) + (a e + b c) u, down to numbers."""
    if len(a) == 1:
        return (a[0] * b[0],)
    half = len(a) // 2
    a, b, c, e = a[:half], a[half:], b[:half], b[half:]
    add = lambda x, y: tuple(p + q for p, q in zip(x, y))
    return add(product(a, c), tuple(11 * n for n in product(b, e))) + add(product(a, e), product(b, c))


def text_of(cells):
    return ",".join(str(n) for cell in cells for n in cell)


# ---- layouts ----

class Layout:
    def __init__(self, rows=0, heights=(0,), minimum=0):
        count = len(heights)
        if not count:
            raise Fault(1)
        if count & (count - 1):
            raise Fault(2, columns=count)
        if count > 256:
            raise Fault(3, columns=count, maximum=256)
        if rows > 63:
            raise Fault(4, variables=rows)
        self.boundaries = [0]
        for column, height in enumerate(heights):
            if height > 2**rows:
                raise Fault(5, column=column, height=height, maximum=2**rows)
            if self.boundaries[-1] + height > TOP:
                raise Fault(6, column=column)
            self.boundaries.append(self.boundaries[-1] + height)
        self.rows, self.heights, self.columns, self.area = rows, list(heights), count, self.boundaries[-1]
        if self.area > 2**63:
            raise Fault(7, area=self.area)
        self.dense = max((max(self.area, 1) - 1).bit_length(), minimum)
        if self.dense > 63:
            raise Fault(8, variables=self.dense)
        self.capacity = 2**self.dense
        self.column_variables = count.bit_length() - 1

    def bytes(self):
        return b"".join(n.to_bytes(8, "big") for n in [self.rows, self.dense, len(self.boundaries)] + self.boundaries)

    def show(self):
        return (f"ok row_variables={self.rows} column_variables={self.column_variables} dense_variables={self.dense} "
                f"num_columns={self.columns} area={self.area} dense_capacity={self.capacity} "
                f"cumulative_heights={','.join(map(str, self.boundaries))}")


def laid(written, room, blank):
    """What a lent buffer holds after the call, or fault 18."""
    if room < len(written):
        raise Fault(18, required=len(written), available=room)
    return f"ok written={len(written)} bytes={(written + blank * (room - len(written))).hex()}"


# ---- tables ----

def check_order(records, sources):
    wrong = []
    following = sources
    for place, entry in enumerate(records):
        if place >= sources and place >= following:
            wrong.append(place)
        if entry[0] == "chunked":
            if entry[1] != following:
                wrong.append(place)
            following = entry[1] + entry[2]
        if wrong:
            break
    if not wrong and max(sources, following) > len(records):
        wrong.append(len(records))
    if len(records) > TABLE_RECORDS or max(sources, following) > TABLE_RECORDS:
        wrong.append(TABLE_RECORDS)
    if wrong:
        raise Fault(15, record=min(wrong))


def leaves(records, place):
    """The leaves of a record in row order, without recursion."""
    waiting = [place]
    while waiting:
        place = waiting.pop()
        entry = records[place]
        if entry[0] == "chunked":
            waiting += range(entry[1] + entry[2] - 1, entry[1] - 1, -1)
        else:
            yield place, entry


def height_of(records, place):
    return sum(entry[-1] for _, entry in leaves(records, place))


def pass_of(records, place):
    rank = {"dense": 1, "interleaved": 2, "bits": 3}
    return max((rank[entry[0]] for _, entry in leaves(records, place)), default=1)


def checked_height(records, place, column):
    height = height_of(records, place)
    if height > TOP:
        raise Fault(17, column=column)
    return height


def check_leaves(records, place, column, cells, words):
    for leaf, entry in leaves(records, place):
        kind, start, extent = entry[:3]
        if start + extent > (words if kind == "bits" else cells):
            raise Fault(16, column=column, record=leaf)
        if kind == "interleaved" and entry[5]:
            if not entry[4]:
                raise Fault(12, column=column)
            required = entry[3] + (entry[5] - 1) * entry[4] + 1
            if required > extent:
                raise Fault(13, column=column, required=min(required, TOP), available=extent)
        if kind == "bits" and -(-entry[3] // 64) > extent:
            raise Fault(14, column=column, required=-(-entry[3] // 64), available=extent)


def rows_of(ring, records, place, cells, words):
    for _, entry in leaves(records, place):
        if entry[0] == "dense":
            yield from cells[entry[1]:entry[1] + entry[2]]
        elif entry[0] == "interleaved":
            _, start, _, first, stride, height = entry
            yield from (cells[start + first + row * stride] for row in range(height))
        else:
            _, start, _, height = entry
            for row in range(height):
                yield ring.one if words[start + row // 64] >> row % 64 & 1 else ring.zero


def report(charges, area, envelope):
    shared, copied, gathered, widened = charges
    converted = copied + gathered + widened
    empty = "true" if converted == 0 and envelope == 0 else "false"
    return (f"shared={shared} copied={copied} gathered={gathered} widened={widened} live={shared + converted} "
            f"converted={converted} envelope={envelope} reads_no_cell={empty}")


# ---- the selector ----

def weight(ring, point, index):
    if index >> len(point):
        return ring.zero
    result = ring.one
    for place, coordinate in enumerate(point):
        digit = index >> (len(point) - 1 - place) & 1
        result = ring.times(result, coordinate if digit else ring.minus(ring.one, coordinate))
    return result


def check_point(layout, row, column):
    if len(row) != layout.rows:
        raise Fault(24, expected=layout.rows, actual=len(row))
    if len(column) != layout.column_variables:
        raise Fault(25, expected=layout.column_variables, actual=len(column))


def selected(ring, layout, row, column):
    """The weight of every live cell, in dense order."""
    if layout.area * (1 + len(row)) > MOST_WORK:
        raise Unread
    tall = [weight(ring, row, r) for r in range(max(layout.heights))]
    for y, height in enumerate(layout.heights):
        wide = weight(ring, column, y) if height else None
        for r in range(height):
            yield ring.times(tall[r], wide)


# ---- calls ----

class Session:
    """The slots of a script, and what each line has to answer."""

    def __init__(self):
        self.slots = {}

    def slot(self, word):
        return self.slots.get(name(word)) or Layout()

    def answer(self, words):
        """The answer by the rules; none where the plain reading would take too long."""
        try:
            return self.call(words[0], words[1:])
        except NoCall:
            return "no call"
        except Fault as fault:
            return fault.text
        except Unread:
            return None

    def call(self, call, arguments):
        handler = getattr(self, "call_" + call, None) if call.isidentifier() and call.islower() else None
        if handler is None:
            raise NoCall
        try:
            return handler(*arguments)
        except TypeError as error:
            if "positional argument" in str(error):
                raise NoCall from None
            raise

    def call_new(self, slot, rows, heights):
        return self.build(slot, rows, heights, "0")

    def call_with_min_dense_variables(self, slot, rows, heights, minimum):
        return self.build(slot, rows, heights, minimum)

    def build(self, slot, rows, heights, minimum):
        slot, rows, heights, minimum = name(slot), number(rows), numbers(heights), number(minimum)
        self.slots[slot] = Layout(rows, heights, minimum)
        return "ok"

    def call_show(self, slot):
        return self.slot(slot).show()

    def call_column_height(self, slot, column):
        layout, column = self.slot(slot), number(column)
        if column >= layout.columns:
            raise Fault(20, column=column, columns=layout.columns)
        return f"ok height={layout.heights[column]}"

    def call_encode_layout(self, slot, room):
        return laid(self.slot(slot).bytes(), size(room), b"\xee")

    def call_byte_length(self, kind):
        return f"ok byte_length={8 * Ring(kind).width}"

    def call_zero(self, kind):
        return "ok element=" + text_of([Ring(kind).zero])

    def call_one(self, kind):
        return "ok element=" + text_of([Ring(kind).one])

    def call_encode(self, kind, element, room):
        ring = Ring(kind)
        return laid(ring.bytes(ring.element(numbers(element))), size(room), b"\xee")

    def call_read(self, kind, text):
        found = Ring(kind).read(raw_bytes(text))
        return "ok element=" + ("none" if found is None else text_of([found]))

    def call_from_bool(self, kind, truth):
        ring = Ring(kind)
        if truth not in ("true", "false"):
            raise NoCall
        return "ok element=" + text_of([ring.one if truth == "true" else ring.zero])

    def operands(self, kind, a, b):
        ring = Ring(kind)
        return ring, ring.element(numbers(a)), ring.element(numbers(b))

    def call_plus(self, kind, a, b):
        ring, a, b = self.operands(kind, a, b)
        return "ok element=" + text_of([ring.plus(a, b)])

    def call_minus(self, kind, a, b):
        ring, a, b = self.operands(kind, a, b)
        return "ok element=" + text_of([ring.minus(a, b)])

    def call_times(self, kind, a, b):
        ring, a, b = self.operands(kind, a, b)
        return "ok element=" + text_of([ring.times(a, b)])

    def call_equal(self, kind, a, b):
        _, a, b = self.operands(kind, a, b)
        return "ok equal=" + ("true" if a == b else "false")

    def call_equality_prefix(self, kind, point, buffer):
        ring = Ring(kind)
        point, buffer = ring.cells(point), ring.cells(buffer)
        count = len(buffer) if len(point) > 63 else min(len(buffer), 2**len(point))
        if count * (1 + len(point)) > MOST_WORK:
            raise Unread
        buffer[:count] = [weight(ring, point, i) for i in range(count)]
        return f"ok written={count} cells={text_of(buffer)}"

    def call_table(self, kind, slot, row, column, buffer):
        ring, layout = Ring(kind), self.slot(slot)
        row, column, buffer = ring.cells(row), ring.cells(column), ring.cells(buffer)
        check_point(layout, row, column)
        if len(buffer) < layout.capacity:
            raise Fault(18, required=layout.capacity, available=len(buffer))
        found = list(selected(ring, layout, row, column))
        buffer[:layout.capacity] = found + [ring.zero] * (layout.capacity - layout.area)
        return "ok cells=" + text_of(buffer)

    def call_evaluate(self, kind, slot, row, column, dense):
        ring, layout = Ring(kind), self.slot(slot)
        row, column, dense = ring.cells(row), ring.cells(column), ring.cells(dense)
        check_point(layout, row, column)
        if len(dense) != layout.dense:
            raise Fault(26, expected=layout.dense, actual=len(dense))
        total = ring.zero
        for index, found in enumerate(selected(ring, layout, row, column)):
            total = ring.plus(total, ring.times(found, weight(ring, dense, index)))
        return "ok element=" + text_of([total])

    def call_encode_statement(self, kind, slot, row, column, value, room):
        ring, layout = Ring(kind), self.slot(slot)
        row, column, value, room = ring.cells(row), ring.cells(column), ring.element(numbers(value)), size(room)
        check_point(layout, row, column)
        return laid(layout.bytes() + b"".join(map(ring.bytes, row + column + [value])), room, b"\xee")

    def call_check_order(self, records, sources):
        records, sources = table(records), number(sources)
        check_order(records, sources)
        return "ok"

    def asked(self, records, sources, column):
        records, sources, column = table(records), number(sources), number(column)
        if column >= sources:
            raise Fault(20, column=column, columns=sources)
        check_order(records, sources)
        return records, column

    def call_height(self, records, sources, column):
        records, column = self.asked(records, sources, column)
        return f"ok height={checked_height(records, column, column)}"

    def call_pass(self, records, sources, column):
        records, column = self.asked(records, sources, column)
        return "ok pass=" + ["Shared", "Copied", "Gathered", "Widened"][pass_of(records, column)]

    def call_heights(self, records, sources, buffer):
        records, sources, buffer = table(records), number(sources), numbers(buffer)
        check_order(records, sources)
        found = [checked_height(records, column, column) for column in range(sources)]
        if len(buffer) < sources:
            raise Fault(18, required=sources, available=len(buffer))
        return f"ok written={sources} heights={','.join(map(str, found + buffer[sources:]))}"

    def call_piece_height(self, records, column):
        records, column = table(records), number(column)
        check_order(records, 1)
        return f"ok height={checked_height(records, 0, column)}"

    def call_write_piece(self, kind, records, column, cells, words, buffer):
        ring, records, column = Ring(kind), table(records), number(column)
        cells, words, buffer = ring.cells(cells), numbers(words), ring.cells(buffer)
        check_order(records, 1)
        height = checked_height(records, 0, column)
        check_leaves(records, 0, column, len(cells), len(words))
        if len(buffer) < height:
            raise Fault(18, required=height, available=len(buffer))
        buffer[:height] = rows_of(ring, records, 0, cells, words)
        return f"ok height={height} cells={text_of(buffer)}"

    def call_read_columns(self, kind, slot, records, sources, cells, words, buffer):
        ring, layout, records, sources = Ring(kind), self.slot(slot), table(records), number(sources)
        cells, words, buffer = ring.cells(cells), numbers(words), ring.cells(buffer)
        if sources != layout.columns:
            raise Fault(10, expected=layout.columns, actual=sources)
        check_order(records, sources)
        charges = [0, 0, 0, 0]
        for column in range(sources):
            height = checked_height(records, column, column)
            if height != layout.heights[column]:
                raise Fault(11, column=column, expected=layout.heights[column], actual=height)
            check_leaves(records, column, column, len(cells), len(words))
            charges[pass_of(records, column)] += height
        if len(buffer) < layout.capacity:
            raise Fault(18, required=layout.capacity, available=len(buffer))
        live = [row for column in range(sources) for row in rows_of(ring, records, column, cells, words)]
        envelope = layout.capacity - layout.area
        buffer[:layout.capacity] = live + [ring.zero] * envelope
        return f"ok {report(charges, layout.area, envelope)} cells={text_of(buffer)}"

    def held(self, kind, slot, cells, fault):
        layout, cells = self.slot(slot), Ring(kind).cells(cells)
        if len(cells) < layout.capacity:
            raise Fault(fault, required=layout.capacity, available=len(cells))
        return layout, cells

    def call_read_committed(self, kind, slot, cells):
        layout, _ = self.held(kind, slot, cells, 9)
        return "ok " + report([layout.area, 0, 0, 0], layout.area, 0)

    def call_witness_of_vector(self, kind, slot, cells):
        layout, cells = self.held(kind, slot, cells, 9)
        return "ok cells=" + text_of(cells[:layout.capacity])

    def call_witness_of_buffer(self, kind, slot, cells):
        layout, cells = self.held(kind, slot, cells, 18)
        return "ok cells=" + text_of(cells[:layout.capacity])
