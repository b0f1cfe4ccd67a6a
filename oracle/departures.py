"""The listed departures, each by a rule: when the library may answer otherwise than the original.

A rule is handed a case: the words of the line, the slot's layout, the library's answer (ours), the original's
(theirs), and the answer by the pages alone (rule), none where reading them plainly would take too long. The names are
those of docs/DIFFERENCES.md.
"""

import re

from reference import KINDS, TABLE_RECORDS, TOP, numbers, table

OVERFLOW = "panic attempt to add with overflow"
MOST_CELLS = 2**26
BUILDERS = {"new": 3, "with_min_dense_variables": 3}
# Where the lent buffer stands, and whether it is told by its length.
LENT_LENGTH = {"encode_layout", "encode", "encode_statement"}
LENT_CELLS = {"equality_prefix", "table", "read_columns", "write_piece", "witness_of_buffer"}
TABLE_WORD = {"height": 1, "pass": 1, "heights": 1, "check_order": 1, "piece_height": 1, "write_piece": 2,
              "read_columns": 3}


class Case:
    def __init__(self, words, layout, ours, theirs, rule):
        self.words, self.layout, self.ours, self.theirs, self.rule = words, layout, ours, theirs, rule
        self.call = words[0]

    def fault(self):
        """The number of our fault."""
        found = re.match(r"fault (\d+) ", self.ours)
        return int(found[1]) if found else None

    def field(self, name):
        found = re.search(rf" {name}=(\d+)", self.ours)
        return int(found[1]) if found else None

    def lent(self):
        """How much memory the line lends."""
        if self.call in LENT_LENGTH:
            return int(self.words[-1])
        if self.call in LENT_CELLS:
            return len(numbers(self.words[-1])) // KINDS[self.words[1]][0]
        return len(numbers(self.words[-1])) if self.call == "heights" else None

    def records(self):
        return table(self.words[TABLE_WORD[self.call]]) if self.call in TABLE_WORD else []


def column_limit(case):
    """A power of two above 256; the original accepts, or meets a later check."""
    if case.call not in BUILDERS:
        return False
    count = len(numbers(case.words[BUILDERS[case.call]]))
    return (count > 256 and count & (count - 1) == 0
            and case.ours == f"fault 3 TooManyColumns columns={count} maximum=256"
            and re.match(r"ok$|fault [45678] ", case.theirs) is not None)


def column_out_of_range(case):
    """A column that the layout does not have; the original panics."""
    if case.call != "column_height":
        return False
    column, columns = int(case.words[2]), case.layout.columns
    panic = f"panic index out of bounds: the len is {columns + 1} but the index is {column + 1}"
    return (column >= columns and case.ours == f"fault 20 NoSuchColumn column={column} columns={columns}"
            and case.theirs == (OVERFLOW if column == TOP else panic))


def callers_buffers(case):
    """Lent memory shorter than the original's own answer, or an answer that no memory holds."""
    if case.fault() != 18 or case.field("available") != case.lent():
        return False
    required = case.field("required")
    if case.theirs.startswith("ok longer "):
        return case.theirs.startswith(f"ok longer required={required} ") and case.lent() < required
    needed = case.layout.capacity if case.layout else required
    if case.theirs == "inexpressible buffer":
        return case.call == "witness_of_buffer" and required == needed > case.lent()
    return case.theirs.startswith("panic zero_vec: ") and required == needed > MOST_CELLS


def heights_that_wrap(case):
    """The leaves of a column have 2^64 rows or more; the original's sum overflows."""
    return case.fault() == 17 and case.theirs == OVERFLOW and case.ours == case.rule


def stride_overflow(case):
    """A leaf whose last index, with a saturated product, is 2^64 - 1; the original's last + 1 overflows."""
    def last(entry):
        return min((entry[5] - 1) * entry[4], TOP) + entry[3]

    return (case.fault() == 13 and case.field("required") == TOP and case.theirs == OVERFLOW
            and case.ours == case.rule
            and any(entry[0] == "interleaved" and entry[5] and entry[4] and last(entry) == TOP
                    for entry in case.records()))


def one_record_table(case):
    """A table that nested slices cannot be: out of order, too long, or with a leaf outside its block."""
    if case.ours != case.rule or case.call not in TABLE_WORD:
        return False
    if case.theirs.startswith("inexpressible order "):
        return case.fault() in (10, 15, 20)
    if case.theirs.startswith("inexpressible place "):
        return case.fault() in (10, 11, 12, 13, 14, 15, 16, 17)
    return len(case.records()) > TABLE_RECORDS and case.ours == f"fault 15 TableOutOfOrder record={TABLE_RECORDS}"


def absent_column(case):
    """A column number that is not below the source count."""
    return (case.call in ("height", "pass") and case.theirs == "inexpressible column"
            and int(case.words[3]) >= int(case.words[2])
            and case.ours == f"fault 20 NoSuchColumn column={int(case.words[3])} columns={int(case.words[2])}")


def dense_width(case):
    """A dense point whose width is not d; the original answers."""
    if case.call != "evaluate":
        return False
    width = len(numbers(case.words[5])) // KINDS[case.words[1]][0]
    return (width != case.layout.dense and case.theirs.startswith("ok element=")
            and case.ours == f"fault 26 DensePointWidthMismatch expected={case.layout.dense} actual={width}")


RULES = {"Column limit": column_limit, "Column out of range": column_out_of_range,
         "The caller's buffers": callers_buffers, "Chunk heights that wrap": heights_that_wrap,
         "Stride overflow": stride_overflow, "One record table": one_record_table,
         "Asking for a column that is absent": absent_column, "The dense point's width": dense_width}


def departure(case):
    """The name of the departure that allows this difference, if one does."""
    for name, rule in RULES.items():
        if rule(case):
            return name
    return None
