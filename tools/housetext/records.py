"""The records of the house tables: kinds, types, sorts, and the cutting of table bytes into records.

A new kind of record is one more row in BODY_LENGTH, with a line form in assemble.py and in disassemble.py.
"""

CLASS, FIELD, METHOD, PARAMETER, LOCAL, ENTRY = 1, 2, 3, 4, 5, 6

BODY_LENGTH = {CLASS: 1, FIELD: 3, METHOD: 11, PARAMETER: 1, LOCAL: 1, ENTRY: 1}

TYPES = ["void", "int32", "int64", "F"]
SORTS = ["static", "instance", "virtual", "constructor", "initialiser"]
FLAGS = ["instance", "static"]

# A type byte of 32 + row is the class of that row.
CLASS_TYPE = 32

# No module has more than 8,192 bytes of tables and 32,768 of code. Larger ones can still be looked at: tables as long as two bytes of length
# can say, and as many bytes of code.
MOST_TABLES = 0xFFFF
LARGEST_INPUT = 2 + MOST_TABLES + 0xFFFF
MOST_CODE = LARGEST_INPUT - 2

# Sorts whose argument 0 is `this`.
WITH_THIS = (1, 2, 3)


class Record:
    """One whole record: its kind, its offset in the tables and the bytes after the kind."""

    def __init__(self, kind, offset, body):
        self.kind = kind
        self.offset = offset
        self.body = body

    def code_part(self):
        """The code offset and code length that a method record names."""
        return int.from_bytes(self.body[5:9], "little"), int.from_bytes(self.body[9:11], "little")


def read_records(tables):
    """The whole records from the beginning, and the offset where they stop (the length, if all are whole)."""
    records, offset = [], 0
    while offset < len(tables):
        kind = tables[offset]
        length = BODY_LENGTH.get(kind)
        if length is None or offset + 1 + length > len(tables):
            break
        records.append(Record(kind, offset, tables[offset + 1:offset + 1 + length]))
        offset += 1 + length
    return records, offset


def split_input(data):
    """The announced table length, the tables and the code of an input of at least two bytes."""
    announced = int.from_bytes(data[:2], "little")
    return announced, data[2:2 + announced], data[2 + announced:]
