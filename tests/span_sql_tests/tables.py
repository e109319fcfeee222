"""The files beside the texts: cells and records as scripts have them, schemas, and the rows of tables from lines of scripts."""
import csv
import re

from reference import BOOL, BYTES, GREATEST, INT64, LEAST, STRING, Refused, folded, ordered, tokens


# Cells and records.

def cell_text(value):
    if value is None:
        return "\\N"
    if isinstance(value, bool):
        return "true" if value else "false"
    if isinstance(value, bytes):
        return "\\x" + value.hex()
    return str(value) if isinstance(value, int) else value.replace("\\", "\\\\")


def read_cell(kind, text):
    """The value of a cell; a text that reads as none is refused."""
    if text == "\\N":
        return None
    if kind == BOOL and text in ("true", "false"):
        return text == "true"
    if kind == INT64 and re.fullmatch(r"0|-?[1-9][0-9]*", text) and LEAST <= int(text) <= GREATEST:
        return int(text)
    if kind == BYTES and re.fullmatch(r"\\x([0-9a-f]{2})*", text):
        return bytes.fromhex(text[2:])
    if kind == STRING and re.fullmatch(r"(?:[^\\]|\\\\)*", text, re.DOTALL):
        return text.replace("\\\\", "\\")
    raise Refused(49)


def record_text(row):
    fields = [cell_text(value) for value in row]
    if fields == [""]:
        return '""'
    return ",".join('"' + field.replace('"', '""') + '"' if re.search(r'[,"\r\n]', field) else field for field in fields)


def read_record(text):
    records = list(csv.reader([text]))
    return records[0] if len(records) == 1 else []


# Schemas. The texts here are known to be good ones, so only their shape is read.

class Table:
    """columns: (name, kind, length or None, whether NOT NULL); key: (place of the column, whether DESC); the parent or None."""

    def __init__(self, name, columns, key, parent):
        self.name, self.columns, self.key, self.parent = name, columns, key, parent


def read_schema(text):
    """The tables under their folded names."""
    found, tables = " ".join(spelling for _, spelling in tokens(text)), {}
    shape = r"CREATE TABLE (\w+) \( (.*?) \) PRIMARY KEY \( (.*?) \)(?: , INTERLEAVE IN PARENT (\w+)(?: ON DELETE (?:CASCADE|NO ACTION))?)?"
    for one in found.strip().removesuffix(";").split(";"):
        name, columns, key, parent = re.fullmatch(shape, one.strip()).groups()
        parts = [re.fullmatch(r"(\w+) (\w+)(?: \( (\w+) \))?( NOT NULL)?", part).groups() for part in columns.split(" , ")]
        columns = [(name, kind, int(size) if size and size != "MAX" else None, bool(not_null)) for name, kind, size, not_null in parts]
        places = {folded(part[0]): place for place, part in enumerate(columns)}
        key = [(places[folded(part.split()[0])], part.endswith("DESC")) for part in key.split(" , ")]
        tables[folded(name)] = Table(name, columns, key, tables[folded(parent)] if parent else None)
    return tables


def read_rows(tables, lines):
    """The rows of each table, in the order of its primary key, from lines `insert TABLE * RECORD`."""
    rows = {name: [] for name in tables}
    for line in lines:
        name, record = re.fullmatch(r"insert (\w+) \* (.*)", line).groups()
        table = tables[folded(name)]
        cells = read_record(record)
        assert len(cells) == len(table.columns), line
        row = tuple(read_cell(column[1], cell) for column, cell in zip(table.columns, cells))
        for value, (_, _, size, not_null) in zip(row, table.columns):
            assert not (value is None and not_null) and (value is None or size is None or len(value) <= size), line
        assert key_of(table, row) not in [key_of(table, other) for other in rows[folded(name)]], line
        if table.parent:
            above = [key_of(table.parent, other) for other in rows[folded(table.parent.name)]]
            assert key_of(table, row)[:len(table.parent.key)] in above, line
        rows[folded(name)].append(row)
    return {name: ordered(rows[name], tables[name].key) for name in tables}


def key_of(table, row):
    return tuple(row[place] for place, _ in table.key)
