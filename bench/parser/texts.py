"""Writes the texts that are timed into a folder, one a line: NAME, and NAME.cut, the same with a WHERE and nothing after it."""
import sys

LONGEST_TEXT = 65536


def listed(head, items, tail):
    """A text with as many of the items as it can hold."""
    text = head + next(items)
    for item in items:
        if len(text) + 2 + len(item) + len(tail) > LONGEST_TEXT - 6:
            break
        text += ", " + item
    return text + tail


# SQLite takes no more than 2,000 columns of a result and 1,000 levels of an expression.
TEXTS = {
    "outputs": [listed("SELECT ", (f"uid * {i + 1000} + uid - {i} AS c{i:04}" for i in range(2000)), " FROM Users")],
    "values": [listed("SELECT email FROM Users WHERE uid IN (", (str(100000 + i) for i in range(20000)), ")")],
    "short": [f"SELECT u.uid, a.aid x FROM Users u JOIN Albums a ON a.uid = u.uid WHERE u.uid BETWEEN {i} AND {9999 + i:06}" for i in range(10, 110)],
}

for name, texts in TEXTS.items():
    for suffix, tail in ("", ""), (".cut", " WHERE" if "WHERE" not in texts[0] else " AND"):
        with open(f"{sys.argv[1]}/{name}{suffix}", "w", encoding="ascii") as file:
            file.writelines(text + tail + "\n" for text in texts)
    print(f"{name}: {len(texts)} of {min(map(len, texts))} to {max(map(len, texts))} bytes")
