"""The median of each query's time over all rounds, in milliseconds, and how many rows of the table that is in a microsecond."""
import statistics
import sys

ROWS = 100_000


def times(path):
    """By the query's name: the median in milliseconds, and how many rows it gave, which is the same in each round."""
    found = {}
    for line in open(path, encoding="ascii"):
        name, nanoseconds, rows = line.split()
        found.setdefault(name, []).append((int(nanoseconds), int(rows)))
    return {name: (statistics.median(time for time, _ in rounds) / 1e6, {rows for _, rows in rounds}) for name, rounds in found.items()}


rattle, sqlite = (times(path) for path in sys.argv[1:])
print(f"{'query':8} {'rows':>7} {'spansql':>13} {'rows/us':>8} {'SQLite':>9} {'ratio':>6}")
for name, (time, rows) in rattle.items():
    other, other_rows = sqlite[name]
    if rows != other_rows or len(rows) != 1:
        sys.exit(f"{name}: {rows} rows, and {other_rows} in SQLite")
    print(f"{name:8} {min(rows):>7} {time:>10.2f} ms {ROWS / time / 1000:>8.2f} {other:>6.2f} ms {time / other:>6.2f}")
