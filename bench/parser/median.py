"""The median of each time over all rounds, in microseconds, for the program in Rattle and for SQLite."""
import statistics
import sys


def rounds(path):
    """The columns of what a program printed: the times, and what was counted, which is the same in each round."""
    columns = list(zip(*((int(word) for word in line.split()) for line in open(path, encoding="ascii"))))
    return [statistics.median(column) / 1000 for column in columns]


work, names = sys.argv[1], sys.argv[2:]
print(f"{'texts':8} {'tokens':>9} {'parse_select':>12} {'prepare':>9}   cut short: {'parse_select':>12} {'prepare':>9}")
for name in names:
    tokens, read, tokenized, queries = rounds(f"{work}/rattle.{name}")
    prepare, prepared = rounds(f"{work}/sqlite.{name}")
    _, cut_read, _, cut_queries = rounds(f"{work}/rattle.{name}.cut")
    cut_prepare, cut_prepared = rounds(f"{work}/sqlite.{name}.cut")
    if not tokenized == queries == prepared or cut_queries or cut_prepared:
        sys.exit(f"{name}: {tokenized * 1000:.0f} are tokens, {queries * 1000:.0f} are read and {prepared * 1000:.0f} prepared; cut short {cut_queries} and {cut_prepared}")
    print(f"{name:8} {tokens:>9.1f} {read:>12.1f} {prepare:>9.1f}   {'':10} {cut_read:>12.1f} {cut_prepare:>9.1f}")
