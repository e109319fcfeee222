"""Why Spanner answers a query otherwise: the causes that docs/SPANNER.md lists under the same names, by what both answered."""
import re

LEFT_OUT = "forms that this language leaves out"
LIMITS = "limits of a query"
COERCIONS = "conversions between types"
NULL_LITERALS = "NULL literals as operands"
PATTERNS = "escapes in patterns of LIKE"
NAMES = "names that ORDER BY, GROUP BY and HAVING see"
RESERVED = "reserved words"
HAVING = "HAVING without grouping"
FAULT_REACHED = "faults in operands and rows that Spanner does not evaluate"
FAULT_BESIDE = "faults beside AND, OR and BETWEEN"
FAULT_OF_CONSTANT = "faults of constant conditions over no rows"
ORDER = "LIMIT over rows in no fixed order"

# Refusals of ours of what GoogleSQL takes, by what the answer's line says here.
TAKEN_THERE = {
    "refused 2": LEFT_OUT,
    "refused 3": LEFT_OUT,
    "refused 4": LIMITS,
    "refused 11": NAMES,
    "refused 14": NAMES,
    "refused 15": PATTERNS,
    "refused 19": LIMITS,
    "refused 20": COERCIONS,
}


def words_of(text):
    return set(re.findall(r"[A-Z]+", text.upper()))


def cause(text, ours, form, found):
    """The cause by what was answered here (`rows N` or `refused N`) and there (rows, fault or refused, with a message); None where none fits."""
    if ours in TAKEN_THERE:
        return TAKEN_THERE[ours]
    if form == "refused":
        return cause_of_refusal(text, found)
    if form == "fault":
        return cause_of_fault(text)
    if ours == "refused 62":
        return FAULT_REACHED
    return ORDER if "LIMIT" in words_of(text) else None


def cause_of_refusal(text, message):
    """The cause for a query that Spanner refuses before it runs, and that runs here."""
    if "HAVING clause" in message:
        return HAVING
    if "literal NULL" in message or "CASE NULL" in text:
        return NULL_LITERALS
    if "Unexpected keyword" in message:
        return RESERVED
    return NAMES if "GROUP BY clause is ambiguous" in message else None


def cause_of_fault(text):
    """The cause for a query that has rows here, and there a fault."""
    if words_of(text) & {"AND", "OR", "BETWEEN"}:
        return FAULT_BESIDE
    return FAULT_OF_CONSTANT if "ON DIV(1, 0) = 1" in text else None
