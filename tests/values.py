"""A second way to evaluate the texts that the tests draw, which shares no code with the program: whole numbers; sums of
products, of numbers and cells, from the left; SUM of a range and a number; a division by zero. And the faults of texts,
as answers and standard error have them. Used by drawn.py and by steps.py."""
import re
from functools import lru_cache

DIVISION_TEXT, DIVISION, OVERFLOW, CIRCLE = "=MOD(1;0)", "#DIV/0!", "#NUM!", "Err:522"


def faults_answered(lines):
    """The faults of texts that a script was answered, each with its offset."""
    return [line.split(" refused 1 ")[1] for line in lines if " refused 1 " in line]


def faults_shown(said):
    """Those that standard error shows; something else, where it has more than these and what belongs to them."""
    others = [line for line in said.splitlines() if not line.startswith(("line ", " "))]
    return others or re.findall(r"(?m)^line \d+: (.+)$", said)


def references(text):
    """The references of a text in reading order: the offset of each, and its cells."""
    for it in re.finditer(r"\[\.([A-Z])(\d)(?::\.([A-Z])(\d))?\]", text):
        column, row, last_column, last_row = it.groups()
        rows = range(int(row), int(last_row or row) + 1)
        columns = range(ord(column), ord(last_column or column) + 1)
        yield it.start(), [f"{chr(to_column)}{to_row}" for to_row in rows for to_column in columns]


def cells_of(text):
    """The cells that a text refers to, in reading order."""
    return [cell for _, cells in references(text) for cell in cells]


def in_range(number):
    """A result, or that it is out of range."""
    return number if -(1 << 63) <= number < 1 << 63 else OVERFLOW


def number_of(term, values):
    """The value of a number or a reference: of a blank cell 0."""
    cells = cells_of(term)
    return (values[cells[0]] or 0) if cells else int(term)


def joined(parts, operate):
    """The values from the left, by an operator; the first error of them is the result."""
    result = parts[0]
    for part in parts[1:]:
        errors = [it for it in (result, part) if isinstance(it, str)]
        result = errors[0] if errors else in_range(operate(result, part))
    return result


def value_of(text, values):
    """The value of a text where its references have these: a number, an error, or None of an empty text."""
    if not text.startswith("="):
        return int(text) if text else None
    if text == DIVISION_TEXT:
        return DIVISION
    if text.startswith("=SUM("):
        parts = [values[cell] or 0 for cell in cells_of(text)] + [int(text[:-1].split(";")[1])]
        errors = [it for it in parts if isinstance(it, str)]
        return errors[0] if errors else in_range(sum(parts))
    products = [joined([number_of(it, values) for it in term.split("*")], lambda a, b: a * b)
                for term in text[1:].split("+")]
    return joined(products, lambda a, b: a + b)


@lru_cache(maxsize=None)
def scratch(cells, texts):
    """What the cells show, evaluated from scratch: in rounds, each of the cells whose references all have values. The
    others are circular."""
    texts, values = dict(zip(cells, texts)), {}
    for _ in cells:
        for cell, text in texts.items():
            if cell not in values and all(it in values for it in cells_of(text)):
                values[cell] = value_of(text, values)
    shown = {cell: values.get(cell, CIRCLE) for cell in cells}
    return {cell: "blank" if value is None else str(value) for cell, value in shown.items()}
