#!/usr/bin/env python3
"""OpenDocument spreadsheets, .ods and .fods, as grids for `dsheet report`, and the values back into them. Formulas of
OpenDocument are written as dsheet reads them; the first table of the document is taken.
    documents.py grid BUDGET.fods > budget.csv            the texts of its cells: numbers, formulas and labels
    dsheet report budget.csv --labels > values.csv
    documents.py texts BUDGET.fods | dsheet import budget.db --csv        the same without labels, as a store
    documents.py fill BUDGET.fods values.csv NEW.fods     the same document, its formulas with these values
    documents.py values NEW.fods                          the values that a document shows
"""
import csv
import re
import signal
import sys
import xml.etree.ElementTree as ET
import zipfile

NAMES = {name: f"urn:oasis:names:tc:opendocument:xmlns:{name}:1.0" for name in ("office", "table", "text")}


def named(name):
    """The full name of `table:formula` and the like."""
    prefix, local = name.split(":")
    return f"{{{NAMES[prefix]}}}{local}"


def read(path):
    """The tree of a document; what is written of it has its prefixes, also those that only formulas begin with."""
    package = zipfile.ZipFile(path) if zipfile.is_zipfile(path) else None
    with package.open("content.xml") if package else open(path, "rb") as content:
        events = ET.iterparse(content, events=("start-ns", "end"))
        prefixes = dict(what for event, what in events if event == "start-ns")
    used = {name.partition("}")[0][1:] for part in events.root.iter() for name in (part.tag, *part.attrib)}
    for prefix, space in prefixes.items():
        ET.register_namespace(prefix, space)
        if prefix and space not in used:
            events.root.set(f"xmlns:{prefix}", space)
    return ET.ElementTree(events.root)


def write(tree, old, new):
    """Writes a tree in the place of that of the old document, to a new file."""
    if not zipfile.is_zipfile(old):
        return tree.write(new, encoding="UTF-8", xml_declaration=True)
    with zipfile.ZipFile(old) as package, zipfile.ZipFile(new, "w") as copy:
        for entry in package.infolist():
            is_content = entry.filename == "content.xml"
            copy.writestr(entry, ET.tostring(tree.getroot(), encoding="UTF-8") if is_content else package.read(entry))


def is_blank(element):
    """Whether a row or a cell has no text and no formula."""
    return not any((part.text or "").strip() or part.get(named("table:formula")) for part in element.iter())


def repeated(elements, name):
    """Each element as often as it says by this attribute, and blank ones at the end not at all."""
    elements = list(elements)
    while elements and is_blank(elements[-1]):
        elements.pop()
    for element in elements:
        yield from [element] * int(element.get(named(name), 1))


def cells(tree):
    """The cells of the first table, row by row; every row is as long as the longest."""
    table = tree.getroot().find(".//table:table", NAMES)
    kinds = (named("table:table-cell"), named("table:covered-table-cell"))
    rows = [
        list(repeated((cell for cell in row if cell.tag in kinds), "table:number-columns-repeated"))
        for row in repeated(table.iter(named("table:table-row")), "table:number-rows-repeated")
    ]
    width = max(map(len, rows), default=0)
    return [row + [None] * (width - len(row)) for row in rows]


def shown(cell):
    """The value of a cell as text: of a number all its digits."""
    if cell is None:
        return ""
    value = cell.get(named("office:value")) or cell.get(named("office:boolean-value"))
    if value is not None:
        return {"true": "1", "false": "0"}.get(value, value)
    return "\n".join("".join(part.itertext()) for part in cell.findall("text:p", NAMES))


def text(cell):
    """The text of a cell as dsheet reads it."""
    formula = "" if cell is None else cell.get(named("table:formula"), "")
    return formula.removeprefix("of:") or shown(cell)


def content(cell):
    """The text of a cell, where it is no label: a label begins neither as a number nor as a formula does."""
    return text(cell) if re.match(r"[ \t+.-]*[=\d]", text(cell)) else ""


def fill(tree, values):
    """Gives each formula the value that stands in its place."""
    for row, wanted in zip(cells(tree), values, strict=True):
        for cell, value in zip(row, wanted, strict=True):
            if cell is not None and cell.get(named("table:formula")):
                is_number = value.lstrip("-").isdigit()
                for name in ("office:value", "office:boolean-value", "office:string-value"):
                    cell.attrib.pop(named(name), None)
                cell.set(named("office:value-type"), "float" if is_number else "string")
                cell.set(named("office:value" if is_number else "office:string-value"), value)
                for part in cell.findall("text:p", NAMES):
                    cell.remove(part)
                ET.SubElement(cell, named("text:p")).text = value


def main(command, document, *files):
    """Does what the words say."""
    tree = read(document)
    if command == "fill":
        with open(files[0], encoding="UTF-8", newline="") as values:
            fill(tree, csv.reader(values))
        write(tree, document, files[1])
    else:
        of_cell = {"grid": text, "texts": content, "values": shown}[command]
        csv.writer(sys.stdout, lineterminator="\n").writerows(map(of_cell, row) for row in cells(tree))


if __name__ == "__main__":
    if len(sys.argv) - 1 != {"grid": 2, "texts": 2, "values": 2, "fill": 4}.get("".join(sys.argv[1:2])):
        sys.exit(__doc__)
    # Who reads no further, as `head`, ends it without a word.
    signal.signal(signal.SIGPIPE, signal.SIG_DFL)
    main(*sys.argv[1:])
