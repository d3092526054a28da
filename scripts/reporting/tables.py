"""The documents' sections and tables."""
import re


class Missing(Exception):
    """A section, table or column that a chart needs and the document does not have."""


class Table:
    """A table: its column names, which may repeat, and the cells of its rows as they are written."""

    def __init__(self, names, rows):
        self.names = names
        self.rows = rows

    def place(self, name, occurrence=0):
        """The index of the column with this name; the first one unless told."""
        places = [index for index, found in enumerate(self.names) if found == name]
        if len(places) <= occurrence:
            raise Missing(f"column {name!r} among {self.names}")
        return places[occurrence]

    def column(self, name, occurrence=0):
        place = self.place(name, occurrence)
        return [row[place] for row in self.rows]

    def where(self, name, value):
        """The table with the rows alone that have this value."""
        place = self.place(name)
        return Table(self.names, [row for row in self.rows if row[place] == value])

    def values(self, name):
        """The different cells of a column, in their order."""
        return list(dict.fromkeys(self.column(name)))


class Document:
    """A Markdown document by its headings; a heading is its text without the number signs."""

    def __init__(self, path):
        self.path = path
        self.sections = {}
        heading = ""
        for line in path.read_text(encoding="utf-8").splitlines():
            found = re.match(r"#+ (.*)", line)
            if found:
                heading = found.group(1).strip()
            self.sections.setdefault(heading, []).append(line)

    def has(self, heading):
        return heading in self.sections

    def table(self, heading, *columns):
        """The first table of a section that has all these columns."""
        for table in tables_of(self.sections.get(heading, [])):
            if all(name in table.names for name in columns):
                return table
        raise Missing(f"{self.path}: no table with {columns} under {heading!r}")


def tables_of(lines):
    """Every table among the lines: a row of names, a row of dashes, rows of cells."""
    tables = []
    for above, rule, at in zip(lines, lines[1:], range(2, len(lines) + 1)):
        if re.fullmatch(r"\|(\s*:?-+:?\s*\|)+", rule) and above.startswith("|"):
            rows = []
            for line in lines[at:]:
                if not line.startswith("|"):
                    break
                rows.append(cells_of(line))
            tables.append(Table(cells_of(above), rows))
    return tables


def cells_of(line):
    """The cells of a row, without the marks for code and bold letters."""
    cells = line.strip().strip("|").split("|")
    return [cell.strip().replace("`", "").replace("**", "") for cell in cells]


def number(cell):
    """A figure as a number: 1.19e-1, 6000, 19.0 %. None for a cell without one."""
    found = re.match(r"-?[0-9.]+(e-?[0-9]+)?", cell)
    return float(found.group(0)) if found else None


def interval(cell):
    """The ends of an interval, '9.91e-2 to 1.43e-1'. None for a cell without one."""
    ends = [number(end) for end in cell.split(" to ")]
    return tuple(ends) if len(ends) == 2 and None not in ends else None


def limit(target):
    """What a target asks: 'most' or 'least', and the number."""
    found = re.search(r"at (most|least) ([0-9.]+)", target)
    if not found:
        raise Missing(f"a limit in the target {target!r}")
    return found.group(1), float(found.group(2))
