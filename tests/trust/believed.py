"""What a reader must believe: what the public contracts reach, what the statements add, and what is evidence."""
from pathlib import Path

from . import document as doc
from .code import Type
from .public import definitions, roots
from .specs import Definition
from .theorems import theorems

SENTENCE = "-- No public contract reaches this file: nothing here needs belief."
# What the printed word rests on: the document has its figure.
CHAIN = ("report/specs/Tells.antt", "Tells")
# The crate whose statement is a table of cases: evidence for the definitions, and no promise.
TABLED = "marked"


class Reached:
    """The definitions that some roots reach, those of others aside, by their files: of specs/, and types of the code."""

    def __init__(self, project, starts, others=()):
        self.came_from = project.reach(starts)
        new = {found for found in self.came_from if not any(found in other.came_from for other in others)}
        self.definitions, self.types = {}, {}  # the types are among the definitions too
        specs = {found.spec for found in new if isinstance(found, Definition)}
        sources = {found.source for found in new if isinstance(found, Type)}
        for spec in sorted(specs, key=lambda spec: spec.path):
            self.definitions[spec.path] = [found for found in spec.definitions if found in new]
        for source in sorted(sources, key=lambda source: source.path):
            self.definitions[source.path] = [found for found in source.types if found in new]
            self.types[source.path] = [found.name for found in self.definitions[source.path]]

    def lines(self, paths=None):
        """The lines that its definitions take, in some files or in all."""
        files = self.definitions if paths is None else paths
        return sum(found.lines for path in files for found in self.definitions.get(path, ()))

    def way(self, path):
        """One way to a file, from the root on."""
        at = min(self.definitions[path], key=lambda found: len(self.steps(found)))
        return " -> ".join(str(step) for step in reversed(self.steps(at)))

    def steps(self, at):
        return [at] + (self.steps(self.came_from[at]) if self.came_from[at] else [])


class Belief:
    """What each table of the document should have, by its heading."""

    def __init__(self, project, readme, document):
        self.project, self.document, self.specs = project, document, project.specs()
        public = roots(project, readme)
        stated = [theorem.statement for theorem in theorems(project, document) if "/specs/" in theorem.file]
        believed = public + [made for made in stated if not made.spec.path.startswith(f"{TABLED}/")]
        contracts = Reached(project, public)
        statements = Reached(project, believed, [contracts])
        self.all = Reached(project, believed + stated)
        self.tables = {doc.CONTRACTS: contracts, doc.STATEMENTS: statements}
        self.tables[doc.EVIDENCE] = Reached(project, believed + stated, [contracts, statements])
        self.types = Reached(project, believed).types

    def hold(self):
        """The document has each table as it should be."""
        for heading, reached in self.tables.items():
            self.hold_table(heading, reached)
        self.hold_others()
        self.hold_figures()
        for row in (row for heading in (*self.tables, doc.NOT_BELIEVED) for row in doc.rows(self.document, heading)):
            if row[-1] == "?":
                self.project.problem(f"the row of {row[0]} does not say what it restates")
        if doc.types(self.document) != self.types:
            self.project.problem("the paragraph on types should be as `tests/trusted --rows` prints it")

    def hold_table(self, heading, reached):
        """Every file is in one row, the lines are those of the definitions, and the last row has their sum."""
        rows, told = doc.rows(self.document, heading), self.project.problem
        listed = [path for row in rows for path in doc.files(row[0])]
        for path in sorted(set(listed) | set(reached.definitions)):
            times, wanted = listed.count(path), int(path in reached.definitions)
            if times != wanted:
                why = f"is reached ({reached.way(path)})" if wanted else "is not reached so"
                told(f'"{heading}": {path} {why}, and stands {times} times in the table')
        for path in reached.definitions:
            if path not in self.specs and path not in reached.types:
                told(f"{path} is reached ({reached.way(path)}), and is neither in specs/ nor a type of the code")
        for row in rows[:-1]:
            lines = reached.lines(doc.files(row[0]))
            if not doc.files(row[0]) or doc.number(row[1]) != lines:
                told(f'"{heading}": {row[0]}: {row[1]} lines in the table, {lines} in the definitions')
        if not rows or doc.files(rows[-1][0]) or doc.number(rows[-1][1]) != reached.lines():
            told(f'"{heading}": the last row is not the sum, {reached.lines()} lines')

    def hold_others(self):
        """Each file that is not reached is in the last table, and says so."""
        told = self.project.problem
        others = [path for row in doc.rows(self.document, doc.NOT_BELIEVED) for path in doc.files(row[0])]
        for path, spec in self.specs.items():
            reached = path in self.all.definitions
            is_reached = f"is reached ({self.all.way(path)})" if reached else "is not reached"
            if others.count(path) != (0 if reached else 1):
                told(f'{path} {is_reached}, and stands {others.count(path)} times under "{doc.NOT_BELIEVED}"')
            if (SENTENCE in spec.comments) == reached:
                told(f'{path} {is_reached}, and {"has" if reached else "lacks"} the line "{SENTENCE}"')
        for path, found in self.all.definitions.items():
            for made in set(self.specs[path].definitions if path in self.specs else ()) - set(found):
                told(f"{path}: nothing reaches `{made.name}`, and others of the file are believed")
        for path in others:
            if path not in self.specs:
                told(f"{path} is in a table, and there is no such file of specs/ with definitions")

    def hold_figures(self):
        """The figures of the text: lines of whole files, and what a definition rests on."""
        told = self.project.problem
        for path, lines in doc.sizes(self.document):
            if path not in self.specs or self.specs[path].count != lines:
                told(f"{path}: {lines} lines in the text, and not in the file")
        for path, name in doc.queries(self.document):
            definitions(self.project, path, name)
        figures = doc.figures(self.document)
        for lines, files, path, name in figures:
            reached = Reached(self.project, definitions(self.project, path, name))
            found = reached.lines(), len(reached.definitions)
            if (lines, files) != found:
                told(f"`{name}` rests on {found[0]} lines in {found[1]} files: {lines} in {files} in the text")
        if CHAIN not in [figure[2:] for figure in figures]:
            told(f'the text has no "N lines of definitions in M files (`tests/trusted --from {" ".join(CHAIN)}`)"')

    def rows(self):
        """The lines of each table as they should be, by its heading."""
        found = {}
        for heading, reached in self.tables.items():
            rows = new_rows(doc.rows(self.document, heading), set(reached.definitions))
            found[heading] = [f"| {doc.cell(paths)} | {reached.lines(paths):,} | {last} |" for paths, last in rows]
            found[heading].append(f"| all of these | {reached.lines():,} | |")
        others = set(self.specs) - set(self.all.definitions)
        rows = new_rows(doc.rows(self.document, doc.NOT_BELIEVED), others)
        found[doc.NOT_BELIEVED] = [f"| {doc.cell(paths)} | {last} |" for paths, last in rows]
        return found

    def types_named(self):
        """The paragraph on types as it should be."""
        types = [f"{', '.join(f'`{name}`' for name in names)} (`{path}`)" for path, names in self.types.items()]
        return doc.filled(f"{doc.TYPES} {', '.join(types)}.")

    def written(self):
        """The document with the tables and the paragraph as they should be."""
        text = doc.with_types(self.document, self.types_named())
        for heading, rows in self.rows().items():
            text = doc.with_rows(text, heading, rows)
        return text

    def summary(self):
        words = ("contracts reach", "statements add", "evidence has")
        found = [f"{table.lines():,} lines in {len(table.definitions)} files" for table in self.tables.values()]
        return ", ".join(f"{word} {lines}" for word, lines in zip(words, found))


def new_rows(rows, wanted):
    """The files and the last cell of each row: rows keep their order, and a file that has moved keeps its place."""
    new = wanted - {path for row in rows for path in doc.files(row[0])}
    for row in rows:
        paths = []
        for path in doc.files(row[0]):
            moved = [other for other in new if Path(other).name == Path(path).name and path not in wanted]
            paths += [path] if path in wanted else moved if len(moved) == 1 else []
            new -= set(paths)
        if paths:
            yield paths, row[-1]
    for crate in sorted({path.split("/")[0] for path in new}):
        yield sorted(path for path in new if path.split("/")[0] == crate), "?"
