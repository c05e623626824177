"""A file of specs/, cut into its definitions by indentation."""
import re

from .names import NAME, Scope, forms, names_in

NO_CODE = re.compile(r'"(?:\\.|[^"\\])*"|\{-.*?-\}|(?<![^\s(){}.;,@])--[^\n]*', re.S)
MARKS = re.compile(r"(?:(?:unfoldable|abbrev|axiom|pub) )*")
SIGNATURE = re.compile(rf"({NAME})(?: \{{[^}}]*\}})? :(?:\s|$)")
CONSTRUCTORS = re.compile(rf"^\s+({NAME}(?: {NAME})*) :\s", re.M)


def blank(text):
    return re.sub(r"[^\n]", " ", text)


class Definition:
    """A signature with its clauses, a `data` with its constructors, or a `record`; and the parameters around it."""

    def __init__(self, spec, name):
        self.spec, self.path, self.name, self.texts, self.lines = spec, spec.path, name, [], 0

    def add(self, text):
        self.texts.append(text)
        self.lines += sum(1 for line in text.split("\n") if line.strip())

    def reaches(self):
        return self.spec.meanings(names_in("\n".join(self.texts)))

    def __str__(self):
        return f"{self.spec.path} `{self.name}`"


class Spec:
    def __init__(self, project, file):
        self.project, self.path = project, project.short(file)
        self.scope, self.definitions, self.words = Scope(), [], {}
        text = file.read_text()
        self.count, self.comments = text.count("\n"), text.split("\n")
        self.read(NO_CODE.sub(lambda found: found[0] if found[0][0] == '"' else blank(found[0]), text).split("\n"), "")

    def read(self, lines, parameters):
        """Reads the declarations that begin at the least indentation of some lines."""
        depths = [len(line) - len(line.lstrip()) for line in lines if line.strip()]
        starts = [i for i, line in enumerate(lines) if line.strip() and len(line) - len(line.lstrip()) == min(depths)]
        latest = None
        for start, end in zip(starts, starts[1:] + [len(lines)]):
            latest = self.declaration(lines[start:end], parameters, latest)

    def declaration(self, lines, parameters, latest):
        """Reads one; answers the definition that the clauses after it belong to."""
        text = "\n".join(lines).strip()
        bare = MARKS.sub("", text, count=1)
        word = bare.split()[0]
        signature = SIGNATURE.match(bare)
        if word == "use":
            if not self.scope.use(text):
                self.project.problem(f"{self.path}: cannot read `{text}`")
        elif word in ("mod", "infix", "infixl", "infixr"):
            pass
        elif word in ("module", "mutual"):
            head = next(i for i, line in enumerate(lines) if line.split()[-1:] in (["where"], ["mutual"]))
            self.read(lines[head + 1 :], parameters + "\n".join(lines[: head + 1]))
        elif word in ("data", "record"):
            latest = self.define(bare.split()[1], parameters, text)
            for constructors in CONSTRUCTORS.findall("\n".join(lines)) if word == "data" else ():
                for constructor in constructors.split():
                    self.bind(constructor, latest)
        elif signature:
            latest = self.define(signature[1], parameters, text)
        elif latest:
            latest.add(text)
        else:
            self.project.problem(f"{self.path}: cannot read `{text}`")
        return latest

    def define(self, name, parameters, text):
        made = Definition(self, name)
        made.texts.append(parameters)
        made.add(text)
        self.definitions.append(made)
        self.bind(name, made)
        return made

    def bind(self, name, made):
        for form in forms(name):
            self.words.setdefault(form, set()).add(made)

    def meanings(self, names):
        """The definitions and types that names stand for in this file."""
        found = set()
        for name in names:
            found |= self.words.get(name.split(".")[0], set())
            for path in self.scope.whole(name):
                found |= self.project.meanings(path, self.path)
        return found
