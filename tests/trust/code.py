"""A file of src/: its functions with their contracts, and the types that it declares."""
import re

from .names import Scope, names_in

NO_CODE = re.compile(r'(extern "C")|//[^\n]*|"(?:\\.|[^"\\])*"|\'(?:\\.|[^\\\'])\'')
STRING = re.compile(r'"(?:\\.|[^"\\])*"')
USED = re.compile(r"^((?:ghost )?)(?:pub )?use ([^;]+);", re.M)
PROOFS = re.compile(r"\s*Rattle\.(\w+)\.proofs\b")  # the kit has its words on options in a module of that name
GROUP = re.compile(r"([^{}]*)\{(.*)\}", re.S)
FUNCTION = re.compile(r'^[ \t]*(pub(?:\(\w+\))? )?(?:const )?(extern "C" )?fn (\w+)', re.M)
CLAUSE = re.compile(r"\b(requires|ensures)(?:\s+\w+)?\s*(?=\{)")
CLAUSE_BEGUN = re.compile(r"\s(?:requires|ensures)(?:\s+\w+)?\s*$")
TYPE = re.compile(r"^[ \t]*(?:pub(?:\(\w+\))? )?(?:struct|enum) (\w+)\s*(?=[{(;])", re.M)
CALL = re.compile(r"(?<![\w.:])([a-z_]\w*(?:::[a-z_]\w*)*)\(")
BRACKETS = {"(": re.compile(r"[()]"), "{": re.compile(r"[{}]")}
KEYWORDS = {"if", "in", "match", "return", "while"}


def blank(text):
    """As many blanks, in as many lines."""
    return re.sub(r"[^\n]", " ", text)


def imported(path):
    """The names that a `use` of code brings, each with its path."""
    group = GROUP.fullmatch(path.strip())
    if group:
        depth, parts = 0, [""]
        for sign in group[2]:
            depth += {"{": 1, "}": -1}.get(sign, 0)
            if sign == "," and depth == 0:
                parts.append("")
            else:
                parts[-1] += sign
        for part in filter(None, map(str.strip, parts)):
            yield from imported(group[1].strip() + part)
    else:
        whole, _, new = path.strip().partition(" as ")
        words = whole.split("::")
        words = words[:-1] if words[-1] == "self" and len(words) > 1 else words
        yield new.strip() or words[-1], words


class Function:
    def __init__(self, source, found):
        self.source, self.name = source, found[3]
        self.public, self.exported = found[1] == "pub ", found[2] is not None
        self.clauses, self.places = {"requires": [], "ensures": []}, []
        at = source.closing(source.code.index("(", found.end()))
        head = source.text[found.end() : source.code.index("{", at)]
        self.signature = CLAUSE_BEGUN.sub("", head)
        for clause in iter(lambda: CLAUSE.search(source.code, at, source.code.index("{", at) + 1), None):
            at = source.closing(clause.end())
            self.clauses[clause[1]].append(source.text[clause.end() : at])
            self.places.append((clause.start(), at))
        end = source.closing(source.code.index("{", at))
        self.body = source.code[at:end]
        if re.match(r"\s*(\{|requires|ensures)", source.code[end:]) or re.search(r"\b(requires|ensures)\b", self.signature):
            source.project.problem(f"{source.path}: cannot read the contract of `{self.name}`")

    def folded_signature(self):
        return " ".join(self.signature.split()).replace("( ", "(").replace(", )", ")")

    def promises(self):
        """What its promises name."""
        return self.named("\n".join(self.clauses["ensures"]))

    def named(self, text):
        """The definitions and types that a text of its contract names."""
        found = set()
        for name in names_in(STRING.sub(" ", text)):
            for path in self.source.scope.whole(name):
                found |= self.source.project.meanings(path, self.source.path)
        return found

    def reaches(self):
        return self.promises() | set(self.source.types_in(self.signature))

    def calls(self):
        """The functions of the project that its body calls."""
        for call in sorted(set(CALL.findall(self.body)) - KEYWORDS):
            crate, module, name = self.source.place(call.split("::"))
            if crate in self.source.project.sources:
                yield from self.source.project.functions(crate, module, name, self.source.path)

    def __str__(self):
        return "::".join([self.source.crate, *self.source.module, self.name])


class Type:
    """A struct or an enum: its declaration, attributes and comments aside."""

    def __init__(self, source, name, text):
        self.source, self.path, self.name, self.text = source, source.path, name, text.strip()
        self.lines = sum(1 for line in text.split("\n") if line.strip())

    def reaches(self):
        """The types that its declaration names."""
        return self.source.types_in(self.text)

    def __str__(self):
        return f"{self.source.path} `{self.name}`"


class Source:
    def __init__(self, project, crate, file, inner):
        self.project, self.crate, self.path, self.module = project, crate, project.short(file), inner
        self.scope, self.imports = Scope(), {}
        text = file.read_text()
        self.code = NO_CODE.sub(lambda found: found[1] or blank(found[0]), text)
        self.text = NO_CODE.sub(lambda found: blank(found[0]) if found[0].startswith("//") else found[0], text)
        for ghost, path in USED.findall(self.code):
            if not ghost:
                for name, words in imported(path):
                    self.imports[name] = words
            elif not self.scope.use(f"use {path}"):
                project.problem(f"{self.path}: cannot read `ghost use {path}`")
            elif (cited := PROOFS.match(path)) and (project.crates / cited[1]).is_dir():
                project.problem(f"{self.path}: a contract cites {path}, which is not in specs/")
        self.functions = [Function(self, found) for found in FUNCTION.finditer(self.code)]
        self.types = [Type(self, found[1], self.declaration(found)) for found in TYPE.finditer(self.code)]

    def declaration(self, found):
        at = found.end()
        return self.code[found.start() : at if self.code[at] == ";" else self.closing(at)]

    def closing(self, at):
        """The place after the bracket that closes the one at a place."""
        opening, depth = self.code[at], 0
        for bracket in BRACKETS[opening].finditer(self.code, at):
            depth += 1 if bracket[0] == opening else -1
            if depth == 0:
                return bracket.end()
        raise SystemExit(f"{self.path}: a bracket is not closed")

    def types_in(self, text):
        """The types of the project that a text of the code names."""
        for name in re.findall(r"\b[A-Z]\w*", text):
            yield from self.project.types(*self.place([name]))

    def place(self, words):
        """The crate, the module and the name that a path of the code stands for in this file."""
        words = self.imports.get(words[0], words[:1]) + words[1:]
        if words[0] in ("crate", "self", "super"):
            up = {"crate": [], "self": self.module, "super": self.module[:-1]}[words[0]]
            return self.crate, up + words[1:-1], words[-1]
        if len(words) == 1:
            return self.crate, self.module, words[0]
        for module in (self.module + words[:-1], words[:-1]):
            if self.project.has_module(self.crate, module):
                return self.crate, module, words[-1]
        return words[0], words[1:-1], words[-1]
