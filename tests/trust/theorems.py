"""The theorems that docs/ARCHITECTURE.md states, each held to its proofs file."""
import re

from .code import Type
from .document import stated
from .names import NAME
from .specs import MARKS, SIGNATURE, Definition


class Theorem:
    """`pub NAME : TYPE` in a proofs file, where TYPE is the definition that the document names, perhaps applied."""

    def __init__(self, row, statement, made):
        self.name, self.proofs, self.type, self.file = row
        self.statement = statement
        self.given = " ".join(made.texts[0].split())
        self.stated = type_of(made)

    def __str__(self):
        given = f" within {self.given}" if self.given else ""
        return f"theorem {self.name} : {self.stated}{given}, in {self.proofs}, stated in {self.file}"


def is_statement(made):
    """Whether a definition is a statement or a property, or a type of data."""
    is_made = re.match(r"(?:pub )?(?:record|data) ", made.texts[1])
    return bool(is_made or re.search(r"(?:^|→ )Type \d$", type_of(made)))


def statements_of(roots):
    """The statements that some roots are made of, in specs/ and in proofs/, and the types of the code that they name; no
    proof is followed."""
    found, ahead = set(roots), list(roots)
    while ahead:
        for made in set(ahead.pop().reaches()) - found:
            if not isinstance(made, Definition) or "/specs/" in made.spec.path or is_statement(made):
                found.add(made)
                ahead.append(made)
    return [made for made in found if isinstance(made, Type) or isinstance(made, Definition) and is_statement(made)]


def said(made):
    """The text of a definition or of a type, folded."""
    return " ".join((made.text if isinstance(made, Type) else " ".join(made.texts[1:])).split())


def type_of(made):
    """The type of a definition that has one."""
    bare = MARKS.sub("", made.texts[1], count=1)
    found = SIGNATURE.match(bare)
    return " ".join(bare[found.end() :].split()) if found else ""


def head_of(text):
    """The name that a type is, alone or applied to arguments; none where it has an operator outside of brackets."""
    bare = None
    while bare != text:
        bare, text = text, re.sub(r"\([^()]*\)", "x", text)
    found = re.fullmatch(rf"({NAME})(?: \w{NAME}| \w)*", text)
    return found[1] if found else None


def marks_of(made):
    return MARKS.match(made.texts[1])[0].split()


def file_of(project, path, told):
    """A file with its definitions; one of proofs/ is a module of its crate, or no prover reads it."""
    file = project.crates / path
    if not file.is_file():
        told(f"docs/ARCHITECTURE.md: there is no file {path}")
        return None
    root = file.parent / "Lib.antt"
    module = rf"^(?:pub )?mod {file.stem}$"
    if file.parent.name == "proofs" and not (root.is_file() and re.search(module, root.read_text(), re.M)):
        told(f"{project.short(root)} has no `mod {file.stem}`")
    return project.spec(file)


def statement_of(project, name, path, told):
    """The definition that a row names as its statement; where it is in proofs/ it is `pub` too."""
    spec = file_of(project, path, told)
    found = [made for made in spec.definitions if made.name == name and "pub" in marks_of(made)] if spec else []
    if spec and len(found) != 1:
        told(f"there is no `pub {name}` in {path}")
    return found[0] if len(found) == 1 else None


def theorem_of(project, row, told):
    name, proofs, wanted, path = row
    statement, spec = statement_of(project, wanted, path, told), file_of(project, proofs, told)
    if not statement or not spec:
        return None
    for made in spec.definitions:
        if made.name == name and marks_of(made) == ["pub"] and head_of(type_of(made)) == wanted:
            if spec.meanings([wanted]) == {statement}:
                return Theorem(row, statement, made)
    told(f"there is no `pub {name} : {wanted}` in {proofs}")
    return None


def theorems(project, document):
    """The theorems that the document states."""
    rows = stated(document, project.problem)
    if not rows:
        project.problem('docs/ARCHITECTURE.md: no row has "stated as"')
    for name in {row[2:] for row in rows if [other[2:] for other in rows].count(row[2:]) > 1}:
        project.problem(f"docs/ARCHITECTURE.md: `{name[0]}` is stated in more than one row")
    found = [theorem_of(project, row, project.problem) for row in rows]
    return [theorem for theorem in found if theorem]
