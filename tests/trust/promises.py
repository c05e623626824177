"""The promises as tests/promises.txt has them: the public contracts, and the theorems."""
import difflib

from .contracts import every_contract, folded, judge
from .project import Project
from .public import roots
from .theorems import said, statements_of, theorems

STORED = "tests/promises.txt"
HEAD = """\
# What is promised: the contracts of the public functions, with the files of what they name, the theorems that
# docs/ARCHITECTURE.md states, and the statements that both are made of. `tests/promises` holds the crates to it;
# `tests/promises --write` writes it anew.
"""
EVIDENCE = ("cases",)


def contract(function):
    """The lines of a function."""
    lines = [f"fn {function}{function.folded_signature()}"]
    for kind in ("requires", "ensures"):
        lines += [f"    {kind} {folded(clause)}" for clause in function.clauses[kind]]
    files = {}
    for found in sorted(function.named("\n".join(sum(function.clauses.values(), []))), key=str):
        files.setdefault(found.path, []).append(found.name)
    return lines + [f"    names {' '.join(names)} of {path}" for path, names in files.items()]


class Promises:
    """What a checkout promises, and what is wrong with it whatever the stored file says."""

    def __init__(self, root, project=None):
        self.project = project or Project(root)
        readme = (root / "README.md").read_text()
        self.functions = sorted(roots(self.project, readme), key=str)
        self.theorems = sorted(theorems(self.project, (root / "docs/ARCHITECTURE.md").read_text()), key=str)
        for function in self.functions:
            judge(function)
        every_contract(self.project, readme)
        self.stored = (root / STORED).read_text() if (root / STORED).is_file() else ""

    def words(self):
        """The statements that promises are made of, each once: records, data, functions to types, types of the code."""
        roots = self.functions + [theorem.statement for theorem in self.theorems if theorem.name not in EVIDENCE]
        return [f"word of {made.path}: {said(made)}" for made in sorted(statements_of(roots), key=str)]

    def text(self):
        blocks = ["\n".join(contract(function)) for function in self.functions]
        blocks += ["\n".join(map(str, self.theorems)), "\n".join(self.words())]
        return HEAD + "".join(f"\n{block}\n" for block in blocks)

    def difference(self):
        """The lines by which the stored file differs; none where it is as it should be."""
        stored, found = self.stored.split("\n"), self.text().split("\n")
        return list(difflib.unified_diff(stored, found, STORED, "the crates", lineterm="", n=1))
