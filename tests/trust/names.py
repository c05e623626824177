"""The names that a text of antt writes, and what the `use` lines of a file bring."""
import re

# "A name is any run of characters other than spaces and ( ) { } . ; , @ " « »" (antt's primer, 4.1)
NAME = r'[^\s(){}.;,@"«»]+'
STRING = re.compile(r'"(?:\\.|[^"\\])*"')
PATH = re.compile(rf"(\.?)({NAME}(?:\.{NAME})*)")
LABEL = re.compile(rf"([{{;]\s*){NAME}(?=\s+=\s)")
USE = re.compile(r"(?:(?:ghost|unfoldable|pub) )*use ([^{};\s]+?)(?:\.\{([^}]*)\})?(?: as (\S+?))? ?;?")


def forms(name):
    """How a text writes a name: whole, or by the parts of an operator; `do` is short for two operators."""
    parts = {part for part in name.split("◌") if part}
    return {name} | parts | ({"do"} if name in ("◌>>=◌", "◌>>◌") else set())


def names_in(text):
    """The paths that a text writes. The field of a bracket (`).x`) is none, nor a label (`x =` in the braces of a record)."""
    paths = {path for dot, path in PATH.findall(LABEL.sub(r"\1", STRING.sub(" ", text))) if not dot}
    return paths.union(*(forms(path) for path in paths if "." not in path))  # `◌+` of a section is written for `+`


class Scope:
    """The whole paths that the first word of a path can stand for."""

    def __init__(self):
        self.paths = {}

    def bring(self, name, path):
        for form in forms(name):
            self.paths.setdefault(form, set()).add(path)

    def use(self, line):
        """Takes a `use` line; answers whether it could be read."""
        found = USE.fullmatch(" ".join(line.split()))
        if not found:
            return False
        module, items, alias = found.groups()
        for whole in self.whole(module):
            if items is None:
                self.bring(alias or whole.split(".")[-1], whole)
            for item in re.split(r" ?, ?", items.strip(" ,")) if items else ():
                name, _, new = item.partition(" as ")
                self.bring(new or name.split(".")[-1], f"{whole}.{name}")
        return True

    def whole(self, path):
        """The whole paths of a path; itself where no line brings its first word."""
        head, dot, rest = path.partition(".")
        return {known + dot + rest for known in self.paths.get(head, ())} or {path}
