"""What docs/ARCHITECTURE.md says of the trusted files, and of the theorems."""
import re

CONTRACTS = "### What contracts reach"
STATEMENTS = "### What statements add"
EVIDENCE = "### Evidence"
NOT_BELIEVED = "### What needs no belief"
STATED = re.compile(r"\bstated\s+as\s+`([^`]+)`\s+in\s+`([^`]+)`")
FIGURE = r"([\d,]+) lines of definitions in (\d+) files \(`tests/trusted --from (\S+) ([^\s`]+)`\)"
TYPES = "These definitions name types that the code declares:"


def table(heading):
    """The first table under a heading: what comes before its rows, and its rows."""
    return re.compile(rf"(^{re.escape(heading)}\n(?:(?!#|\|).*\n)*\|.*\n\|[-|]+\n)((?:\|.*\n)+)", re.M)


def rows(document, heading):
    """The rows of the first table under a heading, each as its cells."""
    found = table(heading).search(document)
    return [cells(line) for line in found[2].split("\n") if line] if found else []


def with_rows(document, heading, lines):
    """The document with other rows in that table."""
    return table(heading).sub(lambda found: found[1] + "".join(f"{line}\n" for line in lines), document, count=1)


def cells(line):
    """The cells of a row."""
    return [cell.strip() for cell in line.strip("|").split("|")]


def files(cell):
    """The files of a cell: one that is named without its folder stands in that of the one before."""
    folder, found = "", []
    for name in re.findall(r"`([^`]+)`", cell):
        folder = name.rpartition("/")[0] or folder
        found.append(f"{folder}/{name.rpartition('/')[2]}")
    return found


def cell(paths):
    """The cell of some files."""
    folder, words = None, []
    for path in paths:
        here, _, name = path.rpartition("/")
        words.append(f"`{name}`" if here == folder else f"`{path}`")
        folder = here
    return ", ".join(words)


def number(cell):
    """The number of a cell; none where it has no such."""
    return int(cell.replace(",", "")) if re.fullmatch(r"[\d,]*\d", cell) else None


def sizes(document):
    """The files whose lines the text gives, as in "`FILE` (12 lines)" or "`FILE`, 12 lines"."""
    return [(path, int(lines)) for path, lines in re.findall(r"`([\w/]+\.antt)`(?:,| \()\s*(\d+) lines", document)]


def queries(document):
    """The definitions that the text has asked for, as in "tests/trusted --from FILE NAME"."""
    return re.findall(r"tests/trusted\s+--from\s+(\S+)\s+([^\s`]+)", document)


def figures(document):
    """What the text says that a definition rests on, as in "12 lines of definitions in 3 files (QUERY)"."""
    found = re.findall(FIGURE.replace(" ", r"\s+"), document)
    return [(number(lines), int(files), path, name) for lines, files, path, name in found]


def stated(document, told):
    """The theorems of rows with "stated as `TYPE` in `FILE`": name, proofs file, type and its file. The name is in
    parentheses in the cell before, the proofs file is the first that the cell itself names."""
    found = []
    for words in re.findall(r"\bstated\s+(?:as|in)\s+`[^`]*`", re.sub(r"^\|.*$", "", document, flags=re.M)):
        told(f"a statement is named in a row of a table, and not in prose: {' '.join(words.split())}")
    for line in re.findall(r"^\|.*\bstated (?:as|in)\b.*$", document, re.M):
        *_, said, where = cells(line)
        names, types = re.findall(r"\(`([^`]+)`\)", said), STATED.findall(where)
        proofs = re.findall(r"`(\w+/proofs/[\w/]+\.antt)`", where)
        if len(names) == len(types) == len(re.findall(r"\bstated\b", line)) == 1 and proofs:
            found.append((names[0], proofs[0], *types[0]))
        else:
            told(f'a row has one (`theorem`), its proofs file, and one "stated as `TYPE` in `FILE`": {line}')
    return found


def types(document):
    """The files that the paragraph on types names, each with its types."""
    found = re.search(rf"^{re.escape(TYPES)}((?:.+\n)+)", document, re.M)
    pairs = re.findall(r"((?:`\w+`,?\s)+)\(`([\w/]+\.rt)`\)", found[1] if found else "")
    return {path: re.findall(r"`(\w+)`", names) for names, path in pairs}


def with_types(document, paragraph):
    """The document with another paragraph on types."""
    return re.sub(rf"^{re.escape(TYPES)}(?:.+\n)+", lambda _: paragraph + "\n", document, count=1, flags=re.M)


def filled(text, width=120):
    """A paragraph in lines of the document's width."""
    lines = [""]
    for word in text.split():
        if len(lines[-1]) + 1 + len(word) > width:
            lines.append("")
        lines[-1] += f" {word}" if lines[-1] else word
    return "\n".join(lines)
