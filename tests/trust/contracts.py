"""What is wrong with a public contract whatever it was before: a promise that says nothing, a function without one."""
import re

from .public import exported, library_of, printed, public_calls, twins

# What the programs' entries in C (programs/) call: the answer is an exit status, and what is printed is promised by the
# functions that these call.
ENTRIES = {"console_cnf_c::fawnloom_cnf", "console_every_c::fawnloom_every", "console_finder_c::fawnloom_finder",
           "console_finder_on_c::fawnloom_finder_on"}
STATUS = ["{ result ≤ 1 }"]
BRACKETS = {"(": 1, "{": 1, ")": -1, "}": -1}
# What a promise says something of: the answer, or what a parameter holds at the end.
SAID = re.compile(r"result|.*\.(?:new|exit)")


def folded(text):
    return " ".join(text.split())


def parts(text, sign):
    """A folded text, cut at a sign where no bracket is open."""
    depth, found = 0, [""]
    for word in re.split(r"( |[(){}])", text):
        depth += BRACKETS.get(word, 0)
        if word == sign and depth == 0:
            found.append("")
        else:
            found[-1] += word
    return [bare(part.strip()) for part in found]


def bare(text):
    """A text without brackets around the whole of it."""
    depth = 0
    for at, sign in enumerate(text):
        depth += BRACKETS.get(sign, 0)
        if depth == 0 and at < len(text) - 1:
            return text
    return bare(text[1:-1].strip()) if text[:1] == "(" else text


def conjuncts(text):
    """The single promises of a text, each without brackets around it."""
    found = parts(text, "×")
    return found if len(found) == 1 else [single for part in found for single in conjuncts(part)]


def says_nothing(promise):
    """Whether a single promise is true of every answer, or of none in particular."""
    *given, last = parts(promise, "→")
    sides = [parts(last, sign) for sign in ("≡", "≤", "⇔", "↔")]
    if last in given or last in ("Unit", "⊤", "tt") or any(len(set(found)) < len(found) for found in sides):
        return True
    words = (".".join(parts[:at]) for parts in map(dotted, re.split(r"[ (){}]", promise)) for at in range(1, len(parts) + 1))
    return not any(map(SAID.fullmatch, words))


def dotted(word):
    """A word of a promise, cut at its dots."""
    return word.split(".")


def judge(function):
    """Tells what is wrong with the promises of a public function."""
    told, sound = function.source.project.problem, False
    for clause in map(folded, function.clauses["ensures"]):
        read = re.fullmatch(r"\{ (.*) \}", clause)
        if not read:
            told(f"{function.source.path}: cannot read the promise of {function}: {clause}")
            continue
        for promise in conjuncts(bare(read[1])):
            if says_nothing(promise):
                told(f"{function.source.path}: {function} promises nothing by: {promise}")
            elif function.named(promise):
                sound = True
    is_entry = str(function) in ENTRIES and list(map(folded, function.clauses["ensures"])) == STATUS
    if not sound and not is_entry:
        told(f"{function.source.path}: no promise of {function} has a word of the project")


def every_contract(project, readme):
    """Each `pub fn` has a promise, in whatever module: in the crates of the README's table, of the boundary and of what
    the programs print; those of the programs themselves aside. An export, but for the entries, has a twin."""
    public = public_calls(project, readme) + exported(project) + printed(project)
    entries = {entry.split("::")[0] for entry in ENTRIES}
    crates = {function.source.crate for function in public} - entries - set(map(library_of, entries))
    for function in project.all_functions():
        if function.source.crate in crates and function.public and not function.clauses["ensures"]:
            project.problem(f"{function.source.path}: {function} is `pub` and has no promise")
    for function in exported(project):
        if function.exported and str(function) not in ENTRIES and not twins(function):
            project.problem(f"{function.source.path}: {function} stands for no function of a library")
    for entry in ENTRIES - {str(function) for function in exported(project)}:
        project.problem(f"there is no exported function {entry}")
