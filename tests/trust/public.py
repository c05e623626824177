"""The public contracts, and the definition that was asked for."""
import re


def public_calls(project, readme):
    """The calls of the README's table: all functions of their crates' src/lib.rt that are `pub` and ask for nothing."""
    table = re.search(r"^\| Call \|.*\n\|[-|]+\n((?:\|.*\n)+)", readme, re.M)
    named = re.findall(r"`(\w+(?:::\w+)+)`", table[1] if table else "")
    if not named:
        project.problem("README.md: there is no table of calls")
    calls = []
    for crate, *module, name in (call.split("::") for call in named):
        calls += project.functions(crate, module, name, "README.md")
    crates = {call.source.crate for call in calls}
    for other in project.all_functions():
        if other.source.crate in crates and not other.source.module and other.public and not other.clauses["requires"]:
            if other not in calls:
                project.problem(f"README.md: the table of calls does not have {other}, which asks for nothing")
                calls.append(other)
    for function in exported(project):
        for called in function.calls():
            if called.source.crate not in (function.source.crate, library_of(function.source.crate)) and called not in calls:
                project.problem(f"README.md: the table of calls does not have {called}, which {function} exports")
    return calls


def library_of(crate):
    """The library that a static library NAME_c gives to C, and NAME of any other crate."""
    return crate.removesuffix("_c")


def twins(function):
    """The functions of the library that an export calls by its own name."""
    path = library_of(function.source.crate), function.source.module, function.name
    return [called for called in function.calls() if (called.source.crate, called.source.module, called.name) == path]


def exported(project):
    """The functions that C calls, and those of the libraries that they stand for, which promise the same, word for word."""
    exports = [function for function in project.all_functions() if function.exported]
    behind = []
    for function in exports:
        if function.source.crate == library_of(function.source.crate):
            project.problem(f"{function.source.path}: {function} is exported, and only a crate NAME_c is built for C")
        for twin in twins(function):
            behind.append(twin)
            if not same_promises(function, twin):
                project.problem(f"{function.source.path}: {function} promises otherwise than {twin}")
    return exports + behind


def same_promises(function, other):
    """Whether two functions take and answer the same, with the same clauses of the same words."""
    def told(it):
        clauses = [[" ".join(clause.split()) for clause in it.clauses[kind]] for kind in ("requires", "ensures")]
        return it.folded_signature(), clauses, it.named("\n".join(sum(it.clauses.values(), [])))
    return told(function) == told(other)


def printed(project):
    """What the programs call: on the way down from each `main`, the functions whose promises have words of the project,
    and nothing below such a one that is public."""
    found = {}
    for main in project.all_functions():
        if main.name != "main" or not main.source.path.endswith("/src/main.rt"):
            continue
        seen, ahead, last = set(), [main], {}
        while ahead:
            at = ahead.pop()
            if at not in seen:
                seen.add(at)
                if at.promises():
                    last[at] = None
                if not (at.public and at.promises()):
                    ahead += at.calls()
        if not last:
            project.problem(f"{main.source.path}: the program calls nothing that has a contract")
        found |= last
    return list(found)


def roots(project, readme):
    """The functions whose contracts are public. No caller of the first two kinds is asked for anything."""
    library = public_calls(project, readme) + exported(project)
    for function in library:
        if function.clauses["requires"]:
            project.problem(f"{function.source.path}: {function} is public and has a `requires`")
        if not function.clauses["ensures"]:
            project.problem(f"{function.source.path}: {function} is public and has no `ensures`")
    return list(dict.fromkeys(library + printed(project)))


def definitions(project, path, name):
    """The definition of a name in a file, for one that was asked for."""
    spec = project.specs().get(path)
    found = spec.words.get(name, set()) if spec else set()
    if not found:
        project.problem(f"there is no `{name}` in {path}")
    return sorted(found, key=str)
