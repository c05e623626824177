"""Changes to a copy of the files, each of which tests/promises or tests/trusted has to tell."""
import re
import shutil
import tempfile
from pathlib import Path

from .believed import Belief
from .project import Project
from .promises import STORED, Promises

DOCUMENT = "docs/ARCHITECTURE.md"
KEPT = ("README.md", DOCUMENT, STORED, "crates/*/src/**/*.rt", "crates/*/specs/**/*.antt", "crates/*/proofs/*.antt")


class Change:
    """One change to one file: what it does to the text, and what has to be told."""

    def __init__(self, name, path, change, told):
        self.name, self.path, self.change, self.told = name, path, change, told


def replaced(pattern, new):
    """Replaces the one place of a pattern."""
    def change(text):
        changed, count = re.subn(pattern, new, text, flags=re.M)
        return changed if count == 1 else text
    return change


def contract(function, pattern, new):
    """The same within the contract of a function: from its name to the line of its opening brace."""
    def change(text):
        found = re.search(rf"^[ \t]*pub (?:extern \"C\" )?fn {function}\b.*?^\{{$", text, re.M | re.S)
        return text.replace(found[0], replaced(pattern, new)(found[0])) if found else text
    return change


def clause(word):
    """The `ensures` that has a word, whatever its lines."""
    return rf"^    ensures (?:(?!^    ensures|^\{{$)[\s\S])*?\b{word}\b(?:(?!^    ensures|^\{{$)[\s\S])*"


def added(more):
    """A text with more at its end."""
    return lambda text: f"{text}\n{more}"


ONE_MORE = "// One more.\npub fn one_more(v: u32) -> u32\n{}{{\n    v\n}}\n"
EXPORTED = """\
#[unsafe(no_mangle)]
pub extern "C" fn fawnloom_more(v: u32) -> u32
    ensures {{ {} }}
{{
    v
}}
"""
CHECK, SIZE = "crates/instance/src/lib.rt", "crates/dimacs/src/lib.rt"
FINDER, BOUNDARY = "crates/report/src/finder.rt", "crates/boundary/src/runs.rt"
EXPORTS, ENTRY = "crates/boundary_c/src/runs.rt", "crates/console_finder_c/src/lib.rt"
OPERATORS, ANSWERS = "crates/relational/src/lib.rt", "crates/boundary/src/answer.rt"
DEMAND3 = "crates/solve_rules/proofs/Demand3.antt"
THEOREM = r"^pub demand3 : Demand3$"
NO_THEOREM = "no `pub demand3 : Demand3`"
OTHER_SIZE = """\
ghost use Rattle.clauses.specs.Answers.{count_answer as size_answer};
ghost use Rattle.dimacs.specs.Answers.{answer_of, """
FIGURE = r"([\d,]+)(\s+lines\s+of\s+definitions\s+in\s+\d+\s+files\s+\(`tests/trusted)"

# Told by the stored file.
STORED_ALONE = [
    Change("`find_text` without `Tells`", FINDER, contract("find_text", clause("Tells"), ""), "Tells"),
    Change("`find_on_text` without `Tells`", "crates/onward/src/lib.rt",
           contract("find_on_text", clause("Tells"), ""), "Tells"),
    Change("`check` without `CheckAnswers`", CHECK, contract("check", clause("CheckAnswers"), ""), "CheckAnswers"),
    Change("`find` without `Finds`", "crates/solve/src/lib.rt", contract("find", clause("Finds"), ""), "Finds"),
    Change("`dimacs::write` without its slice", SIZE, contract("write", clause("text_after"), ""), "text_after"),
    Change("`size` by another definition of that name", SIZE,
           replaced(r"^ghost use Rattle\.dimacs\.specs\.Answers\.\{answer_of, size_answer, ", OTHER_SIZE),
           "count_answer of clauses/specs/Answers.antt"),
    Change("a `requires` of a printed function", FINDER,
           contract("find_text", r"-> usize\n", "-> usize\n    requires { 1 ≤ 0 }\n"), "1 ≤ 0"),
    Change("a \"stated as\" row dropped", DOCUMENT,
           replaced(r"^\|.*\(`same_as_one`\).*stated as `SameAsOne` in .*\n", ""), "-theorem same_as_one"),
    Change("a statement in proofs/ weakened", "crates/solve_rules/proofs/Smallest.antt",
           replaced(r"Smallest other j → i ≡ j$", "Smallest other j → j ≡ j"), "Smallest other j → j ≡ j"),
    Change("a hypothesis in a field of demand 3", "crates/solve_rules/specs/Demand3.antt",
           replaced(r"pub none_only : GoesBack \(lent_at p\) → OpenOrFalse",
                    "pub none_only : ⊥ → GoesBack (lent_at p) → OpenOrFalse"),
           "⊥ → GoesBack (lent_at p)"),
    Change("another word told by `every`", "crates/console_every/specs/Listed.antt",
           replaced(r'StartsWith "none" text', 'StartsWith "nonesuch" text'), '"nonesuch"'),
    Change("a hypothesis of a theorem", "crates/clauses_rules/proofs/Theorems.antt",
           replaced(r"^module _ (.*\n  pub match : )", r"module _ (no : ⊥) \1"), "no : ⊥"),
    Change("an operator taken away", OPERATORS, replaced(r"^    Lone,\n", ""),
           "+word of relational/src/lib.rt: pub enum Test { Some, None, }"),
    Change("an operator more", OPERATORS, replaced(r"^    Equivalence,$", "    Equivalence,\n    Exclusion,"),
           "Equivalence, Exclusion, }"),
    Change("two operators exchanged", OPERATORS, replaced(r"^    Some,\n    None,$", "    None,\n    Some,"),
           "pub enum Test { None, Some, Lone, }"),
    Change("an operator where there was none", OPERATORS,
           replaced(r"^    Comprehension,$", "    Comprehension(Quantifier),"), "Comprehension(Quantifier)"),
    Change("a field of an answer taken away", ANSWERS, replaced(r"^    pub satisfies: u32,\n", ""),
           "+word of boundary/src/answer.rt: pub struct CheckAnswer { pub refusal: u32, }"),
]

# Told whatever the stored file says.
ALWAYS = [
    Change("`size` with equal sides", SIZE, contract("size", r"≡ size_answer v [^}]*\}", "≡ answer_of result }"),
           "dimacs::size promises nothing"),
    Change("equal sides beside a promise", SIZE,
           contract("write", r"\{ (text\.new ≡ .*) \}", r"{ (\1) × (answer_of result ≡ answer_of result) }"),
           "dimacs::write promises nothing by: answer_of result ≡ answer_of result"),
    Change("a promise without the answer", SIZE, contract("size", r"\{ answer_of result ≡", "{ write_answer v [] [] ≡"),
           "dimacs::size promises nothing"),
    Change("a public call without a promise", SIZE, contract("size", clause("size_answer"), ""),
           "dimacs::size is public and has no `ensures`"),
    Change("an exported function with `result ≤ 1`", EXPORTS, added(EXPORTED.format("result ≤ 1")),
           "fawnloom_more has a word"),
    Change("an exported function with equal sides", EXPORTS,
           added(EXPORTED.format("end_numbers 1 result ≡ end_numbers 1 result")), "fawnloom_more promises nothing"),
    Change("an export that stands for nothing", EXPORTS, added(EXPORTED.format("end_numbers 1 Steps ≡ result")),
           "fawnloom_more stands for no function of a library"),
    Change("an export of a library", BOUNDARY, added(EXPORTED.format("result ≤ 1")), "only a crate NAME_c is built for C"),
    Change("an export without a promise of its library", EXPORTS, contract("fawnloom_find", clause("FindsNumbers"), ""),
           "fawnloom_find promises otherwise than boundary::runs::fawnloom_find"),
    Change("another promise of a program's entry", ENTRY, contract("fawnloom_finder", "result ≤ 1", "result ≤ 2"),
           "console_finder_c::fawnloom_finder has a word"),
    Change("a contract that cites proofs/", SIZE,
           replaced(r"^ghost use Rattle\.dimacs\.specs\.Answers\.", "ghost use Rattle.dimacs.proofs.Exact.{ToTheByte};\nghost use Rattle.dimacs.specs.Answers."),
           "a contract cites Rattle.dimacs.proofs.Exact"),
    Change("a function of a public module without a contract", FINDER, added(ONE_MORE.format("")),
           "report::finder::one_more is `pub`"),
    Change("a function of the boundary without a contract", BOUNDARY, added(ONE_MORE.format("")),
           "boundary::runs::one_more is `pub`"),
    Change("a function beside the exports without a contract", EXPORTS, added(ONE_MORE.format("")),
           "boundary_c::runs::one_more is `pub`"),
    Change("a public function with a `requires` alone", "crates/sheet/src/bytes.rt",
           added(ONE_MORE.format("    requires { v ≡ 0 }\n")), "sheet::bytes::one_more is `pub`"),
    Change("`demand3` deleted", DEMAND3, replaced(THEOREM + r"\ndemand3 = .*\n", ""), NO_THEOREM),
    Change("`demand3` a comment", DEMAND3, replaced(THEOREM, "-- pub demand3 : Demand3"), NO_THEOREM),
    Change("`demand3` weaker", DEMAND3, replaced(THEOREM, "pub demand3 : Demand3 ⊎ Unit"), NO_THEOREM),
    Change("`demand3` an axiom", DEMAND3, replaced(THEOREM, "axiom pub demand3 : Demand3"), NO_THEOREM),
    Change("`demand3` of another `Demand3`", DEMAND3,
           replaced(r"^(use .*specs\.Demand3\.\{[^}]*)\bDemand3\b", r"\1Demanded as Demand3"), NO_THEOREM),
    Change("`same-smallest` deleted", "crates/solve_rules/proofs/Smallest.antt",
           replaced(r"^pub same-smallest : SameSmallest\n", ""), "no `pub same-smallest : SameSmallest`"),
    Change("proofs that the prover does not read", "crates/solve_rules/proofs/Lib.antt",
           replaced(r"^pub mod Narrower\n", ""), "has no `mod Narrower`"),
    Change("a theorem's name", DOCUMENT, replaced(r"\(`same_as_one`\)(.*stated as `SameAsOne`)", r"(`same_as_two`)\1"),
           "no `pub same_as_two : SameAsOne`"),
    Change("a theorem's file", DOCUMENT,
           replaced("`solve_rules/proofs/Demand3.antt`, stated as", "`solve_rules/proofs/Finds.antt`, stated as"),
           f"{NO_THEOREM} in solve_rules/proofs/Finds.antt"),
    Change("a theorem's file that is not there", DOCUMENT,
           replaced("`solve_rules/proofs/Demand3.antt`, stated as", "`solve_rules/proofs/Demand4.antt`, stated as"),
           "no file solve_rules/proofs/Demand4.antt"),
    Change("a theorem's type", DOCUMENT, replaced("stated as `Demand3` in", "stated as `Demanded` in"),
           "no `pub demand3 : Demanded`"),
    Change("the file of a theorem's type", DOCUMENT,
           replaced("(stated as `SameAsOne` in `search/specs/)Resuming", r"\1First"), "no `pub SameAsOne`"),
    Change("a statement in prose", DOCUMENT,
           added("It is stated as\n`Demand3` in `solve_rules/specs/Demand3.antt`.\n"), "in a row of a table"),
]

# Told by tests/trusted.
BELIEVED = [
    Change("a contract that names an unbelieved file", "crates/sheet/src/lib.rt",
           contract("read", "≡ reading", "≡ Rattle.sheet.specs.Filling.capped reading"),
           "Filling.antt is reached"),
    Change("a row of contracts dropped", DOCUMENT, replaced(r"^\| `kinds/specs/Kinds.antt` \| .*\n", ""),
           "kinds/specs/Kinds.antt is reached"),
    Change("a row of statements dropped", DOCUMENT, replaced(r"^\| `solve_rules/specs/Narrower.antt` \| .*\n", ""),
           "solve_rules/specs/Narrower.antt is reached"),
    Change("lines of a row", DOCUMENT, replaced(r"^(\| `kinds/specs/Kinds.antt` \| )\d+", r"\g<1>1"),
           "1 lines in the table"),
    Change("a row of types dropped", DOCUMENT, replaced(r"^\| `relational/src/lib.rt` \| .*\n", ""),
           "relational/src/lib.rt is reached"),
    Change("a type of more lines", OPERATORS, replaced(r"^    Equivalence,$", "    Equivalence,\n    Exclusion,"),
           "48 lines in the table, 49 in the definitions"),
    Change("the sum of a table", DOCUMENT,
           replaced(r"^(### What statements add(?:(?!###)[\s\S])*\| all of these \| )[\d,]+", r"\g<1>1"),
           "the last row is not the sum"),
    Change("the chain's figure", DOCUMENT, replaced(FIGURE, r"1\2"), "`Tells` rests on"),
    Change("no figure of the chain", DOCUMENT, replaced(FIGURE, "few lines (`tests/trusted"), "the text has no"),
    Change("a type left out", DOCUMENT, replaced("`CheckAnswer`, `CountAnswer`,", "`CountAnswer`,"),
           "the paragraph on types"),
]


def by_stored_file(root, project):
    return Promises(root, project).difference()


def by_promises(root, project):
    return Promises(root, project).project.problems


def by_trusted(root, project):
    Belief(project, (root / "README.md").read_text(), (root / DOCUMENT).read_text()).hold()
    return project.problems


def tried(copy, project, change, tell):
    """What is wrong with one trial; nothing where the change is told."""
    file = copy / change.path
    text = file.read_text()
    changed = change.change(text)
    if changed == text:
        return "the change finds nothing to change"
    file.write_text(changed)
    project.again(file)
    lines = tell(copy, project)
    file.write_text(text)
    project.again(file)
    return "" if any(change.told in line for line in lines) else f"it is not told: {'; '.join(lines) or 'nothing is'}"


def trials(root):
    """Tries every change in a copy; answers the status."""
    kinds = {by_stored_file: STORED_ALONE, by_promises: ALWAYS, by_trusted: BELIEVED}
    wrong = []
    with tempfile.TemporaryDirectory() as folder:
        copy = Path(folder)
        for file in (file for pattern in KEPT for file in root.glob(pattern)):
            (copy / file.relative_to(root)).parent.mkdir(parents=True, exist_ok=True)
            shutil.copyfile(file, copy / file.relative_to(root))
        project = Project(copy)
        for tell, changes in kinds.items():
            wrong += [f"without a change: {line}" for line in tell(copy, project)]
            found = [(change, tried(copy, project, change, tell)) for change in changes]
            wrong += [f"{change.name} ({change.path}): {why}" for change, why in found if why]
    for line in wrong:
        print(f"trials: {line}")
    if not wrong:
        print(f"trials: {sum(map(len, kinds.values()))} changes, each told")
    return 1 if wrong else 0
