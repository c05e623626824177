"""The crates: what a whole path means, and all that some contracts reach."""
import re

from .code import Source
from .specs import Spec


class Project:
    def __init__(self, root):
        self.crates, self.problems = root / "crates", []
        self.sources, self.read_specs = {}, {}
        for folder in sorted(path for path in self.crates.iterdir() if path.is_dir()):
            self.sources[folder.name] = [self.source(file) for file in sorted((folder / "src").rglob("*.rt"))]
        for file in sorted(self.crates.glob("*/specs/**/*.antt")):
            self.spec(file)

    def source(self, file):
        crate, _, *inner = file.relative_to(self.crates).with_suffix("").parts
        return Source(self, crate, file, inner[:-1] if inner[-1] in ("lib", "main", "mod") else inner)

    def again(self, file):
        """Reads a file anew that has changed, and forgets what was told."""
        self.problems = []
        if file.suffix == ".rt":
            made = self.source(file)
            others = self.sources[made.crate]
            self.sources[made.crate] = [made if other.path == made.path else other for other in others]
        elif file in self.read_specs:
            self.read_specs[file] = Spec(self, file)

    def problem(self, text):
        if text not in self.problems:
            self.problems.append(text)

    def short(self, file):
        """A file as the documents name it."""
        return str(file.relative_to(self.crates))

    def spec(self, file):
        if file not in self.read_specs:
            self.read_specs[file] = Spec(self, file)
        return self.read_specs[file]

    def specs(self):
        """The files of specs/ that define something."""
        return {spec.path: spec for spec in self.read_specs.values() if spec.definitions and "/specs/" in spec.path}

    def has_module(self, crate, module):
        return any(source.module == module for source in self.sources[crate])

    def all_functions(self):
        return [function for sources in self.sources.values() for source in sources for function in source.functions]

    def functions(self, crate, module, name, user):
        sources = [source for source in self.sources.get(crate, ()) if source.module == module]
        found = [function for source in sources for function in source.functions if function.name == name]
        if not found:
            self.problem(f"{user}: there is no function {'::'.join([crate, *module, name])}")
        return found

    def types(self, crate, module, name):
        sources = [source for source in self.sources.get(crate, ()) if source.module == module]
        return [declared for source in sources for declared in source.types if declared.name == name]

    def meanings(self, path, user):
        """The definition or the type that a whole path names; nothing where it is the kit's, or a module."""
        found = re.fullmatch(r"Rattle\.(\w+)\.(\w+)\.(.+)", path)
        if not found or found[1] not in self.sources:
            return set()
        crate, part, words = found[1], found[2], found[3].split(".")
        if words[0] == "declared":
            return self.declared(crate, words[1:], path, user)
        file = self.crates / crate / part
        while words and not file.with_suffix(".antt").is_file():
            file /= words.pop(0)
        if not file.with_suffix(".antt").is_file():
            self.problem(f"{user}: there is no file for {path}")
            return set()
        return self.defined(self.spec(file.with_suffix(".antt")), words, user)

    def declared(self, crate, words, path, user):
        """The type of a path of modules, a type, and perhaps one of its variants."""
        for at, name in enumerate(words):
            if found := self.types(crate, words[:at], name):
                return set(found)
        self.problem(f"{user}: there is no type for {path}")
        return set()

    def defined(self, spec, words, user):
        """The definition of a file, or one that it passes on."""
        if not words:
            return set()
        found = spec.words.get(words[0], set())
        for path in () if found else spec.scope.whole(words[0]):
            found = found | self.meanings(path, spec.path)
        if not found:
            self.problem(f"{user}: there is no `{words[0]}` in {spec.path}")
        return found

    def reach(self, roots):
        """All that the roots reach, each with what it was reached from."""
        came_from, ahead = {root: None for root in roots}, list(roots)
        while ahead:
            at = ahead.pop(0)
            for found in sorted(at.reaches(), key=str):
                if found not in came_from:
                    came_from[found] = at
                    ahead.append(found)
        return came_from
