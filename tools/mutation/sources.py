"""The files whose items are mutated."""
from . import code as code_of
from . import definitions as definitions_of


class Source:
    """A file of a crate with its items; known is what its module has to know of other files."""

    def __init__(self, root, crate, file, module, known):
        self.root, self.folder, self.crate, self.file, self.module = root, root / "crates" / crate, crate, file, module
        self.text = (self.folder / file).read_text()
        self.known = known(self.text)
        self.items = module.items_of(self.text)

    def mutants(self, item):
        found = self.module.mutants_of(item, self.known, self.text)
        if self.module is code_of:
            found += code_of.promises_of(item, self.text)
        return found

    def changed(self, mutant):
        """The files that a mutant changes, from the repository's top: its own, and where a rule got a premise those that use the rule."""
        text = mutant.apply(self.text)
        texts = {f"crates/{self.crate}/{self.file}": text}
        if mutant.kind == "never":
            place = mutant.edits[0][0]
            rule = self.text[:place].split()[-2]
            end = text.find("\n\n", place)
            texts[f"crates/{self.crate}/{self.file}"] = text[:end] + definitions_of.with_blank(text[end:], [rule])
            # out/ has copies of both folders
            written = [path for part in ("specs", "proofs") for path in self.root.glob(f"crates/*/{part}/**/*.antt")]
            for path in written:
                other = path.read_text()
                names = definitions_of.own_names(other, self.crate, self.file[len("specs/") : -len(".antt")], rule)
                if names:
                    texts[str(path.relative_to(self.root))] = definitions_of.with_blank(other, names)
        return texts


def code(root, crate):
    folder = root / "crates" / crate
    files = sorted(f"src/{path.name}" for path in (folder / "src").glob("*.rt"))
    return [Source(root, crate, file, code_of, lambda text: code_of.Declared(root, text)) for file in files]


def definitions(root, crate):
    names, parts = {}, {}
    for path in sorted(root.glob("crates/*/specs/*.antt")):
        text = path.read_text()
        names.update(definitions_of.constructors(text))
        for name, others in definitions_of.fields(text).items():
            parts.setdefault(name, set()).update(others)
    files = sorted(f"specs/{path.name}" for path in (root / "crates" / crate / "specs").glob("*.antt"))
    return [Source(root, crate, file, definitions_of, lambda text: (names, parts)) for file in files]
