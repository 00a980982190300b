"""The edits of a crate: changes of its code or definitions that its proofs have to refuse.

A file NAME.edit has one edit, in the kit's form: lines `file: PATH`, `old: TEXT` and `new: TEXT`.
The old text occurs once in that file of the crate, and is replaced by the new text. Further pairs
apply to the result of the earlier ones.

A file FILE.edits is a table: the edits of one source file. Its first line `file: PATH` holds for
every edit. Each edit is a heading `# WORDS`, the wrong behaviour, and then its lines as above; a
line `file: PATH` there holds for the further pairs of that edit. The name of an edit is its
heading, in small letters, with `_` between the words."""
import re
from dataclasses import dataclass
from pathlib import Path

FUNCTION = re.compile(r"^( *)(?:pub(?:\([a-z]+\))? )?(?:(?:const|final|unsafe) )*(?:extern \"C\" )?fn (\w+)", re.M)
BLOCK = re.compile(r"^(?:pub(?:\([a-z]+\))? )?(?:unsafe )?(impl|trait)\b(.*?) \{$", re.M | re.S)
FOLDERS = ("wrong", "wrong_below")


class Stale(Exception):
    """An edit that doesn't apply."""


@dataclass(frozen=True)
class Place:
    """A function, by its module, and by its type and trait if it is a method."""

    module: str
    owner: str
    function: str

    def among(self, paths):
        """Returns its path, if it is one of these paths of a crate's functions.

        A method is named by the module of its type, and a trait by its arguments too."""
        start = rf"(?:\w+::)*{self.owner}\w*::" if self.owner else f"{self.module}::" * bool(self.module)
        found = [it for it in paths if re.fullmatch(start + self.function, it)]
        exact = [it for it in found if it.split("::")[-2:-1] == [self.owner]]
        found = exact or found
        return found[0] if len(found) == 1 else None


@dataclass
class Edit:
    name: str
    heading: str
    path: Path  # the file that it is written in
    pairs: list  # (file, old, new), in order

    def __str__(self):
        return f"{self.path}: {self.heading}"

    def text(self, given=""):
        """Returns its lines; those of a table leave out the file that holds for all."""
        lines = []
        for file, old, new in self.pairs:
            lines += [f"file: {file}"] * (file != given) + [f"old: {old}", f"new: {new}" if new else "new:"]
            given = file
        return "".join(f"{it}\n" for it in lines)

    def applied(self, crate, texts):
        """Returns the texts by their files after this edit; a file that isn't among them yet has
        the crate's text."""
        texts = dict(texts)
        for file, old, new in self.pairs:
            text = texts.get(file) or (crate / file).read_text(encoding="utf-8")
            count = text.count(old)
            if count != 1:
                raise Stale(f"{self}: the text `{old.strip()}` occurs {count} times in {file}, and not once")
            texts[file] = text.replace(old, new)
        if not self.pairs:
            raise Stale(f"{self}: it has no old and no new text")
        return texts

    def below(self, crate):
        """Returns the crates below whose files it changes."""
        return {crate.parent / Path(file).parts[1] for file, _, _ in self.pairs if file.startswith("../")}

    def places(self, crate):
        """Returns the functions whose bodies it changes; none if it changes other code or definitions."""
        found = [place_of(crate, file, old) for file, old, _ in self.pairs if not file.startswith("proofs/")]
        return {*found} if all(found) else set()

    def proofs(self):
        """Returns the paths of the functions whose proofs it changes."""
        return {"::".join(Path(file).parts[1:-1]) for file, _, _ in self.pairs if file.startswith("proofs/")}


def place_of(crate, file, old):
    """Returns the function in whose body the text occurs, or None."""
    text = (crate / file).read_text(encoding="utf-8")
    at = text.find(old)
    heads = [it for it in FUNCTION.finditer(text) if it.start() <= at]
    if not file.startswith("src/") or not heads or not is_in_body(heads[-1][1], text[heads[-1].end() : at]):
        return None
    of, named = owner(text, heads[-1].start(2)), heads[-1][2]
    same = [it for it in FUNCTION.finditer(text) if it[2] == named and owner(text, it.start(2)) == of]
    module = re.sub(r"^(lib|main)$", "", file[4:-3].replace("/mod", "")).replace("/", "::")
    return Place(module, of, named) if len(same) == 1 else None


def is_in_body(indent, before):
    """Returns whether this text after a function's name contains the start of a body and not its
    end.

    The sources have the layout of rt fmt."""
    return bool(re.search(r"^ *{$| {$", before, re.M)) and not re.search(rf"^{indent}}}$", before, re.M)


def owner(text, at):
    """Returns the name of the type, or of the type and the trait, of the method at this position.

    It is "" if there is no method."""
    if text[text.rfind("\n", 0, at) + 1] != " ":
        return ""
    head = [it for it in BLOCK.finditer(text) if it.start() < at][-1:]
    said = head[0][2].replace("->", "") if head else ""
    while "<" in said and said != (said := re.sub(r"<[^<>]*>", "", said)):
        pass
    words = re.match(r" *(?:\w+::)*(\w+)(?: for (?:\w+::)*(\w+))?", said)
    return (words[2] or "") + words[1] if words else ""


def name_of(heading):
    """Returns the name of an edit with this heading."""
    return re.sub(r"\W+", "_", heading.lower().replace("'", "")).strip("_")


def heading_of(name):
    """Returns the heading of an edit that was named in a file of its own."""
    return re.sub(r"\b(is|are|does)nt\b", r"\1n't", name.replace("_", " ").replace(" s ", "'s "))


def edits_of(path):
    """Returns the edits that a file has."""
    edits = [Edit(path.stem, path.stem, path, [])] if path.suffix == ".edit" else []
    given, file, old = None, None, None
    for line in path.read_text(encoding="utf-8").splitlines():
        word, _, rest = line.partition(": ")
        if line.startswith("# ") and path.suffix == ".edits":
            edits.append(Edit(name_of(line[2:]), line[2:], path, []))
            file = given
        elif word == "file":
            given, file = (given, rest) if edits else (rest, rest)
        elif word == "old":
            old = rest
        elif (word == "new" or line == "new:") and edits:
            edits[-1].pairs.append((file, old, rest))
    return edits


def edits_in(folder):
    """Returns the edits of a folder: of its tables, and the loose ones."""
    return [edit for it in sorted(folder.rglob("*.edit*")) for edit in edits_of(it)]


def edits_for(crate):
    """Returns the crate's edits that `tools/wrong` tries."""
    return [edit for it in FOLDERS for edit in edits_in(crate / it)]


def position(crate, edit):
    """Returns the position in its first file at which an edit begins, for the order of a table."""
    file, old, _ = edit.pairs[0]
    return (crate / file).read_text(encoding="utf-8").find(old), edit.name


def gather(crate, folder):
    """Moves the loose edits of a crate's folder into the tables of the files that they change
    first.

    Returns the number of these edits."""
    loose = [it for it in edits_in(crate / folder) if it.path.suffix == ".edit"]
    tables = {}
    for edit in loose:
        edit.heading = heading_of(edit.name)
        file = edit.pairs[0][0]
        tables.setdefault(crate / folder / Path(*Path(file.removeprefix("../")).parts[1 if file[0] != "." else 2 :]).with_suffix(".edits"), []).append(edit)
    for path, edits in tables.items():
        write_table(crate, path, edits + (edits_of(path) if path.is_file() else []))
    for edit in loose:
        edit.path.unlink()
    for it in sorted((crate / folder).rglob("*/"), reverse=True):
        if it.is_dir() and not any(it.iterdir()):
            it.rmdir()
    return len(loose)


def write_table(crate, path, edits):
    """Writes a table of these edits, in the order of their source file."""
    given = edits[0].pairs[0][0]
    path.parent.mkdir(parents=True, exist_ok=True)
    parts = [f"\n# {it.heading}\n{it.text(given)}" for it in sorted(edits, key=lambda it: position(crate, it))]
    path.write_text(f"file: {given}\n" + "".join(parts), encoding="utf-8")
