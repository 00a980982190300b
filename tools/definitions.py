"""The definitions of the crates' specs/ and the types of their src/, and the names that each uses.

The meaning of a name is determined by the imports of its file. A name that is bound locally, such
as a parameter or a field, means no definition."""
import re
from collections import defaultdict
from dataclasses import dataclass, field
from pathlib import Path

NAME = r"[^\s(){}\[\];,.\"]+"
TOKEN = re.compile(rf'"[^"]*"|[(){{}}\[\];,]|(?:{NAME})?(?:\.{NAME})+|{NAME}|\.')
CLOSER = {"(": ")", "{": "}", "[": "]"}
WORDS = {"record", "let", "in", "λ", "=", ":", "where", "→", "×", "⊥", "absurd", "Type", "Unit", "tt"}
ITEM = re.compile(r"(?:(?:abbrev|unfoldable) )?pub (?:(record|data) )?(?!mod )(\S+)")
MODULE = re.compile(r"^(module _ [^\n]*(?:\n    [^\n]*)*? where)\n((?:  [^\n]*\n|\n(?=  ))*)", re.M)
CASE = re.compile(r"  (\S+) :")
USE = re.compile(r"^\s*(?:ghost )?use (\w+(?:\.\w+)+)(?:\.\{([^}]*)\})?(?: as (\S+?))?;?$", re.M)
CODE_ITEM = re.compile(r"^(?:pub(?:\([a-z]+\))? )?(struct|enum|type|const) (\w+)", re.M)
CONSTANT = re.compile(r"^    (?:pub(?:\([a-z]+\))? )?const (\w+)", re.M)
IMPL = re.compile(r"^impl(?:<[^>]*>)? (Model for )?(\w+)(?:<[^>]*>)? \{\n(.*?)^\}", re.M | re.S)


class Unknown(Exception):
    """A name without a known meaning, or a form that can't be parsed."""


@dataclass
class Item:
    """A definition, or a type or a constant of the code."""

    crate: str
    module: str  # its file in the crate, as specs/History
    name: str
    text: str  # with the comment above it
    section: str = ""  # the last heading before it
    block: str = ""  # the `module _ .. where` that contains it, if there is one
    names: set = field(default_factory=set)  # the keys of the names that it uses
    fault: str = ""  # why these aren't known, if so
    law: str = ""  # the law that defines it, if that is shown instead of its cases

    @property
    def key(self):
        return self.crate, self.module, self.name

    @property
    def is_definition(self):
        return self.module.startswith("specs/")


# ---- the names that a term uses


def tokens(text):
    return TOKEN.findall(re.sub(r"(^|\s)--.*", r"\1", text).replace("λ", " λ "))


def uses_of(text):
    """Returns the imports of definitions: each module, its names in one text, and its local
    name."""
    return [it.groups() for it in USE.finditer(text)]


class Scope:
    """The meanings of the names in a file."""

    def __init__(self, house, crate, module, uses):
        self.house, self.crate, self.module = house, crate, module
        self.means, self.modules = defaultdict(list), {}  # a case may be imported from two types
        for path, names, alias in uses:
            if names is None:
                self.modules[alias or path.rpartition(".")[2]] = path
            for one in filter(None, (it.strip() for it in (names or "").split(","))):
                name, _, other = one.partition(" as ")
                self.means[other or name].append((path, name))
        named = [*self.means, *house.files[crate, module].items]
        self.operators = {next(filter(None, it.split("◌"))): it for it in named if "◌" in it}
        self.words = {*self.means, *self.modules, *(word for it in named if "◌" in it for word in it.split("◌"))}

    def keys(self, name):
        """Returns the keys of a name's meaning; none if it is the library's, or has none."""
        name = self.operators.get(name, name)
        first, _, rest = name.partition(".")
        if first in self.modules and rest:
            found = {self.house.key(self.modules[first], rest.partition(".")[0])}
        elif first in self.means:
            found = {self.house.key(*it) for it in self.means[first]}
        else:
            found = {self.house.own(self.crate, self.module, first)}
        return found - {None}

    def has(self, name):
        """Returns whether a name is imported or the file's own, or is a number or a text."""
        return name in self.words or name[0] in '"0123456789' or bool(self.house.own(self.crate, self.module, name))

    def is_case(self, name):
        """Returns whether a name in a pattern is a case of a type, and no parameter."""
        first = name.partition(".")[0]
        paths, reals = zip(*self.means.get(first, [("", first)]))
        if first in self.modules or any("TheVariants" in it for it in paths):
            return True
        return any(it[1].startswith("specs/") and it[2] not in reals for it in self.keys(name))


class Reader:
    """Finds the names that a term uses."""

    def __init__(self, scope):
        self.scope, self.found = scope, set()

    def name(self, token, bound):
        first = token.partition(".")[0]
        if first in {"", *bound, *WORDS}:
            return
        if not self.scope.has(first):
            raise Unknown(f"`{first}` is neither bound nor brought in")
        self.found |= self.scope.keys(token)

    def pattern(self, these, bound=frozenset()):
        """Returns the names that a pattern binds."""
        made, at = set(), 0
        while at < len(these):
            it, names = these[at], telescope(these, at)
            if names:
                at = self.term(these, at + len(names) + 2, bound, CLOSER[it])
                made |= {*names}
            elif self.scope.is_case(it) or it in self.scope.operators:
                self.name(it, ())
            elif re.match(NAME, it):
                made.add(it)
            at += 1
        return made

    def term(self, these, at=0, bound=frozenset(), end=None):
        """Reads from a position up to this token, and returns the token's position."""
        outer, bound = bound, {*bound}
        while at < len(these) and these[at] != end:
            it = these[at]
            if it in CLOSER:
                at = self.bracket(these, at, bound)
            elif it == "λ":
                dot = these.index(".", at)
                bound |= self.pattern(these[at + 1 : dot], bound)
                at = dot
            elif it == "let":
                at = self.let(these, at, bound)
            elif it in ",;":
                bound = {*outer}
            elif end != "}" or these[at + 1] != "=":  # otherwise it is the name of a field or of an argument
                self.name(it, bound)
            at += 1
        return at

    def bracket(self, these, at, bound):
        """Reads the content of brackets; names before a colon are bound by them."""
        names = telescope(these, at)
        end = self.term(these, at + 1 + (len(names) + 1 if names else 0), bound, CLOSER[these[at]])
        bound |= {*names}
        return end

    def let(self, these, at, bound):
        end = next(i for i in range(at, len(these)) if these[i] in "=:")
        names = self.pattern(these[at + 1 : end], bound)
        if these[end] == ":":
            end = self.term(these, end + 1, bound, "=")
        end = self.term(these, end + 1, bound, "in")
        bound |= names
        return end

    def head(self, these, at, bound=frozenset()):
        """Reads the parameters and the type of a record or a data type, and returns the names bound
        after them."""
        bound = {*bound}
        while these[at] in CLOSER:
            at = self.bracket(these, at, bound) + 1
        self.term(these, at, bound)
        return bound

    def clause(self, these, own, bound):
        """Reads one case of a function."""
        depth = 0
        for at, it in enumerate(these):
            depth += (it in CLOSER) - (it in CLOSER.values())
            if it == "=" and depth == 0:
                self.term(these, at + 1, bound | self.pattern([one for one in these[:at] if one != own], bound))
                return
        raise Unknown("a case without `=`")


def telescope(these, at):
    """Returns the names before a colon, if a bracket begins with them."""
    end = at + 1
    while these[at] in ("(", "{") and end < len(these) and re.fullmatch(NAME, these[end]) and these[end] not in ":=λ→":
        end += 1
    return these[at + 1 : end] if end < len(these) and these[end] == ":" else []


# ---- files


class Definitions:
    """The definitions of one file of specs/."""

    def __init__(self, crate, path):
        self.crate, self.module = crate, f"specs/{path.stem}"
        self.text = path.read_text(encoding="utf-8")
        about = re.match(r"(?:--.*\n)+", self.text)
        self.about = " ".join(it[3:] for it in about[0].splitlines()) if about else ""
        self.items, self.kinds, self.owners = {}, {}, {}
        section = ""
        for head, block in self.blocks():
            if block[0].startswith("-- ----"):
                section, block = block[0], block[1:]
            for item in [it for it in map(ITEM.match, block) if it][:1]:
                kind, name = item.groups()
                self.items[name] = Item(crate, self.module, name, "\n".join(block), section, head)
                self.kinds[name] = kind
                cases = [it[1] for it in map(CASE.match, block) if it] if kind == "data" else []
                self.owners |= dict.fromkeys([name, *cases], name)

    def parts(self):
        """Yields the text outside of `module _ .. where`, and that of each such block after its
        head, without indent."""
        end = 0
        for it in MODULE.finditer(self.text):
            yield "", self.text[end : it.start()]
            yield it[1], re.sub(r"^  ", "", it[2], flags=re.M)
            end = it.end()
        yield "", self.text[end:]

    def blocks(self):
        """Yields the lines of each definition, with the comment above it, and headings, with the
        head of their block."""
        for head, text in self.parts():
            block = []
            for line in [*text.splitlines(), ""]:
                is_comment = line.startswith("--") and not all(it.startswith("--") for it in block)
                is_next = ITEM.match(line) and any(map(ITEM.match, block))
                if block and (not line or is_comment or is_next):
                    yield head, block
                    block = []
                if line:
                    block.append(line)

    def own(self, name):
        return self.owners.get(name)

    def read(self, house):
        """Finds the names that each definition uses."""
        scope = Scope(house, self.crate, self.module, uses_of(self.text))
        for name, item in self.items.items():
            reader = Reader(scope)
            lines = [it for it in item.text.splitlines() if not it.startswith(("--", "infix"))]
            try:
                bound = read_head(reader, item.block)
                {"record": read_record, "data": read_data, None: read_function}[self.kinds[name]](reader, name, lines, bound)
            except (Unknown, ValueError, StopIteration, IndexError) as it:
                item.fault = f"crates/{self.crate}/{self.module}.antt: {name}: {it}"
            item.names = reader.found - {item.key}


def read_head(reader, head):
    """Reads the parameters of a `module _ .. where`, and returns them."""
    return reader.head(tokens(head), 2) if head else set()


def read_record(reader, name, lines, bound):
    parts = " ".join(tokens("\n".join(lines))).split("pub ")[1:]
    bound = reader.head(parts[0].split(), 2, bound)
    for one in map(str.split, parts[1:]):
        reader.term(one, 2, bound)
        bound.add(one[0])


def read_data(reader, name, lines, bound):
    bound = reader.head(tokens(lines[0]), 3, bound)
    for one in re.split(r"\n(?=  \S+ :)", "\n".join(lines[1:])):
        reader.term(tokens(one), 2, bound)


def read_function(reader, name, lines, bound):
    first, *cases = re.split(r"\n(?=[^\s)}\]])", "\n".join(lines))
    these = tokens(first)
    reader.term(these, these.index(":") + 1, bound)
    for one in cases:
        reader.clause(tokens(one), next(filter(None, name.split("◌"))), bound)


class Code:
    """The types and the constants of one file of src/."""

    def __init__(self, crate, path, module):
        self.crate, self.module = crate, module
        self.text = path.read_text(encoding="utf-8")
        self.items, self.values = {}, {}
        for it in CODE_ITEM.finditer(self.text):
            self.add(it[2], it.start())
        for block in IMPL.finditer(self.text):
            if block[1] and "ghost Value =" in block[3]:
                self.values[block[2]] = block[3]
            for it in CONSTANT.finditer(block[3]):
                self.add(f"{block[2]}.{it[1]}", block.start(3) + it.start())

    def add(self, name, start):
        """Adds an item, with the comment above it and without its attributes."""
        rest = self.text[start:]
        line = rest.partition("\n")[0]
        indent = re.match(" *", line)[0]
        if line.endswith(";"):
            end = line
        elif line.endswith("="):
            end = re.match(r".*?;$", rest, re.M | re.S)[0]
        else:
            end = re.match(rf".*?^{indent}[}}\]][;)]*", rest, re.M | re.S)[0]
        above = re.search(r"(?:^ *(?://|#\[).*\n)*\Z", self.text[:start], re.M)[0].splitlines()
        lines = [it for it in above if it.lstrip().startswith("//")] + end.splitlines()
        self.items[name] = Item(self.crate, self.module, name, "\n".join(it.removeprefix(indent) for it in lines))

    def own(self, name):
        return name if name in self.items else None

    def read(self, house):
        """Finds the names that each type uses: in its fields, or if it has a model in its
        `Value`."""
        uses = code_uses(self.text)
        for name, item in self.items.items():
            if name in self.values:
                self.read_value(house, item)
                continue
            text = re.sub(r"//.*", "", item.text)
            item.names = {house.of_code(self.crate, self.module, it, uses) for it in re.findall(r"\b[A-Z]\w*", text)}
            reader = Reader(Scope(house, self.crate, self.module, uses_of(self.text)))
            try:
                for ghost in re.findall(r"ghost \w+: \{(.*?)\}", text, re.S):
                    reader.term(tokens(ghost), bound={*re.findall(r"(\w+):", text)})
            except Unknown as it:
                item.fault = f"crates/{self.crate}/{self.module}.rt: {name}: {it}"
            item.names = (item.names | reader.found) - {item.key, None}

    def read_value(self, house, item):
        inside = self.values[item.name]
        value = re.search(r"ghost Value = \{ (.*?) \};", inside, re.S)[1]
        scope = Scope(house, self.crate, self.module, uses_of(self.text) + uses_of(inside))
        reader = Reader(scope)
        reader.term(tokens(value), bound={*re.findall(r"(\w+):", item.text)})
        item.names = reader.found
        value = re.sub(r"\w+", lambda it: scope.means.get(it[0], [("", it[0])])[0][1], value)  # by the name at its definition
        item.text = re.sub(r"\{.*", "{ .. }", item.text, flags=re.S) + f"\n// in clauses: {value}"


def code_uses(text):
    """Returns the path and the name of each name that a file of code imports."""
    found = {}
    for it in re.finditer(r"^(?:pub )?use ([\w:]+?)(?:::\{([^}]*)\})?;", text, re.M | re.S):
        path = it[1].split("::")
        for one in filter(None, map(str.strip, (it[2] or path.pop()).split(","))):
            name, _, other = one.partition(" as ")
            found[other or name] = (path, name)
    return found


def contract_of(file, name):
    """Returns a function's doc comment, and its signature with its clauses."""
    found = re.search(rf"^pub fn {name}\(.*?(?=^\{{)", file.text, re.M | re.S)
    if not found:
        raise Unknown(f"crates/{file.crate}/{file.module}.rt has no function {name}")
    return re.search(r"(?:^///.*\n)*\Z", file.text[: found.start()], re.M)[0], found[0].rstrip()


def clauses_of(contract):
    """Returns the clauses of a contract: the label of each, if it has one, and its text, without the indent of its lines."""
    found = re.findall(r"^    (?:ensures|requires) (\w*) *\{ (.*?) \}$", contract, re.M | re.S)
    return [(label, re.sub(r"\n +", "\n    ", text)) for label, text in found]


def names_in(house, file, contract):
    """Returns the keys of the names in the clauses of a contract."""
    reader = Reader(Scope(house, file.crate, file.module, uses_of(file.text)))
    for _, clause in clauses_of(contract):
        reader.term(tokens(clause), bound={"result", *re.findall(r"(\w+): ", contract.partition("\n    ensures")[0])})
    return reader.found


class House:
    """All definitions and all types of the crates, by their keys: crate, module and name."""

    def __init__(self):
        lines = Path("crates.txt").read_text(encoding="utf-8").splitlines()
        self.crates = [re.match(r"\w+", it)[0] for it in lines if not it.startswith("#")]
        self.files = {}
        for crate in self.crates:
            folder = Path("crates") / crate
            for path in sorted(folder.glob("specs/*.antt")):
                self.files[crate, f"specs/{path.stem}"] = Definitions(crate, path)
            for path in sorted(folder.glob("src/**/*.rt")):
                module = f"src/{path.relative_to(folder / 'src').with_suffix('')}".removesuffix("/mod")
                self.files[crate, module] = Code(crate, path, module)
        for it in self.files.values():
            it.read(self)

    def item(self, key):
        return self.files[key[:2]].items[key[2]]

    def own(self, crate, module, name):
        """Returns the key of a file's own name, or of the type whose case it is; None if there is
        none."""
        file = self.files.get((crate, module))
        found = file and file.own(name)
        return (crate, module, found) if found else None

    def key(self, path, name):
        """Returns the key of a name imported from a module; None if that is the library's."""
        root, crate, *parts = path.split(".")
        if root != "Rattle" or crate not in self.crates:
            return None
        parts = parts[1:]  # after `specs`
        if parts[0] != "declared":
            found = self.own(crate, f"specs/{parts[0]}", name)
        else:
            *modules, last = parts[1:]
            if "TheConstants" in parts:
                at = parts.index("TheConstants")
                modules, name = parts[1:at], ".".join([*parts[at + 1 :], name])
            elif last == "TheVariants":
                *modules, name = modules
            found = self.own(crate, f"src/{'/'.join(modules) or 'lib'}", name)
        if not found:
            raise Unknown(f"{path}.{name} isn't found")
        return found

    def of_code(self, crate, module, name, uses):
        """Returns the key of a type by its name in a file of code; None if that is the
        library's."""
        path, name = uses.get(name, (["crate", *module.split("/")[1:]], name))
        while path and path[0] in ("crate", *self.crates):
            crate = crate if path[0] == "crate" else path[0]
            module = f"src/{'/'.join(path[1:]) or 'lib'}"
            found = self.own(crate, module, name)
            if found or (crate, module) not in self.files:
                return found
            path, name = code_uses(self.files[crate, module].text).get(name, (None, name))
            path = path and (path if path[0] in ("crate", *self.crates) else ["crate", *path])
        return None
