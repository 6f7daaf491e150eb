"""The definitions of the repository's specs/ modules, and what each of them names.

A module is a file `crates/CRATE/specs/NAME.antt`; a definition is a signature with its clauses, a record or a data type. What it names is
told by its words, not by the prover. A word counts as a name of its module, or as one that the module imports, unless a clause binds it
(a parameter, a pattern, a λ, a field before it), or it stands behind a dot, or as a field that a record literal sets. A word that a clause
binds anywhere counts as bound in all of that clause, and `do` as a use of `>>=`.
"""
from __future__ import annotations

import os
import re
from typing import Iterator, NamedTuple, Optional

from vswlib.ending import Refused

Name = tuple[str, str]  # a module's path below `Rattle.`, and a name in it

HEAD = re.compile(r"(?:(?:abbrev|unfoldable|pub|record|data)\s+)+(\S+)|(\S+) : ")
WORD = re.compile(r"\.?[^\W\d]\w*(?:-\w+)*(?:\.[^\W\d]\w*(?:-\w+)*)*|\[\]|[^\s\w(){}\[\],;.◌]+")
USE = re.compile(r"(?:pub )?use (?:Rattle\.)?([\w.«»]+?)(?:\.\{(.*)\}|(?: as (\S+))?)\s*$")
BINDER = re.compile(r"[({]([^\W\d][\w ]*?) :|λ ([^.]*)\.|\blet (\w+)\b|(\w+) ←")
FIELD_SET = re.compile(r"([{;]\s*)[^\W\d]\w*(?= = )")
FIELD = re.compile(r"\s+(?:pub )?(?!--)(\S+) : ")
TYPE = re.compile(r"(?:pub )?(?:record|data) ")


class Definition(NamedTuple):
    name: str
    lines: int  # without blanks and comments
    comments: int  # lines of comment above it and in it
    above: bool  # whether a comment stands right above it
    uses: frozenset[Name]


class Module(NamedTuple):
    path: str  # as `vsw_run.specs.IsRun`
    file: str
    definitions: dict[str, Definition]
    imports: dict[str, Name]
    owners: dict[str, str]  # a constructor or an operator, and the definition that has it


def file_of(root: str, path: str) -> str:
    crate, _, *rest = path.split(".")
    return os.path.join(root, "crates", crate, "specs", *rest) + ".antt"


def read_text(file: str) -> str:
    try:
        with open(file, encoding="utf-8") as stream:
            return stream.read()
    except OSError as why:
        raise Refused(f"{file}: {why.strerror}") from why


def crate_order(root: str) -> list[str]:
    """The crates from the bottom up, as crates.txt has them."""
    lines = (line.split("#")[0] for line in read_text(os.path.join(root, "crates.txt")).splitlines())
    return [line.partition(":")[0].split()[0] for line in lines if line.strip()]


class Repository:
    """The modules of specs/, read as they are asked for."""

    def __init__(self, root: str) -> None:
        self.root = root
        self.crates = crate_order(root)
        self.modules: dict[str, Module] = {}
        self.shown: dict[str, dict[str, str]] = {}

    def is_own(self, path: str) -> bool:
        return path.split(".")[0] in self.crates

    def has_definitions(self, path: str) -> bool:
        """Whether a path is a module of the repository's specs/, and not what is made of the code's types and contracts, or of lemmas."""
        return self.is_own(path) and path.split(".")[1] == "specs" and path.split(".")[2] not in ("declared", "contracts")

    def reexports(self, crate: str) -> dict[str, str]:
        """The modules of other crates that a crate's specs/Lib shows under names of its own."""
        if crate not in self.shown:
            self.shown[crate] = {}
            file = file_of(self.root, f"{crate}.specs.Lib")
            for line in read_text(file).splitlines() if os.path.exists(file) else []:
                found = USE.match(line)
                if line.startswith("pub use") and found:
                    self.shown[crate][found[3] or found[1].split(".")[-1]] = found[1]
        return self.shown[crate]

    def home(self, path: str) -> str:
        """The module that a path leads to, through re-exports."""
        while self.is_own(path):
            crate, folder, first, *rest = path.split(".")
            if folder != "specs" or first not in self.reexports(crate):
                break
            path = ".".join([self.reexports(crate)[first], *rest])
        return path

    def module(self, path: str) -> Module:
        return self.modules[path] if path in self.modules else read_module(self, path)

    def definition(self, name: Name) -> Optional[Definition]:
        """The definition that a name is of; None where it is none of specs/: of a kit's library, or of a type in the code."""
        path, word = name
        if not self.has_definitions(path):
            return None
        module = self.module(path)
        owner = module.owners.get(word, word)
        if owner not in module.definitions:
            raise Refused(f"{module.file}: no definition of {word}")
        return module.definitions[owner]


def code_of(line: str) -> str:
    """A line without its comment."""
    return re.sub(r"(^|\s)--(\s.*)?$", "", line).rstrip()


def opened(text: str) -> Iterator[str]:
    """The lines of a text, those of modules with parameters as if they stood outside of these."""
    inside = 0
    for line in text.splitlines():
        indent = len(line) - len(line.lstrip())
        if line.strip():
            inside = min(inside, indent)
        if re.match(r"(?:pub )?module .* where$", line.strip()):
            inside = indent + 2
        else:
            yield line[inside:]


def blocks(text: str) -> Iterator[tuple[str, list[str], int]]:
    """Each definition's name, its lines with comments in them, and how many lines of comment stand right above it."""
    name, lines, above, waiting = "", [], 0, 0
    known: set[str] = set()
    for line in opened(text):
        if not line.strip():
            waiting = 0
        elif line.startswith("--"):
            waiting += 1
        elif line.startswith(("use ", "pub use ", "pub mod ", "mod ", "infix")):
            waiting = 0 if line.startswith(("use", "pub", "mod")) else waiting
        else:
            head = None if line[0].isspace() else HEAD.match(line)
            fresh = head and (head[1] or head[2])
            if fresh and fresh not in known and (head[1] or "=" not in line.split(" : ")[0]):
                if name:
                    yield name, lines, above
                name, lines, above = fresh, [], waiting
                known.add(fresh)
            lines.append(line)
            waiting = 0
    if name:
        yield name, lines, above


def imports_of(repository: Repository, text: str, file: str) -> tuple[dict[str, Name], dict[str, str]]:
    """Names that are imported, by the words that stand for them, and modules by their aliases."""
    names: dict[str, Name] = {}
    aliases: dict[str, str] = {}
    for line in text.splitlines():
        if not line.startswith("use "):
            continue
        found = USE.match(line)
        if not found:
            raise Refused(f"{file}: {line}")
        home = repository.home(found[1])
        if found[2] is None:
            aliases[found[3] or found[1].split(".")[-1]] = home
        else:
            for item in found[2].split(","):
                word, _, other = item.strip().partition(" as ")
                names[other or word] = (home, word)
    return names, aliases


def bound_words(code: str) -> set[str]:
    """What parameters, λ, `let` and `do` bind in it."""
    return {word for found in BINDER.finditer(code) for group in found.groups() if group for word in re.findall(r"[^\W\d]\w*", group)}


def parts(lines: list[str]) -> Iterator[tuple[str, str]]:
    """A definition in parts, each with what it binds on its left: its signature, its clauses, or its fields. A field is bound for those
    behind it alone: its own type may name a definition that is called as it is."""
    is_type = bool(TYPE.match(lines[0]))
    starts = [number for number, line in enumerate(lines) if number and (FIELD.match(line) if is_type else not line[0].isspace())]
    head = "\n".join(lines[:starts[0]] if starts else lines)
    yield head, ""
    fields: list[str] = []
    for start, end in zip(starts, [*starts[1:], len(lines)]):
        part = "\n".join(lines[start:end])
        if is_type:
            name, _, rest = part.strip().partition(" : ")
            yield rest, " ".join([*bound_words(head), *fields])
            fields.append(name.split()[-1])
        else:
            left = re.split(r"\s=\s", part)[0]
            patterns = left.partition(" ")[2]
            yield part[len(left):], patterns
            yield patterns, patterns


def words_of(code: str, bound: set[str]) -> Iterator[str]:
    """Its words, with what stands behind a dot of theirs, but for bound ones, projections, and fields that are set."""
    for found in WORD.finditer(FIELD_SET.sub(r"\1", code)):
        word = found[0]
        if not word.startswith(".") and word.split(".")[0] not in bound:
            yield word


def is_constructor(repository: Repository, word: str, names: dict[str, Name]) -> bool:
    """Whether a word in a pattern is a constructor, and not a name that the pattern binds."""
    if word[0].isupper():
        return True
    if word not in names:
        return False
    path, name = names[word]
    return not repository.has_definitions(path) or name in repository.module(path).owners


def named(repository: Repository, lines: list[str], names: dict[str, Name], aliases: dict[str, str]) -> set[Name]:
    """What a definition names, given what its words and its modules' aliases stand for."""
    code = [code_of(line) for line in lines]
    operators = {piece: word for word in names if "◌" in word for piece in word.split("◌") if piece}
    used: set[Name] = set()
    for part, left in parts([line for line in code if line.strip()]):
        patterns = re.findall(r"(?<![.\w])[^\W\d]\w*(?![.\w])", left)
        bound = bound_words(part) | {word for word in patterns if not is_constructor(repository, word, names)}
        for word in words_of(part, bound):
            first, _, rest = word.partition(".")
            if first in aliases and rest:
                used.add((aliases[first], rest.split(".")[0]))
            if first in names:
                used.add(names[first])
            operator = ">>=" if word == "do" else word
            if operator in operators:
                used.add(names[operators[operator]])
    return used


def read_module(repository: Repository, path: str) -> Module:
    file = file_of(repository.root, path)
    text = read_text(file)
    names, aliases = imports_of(repository, text, os.path.relpath(file, repository.root))
    found = list(blocks(text))
    owners: dict[str, str] = {}
    for name, lines, _ in found:
        if re.match(r"(?:pub )?data ", lines[0]):
            for line in lines[1:]:
                owner = FIELD.match(line)
                if owner:
                    owners[owner[1]] = name
    own = {word: (path, word) for word in [*owners, *(name for name, _, _ in found)]}
    definitions: dict[str, Definition] = {}
    module = repository.modules[path] = Module(path, os.path.relpath(file, repository.root), definitions, names, owners)
    for name, lines, above in found:
        uses = named(repository, lines, {**names, **own}, aliases)
        code = [line for line in lines if code_of(line).strip()]
        inside = sum(1 for line in lines if "--" in line and code_of(line) != line.rstrip())
        definitions[name] = Definition(name, len(code), above + inside, above > 0, frozenset(uses - {(path, name)}))
    return module


def closure(repository: Repository, roots: set[Name]) -> tuple[dict[str, dict[str, Definition]], set[Name]]:
    """What is reached from some names: definitions by their modules, and names that are none of specs/."""
    reached: dict[str, dict[str, Definition]] = {}
    outside: set[Name] = set()
    waiting, seen = sorted(roots), set(roots)
    while waiting:
        name = waiting.pop()
        found = repository.definition(name)
        if found is None:
            outside.add(name)
            continue
        reached.setdefault(name[0], {})[found.name] = found
        for other in found.uses - seen:
            seen.add(other)
            waiting.append(other)
    return reached, outside


def reading_order(repository: Repository, reached: dict[str, dict[str, Definition]]) -> list[str]:
    """Modules so that each stands behind those that it uses, and crates stand as crates.txt has them."""
    place = {crate: number for number, crate in enumerate(repository.crates)}
    order: list[str] = []
    done: set[str] = set()

    def visit(path: str) -> None:
        if path in done:
            return
        done.add(path)
        for other in below(reached, path):
            visit(other)
        order.append(path)

    for path in sorted(reached, key=lambda one: (place[one.split(".")[0]], one)):
        visit(path)
    return order


def below(reached: dict[str, dict[str, Definition]], path: str) -> list[str]:
    """The modules that a module's reached definitions name."""
    return sorted({name[0] for one in reached[path].values() for name in one.uses if name[0] in reached and name[0] != path})


def all_modules(repository: Repository) -> Iterator[Module]:
    """Each module of specs/, but for the lists of modules (Lib)."""
    for crate in repository.crates:
        top = os.path.join(repository.root, "crates", crate, "specs")
        for folder, _, files in sorted(os.walk(top)):
            for file in sorted(files):
                if file.endswith(".antt") and file != "Lib.antt":
                    inner = os.path.relpath(os.path.join(folder, file), top)[:-len(".antt")]
                    yield repository.module(f"{crate}.specs." + inner.replace(os.sep, "."))


def said_twice(repository: Repository) -> list[list[Name]]:
    """Definitions that say the same word for word, up to their own names and those of what their clauses bind."""
    found: dict[str, list[Name]] = {}
    for module in all_modules(repository):
        for name, lines, _ in blocks(read_text(os.path.join(repository.root, module.file))):
            found.setdefault(without_names(name, lines), []).append((module.path, name))
    return sorted((names for names in found.values() if len(names) > 1), key=len, reverse=True)


def without_names(name: str, lines: list[str]) -> str:
    said = []
    for part, left in parts([code_of(line) for line in lines if code_of(line).strip()]):
        others = {name: "it"}
        for word in re.findall(r"(?<![.\w])[a-z]\w*(?!\w)", left):
            others.setdefault(word, f"v{len(others)}")
        for word, other in others.items():
            part = re.sub(rf"(?<![.\w]){re.escape(word)}(?!\w)", other, part)
        said.append(" ".join(part.split()))
    return re.sub(r"^((abbrev|unfoldable|pub|record|data) )+", "", "\n".join(said))


def contract_names(repository: Repository, file: str, function: str) -> set[Name]:
    """What the clauses of a public function name, in a source file of the code."""
    text = read_text(os.path.join(repository.root, file))
    names: dict[str, Name] = {}
    for found in re.finditer(r"^ghost use Rattle\.([\w.]+)\.\{([^}]*)\};", text, re.M):
        names.update({word.strip(): (repository.home(found[1]), word.strip()) for word in found[2].split(",")})
    start = re.search(rf"^pub fn {function}\b", text, re.M)
    if not start:
        raise Refused(f"{file}: no public function {function}")
    clauses_text = text[start.start():text.index("\n{", start.start())]
    words = {word for clause in re.findall(r"^    (?:requires|ensures)\b.*", clauses_text, re.M) for word in words_of(clause, set())}
    operators = {part: word for word in names if "◌" in word for part in word.split("◌") if part}
    return {names[operators.get(word, word)] for word in words if operators.get(word, word) in names}
