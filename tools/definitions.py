"""Reads the definitions of specs/, and the types and clauses of the code that cite them."""
import re
from collections.abc import Iterable
from dataclasses import dataclass, field
from functools import cached_property
from pathlib import Path

USE = re.compile(
    r"^\s*(?:ghost )?(?:unfoldable )?(?P<passed>pub )?use (?P<module>[^\s{;]+?)"
    r"(?:\.\{(?P<names>[^}]*)\}| as (?P<alias>[^\s;]+))?;?$"
)
SIGNATURE = re.compile(
    r"^(?:(?:abbrev|unfoldable|pub) )*(?:(?:record|data) (?P<type>[^\s:(]+)|(?P<name>[^\s:(]+) :(?:\s|$))"
)
CONSTRUCTOR = re.compile(r"^\s+(?:pub )?(\S+) : ")
# What cites nothing. A text may have a `--`, as the name of an option.
STRING = re.compile(r'"[^"]*"')
COMMENT = re.compile(r"--.*$")
# What ends a word. A field `x.name` isn't a word of its own.
WORD = re.compile(r"[^\s(){}\[\],;.λ]+")
QUALIFIED = re.compile(r"(?<![^\s(){}\[\],;])([^\s(){}\[\],;.λ]+)\.([^\s(){}\[\],;.]+)")
PROJECTION = re.compile(r"(?<=[\w)'])\.[^\s(){}\[\],;]+")
# Names that a definition gives itself: fields of records and values, and variables.
FIELD_VALUE = re.compile(r"(?:(?<=[{;] )|^\s+)[\w-]+ = ")
VARIABLES = re.compile(r"[({]([\w' -]+?) : |λ ([\w' ]+?)\.")
EQUATION = re.compile(r"^[\w'-]+ ([^=:]*?) ?=(?:\s|$)")


@dataclass
class Scope:
    """What `use` lines bring in: names, each with its module and its name there, and modules by their aliases."""

    names: dict[str, tuple[str, str]] = field(default_factory=dict)
    modules: dict[str, str] = field(default_factory=dict)

    def read(self, line: str) -> bool:
        """Adds what a line brings in, and returns whether it is a `use` line."""
        use = USE.match(line)
        if not use:
            return False
        module = use["module"]
        if use["names"] is None:
            self.modules[use["alias"] or module.rsplit(".", 1)[-1]] = module
        for part in filter(None, (part.strip() for part in (use["names"] or "").split(","))):
            there, _, here = part.partition(" as ")
            self.names[here or there] = (module, there)
        return True

    def beside(self, other: "Scope") -> "Scope":
        return Scope(self.names | other.names, self.modules | other.modules)


@dataclass
class Definition:
    module: "Module"
    name: str
    lines: list[str]
    constructors: list[str] = field(default_factory=list)

    @property
    def size(self) -> int:
        """The number of its lines, without comments."""
        return sum(not line.lstrip().startswith("--") for line in self.lines)


@dataclass
class Module:
    """A file of specs/."""

    path: str
    file: Path
    scope: Scope = field(default_factory=Scope)
    # Names that the module passes on.
    passed: Scope = field(default_factory=Scope)
    definitions: dict[str, Definition] = field(default_factory=dict)


def read_module(path: str, file: Path) -> Module:
    module = Module(path, file)
    current = None
    before: list[str] = []
    for line in file.read_text(encoding="utf-8").splitlines():
        if not line.strip() or line.startswith(("--", "pub mod ", "mod ")):
            continue
        if module.scope.read(line):
            if USE.match(line)["passed"]:
                module.passed.read(line)
        elif line.startswith(("unfolding ", "infix")):
            before.append(line)
        elif found := SIGNATURE.match(line):
            name = found["type"] or found["name"]
            current = module.definitions[name] = Definition(module, name, [*before, line])
            before = []
        else:
            current.lines += [*before, line]
            before = []
            constructor = CONSTRUCTOR.match(line)
            if constructor and " data " in f" {current.lines[0]}":
                current.constructors.append(constructor[1])
    return module


@dataclass
class Function:
    owner: str
    name: str
    # From its name to the line before its body: parameters, result and clauses.
    head: list[str]


@dataclass
class Source:
    """A file of src/: its functions, the lines of its types and traits, and the models of types."""

    crate: str
    file: Path
    scope: Scope = field(default_factory=Scope)
    # The crate of each name that a `use` of Rust brings in.
    crates: dict[str, str] = field(default_factory=dict)
    types: dict[str, list[str]] = field(default_factory=dict)
    models: dict[str, list[str]] = field(default_factory=dict)
    functions: list[Function] = field(default_factory=list)


TYPE = re.compile(r"^(?:pub(?:\(crate\))? )?(?:struct|enum|trait) (\w+)")
IMPL = re.compile(r"^impl(?:<.*?>)? (?:([\w:]+)(?:<.*>)? for )?&?(?:mut )?(\w+)")
FUNCTION = re.compile(r"^\s*(?:pub(?:\(crate\))? )?(?:const )?fn (\w+)")


def indentation(line: str) -> int:
    return len(line) - len(line.lstrip())


def read_source(crate: str, file: Path) -> Source:
    source = Source(crate, file)
    lines = file.read_text(encoding="utf-8").splitlines()
    uses = re.findall(r"^(?:pub(?:\(crate\))? )?use ([a-z_0-9]+)::([^;]*);", "\n".join(lines), re.MULTILINE)
    for base, names in uses:
        where = crate if base in ("crate", "super", "self") else base
        source.crates |= dict.fromkeys(re.findall(r"\w+", names), where)
    owner, at = "", 0
    for at, line in enumerate(lines):
        if line.startswith("ghost use"):
            source.scope.read(line)
        elif found := TYPE.match(line):
            owner = found[1]
            source.types[owner] = whole(lines, at)
        elif found := IMPL.match(line):
            owner = found[2]
            if found[1] == "Model":
                source.models[owner] = whole(lines, at)
        elif found := FUNCTION.match(line):
            source.functions.append(Function(owner if indentation(line) else "", found[1], head(lines, at)))
    return source


def whole(lines: list[str], at: int) -> list[str]:
    """Returns the lines of an item that begins here."""
    if lines[at].endswith((";", "}")):
        return lines[at : at + 1]
    end = next(i for i in range(at + 1, len(lines)) if lines[i] == "}")
    return lines[at : end + 1]


def head(lines: list[str], at: int) -> list[str]:
    """Returns the lines of a function that begins here, up to its body."""
    for end in range(at, len(lines)):
        line = lines[end]
        if indentation(line) == indentation(lines[at]) and line.endswith(("{", "{}", ";")):
            return lines[at : end + 1]
    return lines[at:]


class Definitions:
    """All definitions of the crates, and the code that cites them."""

    def __init__(self, top: Path) -> None:
        crates = top / "crates"
        self.modules = {}
        for file in sorted(crates.glob("*/specs/**/*.antt")):
            path = "Rattle." + ".".join(file.relative_to(crates).with_suffix("").parts)
            self.modules[path] = read_module(path, file)
        self.sources = [
            read_source(file.relative_to(crates).parts[0], file) for file in sorted(crates.glob("*/src/**/*.rt"))
        ]

    @cached_property
    def by_constructor(self) -> dict[tuple[str, str], Definition]:
        return {
            (module.path, name): one
            for module in self.modules.values()
            for one in module.definitions.values()
            for name in one.constructors
        }

    def find(self, path: str, name: str) -> Definition | None:
        """Returns the definition of a name of a module, if it is of these crates."""
        module = self.modules.get(path)
        if module is None:
            return None
        if name in module.definitions:
            return module.definitions[name]
        if name in module.passed.names:
            return self.find(*module.passed.names[name])
        return self.by_constructor.get((path, name))

    def cited(
        self, lines: Iterable[str], scope: Scope, own: Module | None = None
    ) -> tuple[list[Definition], list[tuple[str, str]]]:
        """Returns the definitions that a text cites, and the modules and names of all else."""
        names = set()
        words, variables = set(), set()
        for line in lines:
            line = COMMENT.sub("", STRING.sub("", line))
            names |= {(scope.modules[alias], name) for alias, name in QUALIFIED.findall(line) if alias in scope.modules}
            line = FIELD_VALUE.sub(" ", PROJECTION.sub("", line))
            variables |= {name for found in VARIABLES.findall(line) for name in "".join(found).split()}
            if own:
                equation = EQUATION.match(line)
                variables |= {name for name in WORD.findall(equation[1] if equation else "") if name[0].islower()}
                line = CONSTRUCTOR.sub("", line)
            words |= set(WORD.findall(line))
        words -= variables
        names |= {there for here, there in scope.names.items() if here in words or here.strip("◌") in words}
        if own:
            for one in own.definitions.values():
                if words.intersection([one.name, *one.constructors]):
                    names.add((own.path, one.name))
        found = {place: self.find(*place) for place in sorted(names)}
        return [one for one in found.values() if one], [place for place, one in found.items() if not one]
