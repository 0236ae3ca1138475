"""Declarations of the .antt files under crates/, as far as the scripts need them: `declarations` for `unused` and `same-statements`, `File` for
`statements`, `names` and `pinned`."""
import re
from pathlib import Path

TOP = Path(__file__).resolve().parent.parent
CRATES = TOP / "crates"
DECLARED = re.compile(r"^( *)(?:(?:pub|unfoldable|abbrev) )*([^\s(){}:;,.=]+)((?: \{[^}]*\})*) : (.*)$")
WORDS = {"module", "use", "let", "record", "data", "where", "unfolding", "pub", "mod"}


def words(text):
    """The names in text; of a qualified one and of a field also the last part."""
    found = set()
    for word in re.split(r"[\s(){}\[\];,λ]+", text):
        found.add(word)
        found.update(word.split("."))
        if "◌" in word:
            found.update(word.split("◌"))
    return found


class Declared:
    """A declaration: its file, line, name, statement, whole text, and the parameters of the modules around it."""

    def __init__(self, path, line, name, around):
        self.path, self.line, self.name, self.around = path, line, name, around
        self.statement, self.text = "", ""

    def __str__(self):
        return f"{self.path.relative_to(TOP)}:{self.line}: {self.name}"


def declarations(path):
    """The declarations of a file, and its imports: name -> path of the module as written; a short name of a module with a point."""
    lines = [re.sub(r"(^|\s)--( .*|)$", "", line) for line in path.read_text().split("\n")]
    found, imports, modules, here = [], {}, [], None
    number = 0
    while number < len(lines):
        line = lines[number]
        number += 1
        if not line.strip():
            continue
        indent = len(line) - len(line.lstrip())
        while modules and indent <= modules[-1][0]:
            modules.pop()
        inner = modules[-1][0] + 2 if modules else 0
        if line.lstrip().startswith("module "):
            header = line
            while not header.rstrip().endswith("where"):
                header += " " + lines[number].strip()
                number += 1
            modules.append((indent, header.strip()[len("module _"):-len("where")].strip()))
            here = None
            continue
        used = re.match(r"^(?:pub |unfoldable )*use ([^\s{]+)\.\{([^}]*)\}$", line)
        if used:
            for name in used[2].split(","):
                imports[name.split(" as ")[-1].strip()] = used[1]
            continue
        short = re.match(r"^use ([^\s{]+) as (\w+)$", line)
        if short:
            imports[short[2] + "."] = short[1]
            continue
        shown = DECLARED.match(line)
        if shown and len(shown[1]) == inner and shown[2] not in WORDS:
            here = Declared(path, number, shown[2], [m[1] for m in modules])
            here.statement = shown[4]
            found.append(here)
            here.text = line
            while number < len(lines) and lines[number].strip() and len(lines[number]) - len(lines[number].lstrip()) > inner:
                here.statement += " " + lines[number].strip()
                here.text += "\n" + lines[number]
                number += 1
        elif indent == inner and re.match(r"^ *(pub )?(record|data) [^{]", line):
            here = Declared(path, number, re.match(r"^ *(?:pub )?(?:record|data) (\S+)", line)[1], [])
            here.text = line
            found.append(here)
        elif here:
            here.text += "\n" + line
    return found, imports


def law_files():
    """Files of laws: those under proofs/ that are not part of the proof of a function."""
    return [p for p in sorted(TOP.glob("crates/*/proofs/**/*.antt")) if not of_function(p)]


def of_function(path):
    """Whether it is part of the proof of a function: in the folder of one, whose name has no capital at its front."""
    return path.stem in ("Proof", "Invariants", "Answers") and path.parent.name != "proofs" and not path.parent.name[0].isupper()


def function_files():
    """The proofs of functions."""
    return [p for p in sorted(TOP.glob("crates/*/proofs/**/*.antt")) if of_function(p)]


def file_of(module):
    """The file of a module path as written in a `use` line, or None."""
    found = re.match(r"^Rattle\.(\w+)\.(specs|proofs)\.(.+)$", module)
    if not found:
        return None
    crate, kind, rest = found.groups()
    path = TOP / "crates" / crate / kind / (rest.replace(".", "/") + ".antt")
    return path if path.is_file() else None


HEAD = re.compile(r"(?P<how>(?:(?:abbrev|unfoldable|pub|record|data) )*)(?P<name>[^\s(){}\[\];,:=]+)(?P<rest>.*)")
USE = re.compile(r"(?:(?:abbrev|unfoldable|pub) )*use (?P<path>[^\s{]+?)(?:\.\{(?P<names>[^}]*)\}| as (?P<alias>\S+))?$")
MEMBER = re.compile(r"(?:pub )?([^(){}\[\];,:=]+?) :(?: |$)")


def indent(line):
    return len(line) - len(line.lstrip())


class Definition:
    """A declaration with its clauses; kind is record, data, abbrev, unfoldable, or empty for a theorem."""

    def __init__(self, file, name, kind, modules, at):
        self.file, self.name, self.kind, self.modules = file, name, kind, modules
        self.first = self.last = at  # line numbers, the comment above included in the first
        self.lines = []

    def statement(self):
        own = self.lines
        if not self.kind:
            end = next((i for i, line in enumerate(own) if i and indent(line) <= indent(own[0])), len(own))
            own = own[:end]
        return " ".join(self.modules + own)

    def where(self):
        return str(self.file.path.relative_to(CRATES))

    def in_specs(self):
        return "specs" in self.file.path.relative_to(CRATES).parts


class File:
    """A .antt file: the names that it uses, what it defines, and the fields and constructors of that: under their names, and in pairs with
    the type."""

    def __init__(self, path):
        self.path = path
        self.uses, self.aliases, self.defined, self.members, self.pairs = {}, {}, {}, {}, set()
        text = path.read_text().split("\n")
        self.length = len(text) - 1
        self.read(text)

    def read(self, text):
        modules, header, current, comment = [], None, None, 0
        for number, raw in enumerate(text):
            line = re.sub(r"(^|\s)--.*", "", raw)
            if not line.strip():
                comment = comment + 1 if raw.strip() else 0
                continue
            if header is not None:  # the parameters of a module, up to its `where`
                header.append(line)
            elif current and indent(line) > indent(current.lines[0]):
                self.add(current, line, number)
            else:
                while modules and indent(line) < modules[-1][0]:
                    modules.pop()
                if line.strip().startswith("module "):
                    header = [line]
                elif not self.use(line.strip()):
                    current = self.declare(line, current, [part for _, lines in modules for part in lines], number, comment)
            comment = 0
            if header is not None and line.rstrip().endswith(" where"):
                modules.append((indent(header[0]) + 2, header))
                header = current = None

    def use(self, line):
        m = USE.match(line)
        if m is None:
            return line.startswith(("mod ", "pub mod ", "infix", "open "))
        if m["alias"]:
            self.aliases[m["alias"]] = m["path"]
        for name in (m["names"] or "").split(","):
            self.uses[name.split(" as ")[-1].strip()] = m["path"]
        return True

    def declare(self, line, current, modules, number, comment):
        m = HEAD.match(line.strip())
        how = m["how"].split() if m else []
        kind = next((k for k in ("record", "data", "abbrev", "unfoldable") if k in how), "")
        typed = m and re.match(r"(?:\s*\{[^}]*\})*\s*:", m["rest"])
        if not m or m["name"] == "unfolding" or not (typed or kind in ("record", "data")):
            if current:  # a clause of the declaration above
                self.add(current, line, number)
            return current
        new = Definition(self, m["name"], kind, modules, number - comment)
        self.add(new, line, number)
        self.defined.setdefault(new.name, new)
        return new

    def add(self, definition, line, number):
        if definition.lines and definition.kind in ("record", "data") and indent(line) == indent(definition.lines[0]) + 2:
            m = MEMBER.match(line.strip())
            for name in m[1].split() if m else []:
                self.members.setdefault(name, definition)
                self.pairs.add((definition.name, name))
        definition.lines.append(line)
        definition.last = number

    def has(self, name):
        """Whether it declares the name, or y of a type X of its own for `X.y`."""
        return name in self.defined or name in self.members or tuple(name.split(".")) in self.pairs
