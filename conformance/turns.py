"""Slips made mechanically: every comparison, constant, bound and branch of the Rust ledger turned round, one at a time. All of them go
into one program: a function with slips has one body for each, and the number that is set while the program runs says which is meant.

What is turned is found by the look of the text, which rustfmt keeps: an operator stands between blanks.
"""
import re

SWITCH = "crate::slip"

COMPARED = {"==": ["!="], "!=": ["=="], "<": ["<=", ">="], "<=": ["<", ">"], ">": [">=", "<="], ">=": [">", "<"]}
COUNTED = {"&&": ["||"], "||": ["&&"], "+": ["-"], "-": ["+"], "+=": ["-="], "-=": ["+="], "*": ["+"], "%": ["/"],
           "|": ["&"], "&": ["|"], "^": ["&"], "<<": [">>"], ">>": ["<<"], "|=": ["&="], "&=": ["|="]}
WORDS = {"true": "false", "false": "true", ".max(": ".min(", ".min(": ".max(", ".all(": ".any(", ".any(": ".all(",
         ".trailing_zeros()": ".highest()", ".state": ".creation", ".creation": ".behaviour", ".behaviour": ".state",
         ".saved": ".text", "STATE": "CREATION"}


def bare(text):
    """Without comments and attributes that inline a function; lines stay where they are."""
    text = re.sub(r"[ \t]*//[^\n]*", "", text)
    return re.sub(r"#\[inline(\([a-z]*\))?\]", "", text)


def closing(text, at):
    """Where the bracket at this place is closed."""
    depth = 0
    for i in range(at, len(text)):
        depth += (text[i] in "([{") - (text[i] in ")]}")
        if depth == 0:
            return i
    raise ValueError("a bracket is not closed")


def functions(text):
    """The bodies of the functions, as places of their braces."""
    found, at = [], 0
    for head in re.finditer(r"\bfn \w+", text):
        if head.start() < at:
            continue
        opened = text.index("(", head.end())
        start = text.index("{", closing(text, opened))
        at = closing(text, start)
        found.append((start, at))
    return found


def in_length(body, at):
    """Whether the place is in the length of an array: behind a semicolon in square brackets."""
    depth = 0
    for i in range(at - 1, -1, -1):
        depth += (body[i] in ")]}") - (body[i] in "([{")
        if depth < 0:
            return body[i] == "[" and ";" in body[i:at]
    return False


def in_pattern(body, at):
    """Whether the place is in what a match arm or `matches!` asks for."""
    line = body[body.rfind("\n", 0, at) + 1:].split("\n")[0]
    column = at - body.rfind("\n", 0, at) - 1
    arm = re.match(r"\s*(?:[\w@ ():]|\||\.\.=)+? (?:if .*?)?=> ", line)
    asked = re.search(r"matches!\([^)]*\)", line)
    return bool(arm and column < len(re.split(r" if | => ", arm.group())[0])) or bool(asked and asked.start() <= column < asked.end())


def operators(body):
    for found in re.finditer(r"(?<=\s)(==|!=|<=|>=|<<|>>|&&|\|\||\+=|-=|\|=|&=|[-+*%|&^<>])(?= )", body):
        if not (found[0] == "|" and in_pattern(body, found.start())):
            cast = re.search(r" as \w+ $", body[: found.start()])
            for other in {**COMPARED, **COUNTED}[found[0]]:
                # `x as usize < y` is no comparison in Rust
                yield found.start(), found.end(), "==" if cast and other == "<" else other
    for found in re.finditer(r"(?<![\w)\]!=])!(?=[\w(])", body):
        yield found.start(), found.end(), ""


def constants(body):
    for found in re.finditer(r"(?<![\w.<])(0x[0-9a-f_]+|\d[\d_]*?)(_?[ui](?:8|16|32|64|128|size))?\b", body):
        if in_length(body, found.start()):
            continue
        number, suffix = int(found[1].replace("_", ""), 0), found[2] or ""
        for other in [number + 1] + [number - 1] * (number > 0):
            yield found.start(), found.end(), f"{other}{suffix}"


def words(body):
    for found in re.finditer(r"\b(?:true|false)\b|\.(?:max|min|all|any)\(|\.trailing_zeros\(\)|\.(?:state|creation|behaviour|saved)\b(?!\()", body):
        line = body[body.rfind("\n", 0, found.start()) + 1 :].split("\n")[0]
        # one map cannot be joined with itself where it stands
        if "&mut" not in line or WORDS[found[0]] not in line:
            yield found.start(), found.end(), WORDS[found[0]]


def bounds(body):
    """The first and the last of what is gone through."""
    for found in re.finditer(r"\.iter(_mut)?\(\)(\.enumerate\(\))?|(?<!\(\))\.enumerate\(\)|\.chunks_exact(_mut)?\(\w+\)", body):
        line = body[body.rfind("\n", 0, found.start()) + 1 : found.end()]
        last = 31 if "parcels" in line else 1023 if "chunks" in found[0] else 15
        yield found.end(), found.end(), ".skip(1)"
        yield found.end(), found.end(), f".take({last})"
    for found in re.finditer(r"\.\.=(?=\w)", body):
        if not in_pattern(body, found.start()):
            yield found.start(), found.end(), ".."
    for found in re.finditer(r"(?<=[\[(\d ]\.\.)([a-zA-Z][\w.]*(\(\))?( as usize)?)(?=[\])]| \{)", body):
        yield found.start(), found.end(), f"({found[0]}).saturating_sub(1)"
        if re.search("opened|TAKES|waiting", found[0]):
            yield found.start(), found.end(), f"({found[0]}).min(15)"
    for found in re.finditer(r"(?<=\[)([a-z]\w*)(?=\.\.\])", body):
        yield found.start(), found.end(), f"{found[0]} + 1"


def branches(body):
    """Every condition never met, and always."""
    for found in re.finditer(r"\b(if|while) (?!let )", body):
        depth, end = 0, found.end()
        while depth > 0 or not re.match(r"\s+(\{|=>)", body[end:]):
            depth += (body[end] in "([{") - (body[end] in ")]}")
            end += 1
        yield found.end(), end, f"{SWITCH}::never() && ({body[found.end():end]})"
        if found[1] == "if":
            yield found.end(), end, f"!{SWITCH}::never() || {body[found.end():end]}"


def statements(body):
    """Every statement of one line left out."""
    lines, at, before = body.split("\n"), 0, "{"
    for line in lines:
        said = line.strip()
        whole = before.endswith(("{", "}", ";")) and said.endswith(";") and said.count("(") == said.count(")")
        if whole and not re.match(r"let |return|continue|break|\}|use ", said):
            yield at, at + len(line), ""
        at, before = at + len(line) + 1, said or before


def turned(body):
    """What is turned in a function's body, as places and what stands there instead; each text once."""
    seen = {body}
    for kind in [operators, constants, words, bounds, branches, statements]:
        for start, end, other in kind(body):
            text = body[:start] + other + body[end:]
            if text not in seen:
                seen.add(text)
                yield start, end, other


CONSTANT = r"^(pub )?const ([A-Z][A-Z_]*): ([^=]+) = ((?:[^;\[{]|\[[^\]]*\]|\{(?:[^{}]|\{(?:[^{}]|\{[^}]*\})*\})*\})+);"


def named(body, names):
    """The body with the functions that stand for these constants. The length of an array stays."""
    parts, at = [], 0
    for name in re.finditer(r"\b[A-Z][A-Z_]*\b", body):
        if name[0] in names and not in_length(body, name.start()) and body[name.start() - 1 : name.start()] != "<":
            parts += [body[at : name.end()], "_()"]
            at = name.end()
    return "".join(parts) + body[at:]


def constants_as_functions(text, known):
    """A constant cannot be turned while a program runs: it becomes a function, which is asked where the constant is named in a function.
    Known are those of other files. Gives also the names of all; nothing is changed where known is None."""
    if known is None:
        return text, set()
    found = re.findall(CONSTANT, text, re.M)
    names = {name for _, name, _, _ in found} | known
    for _, name, kind, value in found:
        text += f"\npub fn {name}_() -> {kind} {{\n    {value}\n}}\n"
    if "const fn used(" in text:
        start = text.index("const fn used(")
        end = closing(text, text.index("{", start)) + 1
        asking = re.sub(r"\bused\(", "used_(", text[text.index("fn USED_") :])
        text = text[: text.index("fn USED_")] + asking + text[start:end].replace("const fn used(", "fn used_(")
    parts, at = [], 0
    for start, end in functions(text):
        if not text[:start].rsplit("\n", 1)[1].startswith("const fn"):
            parts += [text[at:start], named(text[start:end], names)]
            at = end
    imported = "use super::ledger::{"
    text = "".join(parts) + text[at:]
    return text.replace(imported, imported + "".join(f"{name}_, " for name in sorted(known))), names


def slipped(text, edits, first, file, make):
    """The text with all slips in it. Edits are slips by hand, a list of texts and what stands instead, by their numbers; make says whether
    slips are made besides, which are numbered from the first on. Gives also what each of those says, and which by hand were put in."""
    out, at, told, put = [], 0, {}, set()
    for start, end in functions(text):
        body = text[start + 1 : end]
        if text[:start].rsplit("\n", 1)[1].startswith("const fn"):
            continue
        bodies = [(slip, changed(body, changes)) for slip, changes in edits.items()]
        bodies = [(slip, other) for slip, other in bodies if other != body]
        put |= {slip for slip, _ in bodies}
        for place, till, other in turned(body) if make else []:
            number = first + len(told)
            bodies.append((number, body[:place] + other + body[till:]))
            told[number] = (file, *said(text, start + 1, body, place, till, other))
        arms = "".join(f"{n} => {{ {SWITCH}::enter(); {other}}}\n" for n, other in bodies)
        out += [text[at : start + 1], f" {SWITCH}::tick(); match {SWITCH}::number() {{\n{ticking(arms)}_ => {{{ticking(body)}}}\n}}\n"]
        at = end
    return "".join(out) + text[at:], told, put


def changed(body, changes):
    for old, new in changes:
        body = body.replace(old, new) if body.count(old) == 1 else body
    return body


def ticking(body):
    """So that a loop that does not end is noticed."""
    return re.sub(r"\b(while [^{]*|loop )\{", rf"\1{{ {SWITCH}::tick();", body)


def said(text, start, body, place, till, other):
    """The line of a slip, as it was and as it is."""
    begin = body.rfind("\n", 0, place) + 1
    was = body[begin:].split("\n")[0]
    now = (body[begin:place] + other + body[till:]).split("\n")[0]
    return text.count("\n", 0, start + place) + 1, was.strip(), now.strip()
