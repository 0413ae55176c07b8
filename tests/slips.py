"""Must-fail edits and the slips in them, for tests/edits and tools/join_edits.

An edit holds one slip, or several, each in the body of another function. A function's name is the one that `rt check` prints, without the crate:
`market_maximum`, `units::add`, and of a trait's impl `AnnulmentCall::judge`; a method has no module before its type: `Slots::add`.
"""
import re
from dataclasses import dataclass, field


class Misfit(Exception):
    """An edit that cannot be applied, or not as it says."""


@dataclass
class Slip:
    name: str
    function: str = ""
    pairs: list = field(default_factory=list)  # (file, old, new)
    laws: list = field(default_factory=list)  # of its lines `at:`


@dataclass
class Function:
    file: str
    name: str
    first: int  # the line of its `fn`, from 1, or of the first attribute above
    last: int  # the line of its last brace
    start: int  # its body in the text, without the braces
    end: int


def all_edits(crate):
    """The files of a crate's wrong programs: `must-fail/NAME.edit` holds one, which `rt ci` tries, and `slips/first.slips` and the like hold several."""
    return [*crate.glob("must-fail/*.edit"), *crate.glob("slips/*.slips")]


def read(edit):
    """The slips of an edit. One that has no line `slip:` is a slip by itself, named as its file."""
    lines = edit.read_text(encoding="utf-8").split("\n")
    slips = [] if any(line.startswith("slip: ") for line in lines) else [Slip(edit.stem)]
    file, old = None, None
    for line in lines:
        word, _, rest = line.partition(": ")
        if word == "slip":
            slips.append(Slip(rest))
        elif word == "in":
            slips[-1].function = rest
        elif word == "at":
            slips[-1].laws.append(rest)
        elif word == "file":
            file = rest.strip()
        elif word == "old":
            old = rest
        elif line.startswith("new:"):
            if file is None or old is None:
                raise Misfit(f"{edit}: a 'new:' stands before any 'file:' or 'old:'")
            slips[-1].pairs.append((file, old, line[4:].removeprefix(" ")))
            old = None
        elif line.strip():
            raise Misfit(f"{edit}: a line that nothing reads: {line}")
    return slips


def source(crate):
    """The texts that an edit of a crate can change, by their paths in it."""
    files = [path for part in ("src", "specs", "proofs") for path in sorted((crate / part).rglob("*")) if path.suffix in (".rt", ".antt")]
    return {str(path.relative_to(crate)): path.read_text(encoding="utf-8") for path in files}


def text_of(slip):
    """A slip as an edit has it."""
    lines = [f"slip: {slip.name}", f"in: {slip.function}"]
    file = None
    for path, old, new in slip.pairs:
        lines += [f"file: {path}"] if path != file else []
        lines += [f"old: {old}", f"new: {new}"]
        file = path
    return "\n".join(lines) + "\n"


def module(file):
    """The words of the module whose source a file is: none of src/lib.rt and src/main.rt."""
    path = file.removeprefix("src/").removesuffix(".rt")
    return [] if path in ("lib", "main") else path.removesuffix("/mod").split("/")


def owner(line):
    """What the name of a method begins with, by the head of its impl or trait: the type, or the type, the trait and what that is given."""
    head = re.sub(r"^(?:pub )?(?:unsafe )?(?:impl|trait)\b(?:<[^>]*>(?= ))? *", "", line).removesuffix("{").strip()
    trait, _, of = head.rpartition(" for ")
    given = re.match(r"(?:\w+::)*(\w+)(?:<(.*)>)?$", trait)
    words = [given[1], *re.findall(r"\w+", given[2] or "")] if given else []
    return re.match(r"\w*", of)[0] + "".join(word[0].upper() + word[1:] for word in words)


def functions(file, text):
    """The functions of a source that `rt fmt` has laid out, in order. A method that a trait only declares has no body, and is none."""
    found, at, lines = [], 0, text.split("\n")
    starts = []
    for line in lines:
        starts.append(at)
        at += len(line) + 1
    of = ""
    for number, line in enumerate(lines):
        if re.match(r"(pub )?(unsafe )?(impl|trait)\b", line):
            of = owner(line)
        head = re.match(r"((?:    )?)(?:pub(?:\([a-z]+\))? )?(?:const )?(?:unsafe )?(?:extern \"C\" )?fn (\w+)", line)
        if head is None:
            continue
        indent = head[1]
        opens = body(lines, number, indent)
        if opens is None:
            continue
        closes = lines.index(indent + "}", opens + 1)
        first = number
        while lines[first - 1].startswith(indent + "#["):
            first -= 1
        name = "::".join([*([of] if indent else module(file)), head[2]])
        found.append(Function(file, name, first + 1, closes + 1, starts[opens] + len(lines[opens]) + 1, starts[closes]))
    return found


def body(lines, head, indent):
    """The line whose last brace opens the body of the function at a line: its head, the line `) -> T {`, or a brace alone behind its clauses."""
    for number in range(head, len(lines)):
        line = lines[number]
        if line == indent + "{" or (number == head or line.startswith(indent + ")")) and line.endswith(" {"):
            return number
        if line.endswith(";") and (number == head or line.startswith((indent + ")", indent + "    requires", indent + "    ensures"))):
            return None
        if number > head and line == indent + "}":
            return None
    return None


def outline(file, text):
    """A source without the bodies of its functions."""
    kept, at = "", 0
    for each in functions(file, text):
        kept += text[at : each.start]
        at = each.end
    return kept + text[at:]


def holder(file, text, old):
    """The function in whose body a text stands, or None."""
    at = text.index(old)
    return next((f for f in functions(file, text) if f.start <= at and at + len(old) <= f.end), None)


def applied(texts, slip):
    """The crate's source with a slip in it, and the name of the one function whose body it changes, or None."""
    texts, names = dict(texts), set()
    for file, old, new in slip.pairs:
        before = texts.get(file, "")
        if before.count(old) != 1:
            raise Misfit(f"stands {before.count(old)} times, and not once, in {file}: {old}")
        texts[file] = before.replace(old, new)
        function = holder(file, before, old) if file.endswith(".rt") else None
        same = function and outline(file, before) == outline(file, texts[file]) and not re.search(r"\b(fn|use|const|struct|enum|impl) ", new)
        names.add(function.name if same else None)
    return texts, names.pop() if len(names) == 1 else None


def function_at(file, text, line):
    """The name of the function at a line of a source, or None."""
    return next((f.name for f in functions(file, text) if f.first <= line <= f.last), None)


def function_of_proof(file):
    """The name of the function of whose proof a file is, or None: a file of no function stands in proofs/ itself. A `+` marks one that calls itself."""
    words = file.replace("+", "").split("/")[1:-1]
    of = next((at for at, word in enumerate(words) if word[0].isupper()), 0)
    return "::".join(words[of:]) or None
