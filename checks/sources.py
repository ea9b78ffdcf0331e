"""What the sources of a crate say: what it stands on, its functions with their clauses, and the lines that a wrong body changes.

A clause is named by its function and its label, as in `Board::report reply`, and by the function alone where it has no label. A method is
named by its type, also where its clauses are those of its trait. The record of a rule is named with its fields, as `BoardInvariant few`.

A wrong body is a file crates/CRATE/must-fail/NAME.edit: lines `breaks: FUNCTION LABEL..`, a line `file:`, and pairs of lines `old:` and `new:`.
Each text is one line, and each old one stands in that file exactly once.
"""

import itertools
import re
import subprocess
import typing

FUNCTION = re.compile(r'^( *)(?:(pub) |pub\(\w+\) )?(?:const )?(?:unsafe )?(extern "C" )?fn (\w+)')
BLOCK = re.compile(r"^(?:pub )?(trait|impl)\b")
TYPE = re.compile(r"^(?:pub(?:\(\w+\))? )?(?:struct|enum) (\w+)", re.M)
LABEL = re.compile(r"^\s*ensures\s+(?:(\w+)\s+)?\{", re.M)
CLAUSE = re.compile(r"^\s*(ensures|requires)\s+(?:(\w+)\s+)?\{", re.M)
RECORD = re.compile(r"^(?:  )?pub record (\w+)\b.*\n((?:  .*\n)*)", re.M)
DEFINED = re.compile(r"^ *(?:abbrev pub|unfoldable pub|pub record|pub data) (\S+)")
DISPLAY = "Display"
UNPROVED = re.compile(r"_tests$|_bench|_hostile|_example$")


class Function(typing.NamedTuple):
    """A function: its file, its name as the prover has it below the crate, the trait and the type that it is of, its own name, whether others
    may call it, what it says of itself, its text up to the body, and the first and last line of that.
    """

    path: str
    symbol: str
    trait: typing.Optional[str]
    owner: typing.Optional[str]
    name: str
    is_public: bool
    says: str
    head: str
    body: int
    last: int

    @property
    def named(self):
        return f"{self.owner}::{self.name}" if self.owner else self.name

    @property
    def labels(self):
        """The labels of its clauses; one that has none counts as the empty one. A text has clauses of its trait."""
        return [] if self.trait == DISPLAY else list(dict.fromkeys(LABEL.findall(self.head)))

    @property
    def clauses(self):
        """Each clause: the word that it begins with, its label, and its text."""
        return [
            (it[1], it[2] or "", " ".join(enclosed(self.head, it.end()).split()))
            for it in CLAUSE.finditer(self.head)
        ]

    @property
    def is_law(self):
        """It does nothing, and is there for its contract."""
        return self.head.endswith("{}")


def enclosed(text, start):
    """What stands from here to the bracket that closes the one before."""
    depth = 1
    for at in range(start, len(text)):
        depth += {"{": 1, "}": -1}.get(text[at], 0)
        if not depth:
            return text[start:at]
    return text[start:]


def module_of(path):
    """The modules that a file below src/ stands for."""
    parts = path[len("src/") : -len(".rt")].split("/")
    return parts[:-1] if parts[-1] in ("lib", "main", "mod") else parts


def block_at(lines, start):
    """Of a trait or an `impl` that begins here: its trait, its type, and what the prover adds to their names: the type that a `From` is of."""
    end = next(at for at in range(start, len(lines)) if "{" in lines[at])
    head = " ".join(lines[start : end + 1]).split("{")[0].split(" requires ")[0]
    if re.match(r"(?:pub )?trait", head):
        return (re.search(r"trait (\w+)", head)[1],) * 2 + ("",)
    names = re.sub(r"^impl(<.*?>)? (?=[A-Z]|\w+::)", "", head).split(" for ")
    names = [re.sub(r"<.*", "", name).strip().split("::")[-1] for name in names]
    source = re.search(r"\bFrom<((?:\w+::)*\w+)", head)
    more = (
        "".join(part[0].upper() + part[1:] for part in source[1].split("::") if part != "crate")
        if source
        else ""
    )
    return (*([None] if len(names) == 1 else []), *names[:2], more)


def body_of(lines, start, indent):
    """The lines on which the body of a function begins and ends; a method of a trait may have none, and then ends where its last clause does."""
    opens = tuple(
        indent + word for word in ("{", "{}", "fn", "pub", "const", "unsafe", "extern", ")")
    )
    ends = (
        at
        for at in range(start, len(lines))
        if lines[at].endswith("};")
        or (lines[at].endswith(("{", "{}", ";")) and lines[at].startswith(opens))
    )
    body = next(ends, len(lines) - 1)
    if lines[body].endswith(("{}", ";")):
        return body, body
    return body, next(
        (at for at in range(body, len(lines)) if lines[at] == indent + "}"), len(lines) - 1
    )


def said_above(lines, at):
    """What a function says of itself in the lines above it, without examples: paragraphs, with an empty line between them."""
    start = at
    while start and lines[start - 1].strip().startswith(("///", "#[", "using", "crate::", ")]")):
        start -= 1
    said = "\n".join(line.strip()[4:] for line in lines[start:at] if line.strip().startswith("///"))
    said = re.sub(r"^```.*?^```$|^# Examples$", "", said, flags=re.M | re.S)
    said = re.sub(r"^# (\w+)\n+", r"\1: ", said, flags=re.M)
    return "\n\n".join(" ".join(part.split()) for part in re.split(r"\n{2,}", said) if part.strip())


def functions_in(path, text, homes):
    """The functions of a file, but those inside of others. A method that is of no trait is named by the modules of its type, its home."""
    lines, block, after = text.split("\n"), None, 0
    for at, line in enumerate(lines):
        if BLOCK.match(line):
            block = block_at(lines, at)
        elif line == "}":
            block = None
        head = FUNCTION.match(line) if at >= after else None
        if head and len(head[1]) == (4 if block else 0):
            body, after = body_of(lines, at, head[1])
            trait, owner, more = block or (None, None, "")
            types = [owner + trait + more if trait and trait != owner else owner] if owner else []
            home = module_of(path) if trait else homes.get(owner, module_of(path))
            symbol, is_public = "::".join([*home, *types, head[4]]), bool(head[2] or head[3])
            yield Function(
                path,
                symbol,
                trait,
                owner,
                head[4],
                is_public,
                said_above(lines, at),
                "\n".join(lines[at : body + 1]),
                body,
                after,
            )


def functions_of(crate):
    """The functions of the crate in this folder."""
    texts = {
        str(file.relative_to(crate)): file.read_text()
        for file in sorted((crate / "src").glob("**/*.rt"))
    }
    homes = {name: module_of(path) for path, text in texts.items() for name in TYPE.findall(text)}
    return [it for path, text in texts.items() for it in functions_in(path, text, homes)]


def callable_functions(crate):
    """The functions that a caller can name: those that say `pub`, exports, those of public traits and types, and laws, which have an empty body."""
    if not (crate / "src/lib.rt").exists() or UNPROVED.search(crate.name):
        return []
    text = (crate / "src/lib.rt").read_text()
    names = {
        name.strip()
        for many, one in re.findall(r"^pub use (?:\w+::)*(?:\{([^}]*)\}|(\w+));", text, re.M)
        for name in (many or one).split(",")
    }
    modules = {*re.findall(r"^pub mod (\w+);", text, re.M)}
    is_named = (
        lambda it: it.name in names
        or it.path.split("/")[-1][:-3] in modules
        or 'extern "C"' in it.head
        or it.is_law
    )
    return [
        it
        for it in functions_of(crate)
        if (
            it.owner in names and (it.is_public or it.trait)
            if it.owner
            else it.is_public and is_named(it)
        )
    ]


def promises_of(top, name):
    """Each function of a crate that a caller can name, with its clauses. A method without clauses of its own has those of its trait."""
    used = [
        it
        for crate in [name, *below(crates_of(top), name)]
        for it in functions_of(top / "crates" / crate)
    ]
    of_traits = {(it.owner, it.name): it.clauses for it in used if it.trait == it.owner}
    return [
        (it, it.clauses or of_traits.get((it.trait, it.name), []))
        for it in callable_functions(top / "crates" / name)
    ]


def comment_of(lines):
    """The comment that these lines begin with."""
    return " ".join(
        line.strip().lstrip("- ")
        for line in itertools.takewhile(lambda line: line.strip().startswith("--"), lines)
    )


def definitions_in(path):
    """The definitions of a file, each with the comment above it."""
    return [(name, says) for name, says, _ in defined_in(path)]


def defined_in(path):
    """The definitions of a file, each with the comment above it and its text."""
    lines, start = path.read_text().splitlines(), 0
    found = []
    for at, line in enumerate(lines):
        name = DEFINED.match(line)
        if name:
            found.append((name[1], comment_of(lines[start:at]), at))
        start = start if line.strip().startswith("--") else at + 1
    ends = [at for _, _, at in found[1:]] + [len(lines)]
    return [
        (name, says, "\n".join(line for line in lines[at:end] if not line.strip().startswith("--")))
        for (name, says, at), end in zip(found, ends)
    ]


def fields_in(path):
    """The records of a file, each with its fields: the comment above it, if it has one, its label, and its text."""
    for head, body in RECORD.findall(path.read_text()):
        parts = re.split(r"^ {2,4}pub (\w+) :", body, flags=re.M)
        said = [
            comment_of(re.search(r"(?:^ *--.*\n?)*\Z", part, re.M)[0].splitlines())
            for part in parts[0::2]
        ]
        texts = [" ".join(re.sub(r"^ *--.*", "", part, flags=re.M).split()) for part in parts[2::2]]
        yield head, list(zip(said, parts[1::2], texts))


def crates_of(top):
    """What each crate stands on, by crates.txt."""
    pairs = [line.split("#")[0].split(":") for line in (top / "crates.txt").read_text().split("\n")]
    return {pair[0].split()[0]: pair[1].split() for pair in pairs if len(pair) == 2}


def below(uses, crate):
    """The crates of the repository that a crate stands on."""
    return sorted({it for used in uses[crate] if used in uses for it in [used, *below(uses, used)]})


def files_of(top):
    """The files that the repository holds, those of a change under way among them."""
    ran = subprocess.run(
        ["git", "-C", str(top), "ls-files", "-co", "--exclude-standard"],
        stdout=subprocess.PIPE,
        universal_newlines=True,
    )
    return [
        path
        for path in (top / name for name in sorted({*ran.stdout.split("\n")} - {""}))
        if path.is_file() and not path.is_symlink()
    ]


def broken_by(edit):
    """The clauses that a wrong body breaks, by its lines `breaks:`."""
    words = [
        line.split()[1:] for line in edit.read_text().split("\n") if line.startswith("breaks:")
    ]
    return [f"{line[0]} {label}".strip() for line in words for label in line[1:] or [""]]


def edited(crate, edit):
    """The texts that a wrong body makes, by their files. A ValueError says why it does not fit."""
    texts, path, old = {}, None, None
    for line in edit.read_text().split("\n"):
        word, _, text = line.partition(":")
        text = text[1:] if text.startswith(" ") else text
        if word == "file":
            path = crate / text.strip()
            texts[path] = texts.get(path) or path.read_text()
        elif word == "old":
            old = text
        elif word == "new":
            if path is None or not old or texts[path].count(old) != 1:
                raise ValueError(
                    f"an 'old:' text is there {texts[path].count(old) if path and old else 0} times, and not once: {old}"
                )
            texts[path], old = texts[path].replace(old, text), None
    if texts == {path: path.read_text() for path in texts}:
        raise ValueError("it changes nothing")
    return texts
