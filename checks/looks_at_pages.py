"""Looks at the pages and texts: what they name and quote is there, the kit's logic sum is the kit's, and there is nothing that is of no use to a reader."""

import re
import subprocess

import sources

BLOCK = re.compile(r"^```.*?^```$", re.M | re.S)
WORD = r"[A-Za-z_][A-Za-z0-9_]*"
SOURCES = "crates.txt crates/*/src/**/*.rt crates/*/specs/*.antt crates/*/proofs/**/*.antt bench/* bench/plain/**/*.rs tests/* tests/drivers/* checks/*"
SOURCES += " ucl_hall/**/*.py ucl_hall/web/pages/*.html examples/*.expected crates/*/*.h examples/python/*.py examples/rust/*.rs packaging/*"
SUM = re.compile(r"\blogic(?: sum)?(?: is)? `?([0-9a-f]{16})\b")
# A path of the machine that a text was written on, and how the work is organised; data and marks of matches are no such texts.
STRAY = re.compile(
    r"(?<![\w.])/(?:work|root)/|\.\./shared/|\bissue #?\d|\b(?:sessions? of the project|handover)\b",
    re.I,
)
LABEL = re.compile(r"(?<![\w.'\"`-])(?:T[1-5]\.[1-7]|[DRW][1-9]\d?|K[1-8]|G2|S6)(?![\w'\"`])")
CRATES = "docs/ARCHITECTURE.md"
# A row that says how much one reads to believe statements, which are named in its first cell.
COUNTED = r"^\| (.*?) \| (\d+), (\d+), (\d+) \| (\d+), (\d+) \| (\d+) \|$"


def pages(top):
    """The pages whose names are looked up. CHANGELOG.md is about what was, so it names what is gone too."""
    return [
        path
        for path in [
            top / "README.md",
            top / "CONTRIBUTING.md",
            *sorted((top / "docs").glob("*.md")),
        ]
        if path.exists()
    ]


def readable(top):
    """All pages."""
    return [
        *pages(top),
        top / "CHANGELOG.md",
        *sorted(top.glob("bench/*.md")),
        *sorted(top.glob("examples/**/README.md")),
    ]


def file_is_there(top, path):
    """The path is of a file or folder of the repository, or of a crate; words in capitals stand for any name, and out/ is what is built."""
    pattern = re.sub(
        r"\b[A-Z]{2,}\b", "*", re.sub(r"/out(/.*)?$", "", path.strip("/")).replace("./", "")
    )
    places = (
        pattern,
        f"ucl_hall/{pattern}",
        f"crates/*/{pattern}",
        f"crates/*/{pattern}.antt",
        f"crates/*/src/{pattern}",
    )
    return any(True for place in places for _ in top.glob(place))


def anchors_of(page):
    """The places of a page that a link can name."""
    heads = re.findall(r"^#+ (.*)$", BLOCK.sub("", page.read_text()), re.M)
    return {
        re.sub(r"[^\w\- ]", "", re.sub(r"\]\([^)]*\)", "", head)).lower().replace(" ", "-")
        for head in heads
    }


def links_lead_somewhere(top):
    """The file and the heading that a page links to are there."""
    found = []
    for page in readable(top):
        text = BLOCK.sub(lambda block: "\n" * block[0].count("\n"), page.read_text())
        for link in re.finditer(r"\]\(([^)#:\s]*)(?:#([^)\s]*))?\)", text):
            target = page.parent / link[1] if link[1] else page
            if (
                not link[1] + (link[2] or "")
                or not target.exists()
                or link[2]
                and link[2] not in anchors_of(target)
            ):
                found.append(
                    f"{page.relative_to(top)}:{text.count(chr(10), 0, link.start()) + 1}: {link[0][2:-1]} is not there"
                )
    return found


def names_are_there(top):
    """A name in backticks on a page, outside blocks of code, is there: its file if it is a path, otherwise each of its words somewhere in the sources.
    Other texts in backticks are no names."""
    files = [path for pattern in SOURCES.split() for path in top.glob(pattern) if path.is_file()]
    words, found = {path.stem for path in files}, []
    words |= {word for path in files for word in re.findall(WORD, path.read_text(errors="replace"))}
    for page in pages(top):
        text = BLOCK.sub(lambda block: "\n" * block[0].count("\n"), page.read_text())
        for number, line in enumerate(text.split("\n"), 1):
            lost = []
            for name in re.findall(r"`([^`]+)`", line):
                first = name.split(" ")[0]
                is_name = re.fullmatch(rf"{WORD}(::{WORD})*", name)
                if (
                    re.search(r"\w/|/\w", first)
                    and not file_is_there(top, first)
                    or is_name
                    and not {*name.split("::")} <= words
                ):
                    lost.append(name)
                elif re.fullmatch(r"\w+\.(md|txt|rt|antt|py|html|h)", name) and not any(
                    top.glob(f"**/{name}")
                ):
                    lost.append(name)
            found += [f"{page.relative_to(top)}:{number}: `{name}` is not there" for name in lost]
    return found


def lines_fit(top):
    """A line of text has at most 100 columns, and one to type at most 140; a cell of a table has at most 160 characters."""
    found = []
    for page in readable(top):
        is_code = False
        for number, line in enumerate(page.read_text().split("\n"), 1):
            is_code ^= line.startswith("```")
            most = 140 if is_code or line.startswith("    ") else 100
            if line.startswith("|"):
                longest = max(len(cell.strip()) for cell in line.strip("|").split("|"))
                found += (
                    [f"{page.relative_to(top)}:{number}: a cell of {longest} characters"]
                    if longest > 160
                    else []
                )
            elif len(line) > most and not line.startswith("!["):
                found.append(f"{page.relative_to(top)}:{number}: {len(line)} columns")
    return found


def pages_name_their_readers(top):
    """The third line of a page says whom it is for, but that of the README, which is for all."""
    return [
        f"{page.relative_to(top)}: its third line does not begin with 'For'"
        for page in readable(top)
        if page != top / "README.md"
        and not "".join(page.read_text().split("\n")[2:3]).startswith("For ")
    ]


def crates_are_listed(top):
    """The table of crates has each crate of crates.txt, once, and names functions, types and traits of the crate of their row. The crates of the kit that
    are trusted are those on which ours stand, but for those of tests."""
    section = (top / CRATES).read_text().split("\n## The crates\n", 1)[-1].split("\n## ", 1)[0]
    rows = [line.split("|") for line in section.split("\n") if line.startswith("| `")]
    told = [name for row in rows for name in re.findall(r"`(\w+)`", row[1])]
    uses, [trusted] = sources.crates_of(top), re.findall(
        r"Statements of the kit's crates\*\*:([^.]*), and `mathlib`\.",
        (top / "docs/PROOF.md").read_text(),
    )
    kit = {
        it for crate, below in uses.items() if not sources.UNPROVED.search(crate) for it in below
    } - {*uses}
    found = [
        f"{name}: in the table of crates {told.count(name)} times"
        for name in sorted({*told, *uses})
        if told.count(name) != (name in uses)
    ]
    for row in rows:
        texts = "".join(
            path.read_text()
            for crate in re.findall(r"`(\w+)`", row[1])
            for path in top.glob(f"crates/{crate}/src/**/*.rt")
        )
        found += [
            f"{row[1].strip()} has no `{name}`"
            for name in re.findall(r"`([^`]+)`", row[3])
            if texts and not re.search(rf"\b(fn|struct|enum|trait) {name.split('::')[-1]}\b", texts)
        ]
    return found + [
        f"{name}: of the kit, and trusted or used alone"
        for name in sorted(kit ^ {*re.findall(r"`(\w+)`", trusted)})
    ]


def pages_quote(top):
    """Each block of docs/READING.md and docs/PROOF.md is, line for line, in the file that is named above it."""
    found = []
    for page in "docs/READING.md", "docs/PROOF.md":
        text = (top / page).read_text()
        for name, block in re.findall(
            r"`(crates/[^`\n]+)`:\n\n```\w+\n(.*?)\n```$", text, re.M | re.S
        ):
            lines, wanted = (
                [line.strip() for line in it.split("\n")]
                for it in ((top / name).read_text() if (top / name).exists() else "", block)
            )
            if not any(lines[at : at + len(wanted)] == wanted for at in range(len(lines))):
                found.append(f"{page}: these lines are not in {name}: {wanted[0]}")
        found += (
            []
            if text.count("```") == 2 * text.count("`:\n\n```")
            else [f"{page}: a block without a file above it"]
        )
    return found


def closure_of(top, names):
    """What `checks/closure` counts of these definitions: them, their lines and files, types and their lines, names of the kit; nothing if one is not there."""
    said = subprocess.run(
        [top / "checks/closure", *names],
        stdout=subprocess.PIPE,
        stderr=subprocess.DEVNULL,
        universal_newlines=True,
    ).stdout
    counts = re.search(
        r"(\d+) definitions, (\d+) lines in (\d+) files; (\d+) types, (\d+) lines; (\d+) names of the kit$",
        said.strip(),
    )
    return list(counts.groups() if counts else ())


def counts_are_right(top):
    """The rows of docs/PROOF.md that say how much one reads to believe statements say what `checks/closure` says of these."""
    rows = re.findall(COUNTED, (top / "docs/PROOF.md").read_text(), re.M)
    found = [] if rows else ["docs/PROOF.md: no row says how much one reads"]
    for names, *told in rows:
        read = closure_of(top, re.findall(r"`(\w+)`", names))
        found += (
            []
            if told == read
            else [
                f"docs/PROOF.md: {names}: {' '.join(told)}, and checks/closure has {' '.join(read) or 'no such names'}"
            ]
        )
    return found


def logic_sum_is_told(top):
    """The README and the version of the programs tell the logic sum of the kit that is installed. Its letter may be another, so no program tells that."""
    kit = SUM.findall(
        subprocess.run(
            ["rt", "version"],
            stdin=subprocess.DEVNULL,
            stdout=subprocess.PIPE,
            universal_newlines=True,
        ).stdout
    )
    files = "README.md", "crates/ucl_command/src/help.rt"
    told = {name: sorted({*SUM.findall((top / name).read_text())}) for name in files}
    letters = [
        path.relative_to(top)
        for path in sorted(top.glob("crates/*/src/**/*.rt"))
        if re.search(r"rattle-kit-\w", path.read_text())
    ]
    return [
        f"{name}: tells the logic sum {', '.join(sums) or 'of no kit'}, and the kit's is {', '.join(kit) or 'not to be had'}"
        for name, sums in told.items()
        if sums != kit
    ] + [f"{name}: tells the letter of a kit" for name in letters]


def texts_are_for_readers(top):
    """No text has a path of a machine, a label of a paper that is not here, or a word on how the work is organised."""
    found = []
    for path in sources.files_of(top):
        if path.suffix in (".csv", ".expected", ".png") or path.name.startswith("looks"):
            continue
        for number, line in enumerate(path.read_text(errors="replace").split("\n"), 1):
            stray = STRAY.search(line) or (
                LABEL.search(line) if path.suffix in (".md", ".antt", ".rt", ".edit") else None
            )
            found += [f"{path.relative_to(top)}:{number}: {stray[0]}"] if stray else []
    return found


LOOKS = [
    ("what pages name is there", names_are_there),
    ("links lead to a file and a heading", links_lead_somewhere),
    ("lines and cells of pages are short", lines_fit),
    ("each page names its reader in its third line", pages_name_their_readers),
    ("the table of crates is that of crates.txt", crates_are_listed),
    ("quoted lines are in their files", pages_quote),
    ("pages count definitions right", counts_are_right),
    ("the README and --version tell the logic sum of the kit", logic_sum_is_told),
    ("texts have no label, no path of a machine and no word on the work", texts_are_for_readers),
]
