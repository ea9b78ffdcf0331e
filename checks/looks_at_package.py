"""Looks at the package in Python: its types and its form, which way its imports point, and where its words stand."""

import ast
import re
import shutil
import subprocess
import sys

PACKAGE = "ucl_hall"
# The parts of the package, each of which uses those before it; the first are modules, and the rest folders or a module.
FIRST = "refusals", "faults", "text", "rows", "program"
PARTS = "engine", "record", "remote", "terminal", "web"
# What knows no English: no text of it has two words, one after the other, in small letters.
SILENT = "engine", "record"
SENTENCE = re.compile(r"[A-Za-z]{2,},? [a-z]{2,}")
LONGEST_FUNCTION = 40
# Tests that are set as the package is; what they use of other tests has no types.
NAMES = "carriers etcd feed followers fronts hall matchday mirror record remote report reporter words worked".split()
TESTS = "tests/conftest.py", "tests/feeds.py", *(f"tests/test_{it}.py" for it in NAMES)
TYPED = PACKAGE, "examples/python", "examples/seasons", "tests/drivers"
# What the words in braces are in the table of refusals.
SHOWN = {"match": 1, "found": 5, "expected": 4, "side": "home", "edition": 1}
ROW = re.compile(r"^\| \d+ \| `([a-z-]+)` \| (.*?) \| (.*?) \|$", re.M)


def modules_of(top):
    """The modules of the package by their names, each with its tree."""
    for path in sorted((top / PACKAGE).rglob("*.py")):
        if path.name != "__init__.py":
            yield ".".join(path.relative_to(top / PACKAGE).with_suffix("").parts), ast.parse(
                path.read_text()
            )


def python_is_typed(top):
    """mypy finds nothing in the package and in the examples in Python, and Black would set no line otherwise; where one is missing, that is told."""
    found = []
    for tool, words in ("mypy", ["--no-error-summary"]), (
        "black",
        ["--quiet", "--check", "--diff"],
    ):
        if not shutil.which(tool):
            print(f"not looked at: {tool} is not installed")
            continue
        for folder in *TYPED, *(TESTS if tool == "black" else []):
            ran = subprocess.run(
                [tool, *words, folder],
                cwd=top,
                stdout=subprocess.PIPE,
                stderr=subprocess.STDOUT,
                universal_newlines=True,
            )
            found += ran.stdout.splitlines()[:20] if ran.returncode else []
    return found


def used_by(tree, known):
    """The modules of the package that a module imports."""
    for node in ast.walk(tree):
        names = [alias.name for alias in node.names] if isinstance(node, ast.Import) else []
        if isinstance(node, ast.ImportFrom) and (node.module or "").split(".")[0] == PACKAGE:
            names = [node.module, *(f"{node.module}.{alias.name}" for alias in node.names)]
        yield from (name[len(PACKAGE) + 1 :] for name in names if name[len(PACKAGE) + 1 :] in known)


def imports_point_one_way(top):
    """A part of the package imports from itself and from those before it, and no module from one that imports from it, however far."""
    trees, order = dict(modules_of(top)), [*FIRST, *PARTS]
    uses = {name: {*used_by(tree, trees)} for name, tree in trees.items()}
    part = {name: name.split(".")[0] for name in trees}
    found = [f"{name}: is in no part of the package" for name in trees if part[name] not in order]
    found += [
        f"{name} imports {used}"
        for name, them in uses.items()
        for used in sorted(them)
        if part[name] in order
        and part[used] in order
        and order.index(part[used]) > order.index(part[name])
    ]
    left = dict(uses)
    while free := [name for name, them in left.items() if not them & {*left}]:
        left = {name: them for name, them in left.items() if name not in free}
    return found + [f"in a ring of imports: {', '.join(sorted(left))}"] * bool(left)


def storage_has_no_words(top):
    """The engine and the record have no sentence but in comments: what people are told stands in the modules before them and in the parts behind."""
    found = []
    for name, tree in modules_of(top):
        told = [node.value for node in ast.walk(tree) if isinstance(node, ast.Expr)]
        found += [
            f"{name}:{node.lineno}: {node.value!r}"
            for node in ast.walk(tree)
            if name.split(".")[0] in SILENT
            and isinstance(node, ast.Constant)
            and isinstance(node.value, str)
            and node not in told
            and SENTENCE.search(node.value)
        ]
    return found


def functions_are_short(top):
    """A function of the package has at most forty lines."""
    return [
        f"{name}.{node.name}: {node.end_lineno - node.lineno + 1} lines"
        for name, tree in modules_of(top)
        for node in ast.walk(tree)
        if isinstance(node, (ast.FunctionDef, ast.AsyncFunctionDef))
        and node.end_lineno - node.lineno >= LONGEST_FUNCTION
    ]


def refusals_are_as_they_are_told(top):
    """The table of refusals in docs/OPERATE.md has what `ucl_reporter` and a phone say of each, of an event of match 1 with number 4 as seen and 5 by now."""
    sys.path.insert(0, str(top))
    from ucl_hall.refusals import ADVICE

    page = {
        name: (typed, tapped)
        for name, typed, tapped in ROW.findall((top / "docs/OPERATE.md").read_text())
    }
    told = {name: (it.typed.format(**SHOWN), it.tapped or "-") for name, it in ADVICE.items()}
    return (
        [
            f"{name}: the page has {page.get(name)}, and it is {it}"
            for name, it in told.items()
            if name in page and page[name] != it
        ]
        + [
            f"{name}: is not on the page"
            for name in told
            if name not in page and name not in ("dropped", "lost")
        ]
        + [f"{name}: is no refusal" for name in page if name not in told]
    )


LOOKS = [
    ("the package and the examples in Python are typed, and set by Black", python_is_typed),
    ("imports of the package point one way", imports_point_one_way),
    ("the engine and the record have no words for people", storage_has_no_words),
    ("functions of the package are short", functions_are_short),
    ("refusals are on the page as they are told", refusals_are_as_they_are_told),
]
