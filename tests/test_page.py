"""The screens' page in a browser without a window: by lines that it is given, how it looks at each size; and with a server that is gone for a while.

What the page shows, and what a screen reader is told, is that of the rules. At each size no text is cut, overlaps or leaves the window, and columns are
as wide as in every other group. With `--picture FILE` the test of letters also writes a picture of the page, as PNG.
"""

import base64
import itertools
import json
import pathlib
import signal
from typing import NamedTuple

import model
import pytest
import seasons
from drivers.port import free_port, is_reached
from drivers.program import Started
from drivers.text import TOP
from drivers.wait import until

pytestmark = pytest.mark.limit(900)
PAGE = TOP / "ucl_hall/web/pages/index.html"
LARGE = (1920, 1080)
# How large names, figures and scores of the season are at least at each size: of one group, and on the wall.
SIZES = {
    **{(1280, 720): (36, 16), (1366, 768): (39, 17), LARGE: (54, 24)},
    **{(3840, 2160): (108, 48), (1024, 768): (29, 14), (390, 844): (20, 9.5)},
}
FONTS = ["DejaVu Sans", "Noto Sans"]
STATES = {model.IN_PLAY: "In play", model.FINISHED: "Full time"}
FIGURES = ["played", "won", "drawn", "lost", "goals_for", "goals_against"]
HEADS = "Place,Certain,Plays now,Club,Played,Won,Drawn,Lost,Goals for,Goals against,Goal difference,Points"
MEANINGS = {"+": "certain to be first or second", "-": "certain not to be first or second", "": ""}
LEGEND = "+ certain to be first or second, \u2212 certain not to be, by points alone"
HALL = '{"reply":"hall","title":"%s","groups":"%s","tonight":%s}'
# By the letter of each group what the page shows of it; the signs of a cell are those that are seen, and that are heard.
SHOWN = """window.shown = () => {
  const text = (element) => element.textContent.trim();
  const cell = (cell) => cell.children.length ? [text(cell.children[0]) || cell.children[0].className, text(cell.children[1])] : text(cell);
  const all = (element, selector) => [...element.querySelectorAll(selector)];
  return Object.fromEntries(all(document, ".group").map((group) => [text(group.querySelector("h1")).replace(/^Group ?/, ""), {
    rows: all(group, "tbody tr").map((row) => [...row.children].map(cell)),
    heads: all(group, "thead th").map((head) => (head.querySelector("abbr") || {}).title || text(head)),
    matches: all(group, ".matches li").map((match) => [...match.children].map(text).join("|") || text(match)),
    version: text(group.querySelector(".version")), signal: text(group.querySelector(".signal")),
  }]));
};"""
# What is drawn of each text that is seen, and of each dot: its edges, and the cell and the row that it stands in.
INKS = """const pen = document.createElement("canvas").getContext("2d"), drawings = new Map();
const all = (element, selector) => [...element.querySelectorAll(selector)], where = (element) => element.getBoundingClientRect();
const drawn = (text, parent) => {
  const style = getComputedStyle(parent), font = `${style.fontWeight} ${style.fontSize} ${style.fontFamily}`, name = font + text;
  pen.font = font;
  return drawings.get(name) || drawings.set(name, pen.measureText(text)).get(name);
};
const inksOf = (node) => {
  const parent = node.parentElement, text = node.data.trim(), range = document.createRange();
  if (!text || parent.closest(".heard, script, template")) return [];
  range.selectNodeContents(node);
  const ink = drawn(text, parent), cell = parent.closest("td, th, .match > span, li, h1, p, footer"), row = parent.closest("tr, li, header, footer, #title, #choice");
  return [...range.getClientRects()].filter((rect) => rect.width > 0).map((rect, line) => {
    const base = rect.top + ink.fontBoundingBoxAscent, top = base - ink.actualBoundingBoxAscent, bottom = base + ink.actualBoundingBoxDescent;
    return { text, parent, cell, row, line, left: rect.left, right: rect.right, top, bottom };
  });
};
const inks = () => {
  const walk = document.createTreeWalker(document.body, NodeFilter.SHOW_TEXT), found = [];
  while (walk.nextNode()) found.push(...inksOf(walk.currentNode));
  return found;
};
Object.assign(window, {inks, where});"""
# What is wrong with how the page looks, the columns of its tables, how much of its cell a text of a row fills at most, and the smallest letters: of names,
# figures and scores, and of all.
LOOK = """const near = (one, two, most = 0.6) => Math.abs(one - two) <= most, size = (element) => parseFloat(getComputedStyle(element).fontSize);
const lookAtTexts = (texts, need) => {
  const dots = all(document, ".dot").map((dot) => ({ text: "dot", ...where(dot).toJSON() }));
  for (const { text, parent, line, left, right, top, bottom, ...at } of texts) {
    const cell = where(at.cell), row = where(at.row), below = Math.max(row.top - top, bottom - row.bottom);
    need(line === 0 || line === 1 && innerHeight > innerWidth && parent.closest("footer"), text, "is on several lines");
    need(left >= cell.left - 0.6 && right <= cell.right + 0.6 && below <= 0.1 * size(parent) + 1, text, "is cut");
  }
  [...texts, ...dots].sort((one, two) => one.left - two.left).forEach((one, i, sorted) => {
    need(one.left >= 0 && one.top >= 0 && one.right <= innerWidth && one.bottom <= innerHeight, one.text, "leaves the window");
    for (let j = i + 1; j < sorted.length && sorted[j].left < one.right - 0.6; j += 1) {
      need(sorted[j].top >= one.bottom - 0.6 || sorted[j].bottom <= one.top + 0.6, one.text, "overlaps", sorted[j].text);
    }
  });
  for (const element of [document.documentElement, document.body]) {
    need(element.scrollWidth <= innerWidth && element.scrollHeight <= innerHeight, "the page is", element.scrollWidth, "by", element.scrollHeight);
  }
};
const lookAtTable = (group, inkOf, need) => {
  const rows = all(group, "tr"), heads = [...rows[0].children].map(where), columns = heads.map((_, i) => rows.map((row) => row.children[i]));
  need(rows.length === 5, "a table has", rows.length - 1, "rows");
  columns.forEach((cells, i) => {
    need(cells.map(where).every((it) => near(it.left, heads[i].left) && near(it.width, heads[i].width, 0.1)), "column", i, "is not straight");
    const texts = cells.map((cell) => inkOf.get(cell));
    if (i === 3) need(texts.every((ink) => near(ink.left, texts[0].left, 1)), "Club does not stand over the names");
    if (i > 3) need(texts.every((ink) => near(ink.right, texts[0].right)), "figures of column", i, "do not line up");
    if (i > 3) need(near(heads[i].width, heads[4].width, 0.1), "columns are not equal");
  });
  const sizes = new Set(all(group, "tbody td:nth-child(n+5), tbody th").map(size));
  need(sizes.size === 1, "names and figures are of sizes", ...sizes);
  const lines = rows.slice(1).map((row) => parseFloat(getComputedStyle(row).borderTopWidth));
  need(lines[2] > Math.max(1, lines[0], lines[1], lines[3]), "lines over the rows are", ...lines);
  return heads.map((head) => [Math.round(10 * (head.left - where(group).left)), Math.round(10 * head.width)].join("+")).join(" ");
};
window.look = () => {
  const faults = [], need = (holds, ...told) => holds || faults.push(told.join(" "));
  const texts = inks(), inkOf = new Map(texts.map((ink) => [ink.cell, ink]));
  lookAtTexts(texts, need);
  const columns = new Set(all(document, ".group").map((group) => lookAtTable(group, inkOf, need)));
  need(all(document, "abbr").every((it) => getComputedStyle(it).textDecorationLine === "none"), "a head has a line below it");
  const letters = [all(document, "tbody td:not(.now), tbody th, .home, .away, .score"), texts.map((ink) => ink.parent)].map((them) => Math.min(...them.map(size)));
  const fills = all(document, "tbody th, tbody td:nth-child(n+5)").map((cell) => (inkOf.get(cell).right - inkOf.get(cell).left) / cell.clientWidth);
  return { faults, letters, fill: Math.max(...fills), columns: [...columns] };
};"""
# Takes lines, one round after the other, and tells what the page shows after each, and how it looks.
ROUNDS = """return arguments[0].map((lines) => {
  lines.forEach((line) => take(line));
  return { shown: shown(), ...look() };
});"""

# ---- what the page has to show


def minus(text):
    """A text with the sign that the page has before a number."""
    return text.replace("-", "\u2212")


def shown_of(matches, roster, games, edition=0):
    """What the page shows of these matches, where these are the matches of the evening, by their numbers."""
    clubs = [[roster[slot - 1][0] for slot in slots] for slots in model.FIXTURES]
    playing = {
        club for both, match in zip(clubs, matches) for club in both if match.state == model.IN_PLAY
    }
    rows, lines = [], []
    for place in model.places(matches, roster, False):
        plays = ["dot", "plays now"] if place["club"] in playing else ["", ""]
        mark = [minus(place["mark"]), MEANINGS[place["mark"]]]
        figures = [str(place[name]) for name in FIGURES]
        gain = minus(f"{place['goal_difference']:+}" if place["goal_difference"] else "0")
        row = [str(place["place"]), mark, plays, place["club"], *figures, gain]
        rows.append([*row, str(place["points"])])
    for game in games:
        match, (home, away) = matches[game - 1], clubs[game - 1]
        lines.append(f"{STATES[match.state]}|{home}|{match.goals[0]}\u2013{match.goals[1]}|{away}")
    version = f"edition {edition}, " * bool(edition) + f"version {model.version(matches)}"
    heads, lines = HEADS.split(","), lines or ["No match is in play"]
    return {"rows": rows, "heads": heads, "matches": lines, "version": version, "signal": ""}


class BoardState(NamedTuple):
    """A moment of a group: its matches, its clubs, which of the matches are the evening's, and its edition."""

    group: str
    matches: list
    roster: list
    games: list
    edition: int = 0

    def line(self, row=1):
        """The line by which an evening answers `screen,,,`."""
        members = model.Style(["--group", self.group]).json(self.matches, self.roster, row)
        return model.line_of({**members, "edition": self.edition} if self.edition else members)[:-1]

    def shown(self):
        """What the page shows of it."""
        return shown_of(self.matches, self.roster, self.games, self.edition)

    def of(self, group=None, edition=0, clubs=()):
        """The same in another group, in another edition, or of other clubs."""
        roster = [(name, 0) for name in clubs] or self.roster
        return self._replace(group=group or self.group, edition=edition, roster=roster)


def season(group, year="2021-22"):
    """The season of a group: of each matchday both matches in play, the first over, both over."""
    roster, events = model.parsed("".join(row + "\n" for row in seasons.group(year, group).rows()))
    moments, matches, games = [], model.fresh(), []
    for reporter, game, _, word in events:
        if word == "fulltime":
            games.append(game)
        else:
            matches[game - 1].enter(reporter, word)
        for over in [[], games[:1], games[1:]] if len(games) == 2 else []:
            for number in over:
                matches[number - 1].enter(2 - number % 2, "fulltime")
            now = [model.match_of(match.word()) for match in matches]
            moments.append(BoardState(group, now, roster, sorted(games)))
        games = games if len(games) < 2 else []
    assert len(moments) == 18 and {match.state for match in matches} == {model.FINISHED}
    return moments


SEASON = {group: season(group) for group in "ABCDEFGH"}


# ---- a browser


class Sheet:
    """The page in a browser, without a board: it is given its lines."""

    def __init__(self, browser):
        self.browser, self.run, self.cdp = browser, browser.execute_script, browser.execute_cdp_cmd

    def open(self, words, size=LARGE):
        """Opens the page with these words, in a browser that knows nothing of an evening."""
        self.resize(size)
        self.browser.get(f"{PAGE.as_uri()}?details&{words}")

        def forgets():
            """What is taken away may be there still for the page that comes at once."""
            self.run("localStorage.clear()")
            self.reload()
            return self.run("return localStorage.length === 0")

        assert until(forgets)

    def reload(self):
        """Opens the page again, with a clock that stands still until a test puts it ahead, and one that somebody has set back. No WebSocket is opened from a file, so no timer runs."""
        self.browser.refresh()
        self.run(
            f"open = () => {{}}; window.ahead = 0; const begun = performance.now(); performance.now = () => begun + 1000 * ahead; Date.now = () => 0; {SHOWN} {INKS} {LOOK}"
        )

    def resize(self, size):
        """Makes the window as large as this, and waits until the page has been told, which is before a frame is drawn."""
        sides = dict(zip(["width", "height"], size))
        how = {**sides, "deviceScaleFactor": 1, "mobile": False}
        self.cdp("Emulation.setDeviceMetricsOverride", how)
        assert until(lambda: self.run("return [innerWidth, innerHeight]") == [*size])
        frame = "requestAnimationFrame(() => requestAnimationFrame(arguments[0]))"
        self.browser.execute_async_script(frame)

    def fonts(self):
        """Of the fonts those that are installed; where none is, it skips the test."""
        width = "const pen = document.createElement('canvas').getContext('2d'); pen.font = arguments[0]; return pen.measureText('Wing').width"
        found = [
            font
            for font in FONTS
            if self.run(width, f"20px '{font}', monospace") != self.run(width, "20px monospace")
        ]
        return found or pytest.skip("not installed: fonts-dejavu-core")

    def looks(self):
        """Each font at each size, with a number of its own."""
        for number, (font, size) in enumerate(itertools.product(self.fonts(), SIZES)):
            self.run("document.body.style.fontFamily = arguments[0]", font)
            self.resize(size)
            yield number, size, f"{font} at {size[0]}x{size[1]}"

    def faults(self, *passed):
        """What is wrong with how it looks, but for faults that have such a word, once the page has seen the size of its window."""
        told = lambda: [
            it for it in self.run("return look().faults") if not any(word in it for word in passed)
        ]
        return [] if until(lambda: told() == []) else told()

    def take(self, *lines):
        """Gives the page lines. Tells what it shows after them."""
        return self.rounds([lines])[0]["shown"]

    def rounds(self, rounds):
        """Gives the page lines, one round after the other. Tells after each what it shows, and how it looks."""
        return self.run(ROUNDS, rounds)

    def text(self, selector):
        """The text of an element."""
        return self.run("return document.querySelector(arguments[0]).textContent", selector)

    def picture(self):
        """A picture of what is shown, as PNG."""
        return base64.b64decode(self.cdp("Page.captureScreenshot", {"format": "png"})["data"])


@pytest.fixture
def sheet(browser):
    """The page in a browser, without a board."""
    return Sheet(browser)


def check(sheet, rounds, name, least=0):
    """After each round of lines the page shows these moments, nothing is wrong with how it looks, columns are those of all other tables, letters are large."""
    columns = set()
    given = [[moment.line() for moment in moments] for moments in rounds]
    for moments, it in zip(rounds, sheet.rounds(given)):
        assert it["faults"] == [], f"{name}, matches {moments[0].games} of {moments[0].roster}"
        assert it["shown"] == {moment.group: moment.shown() for moment in moments}, name
        assert it["letters"][0] >= least, name
        columns.update(it["columns"])
    assert len(columns) == 1, name


# ---- how it looks


@pytest.mark.quick
def test_a_group_at_each_size_on_each_matchday(sheet):
    """All groups are shown in the place of one, each in an edition of its own."""
    sheet.open("group=A")
    for number, size, name in sheet.looks():
        rounds = [
            [it.of("A", 8 * number + at)]
            for at, moments in enumerate(SEASON.values())
            for it in moments[:: 3 if number else 1]
        ]
        check(sheet, rounds, name, SIZES[size][0])


@pytest.mark.quick
def test_the_wall_at_each_size_on_each_matchday(sheet):
    sheet.open("wall")
    for number, size, name in sheet.looks():
        walls = [*zip(*SEASON.values())][:: 3 if number else 1]
        rounds = [[it.of(edition=number) for it in moments] for moments in walls]
        check(sheet, rounds, name, SIZES[size][1])


def large():
    """A group in which two clubs score all that can be, ten matches are over, and two in play."""
    matches = model.fresh()
    for number, (match, slots) in enumerate(zip(matches, model.FIXTURES), 1):
        match.number, match.reporter = 4094, 255
        match.state = model.IN_PLAY if number > 10 else model.FINISHED
        match.goals = [63 * (slot < 3) for slot in slots]
    return BoardState("A", matches, model.ROSTER, [11, 12])


GERMAN = "Borussia Munchenglad,Wolverhampton Wander,Shakhtar Donetsk1936,Paris Saint-Germain1"
NAMES = {
    "widest": ["W" * 20, "M" * 20, "@" * 20, "%" * 20],
    "one is wide": ["W" * 20, "i", "Alpha", "Bravo"],
    "twenty letters": GERMAN.split(","),
    "no HTML": ["<b>A</b>", '"&amp;"', "a   b", "'"],
}


@pytest.mark.quick
@pytest.mark.parametrize("words", ["group=A", "wall"])
@pytest.mark.parametrize("name", NAMES)
def test_long_names_large_figures_and_no_signal(sheet, name, words):
    sheet.open(words)
    season = [moments[15] for moments in SEASON.values()][: 8 if words == "wall" else 1]
    moments = [moment.of(edition=12345, clubs=NAMES[name]) for moment in [large(), *season[1:]]]
    before, after = sheet.rounds([[it.line() for it in season], [it.line() for it in moments]])
    assert after["shown"] == {it.group: it.shown() for it in moments}
    assert after["columns"] == before["columns"]
    sheet.run("ahead = 8; tell()")
    assert sheet.run("return shown().A.signal").startswith("No signal")
    for *_, font in sheet.looks():
        assert sheet.faults() == [], font
        assert until(lambda: sheet.run("return look().fill") >= 0.85), font


@pytest.mark.quick
def test_a_score_of_four_digits_stands_apart_from_the_names(sheet):
    gap = """const edge = (line, kind) => { const it = document.createRange(); it.selectNodeContents(line.querySelector(kind)); return it.getBoundingClientRect(); };
        return Math.min(...[...document.querySelectorAll(".match")].map((line) => {
            const [home, score, away] = [".home", ".score", ".away"].map((kind) => edge(line, kind));
            return Math.min(score.left - home.right, away.left - score.right) / parseFloat(getComputedStyle(line).fontSize);
        }));"""
    sheet.open("group=A")
    assert "In play|Bravo|63\u201363|Alpha" in sheet.take(large().line())["A"]["matches"]
    for _, size, font in sheet.looks():
        if size[0] > size[1]:
            assert until(lambda: sheet.run(gap) > 0.15, 5), font


@pytest.mark.quick
@pytest.mark.parametrize("count", [0, 1, 3, 12])
def test_another_count_of_matches_in_play(sheet, count):
    sheet.open("group=A")
    moment = BoardState("A", model.fresh(), SEASON["A"][0].roster, [*range(1, count + 1)])
    for game in moment.games:
        moment.matches[game - 1].enter(1, "kickoff")
    for edition, _, name in sheet.looks():
        check(sheet, [[moment.of(edition=edition)]], name)


@pytest.mark.quick
def test_letters_for_twenty_metres_and_the_picture(sheet, pytestconfig):
    moments = [moments[15] for moments in SEASON.values()]
    for words, them in ("wall", moments), ("group=A", moments[:1]):
        sheet.open(words)
        sheet.run("document.body.style.fontFamily = arguments[0]", FONTS[0])
        assert sheet.rounds([[it.line() for it in them]])[0]["letters"][1] >= 24
        assert sheet.text("footer") == LEGEND
    if pytestconfig.getoption("--picture", None):
        sheet.browser.get(f"{PAGE.as_uri()}?group=A")
        tonight = json.dumps({"A": sorted(moments[0].games)})
        hall = HALL % ("Champions League 2021/22, matchday 6", "A", tonight)
        sheet.run("for (const line of arguments[0]) take(line)", [hall, moments[0].line()])
        pathlib.Path(pytestconfig.getoption("--picture")).write_bytes(sheet.picture())


# ---- what it takes


@pytest.mark.quick
def test_lines_of_other_groups(sheet):
    a, b = (SEASON[group][0] for group in "AB")
    for words, lines, moment in [
        ("group=B", [a, b, a], b),
        ("group=b", [b, a], b),
        ("", [a, b], a),
        ("x", [b, a], b),
    ]:
        sheet.open(words)
        assert sheet.take(*(it.line() for it in lines)) == {moment.group: moment.shown()}
        assert sheet.browser.title == f"Group {moment.group}"
    sheet.open("wall")
    shown = sheet.take(b.line())
    assert [*shown] == [*"ABCDEFGH"] and shown.pop("B") == b.shown()
    assert [it["rows"] for it in shown.values()] == [[]] * 7


@pytest.mark.quick
def test_a_newer_screen_is_of_a_later_edition_or_of_the_same_and_a_higher_version(sheet):
    sheet.open("group=A")
    steps = [(3, 0, True), (2, 0, False), (4, 0, True), (1, 1, True), (5, 0, False)]
    steps += [(0, 1, False), (2, 1, True), (0, 10, True), (5, 9, False)]
    for at, edition, is_newer in steps:
        moment = SEASON["A"][at].of(edition=edition)
        version = sheet.take(moment.line(at))["A"]["version"]
        last = moment.shown()["version"] if is_newer else last
        assert version == last, (at, edition)


@pytest.mark.quick
def test_a_board_that_is_begun_again_takes_back_a_kick_off_and_brings_its_own_clubs(sheet):
    """Its version is lower. The match is not of the evening any more, who listens is told, and what comes late of the edition before is passed over."""
    wrong = BoardState("A", model.fresh(), SEASON["A"][0].roster, [1, 2])
    for game in wrong.games:
        wrong.matches[game - 1].enter(1, "kickoff")
    wrong.matches[1].enter(1, "goal-home")
    matches, clubs = [model.Match(), *wrong.matches[1:]], [("Atletico", 9), *wrong.roster[1:]]
    mended = BoardState("A", matches, clubs, [2], 1)
    sheet.open("group=A")
    for row, (it, stands) in enumerate([(wrong, wrong), (mended, mended), (wrong, mended)], 1):
        assert sheet.take(it.line(row))["A"] == stands.shown()
    home, away = (mended.roster[slot - 1][0] for slot in model.FIXTURES[0])
    assert sheet.text("#news") == f"Corrected. To come: {home} 0, {away} 0."


@pytest.mark.quick
def test_what_a_screen_reader_is_told(sheet):
    """The parts of the page by their roles; and of each goal and each phase of a match where it is shown."""
    begun = season("A")[0]
    game = begun.games[0]
    sheet.open("group=A")
    sheet.take(begun.line())
    home, away = (begun.roster[slot - 1][0] for slot in model.FIXTURES[game - 1])
    for word, told in ("goal-away", ""), ("fulltime", "Full time: "):
        begun.matches[game - 1].enter(1, word)
        sheet.take(begun.line())
        goals = begun.matches[game - 1].goals
        assert sheet.text("#news") == f"{told}{home} {goals[0]}, {away} {goals[1]}."
    nodes = sheet.cdp("Accessibility.getFullAXTree", {})["nodes"]
    told = [
        (node["role"]["value"], node.get("name", {}).get("value", ""))
        for node in nodes
        if not node.get("ignored") and "role" in node
    ]
    counts = {"table": 1, "columnheader": 12, "rowheader": 4, "row": 5}
    counts |= {"heading": 1, "list": 1, "listitem": 2}
    assert {role: [it for it, _ in told].count(role) for role in counts} == counts
    clubs = [row[3] for row in begun.shown()["rows"]]
    assert [name for role, name in told if role == "rowheader"] == clubs
    assert ("alert", "") in told
    assert sheet.run("return document.getElementById('news').ariaLive") == "polite"


@pytest.mark.quick
def test_lines_that_tell_no_screen(sheet):
    moment = SEASON["A"][0]
    said = json.loads(moment.line())
    first, *rest = said["matches"]
    changed = [
        *({"group": "I"}, {"group": 1}, {"version": "16"}, {"reply": "ok"}, {"table": [1, 2, 3]}),
        *({"edition": it} for it in ("1", 0.5, -1, 65536, None)),
        *({"matches": []}, {"clubs": None}, {"table": [None] * 4}, {"matches": ["x"] * 12}),
        *({"clubs": [None] * 4}, {"matches": [first | {"home": 5}, *rest]}),
        *(
            {"matches": [first | {"away": 0}, *rest]},
            {"matches": [first | {"state": "OVER"}, *rest]},
        ),
        {"matches": [first | {"score": None}, *rest]},
    ]
    lines = [json.dumps({**said, "version": 99, "row": at, **it}) for at, it in enumerate(changed)]
    lines += ["", "x", "null", "3", "[]", "{}", '{"reply":"screen"}', "[" * 500]
    sheet.open("group=A")
    sheet.take(moment.line())
    assert sheet.take(*lines, moment.line()[:-20]) == {"A": moment.shown()}
    assert sheet.take(SEASON["A"][1].line()) == {"A": SEASON["A"][1].shown()}


@pytest.mark.quick
def test_no_signal_where_nothing_comes_or_no_word_of_the_group(sheet):
    """A screen is a sign of its group, and so is a pulse that names it, once its screen has come. Where a pulse does not name it that is told at once."""
    a, b = (SEASON[group][0] for group in "AB")
    pulse = lambda letters: json.dumps({"reply": "pulse", "groups": letters}, separators=(",", ":"))
    sheet.open("group=A")
    signal = lambda: sheet.run("tell(); return shown()")["A"]["signal"]
    wait = lambda seconds: sheet.run(f"ahead += {seconds}")
    assert signal() == "No signal"
    for line, told in (b.line(), "No signal"), (pulse("AB"), "No signal"), (a.line(), ""):
        sheet.take(line)
        assert signal() == told
    for line, told in (
        (pulse("AB"), ""),
        (pulse("B"), "No signal"),
        (b.line(), "No signal"),
        (pulse("A"), ""),
    ):
        wait(4)
        sheet.take(line)
        wait(2)
        assert signal() == told
    sheet.take(pulse(""))
    assert signal() == "No signal"
    sheet.open("wall")
    assert [group for group, it in sheet.take(b.line()).items() if it["signal"] == "No signal"] == [
        *"ACDEFGH"
    ]


@pytest.mark.quick
@pytest.mark.parametrize("words, seconds", [("group=A", 5), ("group=A&silence=12", 12)])
def test_after_how_many_seconds_there_is_no_signal(sheet, words, seconds):
    """Five, or as many as the address says."""
    signal = "tell(); return shown()['A'].signal"
    sheet.open(words)
    sheet.take(SEASON["A"][0].line())
    sheet.run(f"ahead += {seconds} - 0.5")
    assert sheet.run(signal) == ""
    sheet.run("ahead += 1")
    assert sheet.run(signal) == "No signal"


@pytest.mark.quick
def test_for_how_long_there_is_no_signal(sheet):
    """It stands behind the words, once there was one."""
    a, old = SEASON["A"][0], "tell(); return document.querySelector('.signal').dataset.old || ''"
    sheet.open("group=A")
    assert sheet.run(old) == ""
    sheet.take(a.line())
    for seconds, told in (4, ""), (8, "12 s"), (30, "42 s"):
        sheet.run(f"ahead += {seconds}")
        assert sheet.run(old) == told
    sheet.take(SEASON["A"][1].line())
    assert sheet.run(old) == ""


@pytest.mark.quick
def test_a_wall_says_of_each_group_for_how_long_there_is_no_signal(sheet):
    """In its head, which is as high as before; at no size are the words there without the seconds."""
    heights = "return [...document.querySelectorAll('header')].map((it) => it.offsetHeight)"
    # What CSS adds is no text of the page, so it is known by the room that it takes on its line.
    told = """return [...document.querySelectorAll('.signal')].map((it) => {
      const text = document.createRange();
      text.selectNodeContents(it);
      return it.scrollHeight <= it.clientHeight + 1 && where(it).width > 1.5 * where(text).width;
    })"""
    sheet.open("wall")
    for *_, name in sheet.looks():
        sheet.run("ahead = 0")
        sheet.take(*(moments[15].line() for moments in SEASON.values()))
        before = sheet.run(heights)
        sheet.run("ahead = 120; tell()")
        assert sheet.run(told) == [True] * 8, name
        assert sheet.run(heights) == before and sheet.run("return look().faults") == [], name


@pytest.mark.quick
def test_servers_that_hear_of_no_board_greet_a_page_in_turn(sheet):
    """Each gives the screen that it has and says that the board is gone: the page goes on to tell for how long."""
    a = SEASON["A"][0].line()
    pulse = lambda letters: json.dumps({"reply": "pulse", "groups": letters}, separators=(",", ":"))
    sheet.open("group=A")
    sheet.take(a, pulse("A"))
    told = []
    for _ in range(3):
        sheet.run("ahead += 2")
        sheet.take(a)
        told.append(sheet.run("tell(); return document.querySelector('.signal').dataset.old"))
        sheet.take(pulse(""))
        told.append(sheet.run("tell(); return document.querySelector('.signal').dataset.old"))
    assert told == [None, "2 s", "4 s", "4 s", "6 s", "6 s"]
    sheet.take(a, pulse("A"))
    assert sheet.run("return shown()")["A"]["signal"] == ""


@pytest.mark.quick
def test_what_the_server_has(sheet):
    """A title; the matches of the evening, also those to come; one group, or a wall of several, unless one is asked for."""
    hall = lambda groups, tonight={}: HALL % ("Finals", groups, json.dumps(tonight))
    a, c = SEASON["A"][0], SEASON["C"][0]
    sheet.open("")
    assert [*sheet.take(hall("A"))] == ["A"] and sheet.browser.title == "Finals: Group A"
    to_come = next(game for game in range(1, 13) if a.matches[game - 1].state == model.SCHEDULED)
    tonight = {"A": sorted([*a.games, to_come])}
    shown = sheet.take(hall("A", tonight=tonight), a.line())["A"]["matches"]
    home, away = (a.roster[slot - 1][0] for slot in model.FIXTURES[to_come - 1])
    assert sorted(shown) == sorted([*a.shown()["matches"], f"To come|{home}|v|{away}"])
    assert (sheet.text("#title"), sheet.text(".standing")) == ("Finals", "as it stands")
    assert [*sheet.take(hall("ABC"), c.line())] == [*"ABC"]
    assert sheet.browser.title == "Finals: Groups A to C"
    for _, size, font in sheet.looks():
        assert sheet.faults("a table has 0 rows", "lines over", "sizes") == [], font
    sheet.open("group=C")
    assert sheet.take(hall("ABC"), a.line(), c.line()) == {"C": c.shown()}
    sheet.open("wall")
    assert [*sheet.take(hall("AC"))] == [*"AC"]


@pytest.mark.quick
def test_no_word_of_ours_on_a_public_screen_and_a_final_table(sheet):
    """Edition and version are shown to who asks; a group that is over is final."""
    sheet.open("group=A")
    sheet.browser.get(f"{PAGE.as_uri()}?group=A")
    sheet.run(SHOWN)
    before, last = SEASON["A"][-3], SEASON["A"][-1].of(edition=3)
    sheet.run("take(arguments[0]); take(arguments[1])", before.line(), last.line())
    assert sheet.run("return shown()")["A"] == {**last.shown(), "version": ""}
    assert sheet.text(".standing") == "final"
    words = sheet.run("return document.body.innerText + document.title").lower().split()
    assert not {"edition", "version", "board", "row"} & {*words}


@pytest.mark.quick
def test_an_overlay_is_the_table_alone_on_a_transparent_ground(sheet, tmp_path):
    image = pytest.importorskip("PIL.Image", reason="no Pillow: python3-pil has it")
    sheet.open("group=A&overlay")
    sheet.take(SEASON["A"][0].line())
    ground = "Emulation.setDefaultBackgroundColorOverride"
    sheet.cdp(ground, {"color": {"r": 0, "g": 0, "b": 0, "a": 0}})
    try:
        (tmp_path / "overlay.png").write_bytes(sheet.picture())
    finally:
        sheet.cdp(ground, {})
    alpha = image.open(tmp_path / "overlay.png").convert("RGBA").getchannel("A")
    left, top, right, bottom = map(round, edges(sheet, "table"))
    assert alpha.getextrema() == (0, 255) and alpha.getbbox() == (left, top, right, bottom)
    assert alpha.getpixel((left + 60, top + 8)) > 200 and bottom < LARGE[1] / 2
    others = "[...document.querySelectorAll('header, footer, .matches, #title')]"
    assert sheet.run(f"return {others}.every((it) => it.offsetHeight === 0)")


def edges(sheet, name):
    """The left, upper, right and lower edge of an element."""
    return sheet.run(
        "const it = where(document.querySelector(arguments[0])); return [it.left, it.top, it.right, it.bottom]",
        name,
    )


@pytest.mark.quick
def test_an_overlay_in_a_frame_of_a_light_page(sheet, tmp_path):
    """What stands behind it is seen: a browser gives a frame of another colour scheme a ground of its own."""
    image = pytest.importorskip("PIL.Image", reason="no Pillow: python3-pil has it")
    style = "border: 0; width: 100%; height: 100vh"
    frame = f"<iframe src='{PAGE.as_uri()}?group=A&overlay' style='{style}'></iframe>"
    (tmp_path / "light.html").write_text(f"<body style='margin: 0; background: #00ff00'>{frame}")
    sheet.resize(LARGE)
    sheet.browser.get((tmp_path / "light.html").as_uri())
    (tmp_path / "light.png").write_bytes(sheet.picture())
    picture = image.open(tmp_path / "light.png").convert("RGB")
    assert picture.getpixel((LARGE[0] // 2, LARGE[1] - 50)) == (0, 255, 0)
    assert picture.getpixel((LARGE[0] // 2, 60)) != (0, 255, 0)


@pytest.mark.quick
@pytest.mark.parametrize(
    "words, size", [("overlay", LARGE), ("overlay", (390, 844)), ("overlay&silent", LARGE)]
)
def test_an_overlay_says_when_its_picture_is_old(sheet, words, size):
    """By a mark that covers nothing and moves nothing; or it is hidden as a whole."""
    seen = "return [...document.querySelectorAll('.signal, table')].map((it) => it.checkVisibility({checkVisibilityCSS: true}) && it.offsetHeight > 0)"
    is_old = ["silent" not in words] * 2
    sheet.open(f"group=A&{words}", size)
    sheet.run("tell()")
    assert sheet.run(seen) == is_old
    sheet.take(SEASON["A"][0].line())
    assert sheet.run(seen) == [False, True]
    before = edges(sheet, "table")
    sheet.run("ahead = 4; tell()")
    assert sheet.run(seen) == [False, True]
    sheet.run("ahead = 6; tell()")
    assert sheet.run(seen) == is_old and edges(sheet, "table") == before
    if "silent" not in words:
        mark = edges(sheet, ".signal")
        assert before[0] < mark[0] and mark[2] < before[2] and before[1] < mark[1]
        assert sheet.run(
            "const it = where(document.querySelector('.signal')); return inks().filter((ink) => !ink.parent.closest('header')).every((ink) =>"
            "ink.right <= it.left || ink.left >= it.right || ink.bottom <= it.top || ink.top >= it.bottom)"
        )
    sheet.take(SEASON["A"][1].line())
    assert sheet.run(seen) == [False, True] and sheet.take()["A"] == SEASON["A"][1].shown()


@pytest.mark.quick
def test_an_overlay_without_a_group_on_a_server_of_several(sheet):
    """It says so in one line, and shows no other than it did."""
    line = lambda groups: HALL % ("Finals", groups, "{}")
    choice = lambda: sheet.run(
        "const it = document.getElementById('choice'); return it.offsetHeight > 0 ? it.textContent : ''"
    )
    (a, _), (b, later) = (SEASON[group][:2] for group in "AB")
    told = "Groups A, B: add &group=A to the address"
    sheet.open("overlay")
    assert sheet.take(line("AB"), b.line(), a.line()) == {} and choice() == told
    assert sheet.take(line("B"), a.line(), b.line()) == {"B": b.shown()} and choice() == ""
    assert sheet.take(line("AB"), a.line(), later.line()) == {"B": later.shown()}
    assert choice() == told
    for words, letters in ("overlay&group=b", "B"), ("overlay&wall", "AB"), ("", "AB"):
        sheet.open(words)
        assert [*sheet.take(line("AB"))] == [*letters] and choice() == ""


@pytest.mark.quick
def test_a_match_that_the_desk_kicks_off_is_listed(sheet):
    """The server names the matches of the evening anew."""
    moment = SEASON["A"][0]
    first, second = moment.games
    sheet.open("group=A")
    line = lambda games: HALL % ("", "A", json.dumps({"A": games}))
    assert sheet.take(line([first]), moment.line())["A"] == moment._replace(games=[first]).shown()
    assert sheet.take(line([first, second]))["A"] == moment.shown()
    sheet.take(SEASON["A"][1].line())
    assert sheet.take(line([first, second]))["A"] == SEASON["A"][1].shown()


@pytest.mark.quick
def test_matches_that_are_over_stay_until_their_clubs_play_again(sheet):
    """A browser keeps them. One that has not shown the group knows those in play, and of the others one that must be of the evening."""
    first, second, third = SEASON["A"][:3], SEASON["A"][3:6], SEASON["A"][6:9]
    sheet.open("group=A")
    for moment in [*first, *second]:
        assert sheet.take(moment.line()) == {"A": moment.shown()}
    kept = "return JSON.stringify({...localStorage})"
    before = sheet.run(kept)
    assert until(lambda: sheet.reload() or sheet.run(kept) == before)
    place, matches = first[2].games[0] - 1, [*second[2].matches]
    matches[place] = model.match_of(matches[place].word())
    for word in "reopen", "fulltime":
        matches[place].enter(1, word)
    later = second[2]._replace(matches=matches, edition=1)
    for moment in second[2], later, third[0].of(edition=1):
        assert sheet.take(moment.line()) == {"A": moment.shown()}
    last = SEASON["A"][14]._replace(matches=[*SEASON["A"][14].matches])
    last.matches[7] = model.match_of("2001000000001001")
    for moment, games in (
        *((first[1], [6, 7]), (second[1], [2, 9]), (SEASON["A"][10], [12])),
        *((last, [8]), (third[2], [])),
    ):
        sheet.open("group=A")
        assert sheet.take(moment.line()) == {"A": moment._replace(games=games).shown()}
    assert sheet.take(SEASON["A"][11].line()) == {"A": SEASON["A"][11].shown()}


# ---- without a board


@pytest.mark.quick
def test_seasons_that_are_replayed(browser):
    """Whoever has the page and a server of files sees a matchday, or a season of a group or of all, which end as they did, and then begin again."""
    port = free_port()
    shown = lambda: browser.execute_script(SHOWN + "return shown()")
    asked = [
        *(("replay&wall", "2021-22", "ABCDEFGH"), ("replay&group=C", "2021-22", "C")),
        *(("replay", "2021-22", "A"), ("replay=2022-23&wall", "2022-23", "ABCDEFGH")),
    ]
    for year, letter in zip(seasons.SEASONS, "BHE"):
        asked.append((f"replay={year}&group={letter}", year, letter))
    files = ["/usr/bin/python3", "-m", "http.server", "--bind", "127.0.0.1", str(port)]
    with Started(files, cwd=PAGE.parent):
        assert until(lambda: is_reached(port), 60)
        for words, year, letters in asked:
            browser.get(f"http://127.0.0.1:{port}/?{words}&pace=1&details")
            ends = {letter: season(letter, year)[-1].shown() for letter in letters}
            wanted = {letter: {**end, "signal": "Replay"} for letter, end in ends.items()}
            until(lambda: shown() == wanted, 200)
            assert shown() == wanted, words
        browser.get(f"http://127.0.0.1:{port}/?replay=2020-21&group=A")
        assert until(lambda: shown()["A"]["signal"] == "No recording", 20)
        # Time passes faster there, so that nobody waits for the end of its pause.
        fast = (
            "const later = setTimeout; window.setTimeout = (work, time) => later(work, time / 50);"
        )
        added = browser.execute_cdp_cmd("Page.addScriptToEvaluateOnNewDocument", {"source": fast})
        try:
            browser.get(f"http://127.0.0.1:{port}/?replay&group=A&pace=1")
            browser.execute_script("window.isFirst = true")
            assert until(lambda: browser.execute_script("return !window.isFirst"), 20)
        finally:
            browser.execute_cdp_cmd("Page.removeScriptToEvaluateOnNewDocument", added)


# ---- with a server


@pytest.mark.parametrize("end", [signal.SIGKILL, signal.SIGSTOP])
def test_an_evening_whose_server_is_gone_for_a_while(hall, browser, end):
    """Each event is shown, also by a page that is opened later; where nothing comes that is told, and the page goes on by itself, with what was mended meanwhile."""
    one, matches = hall(), model.fresh()
    Sheet(browser).resize(LARGE)
    browser.get(f"http://127.0.0.1:{one.port}/?silence=4&details")

    def enter(*events):
        """Appends events to the record, as a reporter at a terminal does."""
        with open(one.folder / "a.csv", "a") as record:
            for game, word in events:
                record.write(f"1,{game},{matches[game - 1].number},{word}\n")
                matches[game - 1].enter(1, word)

    def shows(games, edition=0, **more):
        """Awaits that the page shows what it has to."""
        wanted = {**shown_of(matches, model.ROSTER, games, edition), **more}
        shown = lambda: browser.execute_script(SHOWN + "return shown()").get("A")
        until(lambda: shown() == wanted, 60)
        assert shown() == wanted

    shows([])
    enter((1, "kickoff"), (2, "kickoff"), (2, "goal-home"))
    shows([1, 2])
    enter((1, "goal-away"))
    shows([1, 2])
    browser.refresh()
    shows([1, 2])
    one.process.send_signal(end)
    shows([1, 2], signal="No signal")
    with open(one.folder / "a.csv", "a") as record:
        record.write("mend,6,,\n")
    matches[0] = model.Match()
    if end == signal.SIGKILL:
        one.process.wait()
        one.start()
    else:
        one.process.send_signal(signal.SIGCONT)
    shows([2], 1)
