"""The rules a second time, in plain Python and apart from the programs: words, refusals, the order, marks, screens, scripts, evenings.

Text is str. What programs, the library and pages give is compared with what stands here; a new kind of event or refusal has to come here too.
"""

import csv
import io
import itertools
import json
import re

csv.field_size_limit(1 << 30)
# The home and the away slot of each match.
FIXTURES = [(int(h), int(a)) for h, a in "23 41 12 34 31 24 13 42 32 14 21 43".split()]
SIDED = ["goal", "disallow", "yellow", "second-yellow", "red"]
WORDS = ["kickoff", "fulltime", "reopen"] + [
    f"{kind}-{side}" for kind in SIDED for side in ("home", "away")
]
SCHEDULED, IN_PLAY, FINISHED = range(3)
STATES = "SCHEDULED", "IN PLAY", "FINISHED"
ORDERS = "uefa", "away-in-tie"
# The clubs of the examples.
ROSTER = [("Alpha", 60_000), ("Bravo", 95_000), ("Charlie", 60_000), ("Delta", 81_500)]
CLUBS = "".join(
    f"club,{slot},{name},{coefficient}\n" for slot, (name, coefficient) in enumerate(ROSTER, 1)
)
# The most bytes of a line of an evening, and of a line that a follower reads.
LONGEST_LINE, LONGEST_FOLLOWED = 256, 4_096
# The last line of an evening that a mend can name, and the last edition.
LAST_ROW, LAST_EDITION = 4_294_967_295, 65_535


class Match:
    """A match: its state, and goals, standing yellows and expulsions of the home and the away side."""

    def __init__(self):
        self.number = self.reporter = 0
        self.state = SCHEDULED
        self.goals, self.yellows, self.expulsions = [0, 0], [0, 0], [0, 0]

    def members(self, game):
        """The match with this number as it stands, in JSON."""
        home, away = FIXTURES[game - 1]
        members = {"match": game, "home": home, "away": away, "number": self.number}
        members |= {"state": STATES[self.state], "reporter": self.reporter, "score": self.goals}
        return members | {"yellows": self.yellows, "expulsions": self.expulsions}

    def refusal(self, expected, word):
        """The first rule that refuses the event, as its number and name; None where none does."""
        kind, i = kind_of(word)
        full = {"goal": self.goals[i] >= 63, "yellow": self.yellows[i] >= 63}
        full["second-yellow"] = full["red"] = self.expulsions[i] >= 31
        rules = [
            (expected != self.number, f"1 stale {self.number}"),
            (self.state == FINISHED and kind != "reopen", "2 finished"),
            (self.state != FINISHED and kind == "reopen", "9 not-finished"),
            (self.state == SCHEDULED and kind != "kickoff", "3 not-started"),
            (self.state == IN_PLAY and kind == "kickoff", "4 already-started"),
            (self.number >= 4094 and kind != "fulltime", "5 number-full"),
            (kind == "disallow" and self.goals[i] == 0, "6 no-goal"),
            (kind == "second-yellow" and self.yellows[i] == 0, "7 no-caution"),
            (full.get(kind, False), "8 limit-reached"),
        ]
        return next((name for holds, name in rules if holds), None)

    def enter(self, reporter, word):
        """Changes what an accepted event changes."""
        kind, i = kind_of(word)
        self.number, self.reporter = self.number + 1, reporter
        if kind in ("kickoff", "reopen"):
            self.state = IN_PLAY
        elif kind == "fulltime":
            self.state = FINISHED
        elif kind in ("goal", "disallow"):
            self.goals[i] += 1 if kind == "goal" else -1
        else:
            self.yellows[i] += {"yellow": 1, "second-yellow": -1, "red": 0}[kind]
            self.expulsions[i] += kind != "yellow"

    def word(self):
        """The match word."""
        values = (
            self.number,
            self.state,
            *self.goals,
            *self.yellows,
            *self.expulsions,
            self.reporter,
        )
        lows = 0, 12, 14, 20, 26, 32, 38, 43, 48
        return f"{(2 << 60) + sum(value << low for value, low in zip(values, lows)):016x}"


def match_of(word):
    """The match of a word of sixteen digits, of either layout; None where it is of no valid record."""
    for width, above in ((12, 0x20), (10, 0)):
        rest, fields = int(word, 16), []
        for bits in (width, 2, 6, 6, 6, 6, 5, 5, 8):
            fields.append(rest % (1 << bits))
            rest >>= bits
        m, most = Match(), (1 << width) - 1
        m.number, m.state, m.reporter = fields[0], fields[1], fields[8]
        m.goals, m.yellows, m.expulsions = fields[2:4], fields[4:6], fields[6:8]
        is_begun = (
            m.reporter > 0
            and m.state in (IN_PLAY, FINISHED)
            and m.state <= m.number <= most - (m.state == IN_PLAY)
        )
        if rest == above and (is_begun or not any(fields)):
            return m
    return None


def kind_of(word):
    """The kind of an event, and its side: 0 home, 1 away."""
    kind, _, side = word.rpartition("-")
    return (kind, int(side == "away")) if kind else (word, 0)


def fresh():
    """The twelve matches before any event."""
    return [Match() for _ in range(12)]


def version(matches):
    """How many events were accepted."""
    return sum(m.number for m in matches)


def in_play(matches):
    """How many matches are in play."""
    return sum(m.state == IN_PLAY for m in matches)


# ---- the order, and the screen


def results(matches, club):
    """Each match of the club among these: whether away, its goals, the other's, its cards."""
    for (home, away), m in matches:
        if club in (home, away):
            i = 0 if club == home else 1
            yield i == 1, m.goals[i], m.goals[1 - i], m.yellows[i] + 3 * m.expulsions[i]


def points(matches, club):
    """3 points for a win, 1 for a draw."""
    return sum(
        3 * (ours > theirs) + (ours == theirs) for _, ours, theirs, _ in results(matches, club)
    )


def triple(matches, club):
    """Points, goal difference and goals."""
    seen = list(results(matches, club))
    return points(matches, club), sum(a - b for _, a, b, _ in seen), sum(a for _, a, _, _ in seen)


def classes(clubs, key):
    """The clubs by a key, highest first, those with the same key together."""
    keys = sorted({key(club) for club in clubs}, reverse=True)
    return [[club for club in clubs if key(club) == k] for k in keys]


def among(matches, clubs):
    """The matches between these clubs."""
    return [it for it in matches if it[0][0] in clubs and it[0][1] in clubs]


def overall(matches, club, coefficients):
    """What decides where head to head does not: all matches of the club, its coefficient, its slot."""
    seen = list(results(matches, club))
    away, wins = [it for it in seen if it[0]], [it for it in seen if it[1] > it[2]]
    away_goals, away_wins = sum(it[1] for it in away), sum(it[0] for it in wins)
    cards = sum(it[3] for it in seen)
    of_matches = *triple(matches, club)[1:], away_goals, len(wins), away_wins, -cards
    return *of_matches, coefficients[club - 1], -club


def settled(matches, clubs, coefficients, away_counts=False):
    """Clubs that are level on points, in order."""
    if len(clubs) < 2:
        return clubs
    ties = among(matches, clubs)

    def head_to_head(club):
        away = sum(ours for is_away, ours, _, _ in results(ties, club) if is_away)
        return triple(ties, club) + ((away,) if away_counts else ())

    parts = classes(clubs, head_to_head)
    if len(parts) == 1:
        return sorted(clubs, key=lambda club: overall(matches, club, coefficients), reverse=True)
    return [club for part in parts for club in settled(matches, part, coefficients, away_counts)]


def order(matches, coefficients, away_counts=False):
    """The clubs in order, where these matches have begun."""
    level = classes([1, 2, 3, 4], lambda club: points(matches, club))
    return [club for part in level for club in settled(matches, part, coefficients, away_counts)]


def places(matches, roster, away_counts):
    """The rows of the table of the twelve matches, by their names in JSON."""
    games = list(zip(FIXTURES, matches))
    begun = [it for it in games if it[1].state != SCHEDULED]
    ended = [it for it in games if it[1].state == FINISHED]
    clubs = order(begun, [coefficient for _, coefficient in roster], away_counts)
    sure = {c: points(ended, c) for c in clubs}
    reach = {c: sure[c] + 3 * (6 - len(list(results(ended, c)))) for c in clubs}
    for place, club in enumerate(clubs, 1):
        others = [other for other in clubs if other != club]
        if len(ended) == 12:
            mark = "+" if place <= 2 else "-"
        elif sum(reach[other] >= sure[club] for other in others) <= 1:
            mark = "+"
        else:
            mark = "-" if sum(sure[other] > reach[club] for other in others) >= 2 else ""
        seen = list(results(begun, club))
        won, lost = sum(it[1] > it[2] for it in seen), sum(it[1] < it[2] for it in seen)
        ours, theirs = sum(it[1] for it in seen), sum(it[2] for it in seen)
        drawn = len(seen) - won - lost
        row = {"place": place, "mark": mark, "slot": club, "club": roster[club - 1][0]}
        row |= {"played": len(seen), "won": won, "drawn": drawn, "lost": lost}
        row |= {"goals_for": ours, "goals_against": theirs, "goal_difference": ours - theirs}
        yield row | {"points": 3 * won + drawn}


def screen(matches, roster=ROSTER, group="A", away_counts=False):
    """The screen of the twelve matches."""
    lines = [f"GROUP {group} v{version(matches):05d} IN PLAY {in_play(matches)}"]
    lines.append("    Club                  P  W  D  L  GF  GA   GD Pts")
    form = "{place} {mark:1} {club:20}{played:3}{won:3}{drawn:3}{lost:3}"
    form += "{goals_for:4}{goals_against:4}{goal_difference:+5}{points:4}"
    lines += [form.format(**row) for row in places(matches, roster, away_counts)]
    return "".join(line + "\n" for line in lines)


def sheet(matches):
    """The word rows of the twelve matches."""
    return "".join(f"word,{i},{m.word()},\n" for i, m in enumerate(matches, 1))


def match_lines(matches, roster=ROSTER):
    """The twelve matches, a line each."""
    lines = []
    for game, (m, (home, away)) in enumerate(zip(matches, FIXTURES), 1):
        stands = f"match {game:2} v{m.number:04} {STATES[m.state]:9} {m.goals[0]:2}-{m.goals[1]}"
        cards = "Y {}-{} E {}-{}".format(*m.yellows, *m.expulsions)
        clubs = f"{roster[home - 1][0]} v {roster[away - 1][0]}"
        lines.append(f"{stands} {cards} by {m.reporter:3} {clubs}\n")
    return "".join(lines)


# ---- rows


def records(text):
    """The records of comma separated values, as Python's own reader has them; an empty line is none."""
    lines = io.StringIO(text.replace("\r", "\n"), newline="")
    return [record for record in csv.reader(lines) if record]


def number(text, most, low, high):
    """The number that a field says, within its digits and its range; None where it says none."""
    is_number = re.fullmatch(f"[0-9]{{1,{most}}}", text) and low <= int(text) <= high
    return int(text) if is_number else None


def club(fields, slot):
    """The name and the coefficient of the club that a row names for a slot; None where it names none."""
    if len(fields) != 4 or fields[:2] != ["club", str(slot)]:
        return None
    coefficient = number(fields[3], 9, 0, 999_999_999)
    return None if coefficient is None else (fields[2], coefficient)


def bad_slots(roster):
    """The slots whose club can not be, lowest first."""
    is_name = lambda name: 1 <= len(name) <= 20 and all(" " <= c <= "~" for c in name)
    return [i for i, (name, c) in enumerate(roster, 1) if not is_name(name) or c > 999_999]


def numbers(fields):
    """The reporter, the match and the number that is expected of a row of four fields, each None where its field says none."""
    limits = (3, 1, 255), (2, 1, 12), (5, 0, 65_535)
    return [number(field, *limit) for field, limit in zip(fields, limits)]


def event(fields):
    """The reporter, the match, the number that is expected and the word of the event that a row enters; None where it enters none."""
    return None if bad_field(fields) else (*numbers(fields), fields[3])


def bad_field(fields):
    """The name of the first field that is none of an event; None where each is one."""
    if len(fields) != 4:
        return "fields"
    found = *numbers(fields), fields[3] if fields[3] in WORDS else None
    return ("reporter", "match", "expected", "event")[found.index(None)] if None in found else None


def mend(fields):
    """The row that a mend leaves out, and the edition that it names, one of them None; None where a row is no mend."""
    if len(fields) != 4 or (fields[0], fields[3]) != ("mend", "") or "" not in fields[1:3]:
        return None
    row = number(fields[1], 10, 1, LAST_ROW)
    edition = number(fields[2], 5, 0, LAST_EDITION)
    return None if row is None and edition is None else (row, edition)


def mended(events, without):
    """The matches after these events, each with its row, without the one of this row; the events that stand then, and those that are left out."""
    matches, standing, left_out = fresh(), [], []
    for row, reporter, game, word in events:
        m = matches[game - 1]
        refusal = m.refusal(m.number, word)
        if row == without:
            continue
        if refusal:
            left_out.append((row, reporter, game, word, refusal))
        else:
            m.enter(reporter, word)
            standing.append((row, reporter, game, word))
    return matches, standing, left_out


def word(fields, game):
    """The word that a row gives for a match; None where it gives none."""
    is_word = len(fields) == 4 and (fields[0], fields[3]) == ("word", "")
    is_word = is_word and number(fields[1], 2, game, game)
    return fields[2] if is_word and re.fullmatch("[0-9a-fA-F]{16}", fields[2]) else None


def fields_on(row, line):
    """The fields of a line that has this number: [] where it is too long or has several rows, and None where nothing is on it."""
    line = line.removesuffix("\r")
    fits = len(line.encode(errors="surrogateescape")) <= LONGEST_LINE
    found = records((line.removeprefix("\ufeff") if row == 1 else line) + "\n") if fits else [[]]
    return None if not found else found[0] if len(found) == 1 else []


class Fault(Exception):
    """Why an input is refused."""


def check_roster(roster):
    """A roster that can not be is a fault."""
    if bad_slots(roster):
        raise Fault(f"input refused 21: slot {bad_slots(roster)[0]}")


def matches_of(words):
    """The matches of twelve words."""
    found = [match_of(it) for it in words]
    if None in found:
        raise Fault(f"input refused 10: word {found.index(None) + 1}")
    return found


def parsed(text, reads=lambda fields, row: event(fields), least=4):
    """The roster of an input of at least so many rows, and what the rows after it say: the events of a script, or the words of a sheet."""
    rows = records(text)
    roster, found = [], []
    for row, fields in enumerate(rows + [[]] * (least - len(rows)), 1):
        said = club(fields, row) if row <= 4 else reads(fields, row)
        if said is None:
            raise Fault(f"input refused 20: row {row}")
        (roster if row <= 4 else found).append(said)
        if row == 4:
            check_roster(roster)
    return roster, found


def entered(events):
    """The matches after these events, and the reply lines of a script."""
    matches, lines = fresh(), []
    for row, (reporter, game, expected, word) in enumerate(events, 5):
        m = matches[game - 1]
        refusal = m.refusal(expected, word)
        if not refusal:
            m.enter(reporter, word)
        accepted = f"ok {game} {m.number} {version(matches)}"
        lines.append(f"{row} refused {refusal}\n" if refusal else f"{row} {accepted}\n")
    return matches, "".join(lines)


def line_of(members):
    """A line of JSON, whose members stand in the order of their names."""
    return json.dumps(members, sort_keys=True, separators=(",", ":")) + "\n"


def clubs_of(roster):
    """The clubs in JSON."""
    return [{"club": name, "coefficient": coefficient} for name, coefficient in roster]


class Style:
    """How the words of a command line have a screen shown."""

    def __init__(self, words=()):
        named = {"--group": "A", "--order": "uefa"}
        self.asked = {it: words[words.index(it) + 1] for it in named if it in words}
        self.group, self.order = {**named, **self.asked}.values()
        self.edition = 0

    def take(self, fields):
        """Takes a row of a group; False where it is none."""
        _, group, order, edition = fields
        edition = number(edition, 5, 0, LAST_EDITION)
        if not re.fullmatch("[A-H]", group) or order not in ORDERS or edition is None:
            return False
        named = {"--group": group, "--order": order}
        if {**named, **self.asked} != named:
            raise Fault("error: the row of the group differs from --group or --order")
        self.group, self.order, self.edition = group, order, edition
        return True

    def screen(self, matches, roster):
        """The screen."""
        return screen(matches, roster, self.group, self.order != "uefa")

    def json(self, matches, roster, row):
        """The members of the screen in JSON."""
        members = {"group": self.group, "order": self.order, "edition": self.edition}
        members |= {"version": version(matches), "in_play": in_play(matches)}
        members |= {"clubs": clubs_of(roster), "words": [m.word() for m in matches]}
        members["table"] = list(places(matches, roster, self.order != "uefa"))
        members["matches"] = [m.members(game) for game, m in enumerate(matches, 1)]
        return {"reply": "screen", "row": row, **members}


def night(subcommand, words, text):
    """The status, the output and the errors of `ucl_night`, of a night without readings."""
    style, of_match = Style(words), lambda fields, row: word(fields, row - 4) if row < 17 else None
    try:
        if subcommand == "show":
            roster, given = parsed(text, of_match, 16)
            return 0, style.screen(matches_of(given), roster), ""
        roster, events = parsed(text)
        stranger = next((row for row, (reporter, *_) in enumerate(events, 5) if reporter > 2), None)
        if subcommand == "night" and stranger:
            raise Fault(f"input refused 25: row {stranger}")
    except Fault as fault:
        return 3, "", f"{fault}\n"
    matches, replies = entered(events)
    is_feed = subcommand == "feed"
    output = replies + sheet(matches) if is_feed else "FINAL\n" + style.screen(matches, roster)
    return 0, output, ""


class Session:
    """An evening of `ucl_live` by the rules: how it answers, its clubs, and its matches once the board is open."""

    def __init__(self, words):
        self.is_json, self.with_screens = "json" in words, "--screens" in words
        self.style, self.roster, self.matches, self.begun = Style(words), [], None, False
        # The events that stand, in their order: row, reporter, match and word.
        self.events = []

    def told(self, row, members, text):
        """An answer in its form."""
        return [line_of({"row": row, **members})] if self.is_json else [text]

    def shown(self, row):
        """The screen."""
        shown = self.matches, self.roster
        return self.told(row, self.style.json(*shown, row), self.style.screen(*shown))

    def entered(self, row, said):
        """The reply to an event, and the screen where it follows."""
        reporter, game, expected, word = said
        asked = {"reporter": reporter, "match": game, "expected": expected, "event": word}
        m = self.matches[game - 1]
        refusal = m.refusal(expected, word)
        if refusal:
            stands = {"stands": m.members(game)} if refusal.startswith("1 ") else {}
            return self.refused(row, refusal, **asked, **stands)
        m.enter(reporter, word)
        self.events.append((row, reporter, game, word))
        members = {"reply": "ok", **asked, "number": m.number, "version": version(self.matches)}
        members["edition"] = self.style.edition
        text = f"{row} ok {game} {m.number} {version(self.matches)}\n"
        return self.told(row, members, text) + (self.shown(row) if self.with_screens else [])

    def refused(self, row, refusal, **more):
        """The reply to what is refused, in JSON with these members more."""
        code, name, *found = refusal.split()
        members = {"reply": "refused", "code": int(code), "name": name, **more}
        members |= {"number": int(found[0])} if found else {}
        return self.told(row, members, f"{row} refused {refusal}\n")

    def beginning(self, row, fields):
        """Takes a row of the group or of the clubs; False where these are complete."""
        place, first, self.begun = len(self.roster), not self.begun, True
        if first and len(fields) == 4 and fields[0] == "group":
            if not self.style.take(fields):
                raise Fault(f"input refused 20: row {row}")
            return True
        if place == 4:
            return False
        said = club(fields, place + 1)
        if said is None:
            raise Fault(f"input refused 20: row {row}")
        self.roster.append(said)
        if len(self.roster) == 4:
            check_roster(self.roster)
        return True

    def mended(self, row, fields):
        """Takes a mend, or a club on an open board, and gives its answers; None where the row is neither."""
        said, slot = mend(fields), number(fields[1], 1, 1, 4) if len(fields) == 4 else None
        named = club(fields, slot) if slot else None
        roster = [*self.roster[: slot - 1], named, *self.roster[slot:]] if named else self.roster
        if not said and not named or bad_slots(roster):
            return None
        without, edition = said or (None, None)
        later = self.style.edition + 1 if edition is None else edition
        if not self.style.edition < later <= LAST_EDITION:
            return self.refused(row, "12 last-edition")
        if without is not None and without not in [it[0] for it in self.events]:
            return self.refused(row, "11 no-event")
        self.style.edition, self.roster = later, roster
        self.matches, self.events, left_out = mended(self.events, without)
        lines = []
        for out, reporter, game, word, refusal in left_out if self.is_json else []:
            code, name = refusal.split()[:2]
            members = {"reply": "left-out", "row": out, "reporter": reporter, "match": game}
            lines.append(line_of({**members, "event": word, "code": int(code), "name": name}))
        now = version(self.matches)
        members = {"reply": "mended", "left_out": len(left_out), "version": now, "edition": later}
        members |= {} if without is None else {"without": without}
        lines += self.told(row, members, f"{row} mended {later} {now}\n")
        return lines + (self.shown(row) if self.with_screens else [])

    def answers(self, row, line):
        """The answers to a line."""
        fields = fields_on(row, line)
        if fields is None or self.beginning(row, fields):
            return []
        self.matches = self.matches or fresh()
        answers = self.mended(row, fields)
        if answers is not None:
            return answers
        if fields == ["screen", "", "", ""]:
            return self.shown(row)
        if fields == ["words", "", "", ""]:
            words = [m.word() for m in self.matches]
            return self.told(row, {"reply": "words", "words": words}, sheet(self.matches))
        if fields == ["matches", "", "", ""]:
            games = [m.members(game) for game, m in enumerate(self.matches, 1)]
            members = {"reply": "matches", "clubs": clubs_of(self.roster), "matches": games}
            return self.told(row, members, match_lines(self.matches, self.roster))
        said = event(fields)
        if said is not None:
            return self.entered(row, said)
        shown = re.match("[ -~]{0,64}", line)[0]
        return self.refused(row, "20 bad-row", field=bad_field(fields), text=shown)

    def of(self, text):
        """The status, the output and the errors for a whole input."""
        lines = text.split("\n")
        lines = lines[:-1] if not lines[-1] else lines
        try:
            answers = [self.answers(row, line) for row, line in enumerate(lines, 1)]
            if len(self.roster) < 4:
                raise Fault(f"input refused 20: row {len(lines) + 1}")
        except Fault as fault:
            return 2 if str(fault).startswith("error") else 3, "", f"{fault}\n"
        return 0, "".join(itertools.chain(*answers)), ""


# ---- evenings at random


def random_rows(chance, count):
    """Rows that the rules accept one after the other; matches with odd numbers are reporter 1's, the others reporter 2's."""
    matches, rows = fresh(), []
    in_play = [word for word in WORDS if word not in ("kickoff", "reopen", "fulltime")]
    while len(rows) < count:
        number = chance.randint(1, 12)
        m = matches[number - 1]
        word = {SCHEDULED: "kickoff", FINISHED: "reopen"}.get(m.state) or (
            chance.choice(in_play) if chance.random() < 0.99 else "fulltime"
        )
        if m.refusal(m.number, word) is None:
            rows.append(f"{2 - number % 2},{number},{m.number},{word}\n")
            m.enter(2 - number % 2, word)
    return rows


# ---- followers


def moment_of(line):
    """The group, the order, the edition, the roster and the matches of the moment that a line tells; None where it tells none."""
    try:
        said = json.loads(line)
        group, order, edition = said["group"], said["order"], said.get("edition", 0)
        words, clubs = said["words"], said["clubs"]
        roster = [(it["club"], it["coefficient"]) for it in clubs]
        is_one = group in [*"ABCDEFGH"] and order in ORDERS and (len(roster), len(words)) == (4, 12)
        is_one = is_one and type(edition) is int and 0 <= edition <= LAST_EDITION
        is_one = is_one and all(type(it) is str and word(["word", "1", it, ""], 1) for it in words)
        is_one = is_one and all(type(it) is int and it >= 0 for _, it in roster)
        is_one = is_one and not bad_slots(roster)
        return (group, order, edition, roster, matches_of(words)) if is_one else None
    except (ValueError, KeyError, TypeError, RecursionError, Fault):
        return None


def followed(words, text):
    """The status, the output and the errors of `ucl_follow`."""
    lines, output, errors = text.split("\n")[:-1], [], ""
    asked, newest, others = Style(words).asked, None, set()
    title = [asked.get("--group"), asked.get("--order")]
    age = lambda moment: (moment[2], version(moment[4]))
    for row, line in enumerate(lines, 1):
        length = len(line.removesuffix("\r").encode(errors="surrogateescape"))
        moment = moment_of(line) if length <= LONGEST_FOLLOWED else None
        if moment and not all(it in (None, said) for it, said in zip(title, moment)):
            if moment[:2] not in others:
                errors += "line {}: group {}, order {}, is passed over\n".format(row, *moment[:2])
            others.add(moment[:2])
        elif moment and (newest is None or age(moment) > age(newest)):
            title, newest = moment[:2], moment
            group, order, edition, roster, matches = moment
            style = Style(["--group", group, "--order", order])
            style.edition = edition
            if "json" in words:
                output.append(line_of(style.json(matches, roster, row)))
            elif "--matches" in words:
                output.append(match_lines(matches, roster))
            else:
                output.append(style.screen(matches, roster))
    counts = len(lines), len(output), len(lines) - len(output)
    return 0, "".join(output), errors + "{} lines, {} shown, {} passed over\n".format(*counts)
