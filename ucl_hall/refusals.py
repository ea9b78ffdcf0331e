"""What to do about a refusal: for who types, and in short for who taps. docs/OPERATE.md has both."""

from dataclasses import dataclass


@dataclass(frozen=True, slots=True)
class Advice:
    """What is told at a prompt, and on a phone, whose button has room for some seventy letters.

    The words in braces are the row's own, and `found` is the number of the match by now.
    """

    typed: str
    tapped: str = ""


_LOOK = "Look, then tap if yours is missing"
# By the names that `ucl_live` gives, in the order of their codes; then of what it never saw.
ADVICE = {
    "stale": Advice(
        "match {match} has event number {found} by now, and you had seen {expected}: look at it, "
        "and type yours again if it is not there",
        f"another event came first. {_LOOK}",
    ),
    "finished": Advice(
        "match {match} is over; if it goes on, type {match} reopen first",
        "the match is over. If it goes on, tap Reopen first",
    ),
    "not-started": Advice(
        "match {match} has not kicked off; type {match} kickoff first, or is it another match?",
        "tap Kick-off first, or is it another match?",
    ),
    "already-started": Advice(
        "match {match} has kicked off already; there is nothing to do",
        "the match has kicked off already",
    ),
    "number-full": Advice(
        "match {match} takes full time alone by now; type {match} fulltime",
        "this match takes full time alone by now",
    ),
    "no-goal": Advice(
        "the {side} side of match {match} has no goal; is it the other side, or another match?",
        "this side has no goal. Is it the other side?",
    ),
    "no-caution": Advice(
        "the {side} side of match {match} has no yellow; type {match} yellow {side} before it, or "
        "{match} red {side} in its place",
        "tap Yellow card first, or Red card in its place",
    ),
    "limit-reached": Advice(
        "the {side} side of match {match} has as many as a board counts; look whether it is this "
        "match",
        "a board counts no more of these. Is it this match?",
    ),
    "not-finished": Advice(
        "match {match} is not over, so it need not be reopened; there is nothing to do",
        "the match is not over",
    ),
    "no-event": Advice(
        "it is no event that stands; a match alone, as 1, shows its events with their rows"
    ),
    "last-edition": Advice(
        "the edition is not later than that which stands, or there is none any more"
    ),
    "bad-row": Advice(
        "it came behind a line that was cut off; type it again",
        f"it came behind a line that was cut off. {_LOOK}",
    ),
    "dropped": Advice(
        "edition {edition} has begun; look at the match, and type it again if it still holds",
        "the board was corrected. Look, then tap if it still holds",
    ),
    "lost": Advice("it did not arrive", f"it did not arrive. {_LOOK}"),
}
