//! A match as a word of 64 bits, and the rules by which an event changes it, as docs/REFERENCE.md and docs/RULES.md have them.

/// The words of a board, for matches 1 to 12.
pub type Words = [u64; 12];

/// A field of a match word: its lowest bit, and its width in bits.
#[derive(Clone, Copy)]
pub struct Field {
    low: u32,
    width: u32,
}

impl Field {
    /// The greatest value that the field holds.
    pub const fn most(self) -> u64 {
        (1 << self.width) - 1
    }

    /// A value, in the place of the field.
    pub const fn place(self, value: u64) -> u64 {
        value << self.low
    }

    /// The value of the field in a word.
    pub const fn of(self, word: u64) -> u64 {
        word >> self.low & self.most()
    }

    /// The word with another value in the field.
    const fn set(self, word: u64, value: u64) -> u64 {
        word & !self.place(self.most()) | self.place(value)
    }

    /// The word with one more in the field, unless that is full.
    fn raised(self, word: u64) -> Result<u64, Refusal> {
        if self.of(word) == self.most() {
            return Err(Refusal::LimitReached);
        }
        Ok(word + self.place(1))
    }

    /// The word with one less in the field, unless that is 0.
    fn lowered(self, word: u64) -> Option<u64> {
        (self.of(word) > 0).then(|| word - self.place(1))
    }
}

pub const NUMBER: Field = Field { low: 0, width: 12 };
pub const STATE: Field = Field { low: 12, width: 2 };
pub const HOME_GOALS: Field = Field { low: 14, width: 6 };
pub const AWAY_GOALS: Field = Field { low: 20, width: 6 };
pub const HOME_YELLOWS: Field = Field { low: 26, width: 6 };
pub const AWAY_YELLOWS: Field = Field { low: 32, width: 6 };
pub const HOME_EXPULSIONS: Field = Field { low: 38, width: 5 };
pub const AWAY_EXPULSIONS: Field = Field { low: 43, width: 5 };
pub const REPORTER: Field = Field { low: 48, width: 8 };

/// The fields of the home side and of the visitors.
pub const GOALS: [Field; 2] = [HOME_GOALS, AWAY_GOALS];
pub const YELLOWS: [Field; 2] = [HOME_YELLOWS, AWAY_YELLOWS];
pub const EXPULSIONS: [Field; 2] = [HOME_EXPULSIONS, AWAY_EXPULSIONS];

/// The states.
pub const SCHEDULED: u64 = 0;
pub const IN_PLAY: u64 = 1;
pub const FINISHED: u64 = 2;

/// The word of a match that has not kicked off: the layout tag alone.
pub const FRESH: u64 = 2 << 60;

/// The greatest event number, and that of a match in play.
pub const LAST_NUMBER: u16 = 4095;
pub const LAST_NUMBER_IN_PLAY: u16 = LAST_NUMBER - 1;

/// A side of a match.
#[derive(Clone, Copy, PartialEq, Eq, Debug)]
pub enum Side {
    Home,
    Away,
}

/// What an event says.
#[derive(Clone, Copy, PartialEq, Eq, Debug)]
pub enum Kind {
    KickOff,
    Goal(Side),
    Disallow(Side),
    Yellow(Side),
    SecondYellow(Side),
    Red(Side),
    FullTime,
    Reopen,
}

/// An event of a match, 1 to 12, with the event number that its reporter last saw of it.
#[derive(Clone, Copy, PartialEq, Eq, Debug)]
pub struct Event {
    pub game: u8,
    pub expected: u16,
    pub kind: Kind,
}

/// Why an event is refused.
#[derive(Clone, Copy, PartialEq, Eq, Debug)]
pub enum Refusal {
    Stale(u16),
    Finished,
    NotFinished,
    NotStarted,
    AlreadyStarted,
    NumberFull,
    NoGoal,
    NoCaution,
    LimitReached,
}

impl Refusal {
    /// The number of the refusal and its name. The event number that was found is told with the first.
    pub fn text(self) -> &'static str {
        match self {
            Refusal::Stale(_) => "1 stale",
            Refusal::Finished => "2 finished",
            Refusal::NotStarted => "3 not-started",
            Refusal::AlreadyStarted => "4 already-started",
            Refusal::NumberFull => "5 number-full",
            Refusal::NoGoal => "6 no-goal",
            Refusal::NoCaution => "7 no-caution",
            Refusal::LimitReached => "8 limit-reached",
            Refusal::NotFinished => "9 not-finished",
        }
    }
}

/// The event number of a word.
pub fn number_of(word: u64) -> u16 {
    NUMBER.of(word) as u16
}

/// The sum of the event numbers.
pub fn version_of(words: &Words) -> u16 {
    words.iter().map(|word| NUMBER.of(*word)).sum::<u64>() as u16
}

/// The word of a match after an event, or why the event is refused. As a call it would hand its answer on through memory.
#[inline(always)]
pub fn next_word(word: u64, reporter: u8, event: &Event) -> Result<u64, Refusal> {
    let number = number_of(word);
    let state = STATE.of(word);
    let kind = event.kind;
    if number != event.expected {
        return Err(Refusal::Stale(number));
    }
    if state == FINISHED && kind != Kind::Reopen {
        return Err(Refusal::Finished);
    }
    if state != FINISHED && kind == Kind::Reopen {
        return Err(Refusal::NotFinished);
    }
    if state == SCHEDULED && kind != Kind::KickOff {
        return Err(Refusal::NotStarted);
    }
    if state == IN_PLAY && kind == Kind::KickOff {
        return Err(Refusal::AlreadyStarted);
    }
    if number >= LAST_NUMBER_IN_PLAY && kind != Kind::FullTime {
        return Err(Refusal::NumberFull);
    }
    Ok(REPORTER.set(changed(word, kind)?, u64::from(reporter)) + 1)
}

/// The word with what the kind of an event changes.
#[inline(always)]
fn changed(word: u64, kind: Kind) -> Result<u64, Refusal> {
    match kind {
        Kind::KickOff | Kind::Reopen => Ok(STATE.set(word, IN_PLAY)),
        Kind::FullTime => Ok(STATE.set(word, FINISHED)),
        Kind::Goal(Side::Home) => HOME_GOALS.raised(word),
        Kind::Goal(Side::Away) => AWAY_GOALS.raised(word),
        Kind::Disallow(Side::Home) => HOME_GOALS.lowered(word).ok_or(Refusal::NoGoal),
        Kind::Disallow(Side::Away) => AWAY_GOALS.lowered(word).ok_or(Refusal::NoGoal),
        Kind::Yellow(Side::Home) => HOME_YELLOWS.raised(word),
        Kind::Yellow(Side::Away) => AWAY_YELLOWS.raised(word),
        Kind::SecondYellow(Side::Home) => {
            let word = HOME_YELLOWS.lowered(word).ok_or(Refusal::NoCaution)?;
            HOME_EXPULSIONS.raised(word)
        }
        Kind::SecondYellow(Side::Away) => {
            let word = AWAY_YELLOWS.lowered(word).ok_or(Refusal::NoCaution)?;
            AWAY_EXPULSIONS.raised(word)
        }
        Kind::Red(Side::Home) => HOME_EXPULSIONS.raised(word),
        Kind::Red(Side::Away) => AWAY_EXPULSIONS.raised(word),
    }
}
