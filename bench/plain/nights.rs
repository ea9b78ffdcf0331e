//! Nights: readers and reporters, each in a thread of its own, on a fresh board. Nights of which the rates are told, and nights of which
//! each reading is timed take turns.

use crate::boards::{events_of, read_once, report_once, Board, ALL_EVENTS};
use crate::word::{version_of, Event};
use std::sync::atomic::{AtomicUsize, Ordering};
use std::sync::Mutex;
use std::time::{Duration, Instant};
use std::{fmt, thread};

/// How far apart the events of a paced reporter are, and how many of each match it enters.
const PACE: Duration = Duration::from_micros(5);
const PACED_EVENTS: u16 = 100;

/// How long a night without a reporter is.
const QUIET_NIGHT: Duration = Duration::from_millis(20);

/// How many readings are taken before a reader looks whether the night has ended.
const READINGS_AT_ONCE: u64 = 16;

/// From how many nanoseconds on all times of a reading are counted as one.
const LONG: usize = 16_384;

/// Who works on each night, and how.
#[derive(Clone, Copy)]
pub struct Plan {
    /// Whether a reporter enters an event every five microseconds, or as fast as it goes.
    pub is_paced: bool,
    pub readers: u8,
    pub reporters: u8,
}

/// What was done in some nights.
pub struct Figures {
    /// How many readings were taken that were not timed one by one, and for how long, by all readers.
    reads: u64,
    read_nanos: u64,
    /// How many events were accepted in these nights, and for how long they were entered, by all reporters.
    events: u64,
    event_nanos: u64,
    /// How many of the timed readings took so many nanoseconds.
    times: Vec<u64>,
}

impl Figures {
    fn new() -> Figures {
        Figures {
            reads: 0,
            read_nanos: 0,
            events: 0,
            event_nanos: 0,
            times: vec![0; LONG],
        }
    }

    /// Adds what another worker, or another night, came to.
    fn add(&mut self, other: &Figures) {
        self.reads += other.reads;
        self.read_nanos += other.read_nanos;
        self.events += other.events;
        self.event_nanos += other.event_nanos;
        for (count, more) in self.times.iter_mut().zip(&other.times) {
            *count += more;
        }
    }

    /// The time that so many thousandths of the timed readings did not pass.
    fn time_at(&self, thousandths: u64) -> usize {
        let wanted = self.times.iter().sum::<u64>() * thousandths / 1000;
        let mut seen = 0;
        let place = self.times.iter().position(|count| {
            seen += count;
            seen > wanted
        });
        place.unwrap_or(0)
    }
}

impl fmt::Display for Figures {
    fn fmt(&self, f: &mut fmt::Formatter) -> fmt::Result {
        let Figures {
            reads,
            read_nanos,
            events,
            event_nanos,
            ..
        } = self;
        let (half, most) = (self.time_at(500), self.time_at(999));
        write!(
            f,
            "{{\"reads\":{reads},\"read_ns\":{read_nanos},\"events\":{events},\"event_ns\":{event_nanos},\"p50_ns\":{half},\"p999_ns\":{most}}}"
        )
    }
}

/// What the workers of one night share.
struct Night<'e, B> {
    board: B,
    plan: Plan,
    events: &'e [Event],
    is_timed: bool,
    /// How many workers have come, and how many reporters have ended.
    come: AtomicUsize,
    ended: AtomicUsize,
    figures: Mutex<Figures>,
}

impl<B: Board> Night<'_, B> {
    /// Comes to the night, and waits until all have.
    fn begin(&self) {
        self.come.fetch_add(1, Ordering::SeqCst);
        let workers = usize::from(self.plan.readers) + usize::from(self.plan.reporters);
        while self.come.load(Ordering::SeqCst) < workers {
            thread::yield_now();
        }
    }

    fn has_ended(&self) -> bool {
        self.ended.load(Ordering::SeqCst) >= usize::from(self.plan.reporters.max(1))
    }

    /// Reads through the night.
    fn read_freely(&self, own: &mut Figures) {
        let begun = Instant::now();
        while !self.has_ended() {
            for _ in 0..READINGS_AT_ONCE {
                read_once(&self.board);
            }
            own.reads += READINGS_AT_ONCE;
        }
        own.read_nanos = begun.elapsed().as_nanos() as u64;
    }

    /// Reads through the night, and times each reading.
    fn read_timed(&self, own: &mut Figures) {
        while !self.has_ended() {
            let begun = Instant::now();
            read_once(&self.board);
            let nanos = begun.elapsed().as_nanos() as usize;
            own.times[nanos.min(LONG - 1)] += 1;
        }
    }

    /// What a reader does.
    fn read(&self, mut own: Figures) {
        self.begin();
        if self.is_timed {
            self.read_timed(&mut own);
        } else {
            self.read_freely(&mut own);
        }
        self.figures
            .lock()
            .expect("no thread has panicked")
            .add(&own);
    }

    /// Enters the events of those matches whose number leaves the reporter's index as remainder, and gives how many were accepted.
    fn enter_own(&self, index: u8) -> u64 {
        let mut due = Instant::now();
        let mut entered = 0;
        for event in self.events {
            if event.game % self.plan.reporters != index {
                continue;
            }
            if self.plan.is_paced {
                while Instant::now() < due {}
                due += PACE;
            }
            entered += u64::from(report_once(&self.board, index + 1, event).is_some());
        }
        entered
    }

    /// What a reporter does.
    fn enter(&self, index: u8) {
        self.begin();
        let begun = Instant::now();
        let entered = self.enter_own(index);
        let taken = begun.elapsed().as_nanos() as u64;
        self.ended.fetch_add(1, Ordering::SeqCst);
        let mut figures = self.figures.lock().expect("no thread has panicked");
        figures.events += entered;
        figures.event_nanos += taken;
    }
}

/// Holds a night on a fresh board, whose version at the end has to be the number of events that were accepted. A timed night tells no rate.
fn hold_night<B: Board>(plan: Plan, events: &[Event], is_timed: bool) -> Figures {
    let night = &Night {
        board: B::fresh(),
        plan,
        events,
        is_timed,
        come: AtomicUsize::new(0),
        ended: AtomicUsize::new(0),
        figures: Mutex::new(Figures::new()),
    };
    thread::scope(|scope| {
        for index in 0..plan.reporters {
            scope.spawn(move || night.enter(index));
        }
        for _ in 0..plan.readers {
            let own = Figures::new();
            scope.spawn(move || night.read(own));
        }
        if plan.reporters == 0 {
            thread::sleep(QUIET_NIGHT);
            night.ended.store(1, Ordering::SeqCst);
        }
    });
    let mut figures = Figures::new();
    figures.add(&night.figures.lock().expect("no thread has panicked"));
    let version = version_of(&night.board.read().words);
    assert_eq!(u64::from(version), figures.events, "an event was lost");
    if is_timed {
        (figures.events, figures.event_nanos) = (0, 0);
    }
    figures
}

/// Holds nights for so many milliseconds, at least one of each sort.
pub fn hold_nights<B: Board>(plan: Plan, millis: u64) -> Figures {
    let events = events_of(if plan.is_paced {
        PACED_EVENTS
    } else {
        ALL_EVENTS
    });
    let mut all = Figures::new();
    let begun = Instant::now();
    loop {
        for is_timed in [false, true] {
            all.add(&hold_night::<B>(plan, &events, is_timed));
        }
        if begun.elapsed() >= Duration::from_millis(millis) {
            return all;
        }
    }
}
