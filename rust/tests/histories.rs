//! One result for one history: two sessions to which the same calls were made are the same bytes, whatever the memory held before and
//! whatever the callers left in reserved fields. So are the answers.
//!
//! `LISTS=20000 SEED=1 cargo test --release --offline --test histories -- --nocapture` plays more or other lists.
#![cfg(feature = "proved")]

mod common;

use common::calls::{every_query, Entry, List, Query};
use common::lists::{any_date, list};
use common::raw::{self, asked, called};
use common::{setting, Rng};
use jeddyspangle::ffi::{self, Plain, Response};
use jeddyspangle::*;
use std::hint::black_box;

/// Fills the stack that the next call will use.
#[inline(never)]
fn paint(byte: u8) {
    let mut room = [0u8; STACK + 256 * 1024];
    room.fill(byte);
    black_box(&mut room);
}

/// Makes a call on a stack that holds this byte everywhere.
#[inline(never)]
fn after<T>(byte: u8, call: impl FnOnce() -> T) -> T {
    #[inline(never)]
    fn apart<T>(call: impl FnOnce() -> T) -> T {
        call()
    }
    paint(byte);
    apart(call)
}

/// The places at which two structs differ.
fn differing<T: Plain>(left: &T, right: &T) -> Vec<usize> {
    let pairs = left.bytes().iter().zip(right.bytes()).enumerate();
    pairs.filter(|(_, (left, right))| left != right).map(|(place, _)| place).collect()
}

/// One of two that play the same list: what its memory holds before each call, and in the reserved fields that it passes.
struct Player {
    byte: u8,
    session: Box<ffi::Session>,
}

impl Player {
    fn open(byte: u8, date: Date) -> (Response, Player) {
        let Date { year, month, day } = date;
        let (response, session) = after(byte, || ffi::open(ffi::Date { year, month, day }));
        (response, Player { byte, session })
    }

    fn call(&mut self, call: &Entry) -> Response {
        after(self.byte, || called(&mut self.session, call, self.byte))
    }

    fn ask(&self, query: Query) -> Response {
        after(self.byte, || asked(&self.session, query))
    }
}

/// What was seen of two players.
#[derive(Default)]
struct Differences {
    calls: u64,
    /// Bytes of the sessions that differ, at most.
    sessions: usize,
    /// Bytes of the answers that differ, at most.
    answers: usize,
    /// The list and the call after which they first did.
    first: Option<String>,
}

impl Differences {
    fn note(&mut self, answers: (&Response, &Response), players: (&Player, &Player), told: impl FnOnce() -> String) {
        let in_answers = differing(answers.0, answers.1);
        let in_sessions = differing(&*players.0.session, &*players.1.session);
        self.calls += 1;
        self.answers = self.answers.max(in_answers.len());
        self.sessions = self.sessions.max(in_sessions.len());
        if self.first.is_none() && in_answers.len() + in_sessions.len() > 0 {
            let place = in_sessions.first().map_or("none".into(), usize::to_string);
            self.first = Some(format!("{}: {} bytes of the session, the first at {place}", told(), in_sessions.len()));
        }
    }
}

/// Plays a list on two sessions and looks at both after each call.
fn play(seed: u64, list: &List, bytes: (u8, u8), seen: &mut Differences) {
    let (left, mut a) = Player::open(bytes.0, list.date);
    let (right, mut b) = Player::open(bytes.1, list.date);
    seen.note((&left, &right), (&a, &b), || format!("seed {seed}, opening"));
    for (index, call) in list.calls.iter().enumerate() {
        if let Entry::AskAll = call {
            continue;
        }
        let (left, right) = (a.call(call), b.call(call));
        seen.note((&left, &right), (&a, &b), || format!("seed {seed}, call {index}, {call}"));
    }
    let units: Vec<u32> = a.session.units[..2].iter().map(|unit| unit.number).collect();
    let mut rng = Rng::new(seed);
    every_query(&units, a.session.last, |query| {
        if rng.chance(2) {
            seen.answers = seen.answers.max(differing(&a.ask(query), &b.ask(query)).len());
        }
        true
    });
    assert!(reserved_are_0(&a.session) && reserved_are_0(&b.session), "seed {seed}: something reserved is not 0");
}

fn reserved_are_0(s: &ffi::Session) -> bool {
    (s.reserved, s.reserved2, s.reserved3) == (0, 0, 0)
        && s.units.iter().all(|unit| unit.reserved == 0)
        && s.notices.iter().chain(&s.capacities).chain(&s.rights).all(|notice| (notice.reserved, notice.reserved2) == (0, 0))
        && s.lodgements.iter().all(|lodgement| lodgement.key.reserved == 0)
        && s.verdicts.iter().all(|verdict| (verdict.reserved, verdict.reserved2) == (0, 0))
}

#[test]
fn equal_histories_leave_equal_bytes() {
    let (first, lists) = (setting("SEED", 0), setting("LISTS", 600));
    let mut seen = Differences::default();
    for seed in first..first + lists {
        let mut rng = Rng::new(!seed);
        let one = rng.next() as u8;
        let bytes = if rng.chance(50) { (0x00, 0xff) } else { (one, !one) };
        play(seed, &list(seed), bytes, &mut seen);
    }
    let Differences { calls, sessions, answers, first } = seen;
    let told = format!("{calls} calls: at most {sessions} bytes of a session and {answers} of an answer differ");
    println!("{lists} lists, {told}");
    assert!((sessions, answers) == (0, 0), "{told}; {}", first.unwrap_or_default());
}

/// The answers that are of no session.
#[test]
fn messages_and_clock_names_are_answered_in_equal_bytes() {
    let mut rng = Rng::new(7);
    let mut read = 0;
    for seed in 0..200 {
        let list = list(seed);
        for call in &list.calls {
            let Entry::Lodge(message) = call else { continue };
            let reading = |byte| after(byte, || ffi::read(message));
            assert_eq!(differing(&reading(0x00), &reading(0xff)), [], "{call}");
            if let Ok(fields) = Gate::read(message) {
                read += 1;
                let room = rng.below(130) as usize;
                let written = |byte| {
                    let mut buffer = vec![0; room];
                    (after(byte, || ffi::write(raw::fields(&fields, byte), &mut buffer)), buffer)
                };
                let (left, right) = (written(0x00), written(0xff));
                assert_eq!(differing(&left.0, &right.0), [], "{fields:?} into {room} bytes");
                assert_eq!(left.1, right.1, "{fields:?} into {room} bytes");
            }
        }
        let Date { year, month, day } = if rng.chance(50) { list.date } else { any_date(&mut rng) };
        let (date, hour, second) = (ffi::Date { year, month, day }, rng.below(27), rng.chance(50));
        let name = |byte| after(byte, || ffi::clock(date, hour));
        assert_eq!(differing(&name(0x00), &name(0xff)), [], "hour {hour} of {}", list.date);
        let named = |byte| after(byte, || ffi::hour(date, raw::clock(hour, second, byte)));
        assert_eq!(differing(&named(0x00), &named(0xff)), [], "clock name {hour} of {}", list.date);
    }
    assert!(read > 1_000, "{read} messages were read");
}
