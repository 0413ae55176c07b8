//! Sessions that no call leaves: every call and query returns on them, whatever their bytes are.
//!
//! Document 01 promises nothing of such a session ("nothing is promised of another"), and the proof says of every session
//! whatever, with flags of 0 or 1, that a call runs safely, returns, and leaves it as it is when it refuses. These tests see
//! that with the archive itself.
#![cfg(feature = "proved")]

mod common;

use common::calls::{answer, Entry, Query};
use common::lists::list;
use common::raw::{self, asked};
use common::Rng;
use jeddyspangle::ffi::{self, Flag, Response};
use jeddyspangle::*;

/// Makes a call or asks every query, with any bytes in the reserved fields of what is passed.
fn called(session: &mut ffi::Session, call: &Entry, reserved: u8) -> Response {
    match call {
        Entry::AskAll => ask_all(session),
        _ => raw::called(session, call, reserved),
    }
}

/// A query of each kind in each hour, near the range and far from it.
fn ask_all(session: &ffi::Session) -> Response {
    let mut last = ffi::price(session, 1);
    for hour in (0..=26).chain([u32::MAX]) {
        for number in [0, 1, 2, 7, 40, 65_535, 65_536, u32::MAX, session.units[0].number, session.lodgements[3].number] {
            for query in [Query::Verdict(number), Query::Matched(number, hour), Query::Executed(number, hour)] {
                last = asked(session, query);
            }
        }
        for border in (0..=5).chain([u32::MAX]) {
            for direction in [Direction::Export, Direction::Import] {
                asked(session, Query::MarketMaximum(border, direction, hour));
                asked(session, Query::BilateralMaximum(border, direction, hour));
            }
            asked(session, Query::Market(border, hour));
            last = asked(session, Query::Bilateral(border, hour));
        }
    }
    last
}

/// A session between bytes that no call may touch.
#[repr(C)]
struct Fenced {
    before: [u8; 4096],
    session: ffi::Session,
    after: [u8; 4096],
}

impl Fenced {
    fn new(session: &ffi::Session) -> Box<Fenced> {
        Box::new(Fenced { before: [0xa5; 4096], session: *session, after: [0x5a; 4096] })
    }

    /// Makes a call; the bytes around the session stay, and so does the session when it is refused.
    fn call(&mut self, call: &Entry, flags: Flags, reserved: u8) -> Response {
        let kept = Box::new(self.session);
        let response = called(&mut self.session, call, reserved);
        assert!(self.before == [0xa5; 4096] && self.after == [0x5a; 4096], "{call} wrote outside the session");
        if response.kind == 1 && flags == Flags::Masked {
            assert!(self.session == *kept, "{call} was refused and changed the session");
        }
        response
    }
}

#[derive(Clone, Copy, PartialEq)]
enum Flags {
    Masked,
    Raw,
}

/// Hands a session to every call and query, each on the session as it is and then one after another.
fn hand_over(session: &ffi::Session, flags: Flags, rng: &mut Rng, kinds: &mut [u64; 8]) {
    let mut count = |response: Response| {
        let kind = response.kind as usize;
        assert!(kind < 8, "a kind that the interface lacks: {response:?}");
        kinds[kind] += 1;
    };
    let mut calls = list(rng.next()).calls;
    calls.truncate(30);
    calls.extend([Entry::Close, Entry::Clear, Entry::AskAll]);
    for call in &calls {
        if !matches!(call, Entry::Ask(_)) && rng.chance(20) {
            count(Fenced::new(session).call(call, flags, rng.next() as u8));
        }
    }
    let mut fenced = Fenced::new(session);
    for call in &calls {
        count(fenced.call(call, flags, rng.next() as u8));
    }
    // Once closed, what each lodgement is told, hidden and refused ones too.
    for lodgement in &fenced.session.lodgements {
        count(asked(&fenced.session, Query::Verdict(lodgement.number)));
    }
}

/// Numbers of a size that lets calls go on, in the places that say how many of something there are; the rest is still random.
/// What a call asks of a session beyond that is kept in some and broken in others.
fn plausible(session: &mut ffi::Session, rng: &mut Rng) {
    session.date = ffi::Date { year: 2006, month: 10, day: 29 };
    session.hours = if rng.chance(80) { 25 } else { rng.between(0, 26) };
    session.enrolled = rng.pick(&[0, 1, 5, 20, 63, 64, 64, 65]);
    session.standing = rng.pick(&[0, 1, 5, 60, 127, 128, 128, 129]);
    session.last = rng.pick(&[0, 7, 128, 65_534, 65_535, 65_536]);
    session.closed = Flag::from(rng.chance(50));
    session.cleared = Flag::from(rng.chance(20));
    let borders = rng.pick(&[5, 5, 5, 6]);
    for unit in &mut session.units {
        unit.number = rng.between(1, 70);
        unit.border = rng.below(borders);
        unit.maximum %= 100_001;
    }
    let most = rng.pick(&[2, 300, 100_000, u32::MAX]);
    let rising = rng.chance(60);
    for (index, lodgement) in session.lodgements.iter_mut().enumerate() {
        lodgement.key.unit = rng.between(1, 70);
        lodgement.key.contract %= 4;
        lodgement.number = if rising { index as u32 + 1 } else { rng.between(0, 200) };
    }
    for energies in &mut session.energies {
        energies.energies.iter_mut().for_each(|energy| *energy = rng.below(most));
        energies.prices.iter_mut().for_each(|price| *price = rng.below(18_031));
    }
    for notice in session.notices.iter_mut().chain(&mut session.capacities).chain(&mut session.rights) {
        notice.energies.iter_mut().for_each(|energy| *energy = rng.below(most));
    }
    // 10,000 is added to a loss: the last 10,000 numbers would pass 32 bits.
    let largest = rng.pick(&[2_000, 2_000, 2_001, 100_000, u32::MAX]);
    let near = rng.chance(50);
    let loss = |rng: &mut Rng| if near { largest - rng.below(largest.min(10_002)) } else { rng.below(largest) + 1 };
    session.losses.iter_mut().for_each(|place| *place = loss(rng));
}

/// Sets bytes of a session at random, all of them or a few.
fn disturb(session: &mut ffi::Session, rng: &mut Rng, bytes: Option<u32>) {
    let mut set = |at: usize, rng: &mut Rng| {
        // SAFETY: the flags are masked before a call, except in the test that is about raw bytes and says so.
        unsafe { session.set_byte(at, rng.next() as u8) }
    };
    match bytes {
        None => (0..ffi::Session::SIZE).for_each(|at| set(at, rng)),
        Some(count) => {
            for _ in 0..count {
                set(rng.below(ffi::Session::SIZE as u32) as usize, rng);
            }
        }
    }
}

/// A session that a random list left at some moment.
fn genuine(rng: &mut Rng) -> Box<ffi::Session> {
    let list = list(rng.next());
    let mut gate = Gate::opened(list.date).1;
    let calls = rng.below(list.calls.len() as u32 + 1) as usize;
    for call in &list.calls[..calls] {
        if !matches!(call, Entry::AskAll) {
            answer(&mut gate, call);
        }
    }
    gate.into()
}

fn fresh() -> Box<ffi::Session> {
    Gate::open(Date::new(2006, 10, 29)).unwrap().into()
}

#[test]
fn sessions_of_random_bytes() {
    let (mut rng, mut kinds) = (Rng::new(11), [0; 8]);
    for _ in 0..2_000 {
        let mut session = fresh();
        disturb(&mut session, &mut rng, None);
        session.mask_flags();
        hand_over(&session, Flags::Masked, &mut rng, &mut kinds);
    }
    println!("random bytes, answers by kind: {kinds:?}");
}

#[test]
fn sessions_of_random_bytes_and_plausible_counts() {
    let (mut rng, mut kinds) = (Rng::new(12), [0; 8]);
    for _ in 0..2_000 {
        let mut session = fresh();
        disturb(&mut session, &mut rng, None);
        plausible(&mut session, &mut rng);
        session.mask_flags();
        hand_over(&session, Flags::Masked, &mut rng, &mut kinds);
    }
    println!("plausible counts, answers by kind: {kinds:?}");
    assert!(kinds[0] > 0 && kinds[3] > 0 && kinds[6] > 0, "the calls go no further than the guard: {kinds:?}");
}

#[test]
fn sessions_disturbed_after_calls() {
    let (mut rng, mut kinds) = (Rng::new(13), [0; 8]);
    for _ in 0..3_000 {
        let mut session = genuine(&mut rng);
        let bytes = rng.pick(&[0, 1, 5, 50, 1_000]);
        disturb(&mut session, &mut rng, Some(bytes));
        session.mask_flags();
        hand_over(&session, Flags::Masked, &mut rng, &mut kinds);
    }
    println!("disturbed, answers by kind: {kinds:?}");
    assert!(kinds.iter().all(|count| *count > 0), "{kinds:?}");
}

/// Flags of any byte. The C interface says that a flag is 0 or 1 and the proof is for those: what is seen here is tested with
/// this archive, and no proof covers it.
#[test]
fn sessions_of_raw_bytes() {
    let (mut rng, mut kinds) = (Rng::new(14), [0; 8]);
    for turn in 0..3_000 {
        let mut session = genuine(&mut rng);
        match turn % 3 {
            0 => disturb(&mut session, &mut rng, None),
            1 => disturb(&mut session, &mut rng, Some(2_000)),
            _ => {
                disturb(&mut session, &mut rng, None);
                let (closed, cleared) = (session.closed, session.cleared);
                plausible(&mut session, &mut rng);
                (session.closed, session.cleared) = (closed, cleared);
            }
        }
        hand_over(&session, Flags::Raw, &mut rng, &mut kinds);
    }
    println!("raw bytes, answers by kind: {kinds:?}");
}
