//! The proved gate beside the model: every answer of random lists of calls, and every query on the way and at the end.
//!
//! `LISTS=200000 SEED=1 cargo test --release --offline --test differential -- --nocapture` plays more or other lists.
#![cfg(feature = "proved")]

mod common;

use common::calls::{compare, Entry, List};
use common::lists::{any_date, list, packed};
use common::seen::Seen;
use common::shrink::{difference, report};
use common::{setting, Rng};
use jeddyspangle::model::Session;
use jeddyspangle::*;
use std::panic::{catch_unwind, AssertUnwindSafe};

/// Plays a list on both and fails with the smallest list that shows a difference.
fn play(seed: u64, list: &List, seen: &mut Seen) {
    seen.start(Session::hours(list.date).unwrap_or(24));
    let found = catch_unwind(AssertUnwindSafe(|| compare::<Gate, Session>(list, seen)));
    if !matches!(found, Ok(Ok(()))) {
        panic!("the gate (left) and the model (right) differ\n{}", report::<Gate, Session>(seed, list));
    }
}

#[test]
fn random_lists_are_answered_alike() {
    let (first, lists) = (setting("SEED", 0), setting("LISTS", 24_000));
    let mut seen = Seen::default();
    for seed in first..first + lists {
        play(seed, &list(seed), &mut seen);
    }
    println!("{seen}");
    if lists >= 20_000 {
        seen.insist();
        assert!(seen.most_steps >= 500, "the longest withdrawal has {} steps", seen.most_steps);
    }
}

/// 65,535 accepted lodgements, then a replacement, then one of a new key.
#[test]
fn numbers_run_out_alike() {
    let unit = Unit { number: 7, agent: 1, border: 1, purchase: true, maximum: 500, legacy: false, rights: false };
    let offer = |default| Key { execution: false, default, unit: 7, contract: 0 };
    let message = |key, energy| packed(1, 0, &Fields::of(key).with(4, energy, 100));
    let mut calls = vec![Entry::Register(unit)];
    calls.extend((0..MOST_ACCEPTED + 2).map(|turn| Entry::Lodge(message(offer(false), turn % 500 + 1))));
    calls.push(Entry::Lodge(message(offer(true), 1)));
    // A passed limit is told after a gate that has no number left.
    calls.push(Entry::Lodge(message(offer(false), 501)));
    calls.extend([Entry::Annul(offer(false)), Entry::Lodge(message(offer(false), 1)), Entry::Close, Entry::Clear]);
    let list = List { date: Date::new(2006, 10, 29), calls };
    let mut seen = Seen::default();
    seen.start(25);
    compare::<Gate, Session>(&list, &mut seen).unwrap();
    assert_eq!(seen.accepted[3], u64::from(MOST_ACCEPTED));
    assert_eq!(seen.refused[9], 5);
}

#[test]
fn dates_and_clock_names_are_answered_alike() {
    let every = (2001..=2100).flat_map(|year| (0..=13).flat_map(move |month| (0..=32).map(move |day| (year, month, day))));
    let mut rng = Rng::new(1);
    let wild: Vec<_> = (0..20_000).map(|_| any_date(&mut rng)).collect();
    for date in every.map(|(year, month, day)| Date { year, month, day }).chain(wild) {
        assert_eq!(Gate::hours(date), Session::hours(date), "{date}");
        let changes = Session::hours(date) != Ok(24) || rng.chance(2);
        for hour in (0..=27).chain([u32::MAX]).filter(|_| changes) {
            assert_eq!(Gate::clock(date, hour), Session::clock(date, hour), "{date} hour {hour}");
            for second in [false, true] {
                let clock = Clock { name: hour, second };
                assert_eq!(Gate::hour_named(date, clock), Session::hour_named(date, clock), "{date} {clock:?}");
            }
        }
    }
}

/// Fields near the rules: most can be written.
fn any_fields(rng: &mut Rng) -> Fields {
    let execution = rng.chance(50);
    let key = Key {
        execution,
        default: rng.chance(50),
        unit: rng.between(1, 65_535),
        contract: if execution { rng.between(1, 65_535) } else { 0 },
    };
    let mut fields = Fields::of(key);
    let density = rng.pick(&[4, 30, 80, 100]);
    for hour in 1..=MOST_HOURS {
        if rng.chance(density) {
            let energy = if rng.chance(20) { LARGEST_ENERGY } else { rng.between(1, LARGEST_ENERGY) };
            fields = fields.with(hour, energy, if execution { 0 } else { rng.between(0, HIGHEST_PRICE) });
        }
    }
    if rng.chance(30) {
        let place = rng.below(MOST_HOURS as u32) as usize;
        match rng.below(8) {
            0 => fields.key.unit = rng.pick(&[0, 65_536, u32::MAX]),
            1 => fields.key.contract = rng.pick(&[0, 1, 65_536, u32::MAX]),
            2 => fields.map = rng.pick(&[0, 1 << 25, u32::MAX, 1, 1 << 24]),
            3 => fields.map ^= 1 << rng.below(26),
            4 | 5 => fields.energies[place] = rng.pick(&[0, 1, 100_000, 99_999, u32::MAX]),
            _ => fields.prices[place] = rng.pick(&[0, 1, 18_030, 18_031, u32::MAX]),
        }
    }
    fields
}

/// Written into a buffer of `close_order` bytes by both: the same answer, the same bytes, none beyond them.
fn write_alike(fields: &Fields, room: usize, stuffing: u8) -> Result<Vec<u8>, Refusal> {
    let (mut left, mut right) = (vec![stuffing; room], vec![stuffing; room]);
    let answer = Gate::write(fields, &mut left);
    assert_eq!(answer, Session::write(fields, &mut right), "{fields:?} into {room} bytes");
    assert_eq!(left, right, "{fields:?} into {room} bytes");
    let untouched = answer.unwrap_or(0);
    assert!(left[untouched..].iter().all(|byte| *byte == stuffing), "{fields:?} into {room} bytes");
    answer.map(|length| left[..length].to_vec())
}

#[test]
fn messages_are_read_and_written_alike() {
    let mut rng = Rng::new(2);
    let mut refused = [0; 15];
    for _ in 0..60_000 {
        let fields = any_fields(&mut rng);
        let room = if rng.chance(30) { rng.below(112) as usize } else { 120 };
        let stuffing = rng.next() as u8;
        match write_alike(&fields, room, stuffing) {
            Err(refusal) => refused[refusal.number() as usize] += 1,
            Ok(message) => {
                assert_eq!(Gate::read(&message), Ok(fields));
                assert_eq!(message, packed(1, u32::from(fields.key.execution), &fields), "{fields:?}");
                // One byte less is short, and just enough is not.
                assert_eq!(write_alike(&fields, message.len(), stuffing), Ok(message.clone()));
                assert_eq!(write_alike(&fields, message.len() - 1, stuffing), Err(Refusal::Short));
                let mut damaged = message;
                for _ in 0..6 {
                    damage(&mut damaged, &mut rng);
                    let (left, right) = (Gate::read(&damaged), Session::read(&damaged));
                    assert_eq!(left, right, "{damaged:02X?}");
                    match left {
                        Ok(fields) => assert_eq!(write_alike(&fields, 110, 0), Ok(damaged.clone())),
                        Err(refusal) => refused[refusal.number() as usize] += 1,
                    }
                }
            }
        }
    }
    println!("messages refused by number: {refused:?}");
    for number in [3, 4, 5, 14] {
        assert!(refused[number] > 100, "refusal {number}: {refused:?}");
    }
}

fn damage(message: &mut Vec<u8>, rng: &mut Rng) {
    match rng.below(6) {
        0 => message.truncate(rng.below(message.len() as u32 + 1) as usize),
        1 => message.push(if rng.chance(50) { 0 } else { rng.next() as u8 }),
        2 => message.iter_mut().for_each(|byte| *byte = rng.next() as u8),
        _ if message.is_empty() => message.extend([0x10, 0, 2, 0, 0, 0, 0, 1, 0, 1, 0, 0]),
        _ => {
            let bit = rng.below(message.len() as u32 * 8) as usize;
            message[bit / 8] ^= 1 << (bit % 8);
        }
    }
}

/// Beside a refused date stands the fresh session of 2002-01-01.
#[test]
fn beside_a_refused_date_stands_a_fresh_session() {
    let mut rng = Rng::new(3);
    let mut refused = 0;
    while refused < 300 {
        let mut list = list(rng.next());
        list.date = any_date(&mut rng);
        if Session::hours(list.date).is_err() {
            refused += 1;
            assert_eq!(difference::<Gate, Session>(&list), None, "\n{list}");
        }
    }
}
