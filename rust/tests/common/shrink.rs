//! A list that two exchanges answer differently, made as small as this finds.

use super::calls::{compare, Entry, List, Nobody};
use jeddyspangle::model::message;
use jeddyspangle::*;
use std::panic::{catch_unwind, set_hook, take_hook, AssertUnwindSafe};

/// Whether two exchanges differ on a list, and how; a panic is a difference.
pub fn difference<A: Exchange, B: Exchange>(list: &List) -> Option<String> {
    match catch_unwind(AssertUnwindSafe(|| compare::<A, B>(list, &mut Nobody))) {
        Ok(Ok(())) => None,
        Ok(Err(found)) => Some(format!("{found:?}")),
        Err(panic) => {
            let words = panic.downcast_ref::<String>().cloned();
            let words = words.or_else(|| panic.downcast_ref::<&str>().map(|words| words.to_string()));
            Some(format!("panic: {}", words.unwrap_or_default()))
        }
    }
}

/// Smaller notices, unit or message for a call, the smallest first.
fn simpler(call: &Entry) -> Vec<Entry> {
    let mut all = Vec::new();
    match call {
        Entry::Lodge(bytes) => {
            let Ok(fields) = message::read(bytes) else {
                return all;
            };
            let mut lodge = |fields: Fields| {
                let mut buffer = [0; LONGEST_MESSAGE];
                if let Ok(length) = message::write(&fields, &mut buffer) {
                    if buffer[..length] != bytes[..] {
                        all.push(Entry::Lodge(buffer[..length].to_vec()));
                    }
                }
            };
            for hour in 0..MOST_HOURS {
                let mut fewer = fields;
                fewer.map &= !(1 << (MOST_HOURS - 1 - hour));
                fewer.energies[hour] = 0;
                fewer.prices[hour] = 0;
                if fewer.map != fields.map {
                    lodge(fewer);
                }
            }
            for hour in 0..MOST_HOURS {
                for smaller in [1, fields.energies[hour] / 2, fields.energies[hour].saturating_sub(1)] {
                    if smaller > 0 && smaller < fields.energies[hour] {
                        let mut less = fields;
                        less.energies[hour] = smaller;
                        lodge(less);
                    }
                }
                for lower in [0, fields.prices[hour] / 2] {
                    if lower < fields.prices[hour] {
                        let mut less = fields;
                        less.prices[hour] = lower;
                        lodge(less);
                    }
                }
            }
        }
        Entry::Capacity(capacities) => {
            let every: Vec<_> = capacities.directions().iter().enumerate().collect();
            let build = |change: &dyn Fn(usize, Energies) -> Option<Energies>| {
                every.iter().fold(Capacities::none(), |notice, (index, direction)| {
                    let toward = if index % 2 == 0 { Direction::Export } else { Direction::Import };
                    match direction.and_then(|energies| change(*index, energies)) {
                        Some(energies) => notice.with(*index as u32 / 2 + 1, toward, energies),
                        None => notice,
                    }
                })
            };
            for (gone, direction) in &every {
                let Some(energies) = direction else { continue };
                all.push(Entry::Capacity(Box::new(build(&|index, energies| (index != *gone).then_some(energies)))));
                for value in [0, energies.values()[0], 99_999] {
                    let flat = Energies::flat(value, energies.count());
                    if flat != *energies && (value != 99_999 || energies.values().iter().any(|v| *v != energies.values()[0]))
                    {
                        all.push(Entry::Capacity(Box::new(build(&|index, same| {
                            Some(if index == *gone { flat } else { same })
                        }))));
                    }
                }
            }
        }
        Entry::Register(unit) => {
            if unit.rights {
                all.push(Entry::Register(Unit { rights: false, ..*unit }));
            }
            if unit.legacy {
                all.push(Entry::Register(Unit { legacy: false, ..*unit }));
            }
            if unit.maximum < LARGEST_ENERGY {
                all.push(Entry::Register(Unit { maximum: LARGEST_ENERGY, ..*unit }));
            }
        }
        Entry::Available(unit, energies) => {
            let flat = Energies::flat(energies.values()[0], energies.count());
            if flat != *energies {
                all.push(Entry::Available(*unit, flat));
            }
        }
        Entry::Rights(agent, purchase, energies) => {
            for value in [0, energies.values()[0]] {
                let flat = Energies::flat(value, energies.count());
                if flat != *energies {
                    all.push(Entry::Rights(*agent, *purchase, flat));
                }
            }
        }
        Entry::Loss(border, loss) => {
            for smaller in [0, loss / 2] {
                if smaller < *loss {
                    all.push(Entry::Loss(*border, smaller));
                }
            }
        }
        _ => {}
    }
    all
}

/// Makes a list smaller as long as `bad` holds of it, within a number of trials.
pub fn shrink(list: &List, bad: impl Fn(&List) -> bool) -> List {
    let mut best = list.clone();
    let mut trials = 20_000;
    let mut try_one = |candidate: List, best: &mut List| {
        if trials == 0 {
            return false;
        }
        trials -= 1;
        let found = bad(&candidate);
        if found {
            *best = candidate;
        }
        found
    };
    loop {
        let before = best.to_string();
        // Runs of calls away, long runs first.
        let mut run = best.calls.len().max(1);
        loop {
            let mut start = 0;
            while start < best.calls.len() {
                let mut fewer = best.clone();
                fewer.calls.drain(start..(start + run).min(best.calls.len()));
                if !try_one(fewer, &mut best) {
                    start += run;
                }
            }
            if run == 1 {
                break;
            }
            run /= 2;
        }
        // Each call smaller.
        for index in 0..best.calls.len() {
            while simpler(&best.calls[index]).into_iter().any(|call| {
                let mut smaller = best.clone();
                smaller.calls[index] = call;
                try_one(smaller, &mut best)
            }) {}
        }
        if best.to_string() == before {
            return best;
        }
    }
}

/// A difference told in full: the seed, how the two differ, the smallest list that shows it.
pub fn report<A: Exchange, B: Exchange>(seed: u64, list: &List) -> String {
    // A panic is tried again many times here, and told once at the end.
    let hook = take_hook();
    set_hook(Box::new(|_| {}));
    let before = difference::<A, B>(list).expect("the list differs");
    let mut least = shrink(list, |list| difference::<A, B>(list).is_some());
    // Of every query only the one that differs.
    if let Ok(Err(found)) = catch_unwind(AssertUnwindSafe(|| compare::<A, B>(&least, &mut Nobody))) {
        if let (Some(index), Some(query)) = (found.index, found.query) {
            let mut one = least.clone();
            one.calls[index] = Entry::Ask(query);
            if difference::<A, B>(&one).is_some() {
                least = one;
            }
        }
    }
    let after = difference::<A, B>(&least).expect("a smaller list still differs");
    set_hook(hook);
    format!("seed {seed}: {before}\nmade smaller: {after}\n\n{least}")
}
