//! The rehearsal days of `tests/days`, played on the model and on the proved gate: every answer is the stored one.
//!
//! The line format is that of `docs/REHEARSAL.md`; lines are read here by a small parser of the tests' own. `DAYS=FOLDER` plays
//! other days: `tests/models` has the Python model's answers to random lists there, and takes ours to others.

mod common;

use common::calls::{every_query, Entry, List, Query};
use common::lists::list;
use common::{setting, Rng};
use jeddyspangle::model::{message, Session};
use jeddyspangle::*;
use std::fs;
use std::path::{Path, PathBuf};

/// A number of one to nine digits.
fn number(word: &str) -> Option<u32> {
    let digits = !word.is_empty() && word.len() <= 9 && word.bytes().all(|byte| byte.is_ascii_digit());
    digits.then(|| word.parse().unwrap())
}

/// `500x10,0x5,7`.
fn energies(word: &str) -> Option<Energies> {
    let mut all = Vec::new();
    for part in word.split(',') {
        match part.split_once('x') {
            Some((energy, times)) => {
                let times = number(times).filter(|times| (1..=100).contains(times))?;
                all.extend(std::iter::repeat_n(number(energy)?, times as usize));
            }
            None => all.push(number(part)?),
        }
    }
    Some(Energies::new(&all))
}

fn direction(word: &str) -> Option<Direction> {
    match word {
        "export" => Some(Direction::Export),
        "import" => Some(Direction::Import),
        _ => None,
    }
}

fn date(word: &str) -> Option<Date> {
    let parts: Vec<u32> = word.split('-').map(number).collect::<Option<_>>()?;
    match parts[..] {
        [year, month, day] => Some(Date { year, month, day }),
        _ => None,
    }
}

fn unit(words: &[&str]) -> Option<Unit> {
    let (words, rights) = match words {
        [words @ .., "rights"] => (words, true),
        _ => (words, false),
    };
    let (head, legacy) = match words {
        [head @ .., "legacy"] => (head, true),
        _ => (words, false),
    };
    let [given, "agent", agent, "border", border, side @ ("sale" | "purchase"), "max", maximum] = head else {
        return None;
    };
    Some(Unit {
        number: number(given)?,
        agent: number(agent)?,
        border: number(border)?,
        purchase: *side == "purchase",
        maximum: number(maximum)?,
        legacy,
        rights,
    })
}

fn capacities(words: &[&str]) -> Option<Capacities> {
    let mut notice = Capacities::none();
    let mut seen = Vec::new();
    for three in words.chunks(3) {
        let [border, word, list] = three else {
            return None;
        };
        let (border, toward) = (number(border)?, direction(word)?);
        if !(1..=4).contains(&border) || seen.contains(&(border, toward)) {
            return None;
        }
        seen.push((border, toward));
        notice = notice.with(border, toward, energies(list)?);
    }
    Some(notice)
}

/// `7`, `7 default`, `8 contract 12`, `8 default contract 12`, then the rest of the line.
fn key<'w>(execution: bool, words: &'w [&'w str]) -> Option<(Key, &'w [&'w str])> {
    let (unit, mut rest) = words.split_first()?;
    let mut key = Key { execution, default: false, unit: number(unit)?, contract: 0 };
    if let ["default", after @ ..] = rest {
        key.default = true;
        rest = after;
    }
    if execution {
        let ["contract", contract, after @ ..] = rest else {
            return None;
        };
        key.contract = number(contract)?;
        rest = after;
    }
    Some((key, rest))
}

/// The hours of an offer or execution. An hour outside 1 to 25 makes a map beyond 25 bits.
fn fields(key: Key, words: &[&str]) -> Option<Fields> {
    let mut fields = Fields::of(key);
    let mut seen = Vec::new();
    for word in words {
        let (hour, rest) = word.split_once(':')?;
        let (energy, price) = match (key.execution, rest.split_once('@')) {
            (false, Some((energy, price))) => (number(energy)?, number(price)?),
            (true, None) => (number(rest)?, 0),
            _ => return None,
        };
        let hour = number(hour)?;
        if seen.contains(&hour) {
            return None;
        }
        seen.push(hour);
        match hour {
            1..=25 => fields = fields.with(hour as usize, energy, price),
            _ => fields.map |= 1 << 31,
        }
    }
    Some(fields)
}

fn bytes(word: &str) -> Option<Vec<u8>> {
    if !word.is_ascii() || word.len() % 2 == 1 {
        return None;
    }
    (0..word.len() / 2)
        .map(|index| {
            let two = &word[2 * index..2 * index + 2];
            let hex = two.bytes().all(|byte| byte.is_ascii_hexdigit());
            hex.then(|| u8::from_str_radix(two, 16).unwrap())
        })
        .collect()
}

fn said<T: std::fmt::Display>(answer: Result<T, Refusal>) -> String {
    match answer {
        Ok(value) => value.to_string(),
        Err(refusal) => refusal.to_string(),
    }
}

fn made<E: Exchange>(session: &mut E, call: Call<'_>) -> String {
    said(session.call(call).map(|accepted| match accepted {
        Accepted::Done => "accepted".to_string(),
        Accepted::Number(number) => format!("number {}", number.0),
        Accepted::Steps(steps) => format!("steps {}", steps.0),
    }))
}

fn maximum(answer: Result<Option<i64>, Refusal>) -> String {
    said(answer.map(|figure| figure.map_or("none".to_string(), |energy| energy.to_string())))
}

fn write_and_lodge<E: Exchange>(session: &mut E, fields: &Fields) -> String {
    let mut buffer = [0; LONGEST_MESSAGE];
    match E::write(fields, &mut buffer) {
        Ok(length) => made(session, Call::Lodge(&buffer[..length])),
        Err(refusal) => refusal.to_string(),
    }
}

/// The answer to a line, or none when it is not understood.
fn answer<E: Exchange>(session: &mut E, words: &[&str]) -> Option<String> {
    Some(match words {
        ["open", day] => {
            let (answer, fresh) = E::opened(date(day)?);
            *session = fresh;
            said(answer.map(|()| "accepted"))
        }
        ["register", rest @ ..] => made(session, Call::Register(unit(rest)?)),
        ["capacity", rest @ ..] => made(session, Call::Capacity(&capacities(rest)?)),
        ["rights", agent, side @ ("sale" | "purchase"), list] => {
            made(session, Call::Rights(number(agent)?, *side == "purchase", &energies(list)?))
        }
        ["loss", border, loss] => made(session, Call::Loss(number(border)?, number(loss)?)),
        ["available", unit, list] => made(session, Call::Available(number(unit)?, &energies(list)?)),
        [kind @ ("offer" | "execution"), rest @ ..] => {
            let (key, hours) = key(*kind == "execution", rest)?;
            write_and_lodge(session, &fields(key, hours)?)
        }
        ["lodge", hex] => made(session, Call::Lodge(&bytes(hex)?)),
        ["annul", kind @ ("offer" | "execution"), rest @ ..] => {
            let (key, rest) = key(*kind == "execution", rest)?;
            if !rest.is_empty() {
                return None;
            }
            made(session, Call::Annul(key))
        }
        ["close"] => made(session, Call::Close),
        ["clear"] => made(session, Call::Clear),
        ["verdict", given] => said(session.verdict(number(given)?)),
        ["matched", unit, hour] => said(session.matched(number(unit)?, number(hour)?)),
        ["executed", unit, hour] => said(session.executed(number(unit)?, number(hour)?)),
        ["market", border, hour] => said(session.market_balance(number(border)?, number(hour)?)),
        ["bilateral", border, hour] => said(session.bilateral_balance(number(border)?, number(hour)?)),
        ["price", hour] => said(session.price(number(hour)?)),
        ["market-maximum", border, word, hour] => {
            maximum(session.market_maximum(number(border)?, direction(word)?, number(hour)?))
        }
        ["bilateral-maximum", border, word, hour] => {
            maximum(session.bilateral_maximum(number(border)?, direction(word)?, number(hour)?))
        }
        _ => return None,
    })
}

/// The answers to a day's lines, with the count at the end.
fn play<E: Exchange>(day: &str) -> Vec<String> {
    let mut session = E::opened(Date::new(2002, 1, 1)).1;
    let (mut calls, mut refused, mut not_understood) = (0, 0, 0);
    let mut answers = Vec::new();
    for (index, line) in day.lines().enumerate() {
        let words: Vec<&str> = line.split_ascii_whitespace().collect();
        if words.first().is_none_or(|word| word.starts_with('#')) {
            continue;
        }
        if words == ["report"] {
            answers.push(format!("{}: report", index + 1));
            continue;
        }
        let answer = match answer(&mut session, &words) {
            Some(answer) => {
                calls += 1;
                refused += usize::from(answer.starts_with("refused"));
                answer
            }
            None => {
                not_understood += 1;
                "not understood".to_string()
            }
        };
        answers.push(format!("{}: {}", index + 1, answer));
    }
    answers.push(format!("{calls} calls, {refused} refused, {not_understood} not understood"));
    answers
}

fn play_all<E: Exchange>() {
    let given = std::env::var_os("DAYS").map(PathBuf::from);
    let least = if given.is_some() { 1 } else { 28 };
    let folder = given.unwrap_or_else(|| Path::new(env!("CARGO_MANIFEST_DIR")).join("../tests/days"));
    let mut days: Vec<_> = fs::read_dir(&folder)
        .expect("tests/days of the repository")
        .map(|entry| entry.unwrap().path())
        .filter(|path| path.extension().is_some_and(|extension| extension == "day"))
        .collect();
    days.sort();
    assert!(days.len() >= least, "only {} days in {}", days.len(), folder.display());
    let (mut lines, mut differences) = (0, Vec::new());
    for path in days {
        let stored = fs::read_to_string(path.with_extension("out")).unwrap();
        // Of a report only its first line: its tables are the rehearsal's, not an answer.
        let stored: Vec<&str> = stored.lines().filter(|line| !line.is_empty() && !line.starts_with("  ")).collect();
        let played = play::<E>(&fs::read_to_string(&path).unwrap());
        lines += played.len();
        let name = path.file_stem().unwrap().to_string_lossy().into_owned();
        if stored.len() != played.len() {
            differences.push(format!("{name}: {} answers, {} stored", played.len(), stored.len()));
        }
        for (ours, theirs) in played.iter().zip(stored) {
            if ours != theirs {
                differences.push(format!("{name}: {ours}   stored: {theirs}"));
            }
        }
    }
    assert!(differences.is_empty(), "{} of {lines} answers differ:\n{}", differences.len(), differences.join("\n"));
    println!("{lines} answers, none differs");
}

/// A random list as a day. Where it asks every query a part of them is asked, most in a few hours that lodgements name.
fn told(seed: u64, list: &List) -> Vec<String> {
    let mut rng = Rng::new(!seed);
    let mut units: Vec<u32> = Vec::new();
    let (mut lodged, mut map) = (0, 0);
    for call in &list.calls {
        match call {
            Entry::Register(unit) => units.push(unit.number),
            Entry::Lodge(bytes) => {
                lodged += 1;
                map |= message::read(bytes).map_or(0, |fields| fields.map);
            }
            _ => {}
        }
    }
    units.sort_unstable();
    units.dedup();
    let named: Vec<u32> = (1..=25).filter(|hour| map >> (25 - hour) & 1 == 1).collect();
    let near: Vec<u32> = (0..3).filter_map(|_| (!named.is_empty()).then(|| rng.pick(&named))).collect();
    let mut lines = vec![format!("open {}", list.date)];
    for call in &list.calls {
        if !matches!(call, Entry::AskAll) {
            // A message's fields stand behind it, for readers of a report.
            lines.push(call.to_string().split("   #").next().unwrap().to_string());
            continue;
        }
        every_query(&units, lodged, |query| {
            let asked = match query {
                Query::Verdict(_) => 60,
                Query::Matched(_, hour) | Query::Executed(_, hour) | Query::Price(hour) if near.contains(&hour) => 50,
                Query::Market(_, hour) | Query::Bilateral(_, hour) if near.contains(&hour) => 50,
                Query::MarketMaximum(_, _, hour) | Query::BilateralMaximum(_, _, hour) if near.contains(&hour) => 50,
                _ => 1,
            };
            if rng.chance(asked) {
                lines.push(query.to_string());
            }
            true
        });
    }
    // A number of a line has nine digits at most.
    lines.iter().map(|line| line.replace(&u32::MAX.to_string(), "999999999").replace("4294957296", "999990000")).collect()
}

/// Random lists as days, with the model's answers, into the folder `TOLD`.
#[test]
#[ignore = "tests/models runs it, and asks the Python model the same"]
fn random_lists_are_told() {
    let folder = PathBuf::from(std::env::var_os("TOLD").expect("TOLD=FOLDER"));
    let (first, lists) = (setting("SEED", 0), setting("LISTS", 1_000));
    for start in (first..first + lists).step_by(100) {
        let seeds = start..(start + 100).min(first + lists);
        let day = seeds.flat_map(|seed| told(seed, &list(seed))).collect::<Vec<_>>().join("\n");
        let path = folder.join(format!("rust-{start:09}.day"));
        fs::write(path.with_extension("out"), play::<Session>(&day).join("\n") + "\n").unwrap();
        fs::write(path, day + "\n").unwrap();
    }
}

#[test]
fn the_model_answers_as_stored() {
    play_all::<Session>();
}

#[cfg(feature = "proved")]
#[test]
fn the_proved_gate_answers_as_stored() {
    play_all::<Gate>();
}
