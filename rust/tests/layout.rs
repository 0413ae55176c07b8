//! The structs of `ffi` are laid out as `include/gate.h` says that the archive is compiled with.
#![cfg(feature = "proved")]

use jeddyspangle::ffi::*;
use std::collections::BTreeMap;
use std::mem::{offset_of, size_of};

/// The header's name of a struct, its size, and the offsets of its fields by the header's names.
macro_rules! layout {
    ($name:literal $mirror:ident { $($field:ident $(as $word:literal)?),* }) => {
        ($name, size_of::<$mirror>(), vec![$((layout!(@word $field $($word)?), offset_of!($mirror, $field))),*])
    };
    (@word $field:ident $word:literal) => { $word };
    (@word $field:ident) => { stringify!($field) };
}

type Layout = (&'static str, usize, Vec<(&'static str, usize)>);

fn mirrors() -> Vec<Layout> {
    vec![
        ("bool", size_of::<Flag>(), vec![]),
        layout!("GateResponse" Response { kind, row, hour, reserved, value, count }),
        layout!("GateDate" Date { year, month, day }),
        layout!("GateClock" Clock { name, second, reserved, reserved2 }),
        layout!("GateUnit" Unit { number, agent, border, maximum, purchase, legacy, rights, reserved }),
        layout!("GateUnavailability" Availability { count, unit, energies }),
        layout!("GateRights" Rights { agent, purchase, reserved, reserved2, count, energies, reserved3 }),
        layout!("GateLoss" Loss { border, loss }),
        layout!("GatePublished" Published { count, published, reserved, reserved2, energies }),
        layout!("GateCapacities" Capacities { directions }),
        layout!("GateKey" Key { execution, default as "is_default", reserved, unit, contract }),
        layout!("GateFields" Fields {
            execution, default as "is_default", reserved, unit, contract, map, energies, prices
        }),
        layout!("GateReading" Reading { row, fields }),
        layout!("GateWritten" Written { row, reserved, count }),
        layout!("GateClockName" ClockName { row, name, second, reserved, reserved2 }),
        layout!("GateNotice" Notice { given, reserved, reserved2, energies }),
        layout!("GateLodgement" Lodgement { key, number }),
        layout!("GateEnergies" Energies { energies, prices }),
        layout!("GateVerdict" Verdict { accepted, reserved, reserved2, limit, hour }),
        layout!("GateHourFigures" HourFigures { price, market, bilateral, maxima, matched, executed }),
        layout!("GateSession" Session {
            date, hours, enrolled, units, notices, capacities, standing, lodgements, energies, last, closed, cleared,
            reserved, verdicts, figures, reserved2, rights, losses, reserved3
        }),
        layout!("GateOpening" Opening { response, session }),
    ]
}

fn header() -> String {
    let path = concat!(env!("CARGO_MANIFEST_DIR"), "/../include/gate.h");
    std::fs::read_to_string(path).expect("include/gate.h of the repository")
}

/// The number after `words ==`.
fn stated(fact: &str) -> (String, usize) {
    let (what, number) = fact.split_once("==").unwrap_or_else(|| panic!("no number in: {fact}"));
    (what.replace(' ', ""), number.trim().parse().unwrap_or_else(|_| panic!("no number in: {fact}")))
}

#[test]
fn every_size_and_offset_of_the_header_is_ours() {
    let mut ours = BTreeMap::new();
    for (name, size, fields) in mirrors() {
        ours.insert(format!("sizeof({name})"), size);
        for (field, offset) in fields {
            ours.insert(format!("offsetof({name},{field})"), offset);
        }
    }
    let header = header();
    let mut sizes = 0;
    for line in header.lines().filter(|line| line.starts_with("GATE_ASSERT(")) {
        let facts = line.strip_prefix("GATE_ASSERT(").and_then(|rest| rest.strip_suffix(");")).expect(line);
        for fact in facts.split("&&") {
            let (what, number) = stated(fact);
            sizes += usize::from(what.starts_with("sizeof"));
            assert_eq!(ours.get(&what), Some(&number), "{fact}");
        }
    }
    assert_eq!(sizes, mirrors().len(), "a struct whose size the header does not state");
    // Every field stands in the header, in the order of the offsets, so that a name that moved is seen.
    for (name, _, fields) in mirrors() {
        let Some((_, body)) = header.split_once(&format!("typedef struct {name} {{")) else {
            continue;
        };
        let body = body.split_once(&format!("}} {name};")).expect(name).0;
        let declared: Vec<&str> = body
            .lines()
            .filter_map(|line| line.split_once(';').map(|(field, _)| field.trim()))
            .map(|field| field.split('[').next().unwrap().rsplit(' ').next().unwrap())
            .collect();
        let listed: Vec<&str> = fields.iter().map(|(field, _)| *field).collect();
        assert_eq!(declared, listed, "{name}");
    }
}

#[test]
fn the_numbers_of_the_header_are_ours() {
    let header = header();
    let number = |name: &str| -> usize {
        let (_, rest) = header.split_once(&format!("{name} = ")).unwrap_or_else(|| panic!("{name} is not in the header"));
        rest.chars().take_while(char::is_ascii_digit).collect::<String>().parse().unwrap()
    };
    for (name, ours) in [
        ("GATE_UNITS", jeddyspangle::MOST_UNITS),
        ("GATE_LODGEMENTS", jeddyspangle::MOST_LODGEMENTS),
        ("GATE_NUMBERS", jeddyspangle::MOST_ACCEPTED as usize),
        ("GATE_HOURS", jeddyspangle::MOST_HOURS),
        ("GATE_MAX_ENERGY", jeddyspangle::LARGEST_ENERGY as usize),
        ("GATE_MAX_PRICE", jeddyspangle::HIGHEST_PRICE as usize),
        ("GATE_MAX_LOSS", jeddyspangle::LARGEST_LOSS as usize),
        ("GATE_MESSAGE", jeddyspangle::LONGEST_MESSAGE),
        ("GATE_STACK", jeddyspangle::STACK),
    ] {
        assert_eq!(number(name), ours, "{name}");
    }
    use jeddyspangle::{Limit, Refusal};
    let passed = |limit| Refusal::Limit { limit, hour: 1 };
    for refusal in [
        Refusal::Date,
        Refusal::Gate,
        Refusal::Form,
        Refusal::Hour,
        Refusal::Range,
        Refusal::Unit,
        Refusal::Taken,
        Refusal::Second,
        Refusal::Full,
        passed(Limit::Maximum),
        passed(Limit::Available),
        passed(Limit::Border),
        Refusal::Absent,
        passed(Limit::Rights),
        Refusal::Partner,
        Refusal::Short,
    ] {
        let name = format!("GATE_REFUSED_{}", refusal.word().to_uppercase());
        assert_eq!(number(&name), refusal.number() as usize, "{name}");
    }
}

/// A call keeps within the stack that the header names, on a thread that has little more.
#[test]
fn a_day_runs_on_a_small_stack() {
    use jeddyspangle::*;
    let day = || {
        let mut gate = Gate::open(Date::new(2006, 10, 29)).unwrap();
        gate.register(Unit { number: 1, agent: 1, border: 1, purchase: true, maximum: 9, legacy: false, rights: false })
            .unwrap();
        gate.capacity(&Capacities::none().with(1, Direction::Export, Energies::flat(5, 25))).unwrap();
        gate.unavailability(1, &Energies::flat(9, 25)).unwrap();
        let key = Key { execution: true, default: false, unit: 1, contract: 3 };
        let mut buffer = [0; LONGEST_MESSAGE];
        let length = Gate::write(&Fields::of(key).with(25, 9, 0), &mut buffer).unwrap();
        gate.lodge(&buffer[..length]).unwrap();
        gate.close().unwrap();
        gate.clear().unwrap();
        assert_eq!(gate.executed(1, 25), Ok(5));
    };
    let room = STACK + 256 * 1024;
    std::thread::Builder::new().stack_size(room).spawn(day).unwrap().join().unwrap();
}
