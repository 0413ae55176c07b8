//! The proved gate timed beside the model, in one run: the least time of many for each, and the ratio.
//!
//!     cargo run --release --offline --bin bench            (or only what has a word in its name: .. --bin bench -- lodge)
//!
//! Both are called through the same Rust trait, on sessions made by the same calls. Times are in microseconds; what takes less
//! than a microsecond is repeated within a turn. The turns of the two alternate, so that a busy machine slows both.

use jeddyspangle::model::Session;
use jeddyspangle::*;
use std::hint::black_box;
use std::time::Instant;

const LONG_DAY: Date = Date::new(2006, 10, 29);

fn unit(number: u32, border: u32, purchase: bool) -> Unit {
    Unit { number, agent: number, border, purchase, maximum: LARGEST_ENERGY, legacy: false, rights: false }
}

fn offer(unit: u32) -> Key {
    Key { execution: false, default: false, unit, contract: 0 }
}

fn execution(unit: u32, contract: u32) -> Key {
    Key { execution: true, default: false, unit, contract }
}

fn message(fields: &Fields) -> Vec<u8> {
    let mut buffer = [0; LONGEST_MESSAGE];
    let length = Session::write(fields, &mut buffer).expect("fields that keep the rules");
    buffer[..length].to_vec()
}

/// Fields with the same hours as `figures` gives energies and prices for, from hour 1.
fn fields(key: Key, hours: usize, figures: impl Fn(u32) -> (u32, u32)) -> Fields {
    (1..=hours).fold(Fields::of(key), |fields, hour| {
        let (energy, price) = figures(hour as u32);
        fields.with(hour, energy, if key.execution { 0 } else { price })
    })
}

/// The losses of the four borders.
type Losses = [u32; 4];

const NO_LOSSES: Losses = [0; 4];

/// Of a day with losses, no two alike.
const SOME_LOSSES: Losses = [2000, 300, 1500, 777];

/// The least ones: an energy of up to 10,000 counts at the border what it is, by a division.
const LEAST_LOSSES: Losses = [1; 4];

fn with_losses<E: Exchange>(mut exchange: E, losses: Losses) -> E {
    for (border, loss) in (1..).zip(losses) {
        exchange.call(Call::Loss(border, loss)).unwrap();
    }
    exchange
}

/// A long day with 64 units and 128 lodgements of 25 hours: an offer of each unit, two executions of each border unit.
/// Quiet: every line carries all. Congested: France and Portugal export, Andorra and Morocco import, more than the lines carry.
fn full<E: Exchange>(congested: bool, losses: Losses) -> E {
    let mut exchange = with_losses(E::opened(LONG_DAY).1, losses);
    let border = |number: u32| {
        if number <= 32 {
            0
        } else {
            (number - 33) / 8 + 1
        }
    };
    // At a border six of eight units have the direction in which it is congested.
    let purchase = |number: u32| match border(number) {
        0 => number.is_multiple_of(2),
        1 | 3 => number % 8 >= 2,
        _ => number % 8 < 2,
    };
    let mut notice = Capacities::none();
    for line in 1..=4 {
        for direction in [Direction::Export, Direction::Import] {
            let passed = (direction == Direction::Export) == (line % 2 == 1);
            match (congested, passed) {
                (false, _) => notice = notice.with(line, direction, Energies::flat(LARGEST_ENERGY, 25)),
                (true, true) => notice = notice.with(line, direction, Energies::flat(900, 25)),
                // Published too, the sum of both would be a limit of each offer.
                (true, false) => {}
            }
        }
    }
    exchange.call(Call::Capacity(&notice)).unwrap();
    for number in 1..=64 {
        exchange.call(Call::Register(unit(number, border(number), purchase(number)))).unwrap();
    }
    for number in 1..=64 {
        let energy = |hour: u32| 100 + (number * 37 + hour * 11) % 400;
        let price = |hour: u32| match purchase(number) {
            true => 5000 + (number * 131 + hour * 17) % 3000,
            false => 2000 + (number * 97 + hour * 23) % 3000,
        };
        let lodged = message(&fields(offer(number), 25, |hour| (energy(hour), price(hour))));
        exchange.call(Call::Lodge(&lodged)).unwrap();
    }
    for number in 33..=64 {
        for contract in 1..=2 {
            let lodged = message(&fields(execution(number, contract), 25, |hour| (20 + (number + hour) % 30, 0)));
            exchange.call(Call::Lodge(&lodged)).unwrap();
        }
    }
    exchange
}

/// The quiet day, and late notices by which no unit has any energy left: closing refuses every lodgement.
fn without_units<E: Exchange>() -> E {
    let mut exchange: E = full(false, NO_LOSSES);
    for number in 1..=64 {
        exchange.call(Call::Available(number, &Energies::flat(0, 25))).unwrap();
    }
    exchange
}

/// An hour of 10,000 steps. French exports of 10,000 and imports of 10,000 stand against each other, and a domestic sale of 1 makes
/// the exports pass by 1: a step takes one tenth of export, and with it goes one of import, which is the dearest sale. 60 domestic
/// offers are matched anew at each step, and 64 executions of one unit stand beside: 64 units and 127 lodgements. With the least losses
/// the exports count as much, and the steps are as many.
fn adversarial<E: Exchange>(losses: Losses) -> E {
    const MANY: u32 = 10_000;
    let mut exchange = with_losses(E::opened(LONG_DAY).1, losses);
    exchange.call(Call::Capacity(&Capacities::none().with(1, Direction::Export, Energies::flat(0, 25)))).unwrap();
    let mut lodge = |unit: Unit, energy: u32, price: u32| {
        exchange.call(Call::Register(unit)).unwrap();
        exchange.call(Call::Lodge(&message(&Fields::of(offer(unit.number)).with(1, energy, price)))).unwrap();
    };
    for number in 1..=30 {
        lodge(unit(number, 0, false), 10, 100 + number);
        lodge(unit(30 + number, 0, true), 10, 18_000 - number);
    }
    lodge(unit(61, 0, false), 1, 1000);
    lodge(unit(62, 1, true), MANY, 5000);
    lodge(unit(63, 1, false), MANY, 3000);
    exchange.call(Call::Register(unit(64, 3, true))).unwrap();
    for contract in 1..=64 {
        exchange.call(Call::Lodge(&message(&Fields::of(execution(64, contract)).with(1, 1, 0)))).unwrap();
    }
    exchange
}

/// What is timed: a turn's preparation is not.
struct Case<'a> {
    name: String,
    turns: usize,
    gate: Box<dyn FnMut() -> f64 + 'a>,
    model: Box<dyn FnMut() -> f64 + 'a>,
}

/// The time of one of `count` runs of `run`, in microseconds.
fn each(count: u32, mut run: impl FnMut(u32)) -> f64 {
    let start = Instant::now();
    for index in 0..count {
        run(index);
    }
    start.elapsed().as_nanos() as f64 / 1e3 / f64::from(count)
}

/// A result is made, and not looked at.
fn ignore<T>(result: T) {
    let _ = black_box(result);
}

/// A turn that changes a copy of a session, made before.
fn on_copy<'a, E: Exchange + Clone + 'a>(
    base: &'a E,
    count: u32,
    run: impl Fn(&mut E, u32) + 'a,
) -> Box<dyn FnMut() -> f64 + 'a> {
    Box::new(move || {
        let mut copy = base.clone();
        each(count, |index| run(&mut copy, index))
    })
}

/// A turn that only reads.
fn repeated<'a>(count: u32, run: impl Fn(u32) + 'a) -> Box<dyn FnMut() -> f64 + 'a> {
    Box::new(move || each(count, &run))
}

/// A day in its stages, for one exchange.
struct Day<E> {
    lodged: E,
    closed: E,
    cleared: E,
    steps: u64,
}

impl<E: Exchange + Clone> Day<E> {
    fn of(lodged: E) -> Day<E> {
        let mut closed = lodged.clone();
        closed.call(Call::Close).unwrap();
        let mut cleared = closed.clone();
        let Ok(Accepted::Steps(Steps(steps))) = cleared.call(Call::Clear) else {
            panic!("a closed day is cleared");
        };
        Day { lodged, closed, cleared, steps }
    }
}

fn time(case: &mut Case) {
    let (mut gate, mut model) = (f64::MAX, f64::MAX);
    for _ in 0..case.turns {
        gate = gate.min((case.gate)());
        model = model.min((case.model)());
    }
    println!("| {:<46} | {gate:>10.4} | {model:>10.4} | {:>7.1} |", case.name, gate / model);
}

fn main() {
    let quiet: (Day<Gate>, Day<Session>) = (Day::of(full(false, NO_LOSSES)), Day::of(full(false, NO_LOSSES)));
    let congested: (Day<Gate>, Day<Session>) = (Day::of(full(true, NO_LOSSES)), Day::of(full(true, NO_LOSSES)));
    let unavailable: (Day<Gate>, Day<Session>) = (Day::of(without_units()), Day::of(without_units()));
    let hard: (Day<Gate>, Day<Session>) = (Day::of(adversarial(NO_LOSSES)), Day::of(adversarial(NO_LOSSES)));
    let lossy_quiet: (Day<Gate>, Day<Session>) = (Day::of(full(false, SOME_LOSSES)), Day::of(full(false, SOME_LOSSES)));
    let lossy_congested: (Day<Gate>, Day<Session>) = (Day::of(full(true, SOME_LOSSES)), Day::of(full(true, SOME_LOSSES)));
    let lossy_hard: (Day<Gate>, Day<Session>) = (Day::of(adversarial(LEAST_LOSSES)), Day::of(adversarial(LEAST_LOSSES)));
    assert_eq!((quiet.0.steps, quiet.1.steps), (0, 0));
    assert_eq!(congested.0.steps, congested.1.steps);
    assert_eq!(hard.0.steps, hard.1.steps);
    assert_eq!((lossy_quiet.0.steps, lossy_quiet.1.steps), (0, 0));
    assert_eq!(lossy_congested.0.steps, lossy_congested.1.steps);
    assert_eq!(lossy_hard.0.steps, lossy_hard.1.steps);

    let two = fields(offer(7), 2, |hour| (100 + hour, 4000));
    let all = fields(offer(7), 25, |hour| (100 + hour, 4000));
    let contract = fields(execution(40, 9), 25, |hour| (30 + hour, 0));
    let beside_bytes = message(&fields(offer(40), 2, |hour| (100 + hour, 4000)));
    let replaced_bytes = message(&fields(execution(40, 2), 25, |hour| (30 + hour, 0)));
    let export_bytes = message(&fields(offer(35), 25, |hour| (100 + hour, 4000)));
    let crowded_bytes = message(&Fields::of(offer(64)).with(1, 1, 4000));
    let (two_bytes, all_bytes, contract_bytes) = (message(&two), message(&all), message(&contract));
    let key = execution(64, 2);
    let notice = (1..=4).fold(Capacities::none(), |notice, line| {
        notice.with(line, Direction::Export, Energies::flat(5000, 25)).with(
            line,
            Direction::Import,
            Energies::flat(5000, 25),
        )
    });
    let available = Energies::flat(90_000, 25);

    let mut cases = Vec::new();
    macro_rules! both {
        ($name:expr, $turns:expr, $gate:expr, $model:expr) => {
            cases.push(Case { name: $name.to_string(), turns: $turns, gate: $gate, model: $model })
        };
    }
    macro_rules! read_only {
        ($name:expr, |$exchange:ident, $index:ident| $run:expr) => {
            both!(
                $name,
                300,
                repeated(200, |$index| {
                    let $exchange = &congested.0.cleared;
                    ignore($run);
                }),
                repeated(200, |$index| {
                    let $exchange = &congested.1.cleared;
                    ignore($run);
                })
            )
        };
    }
    macro_rules! change {
        ($name:expr, $turns:expr, $count:expr, $day:ident . $stage:ident, |$exchange:ident, $index:ident| $run:expr) => {
            both!(
                $name,
                $turns,
                on_copy(&$day.0.$stage, $count, |$exchange, $index| {
                    ignore(($run, $index));
                }),
                on_copy(&$day.1.$stage, $count, |$exchange, $index| {
                    ignore(($run, $index));
                })
            )
        };
    }

    both!(
        "open",
        300,
        repeated(20, |_| ignore(Gate::opened(LONG_DAY))),
        repeated(20, |_| ignore(Session::opened(LONG_DAY)))
    );
    for (hours, bytes) in [("2 hours", &two_bytes), ("25 hours", &all_bytes), ("25 hours, execution", &contract_bytes)] {
        both!(
            format!("read a message of {hours}"),
            300,
            repeated(200, |_| ignore(Gate::read(black_box(bytes)))),
            repeated(200, |_| ignore(Session::read(black_box(bytes))))
        );
    }
    for (hours, fields) in [("2 hours", &two), ("25 hours", &all), ("25 hours, execution", &contract)] {
        both!(
            format!("write a message of {hours}"),
            300,
            repeated(200, |_| ignore(Gate::write(black_box(fields), &mut [0; LONGEST_MESSAGE]))),
            repeated(200, |_| ignore(Session::write(black_box(fields), &mut [0; LONGEST_MESSAGE])))
        );
    }
    change!("lodge, full: an offer of 25 hours replaced", 300, 50, quiet.lodged, |exchange, index| exchange
        .lodge(&all_bytes)
        .unwrap());
    change!("lodge, full: an offer of 2 hours replaced", 300, 50, quiet.lodged, |exchange, index| exchange
        .lodge(&two_bytes)
        .unwrap());
    change!("lodge, full: the same, two executions beside", 300, 50, quiet.lodged, |exchange, index| exchange
        .lodge(&beside_bytes)
        .unwrap());
    change!("lodge, full: an execution, an offer beside", 300, 50, quiet.lodged, |exchange, index| exchange
        .lodge(&replaced_bytes)
        .unwrap());
    change!("lodge, full: an export of 25 hours replaced", 300, 50, quiet.lodged, |exchange, index| exchange
        .lodge(&export_bytes)
        .unwrap());
    change!("lodge, full: the same with a loss", 300, 50, lossy_quiet.lodged, |exchange, index| exchange
        .lodge(&export_bytes)
        .unwrap());
    change!("lodge: an offer, 64 executions beside", 300, 50, hard.lodged, |exchange, index| exchange
        .lodge(&crowded_bytes)
        .unwrap());
    change!("lodge, full: refused as full", 300, 50, quiet.lodged, |exchange, index| exchange
        .lodge(&contract_bytes)
        .unwrap_err());
    change!("annul, full", 300, 1, quiet.lodged, |exchange, index| { exchange.annul(key).unwrap() });
    change!("capacity notice, full", 300, 50, quiet.lodged, |exchange, index| exchange.capacity(&notice).unwrap());
    change!("unavailability notice, full", 300, 50, quiet.lodged, |exchange, index| exchange
        .unavailability(64, &available)
        .unwrap());
    change!("loss, full", 300, 50, quiet.lodged, |exchange, index| exchange.loss(1, 500).unwrap());
    change!("register, full: refused", 300, 50, quiet.lodged, |exchange, index| exchange
        .register(unit(65, 0, true))
        .unwrap_err());
    change!("close, full", 300, 1, quiet.lodged, |exchange, index| { exchange.close().unwrap() });
    change!("close, full, with losses", 300, 1, lossy_quiet.lodged, |exchange, index| { exchange.close().unwrap() });
    change!("close, full: every lodgement refused", 100, 1, unavailable.lodged, |exchange, index| {
        exchange.close().unwrap()
    });
    change!("clear, full, 25 hours, quiet", 200, 1, quiet.closed, |exchange, index| exchange.clear().unwrap());
    change!(
        format!("clear, full, 25 hours, congested, {} steps", congested.0.steps),
        100,
        1,
        congested.closed,
        |exchange, index| exchange.clear().unwrap()
    );
    change!(format!("clear, one hour of {} steps", hard.0.steps), 40, 1, hard.closed, |exchange, index| exchange
        .clear()
        .unwrap());
    change!("clear, quiet, with losses", 200, 1, lossy_quiet.closed, |exchange, index| exchange.clear().unwrap());
    change!(
        format!("clear, congested, with losses, {} steps", lossy_congested.0.steps),
        100,
        1,
        lossy_congested.closed,
        |exchange, index| exchange.clear().unwrap()
    );
    change!(
        format!("clear, one hour of {} steps, with losses", lossy_hard.0.steps),
        40,
        1,
        lossy_hard.closed,
        |exchange, index| exchange.clear().unwrap()
    );
    read_only!("verdict", |exchange, index| exchange.verdict(index % 128 + 1));
    read_only!("matched", |exchange, index| exchange.matched(index % 64 + 1, index % 25 + 1));
    read_only!("executed", |exchange, index| exchange.executed(index % 64 + 1, index % 25 + 1));
    read_only!("market", |exchange, index| exchange.market_balance(index % 4 + 1, index % 25 + 1));
    read_only!("bilateral", |exchange, index| exchange.bilateral_balance(index % 4 + 1, index % 25 + 1));
    read_only!("market-maximum", |exchange, index| exchange.market_maximum(
        index % 4 + 1,
        Direction::Export,
        index % 25 + 1
    ));
    read_only!("bilateral-maximum", |exchange, index| exchange.bilateral_maximum(
        index % 4 + 1,
        Direction::Import,
        index % 25 + 1
    ));
    read_only!("price", |exchange, index| exchange.price(index % 25 + 1));

    println!("| {:<46} | {:>10} | {:>10} | {:>7} |", "", "gate, µs", "model, µs", "ratio");
    println!("|{:-<48}|{:->11}:|{:->11}:|{:->8}:|", "", "", "", "");
    let wanted = std::env::args().nth(1).unwrap_or_default();
    for case in cases.iter_mut().filter(|case| case.name.contains(&wanted)) {
        time(case);
    }
    if let Ok(load) = std::fs::read_to_string("/proc/loadavg") {
        println!("\nThe least of many turns; load of the machine at the end: {}", load.trim());
    }
}
