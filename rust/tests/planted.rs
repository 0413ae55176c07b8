//! The comparison itself: it finds a difference that is planted, and makes the list that shows it small.

mod common;

use common::calls::List;
use common::lists::list;
use common::shrink::{difference, report, shrink};
use jeddyspangle::model::Session;
use jeddyspangle::*;

/// It files by the clock name, so hour 4 of a long day reads as hour 3.
const BY_NAME: u8 = 0;
/// It has no place for hour 25.
const NO_LAST_HOUR: u8 = 1;

/// The model with a fault.
#[derive(Clone)]
struct Planted<const FAULT: u8> {
    session: Session,
    long: bool,
}

impl<const FAULT: u8> Exchange for Planted<FAULT> {
    fn opened(date: Date) -> (Result<(), Refusal>, Self) {
        let (answer, session) = Session::opened(date);
        (answer, Planted { session, long: Session::hours(date) == Ok(25) })
    }
    fn hours(date: Date) -> Result<u32, Refusal> {
        Session::hours(date)
    }
    fn clock(date: Date, hour: u32) -> Result<Clock, Refusal> {
        Session::clock(date, hour)
    }
    fn hour_named(date: Date, clock: Clock) -> Result<u32, Refusal> {
        Session::hour_named(date, clock)
    }
    fn read(message: &[u8]) -> Result<Fields, Refusal> {
        Session::read(message)
    }
    fn write(fields: &Fields, buffer: &mut [u8]) -> Result<usize, Refusal> {
        Session::write(fields, buffer)
    }
    fn register(&mut self, unit: Unit) -> Result<(), Refusal> {
        self.session.register(unit)
    }
    fn unavailability(&mut self, unit: u32, energies: &Energies) -> Result<(), Refusal> {
        self.session.unavailability(unit, energies)
    }
    fn capacity(&mut self, capacities: &Capacities) -> Result<(), Refusal> {
        self.session.capacity(capacities)
    }
    fn rights(&mut self, agent: u32, purchase: bool, energies: &Energies) -> Result<(), Refusal> {
        self.session.rights(agent, purchase, energies)
    }
    fn loss(&mut self, border: u32, loss: u32) -> Result<(), Refusal> {
        self.session.loss(border, loss)
    }
    fn lodge(&mut self, message: &[u8]) -> Result<LodgingNumber, Refusal> {
        self.session.lodge(message)
    }
    fn annul(&mut self, key: Key) -> Result<(), Refusal> {
        self.session.annul(key)
    }
    fn close(&mut self) -> Result<(), Refusal> {
        self.session.close()
    }
    fn clear(&mut self) -> Result<Steps, Refusal> {
        self.session.clear()
    }
    fn verdict(&self, number: u32) -> Result<Verdict, Refusal> {
        self.session.verdict(number)
    }
    fn matched(&self, unit: u32, hour: u32) -> Result<u32, Refusal> {
        let by_name = FAULT == BY_NAME && self.long && hour == 4;
        self.session.matched(unit, if by_name { 3 } else { hour })
    }
    fn executed(&self, unit: u32, hour: u32) -> Result<u32, Refusal> {
        self.session.executed(unit, hour)
    }
    fn market_balance(&self, border: u32, hour: u32) -> Result<i64, Refusal> {
        self.session.market_balance(border, hour)
    }
    fn bilateral_balance(&self, border: u32, hour: u32) -> Result<i64, Refusal> {
        self.session.bilateral_balance(border, hour)
    }
    fn market_maximum(&self, border: u32, direction: Direction, hour: u32) -> Result<Option<i64>, Refusal> {
        self.session.market_maximum(border, direction, hour)
    }
    fn bilateral_maximum(&self, border: u32, direction: Direction, hour: u32) -> Result<Option<i64>, Refusal> {
        self.session.bilateral_maximum(border, direction, hour)
    }
    fn price(&self, hour: u32) -> Result<u32, Refusal> {
        let price = self.session.price(hour);
        assert!(FAULT != NO_LAST_HOUR || hour != 25 || price.is_err(), "no hour {hour}");
        price
    }
}

/// The first list that shows a fault, with the report of it.
fn found<const FAULT: u8>() -> (List, String) {
    let differs = |seed: &u64| difference::<Planted<FAULT>, Session>(&list(*seed)).is_some();
    let seed = (0..500).find(differs).expect("500 lists and no difference");
    let big = list(seed);
    let words = report::<Planted<FAULT>, Session>(seed, &big);
    println!("{words}");
    (shrink(&big, |list| difference::<Planted<FAULT>, Session>(list).is_some()), words)
}

#[test]
fn a_planted_difference_is_found_and_made_small() {
    // Two units, a sale and a purchase, closing, clearing, the query: seven calls are the least that show it.
    let (small, words) = found::<BY_NAME>();
    assert!(small.calls.len() <= 7, "{} calls:\n{small}", small.calls.len());
    assert!(words.contains("matched") && words.contains("open "), "{words}");
}

#[test]
fn a_planted_panic_is_found_and_made_small() {
    let (small, words) = found::<NO_LAST_HOUR>();
    assert!(small.calls.len() <= 3, "{} calls:\n{small}", small.calls.len());
    assert!(words.contains("panic: no hour 25"), "{words}");
}
