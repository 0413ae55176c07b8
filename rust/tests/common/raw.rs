//! Calls and queries through the C interface, with any bytes in the reserved fields of what is passed.

use super::calls::{Entry, Query};
use jeddyspangle::ffi::{self, Plain, Response};
use jeddyspangle::*;

/// A struct that is passed, its fields still to be set: those that are not hold this byte.
fn filled<T: Plain>(byte: u8) -> T {
    // SAFETY: the functions below set every flag.
    unsafe { T::filled(byte) }
}

pub fn unit(unit: &Unit, reserved: u8) -> ffi::Unit {
    let mut raw: ffi::Unit = filled(reserved);
    (raw.number, raw.agent, raw.border, raw.maximum) = (unit.number, unit.agent, unit.border, unit.maximum);
    (raw.purchase, raw.legacy, raw.rights) = (unit.purchase.into(), unit.legacy.into(), unit.rights.into());
    raw
}

pub fn available(unit: u32, energies: &Energies, reserved: u8) -> ffi::Availability {
    let mut raw: ffi::Availability = filled(reserved);
    (raw.unit, raw.count, raw.energies) = (unit, energies.count(), *energies.values());
    raw
}

pub fn rights(agent: u32, purchase: bool, energies: &Energies, reserved: u8) -> ffi::Rights {
    let mut raw: ffi::Rights = filled(reserved);
    (raw.agent, raw.purchase) = (agent, purchase.into());
    (raw.count, raw.energies) = (energies.count(), *energies.values());
    raw
}

pub fn published(direction: &Option<Energies>, reserved: u8) -> ffi::Published {
    let mut raw: ffi::Published = filled(reserved);
    let energies = direction.unwrap_or(Energies::new(&[]));
    (raw.published, raw.count, raw.energies) = (direction.is_some().into(), energies.count(), *energies.values());
    raw
}

pub fn key(key: &Key, reserved: u8) -> ffi::Key {
    let mut raw: ffi::Key = filled(reserved);
    (raw.execution, raw.default) = (key.execution.into(), key.default.into());
    (raw.unit, raw.contract) = (key.unit, key.contract);
    raw
}

pub fn fields(fields: &Fields, reserved: u8) -> ffi::Fields {
    let mut raw: ffi::Fields = filled(reserved);
    (raw.execution, raw.default) = (fields.key.execution.into(), fields.key.default.into());
    (raw.unit, raw.contract, raw.map) = (fields.key.unit, fields.key.contract, fields.map);
    (raw.energies, raw.prices) = (fields.energies, fields.prices);
    raw
}

pub fn clock(name: u32, second: bool, reserved: u8) -> ffi::Clock {
    let mut raw: ffi::Clock = filled(reserved);
    (raw.name, raw.second) = (name, second.into());
    raw
}

pub fn asked(session: &ffi::Session, query: Query) -> Response {
    let export = |direction| direction == Direction::Export;
    match query {
        Query::Verdict(number) => ffi::verdict(session, number),
        Query::Matched(unit, hour) => ffi::matched(session, unit, hour),
        Query::Executed(unit, hour) => ffi::executed(session, unit, hour),
        Query::Market(border, hour) => ffi::market_balance(session, border, hour),
        Query::Bilateral(border, hour) => ffi::bilateral_balance(session, border, hour),
        Query::MarketMaximum(border, direction, hour) => ffi::market_maximum(session, border, export(direction), hour),
        Query::BilateralMaximum(border, direction, hour) => ffi::bilateral_maximum(session, border, export(direction), hour),
        Query::Price(hour) => ffi::price(session, hour),
    }
}

/// Makes a call that is not `AskAll`.
pub fn called(session: &mut ffi::Session, call: &Entry, reserved: u8) -> Response {
    match call {
        Entry::Register(one) => ffi::register(session, unit(one, reserved)),
        Entry::Available(unit, energies) => ffi::unavailability(session, available(*unit, energies, reserved)),
        Entry::Capacity(capacities) => {
            let directions = capacities.directions().each_ref().map(|direction| published(direction, reserved));
            ffi::capacity(session, ffi::Capacities { directions })
        }
        Entry::Rights(agent, purchase, energies) => ffi::rights(session, rights(*agent, *purchase, energies, reserved)),
        Entry::Loss(border, loss) => ffi::loss(session, ffi::Loss { border: *border, loss: *loss }),
        Entry::Lodge(message) => ffi::lodge(session, message),
        Entry::Annul(one) => ffi::annul(session, key(one, reserved)),
        Entry::Close => ffi::close(session),
        Entry::Clear => ffi::clear(session),
        Entry::Ask(query) => asked(session, *query),
        Entry::AskAll => unreachable!("asked query by query"),
    }
}
