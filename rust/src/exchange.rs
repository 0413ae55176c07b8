//! The calls and queries of a session, for the proved gate and the model alike.

use crate::types::*;

/// A call that changes a session, with what it brings.
#[derive(Clone, Copy, Debug)]
pub enum Call<'a> {
    /// Registers a unit.
    Register(Unit),
    /// An unavailability notice of a unit.
    Available(u32, &'a Energies),
    /// A capacity notice.
    Capacity(&'a Capacities),
    /// A rights notice of an agent, for its purchases (else its sales).
    Rights(u32, bool, &'a Energies),
    /// Sets the loss of a border.
    Loss(u32, u32),
    /// Lodges a message.
    Lodge(&'a [u8]),
    /// Annuls the lodgement of a key.
    Annul(Key),
    /// Closes the gate.
    Close,
    /// Clears the day.
    Clear,
}

/// What an accepted call answers.
#[derive(Clone, Copy, Debug, PartialEq, Eq)]
pub enum Accepted {
    /// That it was done.
    Done,
    /// A lodging number.
    Number(LodgingNumber),
    /// A clearing's steps.
    Steps(Steps),
}

/// A session of one delivery day, with every call and query of document 01 and those of document 02 that have landed.
pub trait Exchange: Sized {
    /// A fresh session of the date. Beside a refused date stands the fresh session of 2002-01-01.
    fn opened(date: Date) -> (Result<(), Refusal>, Self);

    /// The hours of a date: 23, 24 or 25.
    fn hours(date: Date) -> Result<u32, Refusal>;

    /// The clock name of an hour.
    fn clock(date: Date, hour: u32) -> Result<Clock, Refusal>;

    /// The hour of a clock name with its mark.
    fn hour_named(date: Date, clock: Clock) -> Result<u32, Refusal>;

    /// The fields of a message, by itself: no day is known here.
    fn read(message: &[u8]) -> Result<Fields, Refusal>;

    /// The message of the fields into the buffer; how many bytes it has. A refused call writes nothing.
    fn write(fields: &Fields, buffer: &mut [u8]) -> Result<usize, Refusal>;

    /// A call of a list on the session that the last one left. What plays lists of calls hands each on here.
    fn call(&mut self, call: Call<'_>) -> Result<Accepted, Refusal> {
        let done = |()| Accepted::Done;
        match call {
            Call::Register(unit) => self.register(unit).map(done),
            Call::Available(unit, energies) => self.unavailability(unit, energies).map(done),
            Call::Capacity(capacities) => self.capacity(capacities).map(done),
            Call::Rights(agent, purchase, energies) => self.rights(agent, purchase, energies).map(done),
            Call::Loss(border, loss) => self.loss(border, loss).map(done),
            Call::Lodge(message) => self.lodge(message).map(Accepted::Number),
            Call::Annul(key) => self.annul(key).map(done),
            Call::Close => self.close().map(done),
            Call::Clear => self.clear().map(Accepted::Steps),
        }
    }

    /// Registers a unit.
    fn register(&mut self, unit: Unit) -> Result<(), Refusal>;

    /// An unavailability notice: the energies that a unit has available.
    fn unavailability(&mut self, unit: u32, energies: &Energies) -> Result<(), Refusal>;

    /// A capacity notice; it replaces the one before it, whole.
    fn capacity(&mut self, capacities: &Capacities) -> Result<(), Refusal>;

    /// A rights notice: the rights of an agent's French units that buy (else of those that sell); it replaces the earlier one for
    /// the two.
    fn rights(&mut self, agent: u32, purchase: bool, energies: &Energies) -> Result<(), Refusal>;

    /// Sets the loss of a border's exports, in hundredths of a percent, up to 2,000; it replaces the border's earlier one.
    fn loss(&mut self, border: u32, loss: u32) -> Result<(), Refusal>;

    /// Lodges a message.
    fn lodge(&mut self, message: &[u8]) -> Result<LodgingNumber, Refusal>;

    /// Annuls the lodgement of a key.
    fn annul(&mut self, key: Key) -> Result<(), Refusal>;

    /// Closes the gate.
    fn close(&mut self) -> Result<(), Refusal>;

    /// Clears the day.
    fn clear(&mut self) -> Result<Steps, Refusal>;

    /// The verdict on a lodging number, after closing.
    fn verdict(&self, number: u32) -> Result<Verdict, Refusal>;

    /// A unit's matched energy in an hour, after clearing.
    fn matched(&self, unit: u32, hour: u32) -> Result<u32, Refusal>;

    /// A unit's executed energy in an hour, after clearing.
    fn executed(&self, unit: u32, hour: u32) -> Result<u32, Refusal>;

    /// A border's final market balance in an hour, exports less imports, after clearing. Balances and maxima are counted at the
    /// border: an export there less its loss.
    fn market_balance(&self, border: u32, hour: u32) -> Result<i64, Refusal>;

    /// A border's final balance of executions in an hour, exports less imports, after clearing.
    fn bilateral_balance(&self, border: u32, hour: u32) -> Result<i64, Refusal>;

    /// The market maximum of a border's direction in an hour, none without capacity, after clearing.
    fn market_maximum(&self, border: u32, direction: Direction, hour: u32) -> Result<Option<i64>, Refusal>;

    /// The bilateral maximum of a border's direction in an hour, none without capacity, after clearing. It may be below zero.
    fn bilateral_maximum(&self, border: u32, direction: Direction, hour: u32) -> Result<Option<i64>, Refusal>;

    /// An hour's price, after clearing.
    fn price(&self, hour: u32) -> Result<u32, Refusal>;
}
