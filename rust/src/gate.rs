//! The proved gate with Rust's types.

use crate::exchange::Exchange;
use crate::ffi::{self, Response};
use crate::types::*;

/// A session of the proved gate: one delivery day from first lodgement to border balances.
///
/// Every call is carried out or refused by the first row of document 01's table that applies; a refused call changes
/// nothing, and nothing has to be tested before a call. Hours are numbers, 1 to 23, 24 or 25, never clock names. Energies
/// are tenths of MWh, prices hundredths of a euro per MWh.
///
/// # A long day
///
/// On 2006-10-29 hours 3 and 4 are both named two o'clock, and each keeps its own energy.
///
/// ```
/// use jeddyspangle::{Capacities, Date, Direction, Energies, Fields, Gate, Key, Refusal, Steps, Unit, Verdict};
///
/// let day = Date::new(2006, 10, 29);
/// assert_eq!(Gate::hours(day)?, 25);
/// assert_eq!(Gate::clock(day, 3)?.name, 2);
/// assert_eq!(Gate::clock(day, 4)?.name, 2);
/// assert!(Gate::clock(day, 4)?.second);
///
/// let mut gate = Gate::open(day)?;
/// let plant = Unit { number: 1, agent: 1, border: 0, purchase: false, maximum: 300, legacy: false, rights: false };
/// let exporter = Unit { number: 7, agent: 7, border: 1, purchase: true, maximum: 200, legacy: false, rights: false };
/// gate.register(plant)?;
/// gate.register(exporter)?;
/// assert_eq!(gate.register(plant), Err(Refusal::Taken));
///
/// // A notice of this day has 25 energies.
/// let line = |hours| Capacities::none().with(1, Direction::Export, Energies::flat(100, hours));
/// assert_eq!(gate.capacity(&line(24)), Err(Refusal::Hour));
/// gate.capacity(&line(25))?;
///
/// let offer = |unit| Fields::of(Key { execution: false, default: false, unit, contract: 0 });
/// let mut buffer = [0; jeddyspangle::LONGEST_MESSAGE];
/// let length = Gate::write(&offer(1).with(3, 200, 3000).with(4, 95, 3500), &mut buffer)?;
/// assert_eq!(gate.lodge(&buffer[..length])?.0, 1);
///
/// // Document 01's first figure: unit 7, 120 at 4,500 in hour 3 and 95 at 4,400 in hour 4.
/// let message = [0x10, 0, 0x0e, 0, 0, 0x60, 0, 0, 0, 0x3c, 0x11, 0x94, 0, 0x2f, 0x91, 0x30];
/// assert_eq!(gate.lodge(&message)?.0, 2);
///
/// gate.close()?;
/// assert_eq!(gate.verdict(2)?, Verdict::Accepted);
/// assert_eq!(gate.lodge(&message), Err(Refusal::Gate));
///
/// // The line carries 100 in each hour: hour 3 is cut in one step, hour 4 stays whole.
/// assert_eq!(gate.clear()?, Steps(1));
/// assert_eq!((gate.matched(7, 3)?, gate.matched(7, 4)?), (100, 95));
/// assert_eq!((gate.price(3)?, gate.price(4)?), (3000, 3500));
/// assert_eq!(gate.market_maximum(1, Direction::Export, 3)?, Some(100));
/// assert_eq!(gate.market_maximum(1, Direction::Import, 3)?, None);
/// assert_eq!(gate.price(26), Err(Refusal::Hour));
/// # Ok::<(), Refusal>(())
/// ```
#[derive(Clone)]
pub struct Gate {
    session: Box<ffi::Session>,
}

impl std::fmt::Debug for Gate {
    fn fmt(&self, f: &mut std::fmt::Formatter<'_>) -> std::fmt::Result {
        f.debug_struct("Gate").finish_non_exhaustive()
    }
}

/// The refusal of a row of the table.
fn refusal(row: u32, hour: u32) -> Refusal {
    let refusal = match row {
        1 => Refusal::Date,
        2 => Refusal::Gate,
        3 => Refusal::Form,
        4 => Refusal::Hour,
        5 => Refusal::Range,
        6 => Refusal::Unit,
        7 => Refusal::Taken,
        8 => Refusal::Second,
        9 => Refusal::Full,
        10..=12 => Refusal::Limit { limit: limit(row), hour },
        13 => Refusal::Absent,
        14 => Refusal::Short,
        15 if hour == 0 => Refusal::Partner,
        15 => Refusal::Limit { limit: limit(row), hour },
        _ => panic!("the archive refuses with {row}, which the table lacks: it is not of this crate's interface"),
    };
    assert_eq!(refusal.hour(), hour, "an hour beside refusal {row}");
    refusal
}

fn limit(row: u32) -> Limit {
    match row {
        10 => Limit::Maximum,
        11 => Limit::Available,
        12 => Limit::Border,
        15 => Limit::Rights,
        _ => panic!("the archive names limit {row}, which the table lacks: it is not of this crate's interface"),
    }
}

// Each call looks for the kinds that it has, by reference: the gate's answer is not copied, and inline, since a call more costs as much
// as the look. That fields which hold nothing are 0 is part of the interface.

/// The refusal that a response is, if it is none of the kinds that its call has.
fn refused(response: &Response) -> Refusal {
    match *response {
        Response { kind: 1, row, hour, reserved: 0, value: 0, count: 0 } => refusal(row, hour),
        _ => unexpected(response),
    }
}

/// The archive is proved not to answer so. Reached only if it is of another interface than this crate.
fn unexpected(response: &Response) -> ! {
    panic!("the archive answers {response:?}, which this call does not have: it is not of this crate's interface")
}

#[inline]
fn done(response: &Response) -> Result<(), Refusal> {
    match *response {
        Response { kind: 0, row: 0, hour: 0, reserved: 0, value: 0, count: 0 } => Ok(()),
        _ => Err(refused(response)),
    }
}

#[inline]
fn figure(response: &Response) -> Result<i64, Refusal> {
    match *response {
        Response { kind: 6, row: 0, hour: 0, reserved: 0, value, count: 0 } => Ok(value),
        _ => Err(refused(response)),
    }
}

/// A figure that is not below zero.
#[inline]
fn amount(response: &Response) -> Result<u32, Refusal> {
    Ok(u32::try_from(figure(response)?).unwrap_or_else(|_| unexpected(response)))
}

#[inline]
fn maximum(response: &Response) -> Result<Option<i64>, Refusal> {
    match *response {
        Response { kind: 7, row: 0, hour: 0, reserved: 0, value: 0, count: 0 } => Ok(None),
        _ => Ok(Some(figure(response)?)),
    }
}

fn date(date: Date) -> ffi::Date {
    ffi::Date { year: date.year, month: date.month, day: date.day }
}

fn of_count(published: bool, count: usize, energies: [u32; MOST_HOURS]) -> ffi::Published {
    ffi::Published { count, published: published.into(), reserved: 0, reserved2: 0, energies }
}

fn published(direction: &Option<Energies>) -> ffi::Published {
    match direction {
        Some(energies) => of_count(true, energies.count(), *energies.values()),
        None => of_count(false, 0, [0; MOST_HOURS]),
    }
}

impl Gate {
    /// A fresh session of the date, with no units, no notices and no lodgements. Refused as 1.
    ///
    /// ```
    /// use jeddyspangle::{Date, Gate, Refusal};
    /// assert_eq!(Gate::open(Date::new(2006, 2, 29)).unwrap_err(), Refusal::Date);
    /// ```
    pub fn open(day: Date) -> Result<Gate, Refusal> {
        let (answer, gate) = Gate::opened(day);
        answer.map(|()| gate)
    }

    /// The hours of a date: 23, 24 or 25. Refused as 1.
    pub fn hours(day: Date) -> Result<u32, Refusal> {
        amount(&ffi::hours(date(day)))
    }

    /// The clock name of an hour. Refused as 1 or 4.
    pub fn clock(day: Date, hour: u32) -> Result<Clock, Refusal> {
        match ffi::clock(date(day), hour) {
            ffi::ClockName { row: 0, name, second, reserved: 0, reserved2: 0 } => Ok(Clock { name, second: second.into() }),
            ffi::ClockName { row, name, second, .. } => {
                assert!(name == 0 && !bool::from(second), "a clock name beside refusal {row}");
                Err(refusal(row, 0))
            }
        }
    }

    /// The hour of a clock name with its mark. Refused as 1 or 4.
    ///
    /// ```
    /// use jeddyspangle::{Clock, Date, Gate};
    /// let day = Date::new(2006, 10, 29);
    /// assert_eq!(Gate::hour_named(day, Clock { name: 2, second: true }), Ok(4));
    /// ```
    pub fn hour_named(day: Date, clock: Clock) -> Result<u32, Refusal> {
        let clock = ffi::Clock { name: clock.name, second: clock.second.into(), reserved: 0, reserved2: 0 };
        amount(&ffi::hour(date(day), clock))
    }

    /// The fields of a message by itself, whatever the day. Refused as 3, 4 or 5.
    pub fn read(message: &[u8]) -> Result<Fields, Refusal> {
        let ffi::Reading { row, ref fields } = ffi::read(message);
        if row == 0 {
            let ffi::Fields { execution, default, reserved: _, unit, contract, map, energies, prices } = *fields;
            let key = Key { execution: execution.into(), default: default.into(), unit, contract };
            return Ok(Fields { key, map, energies, prices });
        }
        assert!(*fields == ffi::Fields::NONE, "fields beside refusal {row}");
        Err(refusal(row, 0))
    }

    /// The message of the fields into the buffer, and its length; bytes beyond it stay as they are. Refused as 4, 5 or 14,
    /// and then no byte is written.
    ///
    /// ```
    /// use jeddyspangle::{Fields, Gate, Key, Refusal};
    /// let fields = Fields::of(Key { execution: true, default: false, unit: 8, contract: 12 }).with(3, 60, 0);
    /// let mut buffer = [0xff; 12];
    /// assert_eq!(Gate::write(&fields, &mut buffer), Ok(11));
    /// assert_eq!(Gate::read(&buffer[..11]), Ok(fields));
    /// assert_eq!(Gate::write(&fields, &mut buffer[..10]), Err(Refusal::Short));
    /// ```
    pub fn write(fields: &Fields, buffer: &mut [u8]) -> Result<usize, Refusal> {
        let Fields { key, map, energies, prices } = *fields;
        let Key { execution, default, unit, contract } = key;
        let (execution, default) = (execution.into(), default.into());
        let fields = ffi::Fields { execution, default, reserved: 0, unit, contract, map, energies, prices };
        match ffi::write(fields, buffer) {
            ffi::Written { row: 0, reserved: 0, count } => Ok(count),
            ffi::Written { row, count, .. } => {
                assert_eq!(count, 0, "a length beside refusal {row}");
                Err(refusal(row, 0))
            }
        }
    }

    /// Registers a unit. Refused as 2, 5, 7, 8, 9 or 15.
    pub fn register(&mut self, unit: Unit) -> Result<(), Refusal> {
        let Unit { number, agent, border, purchase, maximum, legacy, rights } = unit;
        let (purchase, legacy, rights) = (purchase.into(), legacy.into(), rights.into());
        let unit = ffi::Unit { number, agent, border, maximum, purchase, legacy, rights, reserved: 0 };
        done(&ffi::register(&mut self.session, unit))
    }

    /// An unavailability notice; it replaces the unit's earlier one. Refused as 2, 4, 5 or 6.
    pub fn unavailability(&mut self, unit: u32, energies: &Energies) -> Result<(), Refusal> {
        let notice = ffi::Availability { count: energies.count(), unit, energies: *energies.values() };
        done(&ffi::unavailability(&mut self.session, notice))
    }

    /// A capacity notice; it replaces the one before it, whole. Refused as 2, 4 or 5.
    pub fn capacity(&mut self, capacities: &Capacities) -> Result<(), Refusal> {
        let directions = capacities.directions().each_ref().map(published);
        done(&ffi::capacity(&mut self.session, ffi::Capacities { directions }))
    }

    /// A rights notice of an agent's French units of a side; it replaces the earlier one of the two. Refused as 2, 4, 5 or 6.
    pub fn rights(&mut self, agent: u32, purchase: bool, energies: &Energies) -> Result<(), Refusal> {
        let (count, energies) = (energies.count(), *energies.values());
        let purchase = purchase.into();
        let notice = ffi::Rights { agent, purchase, reserved: 0, reserved2: 0, count, energies, reserved3: 0 };
        done(&ffi::rights(&mut self.session, notice))
    }

    /// Sets the loss of a border's exports, in hundredths of a percent, up to 2,000; it replaces the border's earlier one. Refused as 2
    /// or 5.
    pub fn loss(&mut self, border: u32, loss: u32) -> Result<(), Refusal> {
        done(&ffi::loss(&mut self.session, ffi::Loss { border, loss }))
    }

    /// Lodges a message. Refused as 2, 3, 4, 5, 6, 9, 10, 11, 12 or 15.
    pub fn lodge(&mut self, message: &[u8]) -> Result<LodgingNumber, Refusal> {
        let response = &ffi::lodge(&mut self.session, message);
        match *response {
            Response { kind: 2, row: 0, hour: 0, reserved: 0, value, count: 0 } => {
                Ok(LodgingNumber(u32::try_from(value).unwrap_or_else(|_| unexpected(response))))
            }
            _ => Err(refused(response)),
        }
    }

    /// Annuls the lodgement of a key. Refused as 2, 5, 6 or 13.
    pub fn annul(&mut self, key: Key) -> Result<(), Refusal> {
        let Key { execution, default, unit, contract } = key;
        let (execution, default) = (execution.into(), default.into());
        done(&ffi::annul(&mut self.session, ffi::Key { execution, default, reserved: 0, unit, contract }))
    }

    /// Closes the gate: each standing lodgement gets its verdict. Refused as 2.
    pub fn close(&mut self) -> Result<(), Refusal> {
        done(&ffi::close(&mut self.session))
    }

    /// Clears the day and counts the withdrawal steps. Refused as 2.
    pub fn clear(&mut self) -> Result<Steps, Refusal> {
        let response = &ffi::clear(&mut self.session);
        match *response {
            Response { kind: 3, row: 0, hour: 0, reserved: 0, value: 0, count } => Ok(Steps(count)),
            _ => Err(refused(response)),
        }
    }

    /// The verdict on a lodging number, after closing. Refused as 2 or 13.
    pub fn verdict(&self, number: u32) -> Result<Verdict, Refusal> {
        let response = &ffi::verdict(&self.session, number);
        match *response {
            Response { kind: 0, row: 0, hour: 0, reserved: 0, value: 0, count: 0 } => Ok(Verdict::Accepted),
            Response { kind: 4, row: 0, hour: 0, reserved: 0, value: 0, count: 0 } => Ok(Verdict::Hidden),
            Response { kind: 5, row, hour, reserved: 0, value: 0, count: 0 } => {
                Ok(Verdict::Refused { limit: limit(row), hour })
            }
            _ => Err(refused(response)),
        }
    }

    /// A unit's matched energy in an hour, after clearing. Refused as 2, 4, 5 or 6.
    pub fn matched(&self, unit: u32, hour: u32) -> Result<u32, Refusal> {
        amount(&ffi::matched(&self.session, unit, hour))
    }

    /// A unit's executed energy in an hour, after clearing. Refused as 2, 4, 5 or 6.
    pub fn executed(&self, unit: u32, hour: u32) -> Result<u32, Refusal> {
        amount(&ffi::executed(&self.session, unit, hour))
    }

    /// A border's final market balance in an hour, exports less imports, after clearing. Balances and maxima are counted at the border,
    /// where an export of e counts e × 10,000 / (10,000 + loss), rounded up; a unit's energies are not. Refused as 2, 4 or 5.
    pub fn market_balance(&self, border: u32, hour: u32) -> Result<i64, Refusal> {
        figure(&ffi::market_balance(&self.session, border, hour))
    }

    /// A border's final balance of executions in an hour, exports less imports, after clearing. Refused as 2, 4 or 5.
    pub fn bilateral_balance(&self, border: u32, hour: u32) -> Result<i64, Refusal> {
        figure(&ffi::bilateral_balance(&self.session, border, hour))
    }

    /// The market maximum of a border's direction in an hour, after clearing, none without capacity. It is counted in that
    /// direction: one of imports bounds the market balance negated. Refused as 2, 4 or 5.
    pub fn market_maximum(&self, border: u32, direction: Direction, hour: u32) -> Result<Option<i64>, Refusal> {
        maximum(&ffi::market_maximum(&self.session, border, direction == Direction::Export, hour))
    }

    /// The bilateral maximum of a border's direction in an hour, after clearing, none without capacity, counted in that direction;
    /// it may be below zero, when the market exports more than the capacity since executions import. Refused as 2, 4 or 5.
    pub fn bilateral_maximum(&self, border: u32, direction: Direction, hour: u32) -> Result<Option<i64>, Refusal> {
        maximum(&ffi::bilateral_maximum(&self.session, border, direction == Direction::Export, hour))
    }

    /// An hour's price, after clearing. Refused as 2 or 4.
    pub fn price(&self, hour: u32) -> Result<u32, Refusal> {
        amount(&ffi::price(&self.session, hour))
    }
}

impl From<Gate> for Box<ffi::Session> {
    /// The session as C knows it, to be handed on to C code.
    fn from(gate: Gate) -> Box<ffi::Session> {
        gate.session
    }
}

impl Exchange for Gate {
    fn opened(day: Date) -> (Result<(), Refusal>, Gate) {
        assert!(ffi::matches(), "libgate.a is of another version than this crate");
        let (response, session) = ffi::open(date(day));
        (done(&response), Gate { session })
    }
    fn hours(day: Date) -> Result<u32, Refusal> {
        Gate::hours(day)
    }
    fn clock(day: Date, hour: u32) -> Result<Clock, Refusal> {
        Gate::clock(day, hour)
    }
    fn hour_named(day: Date, clock: Clock) -> Result<u32, Refusal> {
        Gate::hour_named(day, clock)
    }
    fn read(message: &[u8]) -> Result<Fields, Refusal> {
        Gate::read(message)
    }
    fn write(fields: &Fields, buffer: &mut [u8]) -> Result<usize, Refusal> {
        Gate::write(fields, buffer)
    }
    fn register(&mut self, unit: Unit) -> Result<(), Refusal> {
        self.register(unit)
    }
    fn unavailability(&mut self, unit: u32, energies: &Energies) -> Result<(), Refusal> {
        self.unavailability(unit, energies)
    }
    fn capacity(&mut self, capacities: &Capacities) -> Result<(), Refusal> {
        self.capacity(capacities)
    }
    fn rights(&mut self, agent: u32, purchase: bool, energies: &Energies) -> Result<(), Refusal> {
        self.rights(agent, purchase, energies)
    }
    fn loss(&mut self, border: u32, loss: u32) -> Result<(), Refusal> {
        self.loss(border, loss)
    }
    fn lodge(&mut self, message: &[u8]) -> Result<LodgingNumber, Refusal> {
        self.lodge(message)
    }
    fn annul(&mut self, key: Key) -> Result<(), Refusal> {
        self.annul(key)
    }
    fn close(&mut self) -> Result<(), Refusal> {
        self.close()
    }
    fn clear(&mut self) -> Result<Steps, Refusal> {
        self.clear()
    }
    fn verdict(&self, number: u32) -> Result<Verdict, Refusal> {
        self.verdict(number)
    }
    fn matched(&self, unit: u32, hour: u32) -> Result<u32, Refusal> {
        self.matched(unit, hour)
    }
    fn executed(&self, unit: u32, hour: u32) -> Result<u32, Refusal> {
        self.executed(unit, hour)
    }
    fn market_balance(&self, border: u32, hour: u32) -> Result<i64, Refusal> {
        self.market_balance(border, hour)
    }
    fn bilateral_balance(&self, border: u32, hour: u32) -> Result<i64, Refusal> {
        self.bilateral_balance(border, hour)
    }
    fn market_maximum(&self, border: u32, direction: Direction, hour: u32) -> Result<Option<i64>, Refusal> {
        self.market_maximum(border, direction, hour)
    }
    fn bilateral_maximum(&self, border: u32, direction: Direction, hour: u32) -> Result<Option<i64>, Refusal> {
        self.bilateral_maximum(border, direction, hour)
    }
    fn price(&self, hour: u32) -> Result<u32, Refusal> {
        self.price(hour)
    }
}
