//! The C interface of the proved gate, as `include/gate.h` declares it. All unsafe code of the crate is in this file.
//!
//! Structs are laid out as C lays them out. A C `bool` is a [`Flag`] here, a byte of which every pattern is a value, so that
//! the tests can hand over sessions of random bytes: 0 and 1 are the two that the interface is proved for.
//!
//! No struct has padding ([`Plain`]): where C would leave a gap stands a reserved field, which is not looked at in what is passed
//! and 0 in what is given back and in a session.

use crate::types::MOST_HOURS;

/// A C `bool`. Safe code makes only 0 and 1.
#[repr(transparent)]
#[derive(Clone, Copy, Debug, PartialEq, Eq)]
pub struct Flag(u8);

impl From<bool> for Flag {
    fn from(set: bool) -> Flag {
        Flag(u8::from(set))
    }
}

impl From<Flag> for bool {
    fn from(flag: Flag) -> bool {
        flag.0 != 0
    }
}

/// A date.
#[repr(C)]
#[derive(Clone, Copy, PartialEq, Eq)]
pub struct Date {
    /// The year.
    pub year: u32,
    /// The month.
    pub month: u32,
    /// The day.
    pub day: u32,
}

/// A clock name with its mark.
#[repr(C)]
#[derive(Clone, Copy, PartialEq, Eq)]
pub struct Clock {
    /// The starting local hour.
    pub name: u32,
    /// Marked "second".
    pub second: Flag,
    /// Reserved.
    pub reserved: u8,
    /// Reserved.
    pub reserved2: u16,
}

/// An hour's clock name with row 0, or the refusal table's number.
#[repr(C)]
#[derive(Clone, Copy, PartialEq, Eq)]
pub struct ClockName {
    /// 0, or the refusal table's number.
    pub row: u32,
    /// The starting local hour.
    pub name: u32,
    /// Marked "second".
    pub second: Flag,
    /// Reserved.
    pub reserved: u8,
    /// Reserved.
    pub reserved2: u16,
}

/// A unit.
#[repr(C)]
#[derive(Clone, Copy, PartialEq, Eq)]
pub struct Unit {
    /// Its number.
    pub number: u32,
    /// Its agent.
    pub agent: u32,
    /// Its border.
    pub border: u32,
    /// Its maximum energy.
    pub maximum: u32,
    /// It buys.
    pub purchase: Flag,
    /// The legacy mark.
    pub legacy: Flag,
    /// The mark "with rights".
    pub rights: Flag,
    /// Reserved.
    pub reserved: u8,
}

/// A lodgement's key.
#[repr(C)]
#[derive(Clone, Copy, PartialEq, Eq)]
pub struct Key {
    /// An execution.
    pub execution: Flag,
    /// The default mark.
    pub default: Flag,
    /// Reserved.
    pub reserved: u16,
    /// The unit.
    pub unit: u32,
    /// The contract.
    pub contract: u32,
}

/// A direction of a capacity notice.
#[repr(C)]
#[derive(Clone, Copy, PartialEq, Eq)]
pub struct Published {
    /// How many energies it has.
    pub count: usize,
    /// It is published.
    pub published: Flag,
    /// Reserved.
    pub reserved: u8,
    /// Reserved.
    pub reserved2: u16,
    /// The energies.
    pub energies: [u32; MOST_HOURS],
}

/// A capacity notice: export and import of border 1, of 2, of 3, of 4.
#[repr(C)]
#[derive(Clone, Copy, PartialEq, Eq)]
pub struct Capacities {
    /// The directions.
    pub directions: [Published; 8],
}

/// An unavailability notice.
#[repr(C)]
#[derive(Clone, Copy, PartialEq, Eq)]
pub struct Availability {
    /// How many energies it has.
    pub count: usize,
    /// The unit.
    pub unit: u32,
    /// The energies.
    pub energies: [u32; MOST_HOURS],
}

/// A rights notice.
#[repr(C)]
#[derive(Clone, Copy, PartialEq, Eq)]
pub struct Rights {
    /// The agent.
    pub agent: u32,
    /// Of its purchases.
    pub purchase: Flag,
    /// Reserved.
    pub reserved: u8,
    /// Reserved.
    pub reserved2: u16,
    /// How many energies it has.
    pub count: usize,
    /// The energies.
    pub energies: [u32; MOST_HOURS],
    /// Reserved.
    pub reserved3: u32,
}

/// A border's loss.
#[repr(C)]
#[derive(Clone, Copy, PartialEq, Eq)]
pub struct Loss {
    /// The border.
    pub border: u32,
    /// The loss of its exports, in hundredths of a percent.
    pub loss: u32,
}

/// A message's fields.
#[repr(C)]
#[derive(Clone, Copy, PartialEq, Eq)]
pub struct Fields {
    /// An execution.
    pub execution: Flag,
    /// The default mark.
    pub default: Flag,
    /// Reserved.
    pub reserved: u16,
    /// The unit.
    pub unit: u32,
    /// The contract.
    pub contract: u32,
    /// The hour map, hour 1 at bit 24.
    pub map: u32,
    /// Energies by hour.
    pub energies: [u32; MOST_HOURS],
    /// Prices by hour.
    pub prices: [u32; MOST_HOURS],
}

impl Fields {
    /// Fields that are all 0, as they stand beside a refusal.
    pub const NONE: Fields = Fields {
        execution: Flag(0),
        default: Flag(0),
        reserved: 0,
        unit: 0,
        contract: 0,
        map: 0,
        energies: [0; MOST_HOURS],
        prices: [0; MOST_HOURS],
    };
}

/// What a reader gives.
#[repr(C)]
#[derive(Clone, Copy, PartialEq, Eq)]
pub struct Reading {
    /// 0, or the refusal table's number.
    pub row: u32,
    /// The fields.
    pub fields: Fields,
}

/// What a writer gives.
#[repr(C)]
#[derive(Clone, Copy, PartialEq, Eq)]
pub struct Written {
    /// 0, or the refusal table's number.
    pub row: u32,
    /// Reserved.
    pub reserved: u32,
    /// The bytes written.
    pub count: usize,
}

/// An answer. Its kind says which of the other fields hold something; those that do not are 0.
#[repr(C)]
#[derive(Clone, Copy, Debug, PartialEq, Eq)]
pub struct Response {
    /// 0 accepted, 1 refused, 2 numbered, 3 steps, 4 hidden, 5 limit, 6 figure, 7 absent.
    pub kind: u32,
    /// The table's number of a refusal or a limit.
    pub row: u32,
    /// Its hour.
    pub hour: u32,
    /// Reserved.
    pub reserved: u32,
    /// A lodging number or a figure.
    pub value: i64,
    /// The steps of a clearing.
    pub count: u64,
}

/// What opening gives.
#[repr(C)]
#[derive(Clone, Copy, PartialEq, Eq)]
pub struct Opening {
    /// The answer.
    pub response: Response,
    /// The session.
    pub session: Session,
}

/// A notice that stands in a session.
#[repr(C)]
#[derive(Clone, Copy, PartialEq, Eq)]
pub struct Notice {
    /// It was given.
    pub given: Flag,
    /// Reserved.
    pub reserved: u8,
    /// Reserved.
    pub reserved2: u16,
    /// The energies.
    pub energies: [u32; MOST_HOURS],
}

/// A standing lodgement.
#[repr(C)]
#[derive(Clone, Copy, PartialEq, Eq)]
pub struct Lodgement {
    /// Its key.
    pub key: Key,
    /// Its number.
    pub number: u32,
}

/// A standing lodgement's energies and prices.
#[repr(C)]
#[derive(Clone, Copy, PartialEq, Eq)]
pub struct Energies {
    /// Energies by hour.
    pub energies: [u32; MOST_HOURS],
    /// Prices by hour.
    pub prices: [u32; MOST_HOURS],
}

/// A verdict.
#[repr(C)]
#[derive(Clone, Copy, PartialEq, Eq)]
pub struct Verdict {
    /// The lodgement was accepted.
    pub accepted: Flag,
    /// Reserved.
    pub reserved: u8,
    /// Reserved.
    pub reserved2: u16,
    /// The limit that it passed.
    pub limit: u32,
    /// The hour in which it passed it.
    pub hour: u32,
}

/// A cleared hour.
#[repr(C)]
#[derive(Clone, Copy, PartialEq, Eq)]
pub struct HourFigures {
    /// The price.
    pub price: u32,
    /// Market flows by direction.
    pub market: [u32; 8],
    /// Bilateral flows by direction.
    pub bilateral: [u32; 8],
    /// Market maxima by direction.
    pub maxima: [u32; 8],
    /// Matched energy by the unit's place.
    pub matched: [u32; 64],
    /// Executed energy by the unit's place.
    pub executed: [u32; 64],
}

/// A session. Only the gate's calls change its fields: they are here because C has to know its size.
#[repr(C)]
#[derive(Clone, Copy, PartialEq, Eq)]
pub struct Session {
    /// The delivery day.
    pub date: Date,
    /// Its hours.
    pub hours: u32,
    /// How many units are registered.
    pub enrolled: usize,
    /// The units.
    pub units: [Unit; 64],
    /// Their unavailability notices.
    pub notices: [Notice; 64],
    /// The capacity notice.
    pub capacities: [Notice; 8],
    /// How many lodgements stand.
    pub standing: usize,
    /// The lodgements.
    pub lodgements: [Lodgement; 128],
    /// Their energies and prices.
    pub energies: [Energies; 128],
    /// The last lodging number.
    pub last: u32,
    /// The gate is closed.
    pub closed: Flag,
    /// The day is cleared.
    pub cleared: Flag,
    /// Reserved.
    pub reserved: u16,
    /// The lodgements' verdicts.
    pub verdicts: [Verdict; 128],
    /// The hours' figures.
    pub figures: [HourFigures; 25],
    /// Reserved.
    pub reserved2: u32,
    /// The units' rights.
    pub rights: [Notice; 64],
    /// The losses by border, 0 at home.
    pub losses: [u32; 5],
    /// Reserved.
    pub reserved3: u32,
}

/// A struct of numbers and flags in which no byte is padding: each pattern of bytes is a value of it.
///
/// # Safety
/// The sizes of its fields add up to its own, and they are numbers, flags, or such structs themselves.
pub unsafe trait Plain: Sized {
    /// Its bytes. Two equal histories leave sessions of equal bytes.
    fn bytes(&self) -> &[u8] {
        // SAFETY: the bytes are the struct's, lent as long as it is, and all of them hold something, since none is padding.
        unsafe { std::slice::from_raw_parts((self as *const Self).cast(), std::mem::size_of::<Self>()) }
    }

    /// One in which every byte is the same, its flags too. It is for tests, which then set the fields that they mean.
    ///
    /// # Safety
    /// The interface is proved for flags of 0 and 1: others have to be set before it is passed.
    unsafe fn filled(byte: u8) -> Self {
        let mut plain = std::mem::MaybeUninit::<Self>::uninit();
        // SAFETY: every byte is written, and each pattern of bytes is a value.
        unsafe {
            plain.as_mut_ptr().write_bytes(byte, 1);
            plain.assume_init()
        }
    }
}

const fn size_of_field<T, F>(_: fn(&T) -> &F) -> usize {
    std::mem::size_of::<F>()
}

/// Says of structs, by all their fields, that they are plain, and does not compile where one has padding.
macro_rules! plain {
    ($($name:ident { $($field:ident),* })*) => {$(
        const _: () = assert!(std::mem::size_of::<$name>() == 0 $(+ size_of_field(|x: &$name| &x.$field))*);
        // SAFETY: the assertion before it, and the fields' types, which are numbers, flags, arrays of them, and structs of this list.
        unsafe impl Plain for $name {}
    )*};
}

plain! {
    Date { year, month, day }
    Clock { name, second, reserved, reserved2 }
    ClockName { row, name, second, reserved, reserved2 }
    Unit { number, agent, border, maximum, purchase, legacy, rights, reserved }
    Key { execution, default, reserved, unit, contract }
    Published { count, published, reserved, reserved2, energies }
    Capacities { directions }
    Availability { count, unit, energies }
    Rights { agent, purchase, reserved, reserved2, count, energies, reserved3 }
    Loss { border, loss }
    Fields { execution, default, reserved, unit, contract, map, energies, prices }
    Reading { row, fields }
    Written { row, reserved, count }
    Response { kind, row, hour, reserved, value, count }
    Opening { response, session }
    Notice { given, reserved, reserved2, energies }
    Lodgement { key, number }
    Energies { energies, prices }
    Verdict { accepted, reserved, reserved2, limit, hour }
    HourFigures { price, market, bilateral, maxima, matched, executed }
    Session {
        date, hours, enrolled, units, notices, capacities, standing, lodgements, energies, last, closed, cleared, reserved,
        verdicts, figures, reserved2, rights, losses, reserved3
    }
}

mod declared {
    use super::*;

    extern "C" {
        pub fn gate_version() -> u32;
        pub fn gate_session_size() -> u64;
        pub fn gate_open(date: Date) -> Opening;
        pub fn gate_hours(date: Date) -> Response;
        pub fn gate_clock(date: Date, hour: u32) -> ClockName;
        pub fn gate_hour(date: Date, clock: Clock) -> Response;
        pub fn gate_read(message: *const u8, length: usize) -> Reading;
        pub fn gate_write(fields: Fields, buffer: *mut u8, length: usize) -> Written;
        pub fn gate_register(session: *mut Session, unit: Unit) -> Response;
        pub fn gate_unavailability(session: *mut Session, notice: Availability) -> Response;
        pub fn gate_rights(session: *mut Session, notice: Rights) -> Response;
        pub fn gate_loss(session: *mut Session, loss: Loss) -> Response;
        pub fn gate_capacity(session: *mut Session, notice: Capacities) -> Response;
        pub fn gate_lodge(session: *mut Session, message: *const u8, length: usize) -> Response;
        pub fn gate_annul(session: *mut Session, key: Key) -> Response;
        pub fn gate_close(session: *mut Session) -> Response;
        pub fn gate_clear(session: *mut Session) -> Response;
        pub fn gate_verdict(session: *const Session, number: u32) -> Response;
        pub fn gate_matched(session: *const Session, unit: u32, hour: u32) -> Response;
        pub fn gate_executed(session: *const Session, unit: u32, hour: u32) -> Response;
        pub fn gate_market_balance(session: *const Session, border: u32, hour: u32) -> Response;
        pub fn gate_bilateral_balance(session: *const Session, border: u32, hour: u32) -> Response;
        pub fn gate_market_maximum(session: *const Session, border: u32, export: bool, hour: u32) -> Response;
        pub fn gate_bilateral_maximum(session: *const Session, border: u32, export: bool, hour: u32) -> Response;
        pub fn gate_price(session: *const Session, hour: u32) -> Response;
    }
}

// The functions below hand on to C what Rust's references already promise: a session that is there, whole, lent to nobody
// else, and bytes that are there up to their length. The interface asks for nothing more, so none of them has a condition.

/// The version of `include/gate.h` that these declarations are of (`GATE_VERSION` there).
pub const VERSION: u32 = 4;

/// Whether the archive that is linked is of this version, with sessions of this size.
pub fn matches() -> bool {
    // SAFETY: nothing is passed, and numbers are given back.
    let (version, size) = unsafe { (declared::gate_version(), declared::gate_session_size()) };
    version == VERSION && size == std::mem::size_of::<Session>() as u64
}

/// Opens the session of a date.
pub fn open(date: Date) -> (Response, Box<Session>) {
    // SAFETY: the date is passed by value, and nothing is lent.
    let opening = unsafe { declared::gate_open(date) };
    (opening.response, Box::new(opening.session))
}

/// The hours of a date.
pub fn hours(date: Date) -> Response {
    // SAFETY: the date is passed by value, and nothing is lent.
    unsafe { declared::gate_hours(date) }
}

/// The clock name of an hour of a date.
pub fn clock(date: Date, hour: u32) -> ClockName {
    // SAFETY: both are passed by value, and nothing is lent.
    unsafe { declared::gate_clock(date, hour) }
}

/// The hour of a clock name of a date.
pub fn hour(date: Date, clock: Clock) -> Response {
    // SAFETY: both are passed by value, and nothing is lent.
    unsafe { declared::gate_hour(date, clock) }
}

/// A message's fields.
pub fn read(message: &[u8]) -> Reading {
    // SAFETY: the pointer and the length are a slice's, lent for the call, and the gate reads within it.
    unsafe { declared::gate_read(message.as_ptr(), message.len()) }
}

/// The message of some fields.
pub fn write(fields: Fields, buffer: &mut [u8]) -> Written {
    // SAFETY: the pointer and the length are a slice's, lent to this call alone, and the gate writes within it.
    unsafe { declared::gate_write(fields, buffer.as_mut_ptr(), buffer.len()) }
}

/// Registers a unit.
pub fn register(session: &mut Session, unit: Unit) -> Response {
    // SAFETY: the session is a reference's, lent to this call alone.
    unsafe { declared::gate_register(session, unit) }
}

/// An unavailability notice.
pub fn unavailability(session: &mut Session, notice: Availability) -> Response {
    // SAFETY: the session is a reference's, lent to this call alone.
    unsafe { declared::gate_unavailability(session, notice) }
}

/// A rights notice.
pub fn rights(session: &mut Session, notice: Rights) -> Response {
    // SAFETY: the session is a reference's, lent to this call alone.
    unsafe { declared::gate_rights(session, notice) }
}

/// A border's loss.
pub fn loss(session: &mut Session, loss: Loss) -> Response {
    // SAFETY: the session is a reference's, lent to this call alone.
    unsafe { declared::gate_loss(session, loss) }
}

/// A capacity notice.
pub fn capacity(session: &mut Session, notice: Capacities) -> Response {
    // SAFETY: the session is a reference's, lent to this call alone.
    unsafe { declared::gate_capacity(session, notice) }
}

/// Lodges a message.
pub fn lodge(session: &mut Session, message: &[u8]) -> Response {
    // SAFETY: the session is a reference's, lent to this call alone; the pointer and the length are a slice's.
    unsafe { declared::gate_lodge(session, message.as_ptr(), message.len()) }
}

/// Annuls a lodgement.
pub fn annul(session: &mut Session, key: Key) -> Response {
    // SAFETY: the session is a reference's, lent to this call alone.
    unsafe { declared::gate_annul(session, key) }
}

/// Closes the gate.
pub fn close(session: &mut Session) -> Response {
    // SAFETY: the session is a reference's, lent to this call alone.
    unsafe { declared::gate_close(session) }
}

/// Clears the day.
pub fn clear(session: &mut Session) -> Response {
    // SAFETY: the session is a reference's, lent to this call alone.
    unsafe { declared::gate_clear(session) }
}

/// A lodging number's verdict.
pub fn verdict(session: &Session, number: u32) -> Response {
    // SAFETY: the session is a reference's, lent for the call, and the gate only reads it.
    unsafe { declared::gate_verdict(session, number) }
}

/// A unit's matched energy.
pub fn matched(session: &Session, unit: u32, hour: u32) -> Response {
    // SAFETY: the session is a reference's, lent for the call, and the gate only reads it.
    unsafe { declared::gate_matched(session, unit, hour) }
}

/// A unit's executed energy.
pub fn executed(session: &Session, unit: u32, hour: u32) -> Response {
    // SAFETY: the session is a reference's, lent for the call, and the gate only reads it.
    unsafe { declared::gate_executed(session, unit, hour) }
}

/// A border's market balance.
pub fn market_balance(session: &Session, border: u32, hour: u32) -> Response {
    // SAFETY: the session is a reference's, lent for the call, and the gate only reads it.
    unsafe { declared::gate_market_balance(session, border, hour) }
}

/// A border's bilateral balance.
pub fn bilateral_balance(session: &Session, border: u32, hour: u32) -> Response {
    // SAFETY: the session is a reference's, lent for the call, and the gate only reads it.
    unsafe { declared::gate_bilateral_balance(session, border, hour) }
}

/// The market maximum of a border's direction.
pub fn market_maximum(session: &Session, border: u32, export: bool, hour: u32) -> Response {
    // SAFETY: the session is a reference's, lent for the call, and the gate only reads it.
    unsafe { declared::gate_market_maximum(session, border, export, hour) }
}

/// The bilateral maximum of a border's direction.
pub fn bilateral_maximum(session: &Session, border: u32, export: bool, hour: u32) -> Response {
    // SAFETY: the session is a reference's, lent for the call, and the gate only reads it.
    unsafe { declared::gate_bilateral_maximum(session, border, export, hour) }
}

/// An hour's price.
pub fn price(session: &Session, hour: u32) -> Response {
    // SAFETY: the session is a reference's, lent for the call, and the gate only reads it.
    unsafe { declared::gate_price(session, hour) }
}

impl Session {
    /// How many bytes a session has.
    pub const SIZE: usize = std::mem::size_of::<Session>();

    /// Sets a byte of the session. It is for tests: no call leaves a session that they make so.
    ///
    /// # Safety
    /// The calls are proved for sessions whose flags are 0 or 1, and for no other; `mask_flags` makes them so.
    pub unsafe fn set_byte(&mut self, at: usize, byte: u8) {
        assert!(at < Session::SIZE, "a session has {} bytes", Session::SIZE);
        // SAFETY: the byte lies within the session, which is lent to this call alone, and every pattern of bytes is a
        // session to Rust, since its fields are numbers.
        unsafe { (self as *mut Session).cast::<u8>().add(at).write(byte) }
    }

    /// Sets every flag to 0 or 1, by its lowest bit.
    pub fn mask_flags(&mut self) {
        let mask = |flag: &mut Flag| flag.0 &= 1;
        mask(&mut self.closed);
        mask(&mut self.cleared);
        for unit in &mut self.units {
            mask(&mut unit.purchase);
            mask(&mut unit.legacy);
            mask(&mut unit.rights);
        }
        for notice in self.notices.iter_mut().chain(&mut self.capacities).chain(&mut self.rights) {
            mask(&mut notice.given);
        }
        for lodgement in &mut self.lodgements {
            mask(&mut lodgement.key.execution);
            mask(&mut lodgement.key.default);
        }
        for verdict in &mut self.verdicts {
            mask(&mut verdict.accepted);
        }
    }
}
