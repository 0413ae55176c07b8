//! What calls take and answer, the same for the proved gate and for the model.

use std::fmt;

/// The most hours that a day has.
pub const MOST_HOURS: usize = 25;
/// The largest energy, in tenths of MWh.
pub const LARGEST_ENERGY: u32 = 99_999;
/// The highest price, in hundredths of a euro per MWh.
pub const HIGHEST_PRICE: u32 = 18_030;
/// The largest loss of a border, in hundredths of a percent.
pub const LARGEST_LOSS: u32 = 2_000;
/// The most units of a session.
pub const MOST_UNITS: usize = 64;
/// The most lodgements that stand at once.
pub const MOST_LODGEMENTS: usize = 128;
/// The most lodgements that a session accepts.
pub const MOST_ACCEPTED: u32 = 65_535;
/// The length of the longest message, an offer of 25 hours.
pub const LONGEST_MESSAGE: usize = 8 + 4 * MOST_HOURS;

/// The bytes of the calling thread's stack that a call of the proved gate may use.
pub const STACK: usize = 512 * 1024;

/// A date. The gate takes 2002-01-01 to 2099-12-31 and refuses every other value.
#[derive(Clone, Copy, Debug, PartialEq, Eq, Hash)]
pub struct Date {
    /// The year.
    pub year: u32,
    /// The month, from 1.
    pub month: u32,
    /// The day of the month, from 1.
    pub day: u32,
}

impl Date {
    /// The date of these numbers, not judged here.
    pub const fn new(year: u32, month: u32, day: u32) -> Date {
        Date { year, month, day }
    }
}

impl fmt::Display for Date {
    fn fmt(&self, f: &mut fmt::Formatter<'_>) -> fmt::Result {
        write!(f, "{:04}-{:02}-{:02}", self.year, self.month, self.day)
    }
}

/// The clock name of an hour: its starting local hour, and the mark "second" on the later of two equal names.
#[derive(Clone, Copy, Debug, PartialEq, Eq, Hash)]
pub struct Clock {
    /// The starting local hour.
    pub name: u32,
    /// Marked "second".
    pub second: bool,
}

/// The direction in which energy crosses a border.
#[derive(Clone, Copy, Debug, PartialEq, Eq, Hash)]
pub enum Direction {
    /// Out of the country: purchases.
    Export,
    /// Into the country: sales.
    Import,
}

/// A unit as it is registered.
#[derive(Clone, Copy, Debug, PartialEq, Eq, Hash)]
pub struct Unit {
    /// Its number, 1 to 65,535.
    pub number: u32,
    /// Its agent, 1 to 65,535.
    pub agent: u32,
    /// 0 domestic, 1 France, 2 Andorra, 3 Portugal, 4 Morocco.
    pub border: u32,
    /// It buys (else it sells). At a border a purchase is an export, a sale an import.
    pub purchase: bool,
    /// Its maximum energy.
    pub maximum: u32,
    /// A contract older than Law 54/97, at borders 1 to 4 only.
    pub legacy: bool,
    /// Marked "with rights", at border 1 only: beside the agent's unit of that side without them.
    pub rights: bool,
}

/// What tells lodgements apart.
#[derive(Clone, Copy, Debug, PartialEq, Eq, Hash)]
pub struct Key {
    /// A bilateral execution (else an offer).
    pub execution: bool,
    /// The default mark.
    pub default: bool,
    /// The unit's number.
    pub unit: u32,
    /// The contract: 0 for an offer, 1 to 65,535 for an execution.
    pub contract: u32,
}

/// The energies of a notice, one for each hour, as many as the sender gave.
///
/// A notice that is not of the day's hours is refused by the gate as 4, so any count can be held here; of more than 25
/// energies only the count and the first 25 are kept.
#[derive(Clone, Copy, PartialEq, Eq, Hash)]
pub struct Energies {
    count: usize,
    values: [u32; MOST_HOURS],
}

impl Energies {
    /// These energies.
    pub fn new(energies: &[u32]) -> Energies {
        let mut values = [0; MOST_HOURS];
        for (value, energy) in values.iter_mut().zip(energies) {
            *value = *energy;
        }
        Energies { count: energies.len(), values }
    }

    /// The same energy in each of `count` hours.
    pub fn flat(energy: u32, count: usize) -> Energies {
        let mut values = [0; MOST_HOURS];
        values[..count.min(MOST_HOURS)].fill(energy);
        Energies { count, values }
    }

    /// How many energies were given.
    pub fn count(&self) -> usize {
        self.count
    }

    /// The energies by hour; those from `count` on are 0.
    pub fn values(&self) -> &[u32; MOST_HOURS] {
        &self.values
    }
}

impl fmt::Debug for Energies {
    fn fmt(&self, f: &mut fmt::Formatter<'_>) -> fmt::Result {
        write!(f, "{}{:?}", self.count, &self.values[..self.count.min(MOST_HOURS)])
    }
}

/// A capacity notice: four borders in two directions, each absent or published.
#[derive(Clone, Copy, Debug, Default, PartialEq, Eq, Hash)]
pub struct Capacities {
    directions: [Option<Energies>; 8],
}

impl Capacities {
    /// The notice with every direction absent.
    pub fn none() -> Capacities {
        Capacities::default()
    }

    /// This notice with a direction of a border published.
    ///
    /// # Panics
    /// On a border outside 1 to 4: a notice has no place for it.
    pub fn with(mut self, border: u32, direction: Direction, energies: Energies) -> Capacities {
        assert!((1..=4).contains(&border), "a capacity notice covers borders 1 to 4");
        let index = (border as usize - 1) * 2 + usize::from(direction == Direction::Import);
        self.directions[index] = Some(energies);
        self
    }

    /// Export and import of border 1, of 2, of 3, of 4.
    pub fn directions(&self) -> &[Option<Energies>; 8] {
        &self.directions
    }
}

/// What a lodging message says.
#[derive(Clone, Copy, PartialEq, Eq, Hash)]
pub struct Fields {
    /// Whose lodgement it is.
    pub key: Key,
    /// The named hours, 25 bits, hour 1 the highest (bit 24).
    pub map: u32,
    /// Energy by hour, 0 in hours not named.
    pub energies: [u32; MOST_HOURS],
    /// Price by hour, 0 in hours not named and in an execution.
    pub prices: [u32; MOST_HOURS],
}

impl Fields {
    /// A message of this key that names no hour yet.
    pub fn of(key: Key) -> Fields {
        Fields { key, map: 0, energies: [0; MOST_HOURS], prices: [0; MOST_HOURS] }
    }

    /// This message with an hour (1 to 25) named.
    ///
    /// # Panics
    /// On an hour outside 1 to 25: the map has no bit for it.
    pub fn with(mut self, hour: usize, energy: u32, price: u32) -> Fields {
        assert!((1..=MOST_HOURS).contains(&hour), "the hour map has hours 1 to 25");
        self.map |= 1 << (MOST_HOURS - hour);
        self.energies[hour - 1] = energy;
        self.prices[hour - 1] = price;
        self
    }
}

impl fmt::Debug for Fields {
    fn fmt(&self, f: &mut fmt::Formatter<'_>) -> fmt::Result {
        write!(f, "{:?} map {:025b}", self.key, self.map)?;
        for hour in 0..MOST_HOURS {
            let (energy, price) = (self.energies[hour], self.prices[hour]);
            let named = self.map >> (MOST_HOURS - 1 - hour) & 1 == 1;
            if named || energy != 0 || price != 0 {
                write!(f, " {}{}:{}@{}", if named { "" } else { "unnamed " }, hour + 1, energy, price)?;
            }
        }
        Ok(())
    }
}

/// The number that a lodgement takes, from 1.
#[derive(Clone, Copy, Debug, PartialEq, Eq, PartialOrd, Ord, Hash)]
pub struct LodgingNumber(pub u32);

/// The withdrawal steps that clearing made, summed over the hours.
#[derive(Clone, Copy, Debug, PartialEq, Eq, PartialOrd, Ord, Hash)]
pub struct Steps(pub u64);

/// A limit of a unit in an hour.
#[derive(Clone, Copy, Debug, PartialEq, Eq, Hash)]
pub enum Limit {
    /// 10, the unit's maximum.
    Maximum,
    /// 11, its available energy.
    Available,
    /// 12, the sum of its border's two capacities, of a purchase unit raised by the border's loss; of a French unit without rights
    /// less its agent's rights on its side.
    Border,
    /// 15, its agent's rights on its side, of a unit with rights.
    Rights,
}

impl Limit {
    /// Its number in the refusal table.
    pub fn number(self) -> u32 {
        match self {
            Limit::Maximum => 10,
            Limit::Available => 11,
            Limit::Border => 12,
            Limit::Rights => 15,
        }
    }

    /// Its word in the refusal table.
    pub fn word(self) -> &'static str {
        match self {
            Limit::Maximum => "maximum",
            Limit::Available => "available",
            Limit::Border => "border",
            Limit::Rights => "rights",
        }
    }
}

/// What closing said of a lodgement.
#[derive(Clone, Copy, Debug, PartialEq, Eq, Hash)]
pub enum Verdict {
    /// It was accepted.
    Accepted,
    /// A normal lodgement hid it.
    Hidden,
    /// It was refused, for all hours.
    Refused {
        /// The limit that it passed.
        limit: Limit,
        /// The lowest hour in which it passed that limit.
        hour: u32,
    },
}

impl fmt::Display for Verdict {
    fn fmt(&self, f: &mut fmt::Formatter<'_>) -> fmt::Result {
        match self {
            Verdict::Accepted => write!(f, "accepted"),
            Verdict::Hidden => write!(f, "hidden"),
            Verdict::Refused { limit, hour } => {
                write!(f, "limit {} {} hour {}", limit.number(), limit.word(), hour)
            }
        }
    }
}

/// Why a call was refused: the rows of document 01's table "When the gate says no". The first row that applies is given: they
/// stand in the order of their numbers, but 15 after 12.
#[derive(Clone, Copy, Debug, PartialEq, Eq, Hash)]
pub enum Refusal {
    /// 1: not a date in the range.
    Date,
    /// 2: a change after closing; clearing or a verdict before closing; a figure before clearing; closing or clearing twice.
    Gate,
    /// 3: wrong length, form, kind or filling.
    Form,
    /// 4: empty map, hour outside 1 to H, clock name the day lacks, or a notice not of H hours.
    Hour,
    /// 5: a value outside its range, a legacy mark on a domestic unit, or a mark "with rights" on one that is not French.
    Range,
    /// 6: unregistered, or domestic for an execution; no French unit of that agent and side for a rights notice.
    Unit,
    /// 7: unit number registered.
    Taken,
    /// 8: agent has that border (1 to 4) and side; of France once with rights and once without.
    Second,
    /// 9: 64 units; 128 lodgements and none of this key; 65,535 accepted.
    Full,
    /// 10 to 12 and 15: a limit passed.
    Limit {
        /// The limit.
        limit: Limit,
        /// The lowest hour in which it is passed.
        hour: u32,
    },
    /// 15, of registering: a unit with rights whose agent has none without them on that side.
    Partner,
    /// 13: no such key, or lodging number (0 too) not standing at closing.
    Absent,
    /// 14: writer's buffer too small.
    Short,
}

impl Refusal {
    /// Its number in the table.
    pub fn number(self) -> u32 {
        match self {
            Refusal::Date => 1,
            Refusal::Gate => 2,
            Refusal::Form => 3,
            Refusal::Hour => 4,
            Refusal::Range => 5,
            Refusal::Unit => 6,
            Refusal::Taken => 7,
            Refusal::Second => 8,
            Refusal::Full => 9,
            Refusal::Limit { limit, .. } => limit.number(),
            Refusal::Partner => 15,
            Refusal::Absent => 13,
            Refusal::Short => 14,
        }
    }

    /// Its word in the table.
    pub fn word(self) -> &'static str {
        match self {
            Refusal::Date => "date",
            Refusal::Gate => "gate",
            Refusal::Form => "form",
            Refusal::Hour => "hour",
            Refusal::Range => "range",
            Refusal::Unit => "unit",
            Refusal::Taken => "taken",
            Refusal::Second => "second",
            Refusal::Full => "full",
            Refusal::Limit { limit, .. } => limit.word(),
            Refusal::Partner => "rights",
            Refusal::Absent => "absent",
            Refusal::Short => "short",
        }
    }

    /// The lowest hour in which a limit is passed; 0 for every other refusal.
    pub fn hour(self) -> u32 {
        match self {
            Refusal::Limit { hour, .. } => hour,
            _ => 0,
        }
    }
}

impl fmt::Display for Refusal {
    fn fmt(&self, f: &mut fmt::Formatter<'_>) -> fmt::Result {
        write!(f, "refused {} {}", self.number(), self.word())?;
        match self {
            Refusal::Limit { hour, .. } => write!(f, " hour {hour}"),
            _ => Ok(()),
        }
    }
}

impl std::error::Error for Refusal {}
