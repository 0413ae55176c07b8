//! The session: units and notices, lodging and annulling, closing, queries.

use super::clearing::{Clearing, Figures};
use super::{calendar, message};
use crate::exchange::Exchange;
use crate::types::*;

/// The energies of the hours of a day, those beyond its last hour 0.
pub(super) type Hours = [u32; MOST_HOURS];

/// The border at which there are rights.
const FRANCE: u32 = 1;

/// Without a notice the rights are 0.
const NO_RIGHTS: Hours = [0; MOST_HOURS];

/// The last rights notice of an agent and side.
#[derive(Clone)]
struct Held {
    agent: u32,
    purchase: bool,
    hours: Hours,
}

/// A registered unit with its last unavailability notice.
#[derive(Clone)]
pub(super) struct Registered {
    pub unit: Unit,
    pub available: Option<Hours>,
}

/// A standing lodgement.
#[derive(Clone)]
pub(super) struct Lodgement {
    pub key: Key,
    /// The place of its unit.
    pub place: usize,
    pub number: u32,
    /// A normal lodgement that agrees in the rest of the key stands beside this default one.
    hidden: bool,
    pub energies: Hours,
    pub prices: Hours,
    pub verdict: Verdict,
}

/// A session in plain Rust.
#[derive(Clone)]
pub struct Session {
    hours: usize,
    /// Unit numbers by place, apart from the units so that one is found quickly.
    unit_numbers: Vec<u32>,
    units: Vec<Registered>,
    /// Export and import of border 1, of 2, of 3, of 4.
    capacities: [Option<Hours>; 8],
    rights: Vec<Held>,
    /// By border, 0 at home.
    losses: [u32; 5],
    /// Keys by place, likewise; the order of the lodgements is of no meaning.
    packed: Vec<u64>,
    lodgements: Vec<Lodgement>,
    last_number: u32,
    closed: bool,
    figures: Option<Vec<Figures>>,
}

/// A key as one number.
fn pack(key: &Key) -> u64 {
    u64::from(key.execution) << 33 | u64::from(key.default) << 32 | u64::from(key.unit) << 16 | u64::from(key.contract)
}

fn in_range(number: u32) -> bool {
    (1..=65_535).contains(&number)
}

/// The first limit, in the table's order, that a named hour's sum passes, with its lowest hour.
/// `sums` is 0 in the hours not named, and 0 passes no limit.
fn passed(sums: &Hours, limits: [Option<&Hours>; 4]) -> Option<(Limit, u32)> {
    for (limit, energies) in [Limit::Maximum, Limit::Available, Limit::Border, Limit::Rights].into_iter().zip(limits) {
        if let Some(energies) = energies {
            if let Some(hour) = (0..MOST_HOURS).find(|hour| sums[*hour] > energies[*hour]) {
                return Some((limit, hour as u32 + 1));
            }
        }
    }
    None
}

impl Session {
    fn fresh(hours: usize) -> Session {
        Session {
            hours,
            unit_numbers: Vec::with_capacity(MOST_UNITS),
            units: Vec::with_capacity(MOST_UNITS),
            capacities: [None; 8],
            rights: Vec::new(),
            losses: [0; 5],
            packed: Vec::with_capacity(MOST_LODGEMENTS),
            lodgements: Vec::with_capacity(MOST_LODGEMENTS),
            last_number: 0,
            closed: false,
            figures: None,
        }
    }

    /// A fresh session of the date, or the refusal 1.
    pub fn open(date: Date) -> Result<Session, Refusal> {
        Ok(Session::fresh(calendar::hours(date)? as usize))
    }

    fn place_of(&self, unit: u32) -> Option<usize> {
        self.unit_numbers.iter().position(|number| *number == unit)
    }

    fn standing(&self, key: &Key) -> Option<usize> {
        let packed = pack(key);
        self.packed.iter().position(|other| *other == packed)
    }

    /// The sum of the two capacities of a border, by hour, where both are published.
    fn border_sum(&self, border: u32) -> Option<Hours> {
        if border == 0 {
            return None;
        }
        let first = (border as usize - 1) * 2;
        let (export, import) = (self.capacities[first].as_ref()?, self.capacities[first + 1].as_ref()?);
        Some(std::array::from_fn(|hour| export[hour] + import[hour]))
    }

    /// The rights of a French unit's agent on its side, where they were notified.
    fn rights_of(&self, unit: &Unit) -> Option<&Hours> {
        let its = |held: &&Held| (held.agent, held.purchase) == (unit.agent, unit.purchase);
        self.rights.iter().find(its).map(|held| &held.hours)
    }

    /// What a sum in the named hours passes of a unit's limits: of all of them, or of its maximum only.
    fn judge(&self, place: usize, sums: &Hours, all: bool) -> Option<(Limit, u32)> {
        let Registered { unit, available } = &self.units[place];
        let maximum = [unit.maximum; MOST_HOURS];
        if !all {
            return passed(sums, [Some(&maximum), None, None, None]);
        }
        let mut border = self.border_sum(unit.border);
        let loss = self.losses[unit.border as usize];
        if let (Some(sum), true) = (&mut border, unit.purchase && loss > 0) {
            for energy in sum.iter_mut() {
                *energy = increased(*energy, loss);
            }
        }
        let mut rights = None;
        if unit.border == FRANCE {
            let held = self.rights_of(unit);
            if unit.rights {
                // A limit of its own, and the border sum whole.
                rights = Some(held.unwrap_or(&NO_RIGHTS));
            } else if let (Some(sum), Some(held)) = (&mut border, held) {
                for (energy, right) in sum.iter_mut().zip(held) {
                    *energy = energy.saturating_sub(*right);
                }
            }
        }
        passed(sums, [Some(&maximum), available.as_ref(), border.as_ref(), rights])
    }

    /// A lodgement's energy in the hours that it names, with that of all unhidden ones of the other kind on its unit.
    fn lodging_sums(&self, fields: &Fields, place: usize) -> Hours {
        let mut sums = fields.energies;
        for other in &self.lodgements {
            if other.place == place && other.key.execution != fields.key.execution && !other.hidden {
                add(&mut sums, &other.energies);
            }
        }
        for (sum, energy) in sums.iter_mut().zip(fields.energies) {
            if energy == 0 {
                *sum = 0;
            }
        }
        sums
    }

    /// The refusal of a figure's hour: 2 before clearing, 4 outside the day.
    fn figures_of(&self, hour: u32) -> Result<&Figures, Refusal> {
        let figures = self.figures.as_ref().ok_or(Refusal::Gate)?;
        if hour == 0 {
            return Err(Refusal::Hour);
        }
        figures.get(hour as usize - 1).ok_or(Refusal::Hour)
    }

    fn place_asked(&self, unit: u32) -> Result<usize, Refusal> {
        if !in_range(unit) {
            return Err(Refusal::Range);
        }
        self.place_of(unit).ok_or(Refusal::Unit)
    }

    fn border_asked(border: u32) -> Result<usize, Refusal> {
        if (1..=4).contains(&border) {
            Ok(border as usize - 1)
        } else {
            Err(Refusal::Range)
        }
    }

    fn still_open(&self) -> Result<(), Refusal> {
        if self.closed {
            Err(Refusal::Gate)
        } else {
            Ok(())
        }
    }

    /// The energies of a notice of the day's hours, each still to be judged.
    fn notice(&self, energies: &Energies) -> Result<Hours, Refusal> {
        if energies.count() != self.hours {
            return Err(Refusal::Hour);
        }
        let mut hours = *energies.values();
        hours[self.hours..].fill(0);
        Ok(hours)
    }
}

/// The border sum of a unit that brings the losses too, rounded down.
fn increased(sum: u32, loss: u32) -> u32 {
    // What comes on top of the whole sum is its loss, rounded down.
    sum + (u64::from(sum) * u64::from(loss) / 10_000) as u32
}

/// Adds hour by hour.
fn add(sums: &mut Hours, energies: &Hours) {
    for (sum, energy) in sums.iter_mut().zip(energies) {
        *sum += energy;
    }
}

fn energies_fit(hours: &Hours) -> bool {
    hours.iter().all(|energy| *energy <= LARGEST_ENERGY)
}

impl Exchange for Session {
    fn opened(date: Date) -> (Result<(), Refusal>, Session) {
        match calendar::hours(date) {
            Ok(hours) => (Ok(()), Session::fresh(hours as usize)),
            // 2002-01-01 is a plain day.
            Err(refusal) => (Err(refusal), Session::fresh(24)),
        }
    }

    fn hours(date: Date) -> Result<u32, Refusal> {
        calendar::hours(date)
    }

    fn clock(date: Date, hour: u32) -> Result<Clock, Refusal> {
        calendar::clock(date, hour)
    }

    fn hour_named(date: Date, clock: Clock) -> Result<u32, Refusal> {
        calendar::hour_named(date, clock)
    }

    fn read(bytes: &[u8]) -> Result<Fields, Refusal> {
        message::read(bytes)
    }

    fn write(fields: &Fields, buffer: &mut [u8]) -> Result<usize, Refusal> {
        message::write(fields, buffer)
    }

    fn register(&mut self, unit: Unit) -> Result<(), Refusal> {
        self.still_open()?;
        if !in_range(unit.number)
            || !in_range(unit.agent)
            || unit.border > 4
            || unit.maximum > LARGEST_ENERGY
            || (unit.legacy && unit.border == 0)
            || (unit.rights && unit.border != FRANCE)
        {
            return Err(Refusal::Range);
        }
        if self.place_of(unit.number).is_some() {
            return Err(Refusal::Taken);
        }
        let beside = |rights: bool| {
            let place = |unit: &Unit| (unit.agent, unit.border, unit.purchase, unit.rights);
            self.units.iter().any(|other| place(&other.unit) == place(&Unit { rights, ..unit }))
        };
        if unit.border != 0 && beside(unit.rights) {
            return Err(Refusal::Second);
        }
        if self.units.len() == MOST_UNITS {
            return Err(Refusal::Full);
        }
        if unit.rights && !beside(false) {
            return Err(Refusal::Partner);
        }
        self.unit_numbers.push(unit.number);
        self.units.push(Registered { unit, available: None });
        Ok(())
    }

    fn unavailability(&mut self, unit: u32, energies: &Energies) -> Result<(), Refusal> {
        self.still_open()?;
        let hours = self.notice(energies)?;
        if !in_range(unit) || !energies_fit(&hours) {
            return Err(Refusal::Range);
        }
        let place = self.place_of(unit).ok_or(Refusal::Unit)?;
        self.units[place].available = Some(hours);
        Ok(())
    }

    fn capacity(&mut self, capacities: &Capacities) -> Result<(), Refusal> {
        self.still_open()?;
        let mut given = [None; 8];
        for (place, direction) in given.iter_mut().zip(capacities.directions()) {
            if let Some(energies) = direction {
                *place = Some(self.notice(energies)?);
            }
        }
        if !given.iter().flatten().all(energies_fit) {
            return Err(Refusal::Range);
        }
        self.capacities = given;
        Ok(())
    }

    fn rights(&mut self, agent: u32, purchase: bool, energies: &Energies) -> Result<(), Refusal> {
        self.still_open()?;
        let hours = self.notice(energies)?;
        if !in_range(agent) || !energies_fit(&hours) {
            return Err(Refusal::Range);
        }
        let french = |unit: &Unit| (unit.agent, unit.border, unit.purchase) == (agent, FRANCE, purchase);
        if !self.units.iter().any(|registered| french(&registered.unit)) {
            return Err(Refusal::Unit);
        }
        self.rights.retain(|held| (held.agent, held.purchase) != (agent, purchase));
        self.rights.push(Held { agent, purchase, hours });
        Ok(())
    }

    fn loss(&mut self, border: u32, loss: u32) -> Result<(), Refusal> {
        self.still_open()?;
        let place = Session::border_asked(border)? + 1;
        if loss > LARGEST_LOSS {
            return Err(Refusal::Range);
        }
        self.losses[place] = loss;
        Ok(())
    }

    fn lodge(&mut self, bytes: &[u8]) -> Result<LodgingNumber, Refusal> {
        self.still_open()?;
        let fields = message::read_within(bytes, self.hours)?;
        let key = fields.key;
        let place = self.place_of(key.unit).ok_or(Refusal::Unit)?;
        if key.execution && self.units[place].unit.border == 0 {
            return Err(Refusal::Unit);
        }
        let standing = self.standing(&key);
        let no_room = standing.is_none() && self.lodgements.len() == MOST_LODGEMENTS;
        if no_room || self.last_number == MOST_ACCEPTED {
            return Err(Refusal::Full);
        }
        let found = if key.default {
            self.judge(place, &fields.energies, false)
        } else {
            self.judge(place, &self.lodging_sums(&fields, place), true)
        };
        if let Some((limit, hour)) = found {
            return Err(Refusal::Limit { limit, hour });
        }
        let twin = self.standing(&Key { default: !key.default, ..key });
        if let (false, Some(twin)) = (key.default, twin) {
            self.lodgements[twin].hidden = true;
        }
        self.last_number += 1;
        let lodgement = Lodgement {
            key,
            place,
            number: self.last_number,
            hidden: key.default && twin.is_some(),
            energies: fields.energies,
            prices: fields.prices,
            verdict: Verdict::Hidden,
        };
        match standing {
            Some(index) => self.lodgements[index] = lodgement,
            None => {
                self.packed.push(pack(&key));
                self.lodgements.push(lodgement);
            }
        }
        Ok(LodgingNumber(self.last_number))
    }

    fn annul(&mut self, key: Key) -> Result<(), Refusal> {
        self.still_open()?;
        if !message::key_fits(&key) {
            return Err(Refusal::Range);
        }
        let place = self.place_of(key.unit).ok_or(Refusal::Unit)?;
        if key.execution && self.units[place].unit.border == 0 {
            return Err(Refusal::Unit);
        }
        let index = self.standing(&key).ok_or(Refusal::Absent)?;
        self.packed.swap_remove(index);
        self.lodgements.swap_remove(index);
        if !key.default {
            if let Some(twin) = self.standing(&Key { default: true, ..key }) {
                self.lodgements[twin].hidden = false;
            }
        }
        Ok(())
    }

    fn close(&mut self) -> Result<(), Refusal> {
        self.still_open()?;
        // From here on they stand by rising number.
        self.lodgements.sort_unstable_by_key(|lodgement| lodgement.number);
        let turns: [fn(&Key) -> bool; 3] =
            [|key| key.execution && !key.default, |key| key.execution && key.default, |key| !key.execution];
        let mut accepted = vec![[0; MOST_HOURS]; self.units.len()];
        for turn in turns {
            for index in (0..self.lodgements.len()).rev() {
                let lodgement = &self.lodgements[index];
                if lodgement.hidden || !turn(&lodgement.key) {
                    continue;
                }
                let place = lodgement.place;
                let mut sums = [0; MOST_HOURS];
                for hour in 0..MOST_HOURS {
                    if lodgement.energies[hour] > 0 {
                        sums[hour] = lodgement.energies[hour] + accepted[place][hour];
                    }
                }
                let verdict = match self.judge(place, &sums, true) {
                    Some((limit, hour)) => Verdict::Refused { limit, hour },
                    None => {
                        add(&mut accepted[place], &lodgement.energies);
                        Verdict::Accepted
                    }
                };
                self.lodgements[index].verdict = verdict;
            }
        }
        self.closed = true;
        Ok(())
    }

    fn clear(&mut self) -> Result<Steps, Refusal> {
        if !self.closed || self.figures.is_some() {
            return Err(Refusal::Gate);
        }
        let mut steps = 0;
        let mut figures = Vec::with_capacity(self.hours);
        let mut clearing = Clearing::default();
        for hour in 0..self.hours {
            let (cleared, taken) = clearing.clear(&self.units, &self.lodgements, &self.capacities, &self.losses, hour);
            steps += taken;
            figures.push(cleared);
        }
        self.figures = Some(figures);
        Ok(Steps(steps))
    }

    fn verdict(&self, number: u32) -> Result<Verdict, Refusal> {
        if !self.closed {
            return Err(Refusal::Gate);
        }
        match self.lodgements.binary_search_by_key(&number, |lodgement| lodgement.number) {
            Ok(index) => Ok(self.lodgements[index].verdict),
            Err(_) => Err(Refusal::Absent),
        }
    }

    fn matched(&self, unit: u32, hour: u32) -> Result<u32, Refusal> {
        let figures = self.figures_of(hour)?;
        Ok(figures.matched[self.place_asked(unit)?])
    }

    fn executed(&self, unit: u32, hour: u32) -> Result<u32, Refusal> {
        let figures = self.figures_of(hour)?;
        Ok(figures.executed[self.place_asked(unit)?])
    }

    fn market_balance(&self, border: u32, hour: u32) -> Result<i64, Refusal> {
        let figures = self.figures_of(hour)?;
        Ok(figures.market[Session::border_asked(border)?])
    }

    fn bilateral_balance(&self, border: u32, hour: u32) -> Result<i64, Refusal> {
        let figures = self.figures_of(hour)?;
        Ok(figures.bilateral[Session::border_asked(border)?])
    }

    fn market_maximum(&self, border: u32, direction: Direction, hour: u32) -> Result<Option<i64>, Refusal> {
        let figures = self.figures_of(hour)?;
        Ok(figures.market_maxima[Session::border_asked(border)?][direction as usize])
    }

    fn bilateral_maximum(&self, border: u32, direction: Direction, hour: u32) -> Result<Option<i64>, Refusal> {
        let figures = self.figures_of(hour)?;
        Ok(figures.bilateral_maxima[Session::border_asked(border)?][direction as usize])
    }

    fn price(&self, hour: u32) -> Result<u32, Refusal> {
        Ok(self.figures_of(hour)?.price)
    }
}
