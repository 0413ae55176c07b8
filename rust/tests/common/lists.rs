//! Random lists of calls.

use super::calls::{Entry, List, Query};
use super::Rng;
use jeddyspangle::model::calendar;
use jeddyspangle::*;

/// A message's bits, packed whatever they are: one that breaks every rule can be made.
pub struct Packer {
    bytes: Vec<u8>,
    bits: usize,
}

impl Packer {
    pub fn new() -> Packer {
        Packer { bytes: Vec::new(), bits: 0 }
    }

    pub fn push(&mut self, value: u32, width: u32) {
        for bit in (0..width).rev() {
            if self.bits.is_multiple_of(8) {
                self.bytes.push(0);
            }
            *self.bytes.last_mut().unwrap() |= ((value >> bit & 1) as u8) << (7 - self.bits % 8);
            self.bits += 1;
        }
    }

    pub fn bytes(self) -> Vec<u8> {
        self.bytes
    }
}

/// The bits of a message with these fields, whether or not they keep the rules.
pub fn packed(form: u32, kind: u32, fields: &Fields) -> Vec<u8> {
    let mut packer = Packer::new();
    packer.push(form, 4);
    packer.push(kind, 2);
    packer.push(u32::from(fields.key.default), 1);
    packer.push(fields.key.unit, 16);
    packer.push(fields.key.contract, 16);
    packer.push(fields.map, 25);
    for hour in 0..MOST_HOURS {
        if fields.map >> (MOST_HOURS - 1 - hour) & 1 == 1 {
            packer.push(fields.energies[hour], 17);
            if kind == 0 {
                packer.push(fields.prices[hour], 15);
            }
        }
    }
    packer.bytes()
}

/// A date: long, short, any of the range, at its ends, or none.
pub fn date(rng: &mut Rng) -> Date {
    let changing = |rng: &mut Rng, month| {
        let year = rng.between(2002, 2099);
        let days = (25..=31).map(|day| Date { year, month, day });
        days.into_iter().find(|date| calendar::hours(*date) != Ok(24)).unwrap()
    };
    match rng.below(100) {
        0..=34 => changing(rng, 10),
        35..=49 => changing(rng, 3),
        50..=89 => Date::new(rng.between(2002, 2099), rng.between(1, 12), rng.between(1, 28)),
        90..=95 => {
            rng.pick(&[Date::new(2002, 1, 1), Date::new(2099, 12, 31), Date::new(2096, 2, 29), Date::new(2006, 10, 31)])
        }
        _ => any_date(rng),
    }
}

/// Three numbers, often near a date.
pub fn any_date(rng: &mut Rng) -> Date {
    let wild = |rng: &mut Rng, near: u32| match rng.below(8) {
        0 => rng.next() as u32,
        1 => 0,
        2 => u32::MAX,
        _ => near,
    };
    let (year, month, day) = (rng.between(1999, 2102), rng.between(0, 13), rng.between(0, 32));
    Date { year: wild(rng, year), month: wild(rng, month), day: wild(rng, day) }
}

/// What a list is about.
#[derive(Clone, Copy, PartialEq)]
enum Theme {
    /// Units, notices and lodgements of every sort.
    Mixed,
    /// Borders with less capacity than is offered, most of them at once.
    Congested,
    /// One border on both sides, so that a step moves the balance by little or nothing.
    Ladder,
    /// More units and lodgements than there is room for.
    Full,
    /// Calls that break a rule.
    Broken,
}

/// A list being made.
struct Maker {
    rng: Rng,
    theme: Theme,
    /// The day's hours.
    hours: u32,
    /// The hours that most lodgements name, 1 to H.
    named: Vec<u32>,
    /// The energies of offers go up to this.
    scale: u32,
    prices: Vec<u32>,
    /// Units that were sent, registered or not.
    units: Vec<Unit>,
    /// Keys that were sent.
    keys: Vec<Key>,
    /// Capacities go up to this share of the scale, in quarters.
    capacity_quarters: u32,
    /// Purchases in a hundred units, by border.
    purchases: [u32; 5],
    contracts: u32,
    /// Calls in a hundred that break a rule.
    broken: u32,
    calls: Vec<Entry>,
}

impl Maker {
    fn register(&mut self) {
        let fresh = match self.theme {
            Theme::Full => self.units.len() as u32 + 1,
            _ => self.rng.between(1, 40),
        };
        let number = if self.rng.chance(3) { self.rng.pick(&[65_535, 65_534, 256, 257]) } else { fresh };
        let agents = match self.theme {
            Theme::Full => 120,
            Theme::Broken => 4,
            _ => 25,
        };
        let border = match self.theme {
            Theme::Ladder => self.rng.pick(&[0, 1, 1, 1]),
            Theme::Congested => self.rng.pick(&[0, 0, 1, 1, 2, 3, 4]),
            _ => self.rng.pick(&[0, 0, 0, 1, 1, 2, 3, 4]),
        };
        let halves = match self.theme {
            Theme::Congested | Theme::Ladder => self.rng.pick(&[2, 3, 4, 6]),
            _ => self.rng.pick(&[1, 2, 2, 3, 4, 4, 6]),
        };
        let maximum = match self.theme {
            Theme::Full if self.rng.chance(90) => LARGEST_ENERGY,
            _ => (self.scale * halves / 2).min(LARGEST_ENERGY),
        };
        let mut unit = Unit {
            number,
            agent: self.rng.between(1, agents),
            border,
            purchase: self.rng.chance(self.purchases[border as usize]),
            maximum,
            legacy: border != 0 && self.rng.chance(22),
            rights: false,
        };
        let marked = match self.theme {
            Theme::Ladder => 8,
            Theme::Congested => 20,
            _ => 35,
        };
        if border == 1 && self.rng.chance(marked) {
            self.mark(&mut unit);
        }
        if self.rng.chance(self.broken) {
            match self.rng.below(10) {
                0 => unit.number = self.rng.pick(&[0, 65_536, u32::MAX]),
                1 => unit.agent = self.rng.pick(&[0, 65_536, u32::MAX]),
                2 => unit.border = self.rng.pick(&[5, 6, u32::MAX]),
                3 => unit.maximum = self.rng.pick(&[100_000, u32::MAX, 99_999, 0]),
                4 => unit.legacy = true,
                7 => unit.rights = true,
                8 => unit.rights = !unit.rights,
                5 | 6 => {
                    if let Some(other) = self.any_unit() {
                        unit.number = other.number;
                    }
                }
                _ => {
                    if let Some(other) = self.any_unit() {
                        (unit.agent, unit.border, unit.purchase) = (other.agent, other.border, other.purchase);
                    }
                }
            }
        }
        self.units.push(unit);
        self.calls.push(Entry::Register(unit));
        if unit.rights && self.rng.chance(60) {
            self.rights_of(unit.agent, unit.purchase);
        }
    }

    /// Marks a unit "with rights", mostly beside one without them of its agent and side.
    fn mark(&mut self, unit: &mut Unit) {
        let partners: Vec<Unit> = self.units.iter().filter(|other| other.border == 1 && !other.rights).copied().collect();
        if partners.is_empty() && self.rng.chance(80) {
            return;
        }
        unit.rights = true;
        if !partners.is_empty() && self.rng.chance(94) {
            let partner = self.rng.pick(&partners);
            (unit.agent, unit.purchase) = (partner.agent, partner.purchase);
        }
    }

    fn any_unit(&mut self) -> Option<Unit> {
        (!self.units.is_empty()).then(|| self.rng.pick(&self.units))
    }

    /// As many energies as the day has hours, or nearly.
    fn count(&mut self) -> usize {
        if !self.rng.chance(self.broken) {
            return self.hours as usize;
        }
        match self.rng.below(6) {
            0 => self.rng.pick(&[0, 1, 26, 100, usize::MAX]),
            1 => self.hours as usize - 1,
            2 => self.hours as usize + 1,
            _ => self.rng.pick(&[23, 24, 25]),
        }
    }

    /// A notice's energies, each by `energy`; some are out of range.
    fn energies(&mut self, energy: impl Fn(&mut Rng) -> u32) -> Energies {
        let count = self.count();
        let flat = self.rng.chance(30).then(|| energy(&mut self.rng));
        let mut values: Vec<u32> = (0..count.min(40)).map(|_| flat.unwrap_or_else(|| energy(&mut self.rng))).collect();
        if self.rng.chance(self.broken) && !values.is_empty() {
            let place = self.rng.below(values.len() as u32) as usize;
            values[place] = self.rng.pick(&[100_000, u32::MAX, 99_999, 100_001]);
        }
        if count == usize::MAX {
            return Energies::flat(1, count);
        }
        Energies::new(&values)
    }

    fn available(&mut self) {
        let known = self.any_unit().map_or(1, |unit| unit.number);
        let unit = if self.rng.chance(self.broken) { self.rng.pick(&[0, 41, 65_535, 65_536, u32::MAX]) } else { known };
        let scale = self.scale;
        let tight = self.rng.chance(40);
        let energies = self.energies(|rng| match rng.below(4) {
            0 => rng.below(scale + 1),
            _ if tight => rng.below(2 * scale),
            _ => 2 * scale,
        });
        self.calls.push(Entry::Available(unit, energies));
    }

    /// A rights notice of an agent with a French unit, now and then of another.
    fn rights(&mut self) {
        let french: Vec<Unit> = self.units.iter().filter(|unit| unit.border == 1).copied().collect();
        let one = if french.is_empty() || self.rng.chance(4) { self.any_unit() } else { Some(self.rng.pick(&french)) };
        let (mut agent, mut purchase) = one.map_or((1, true), |unit| (unit.agent, unit.purchase));
        if self.rng.chance(self.broken) {
            match self.rng.below(3) {
                0 => agent = self.rng.pick(&[0, 65_536, u32::MAX]),
                1 => agent = self.rng.pick(&[121, 65_535]),
                _ => purchase = !purchase,
            }
        }
        self.rights_of(agent, purchase);
    }

    fn rights_of(&mut self, agent: u32, purchase: bool) {
        let quarters = self.rng.pick(&[0, 1, 2, 4, 4, 6, 8]);
        let most = (self.scale * quarters / 4).min(LARGEST_ENERGY);
        let energies = self.energies(|rng| if rng.chance(40) { rng.below(most + 1) } else { most });
        self.calls.push(Entry::Rights(agent, purchase, energies));
    }

    fn capacity(&mut self) {
        let mut notice = Capacities::none();
        let congested = matches!(self.theme, Theme::Congested | Theme::Ladder);
        let published = if congested { 85 } else { self.rng.pick(&[20, 60, 60, 90, 100]) };
        let tightest = self.rng.chance(5);
        for border in 1..=4 {
            for direction in [Direction::Export, Direction::Import] {
                if !self.rng.chance(published) {
                    continue;
                }
                let mut quarters = if tightest { 0 } else { self.capacity_quarters };
                // Where the sum of both would be a limit, most energy would not get as far as the split.
                if congested && (direction == Direction::Export) != (self.purchases[border] >= 50) {
                    if self.rng.chance(60) {
                        continue;
                    }
                    quarters = 8;
                }
                let most = (self.scale * quarters / 4).min(LARGEST_ENERGY);
                let least = if self.rng.chance(50) { most / 2 } else { 0 };
                let energies = self.energies(|rng| rng.between(least, most));
                notice = notice.with(border as u32, direction, energies);
            }
        }
        self.calls.push(Entry::Capacity(Box::new(notice)));
    }

    /// A loss of a border, most at those with units that buy.
    fn loss(&mut self) {
        let exporters: Vec<u32> = self
            .units
            .iter()
            .filter(|unit| unit.purchase && (1..=4).contains(&unit.border))
            .map(|unit| unit.border)
            .collect();
        let mut border = match exporters.is_empty() || self.rng.chance(20) {
            true => self.rng.between(1, 4),
            false => self.rng.pick(&exporters),
        };
        let any = self.rng.below(LARGEST_LOSS + 1);
        let mut loss = self.rng.pick(&[0, 0, 1, 300, 777, 1_500, LARGEST_LOSS, LARGEST_LOSS, any, any]);
        if self.rng.chance(self.broken) {
            match self.rng.below(3) {
                0 => border = self.rng.pick(&[0, 5, 256, u32::MAX]),
                1 => loss = self.rng.pick(&[2_001, 10_000, u32::MAX - 9_999, u32::MAX]),
                _ => (border, loss) = (self.rng.pick(&[0, 5]), 2_001),
            }
        }
        self.calls.push(Entry::Loss(border, loss));
    }

    /// Some losses in a row.
    fn losses(&mut self) {
        for _ in 0..self.rng.between(1, 4) {
            self.loss();
        }
    }

    /// An offer or an execution at what a border sum is brought to, or one more.
    fn at_the_sum(&mut self) {
        let exporters: Vec<Unit> =
            self.units.iter().filter(|unit| unit.purchase && (1..=4).contains(&unit.border)).copied().collect();
        let Some(notice) = self.calls.iter().rev().find_map(|call| match call {
            Entry::Capacity(notice) => Some(*notice.directions()),
            _ => None,
        }) else {
            return;
        };
        if exporters.is_empty() || self.named.is_empty() {
            return;
        }
        let unit = self.rng.pick(&exporters);
        let loss = self.calls.iter().rev().find_map(|call| match call {
            Entry::Loss(border, loss) if *border == unit.border => Some(*loss),
            _ => None,
        });
        let hour = self.rng.pick(&self.named.clone()) as usize;
        let first = (unit.border as usize - 1) * 2;
        if let (Some(export), Some(import)) = (notice[first], notice[first + 1]) {
            let sum = u64::from(export.values()[hour - 1]) + u64::from(import.values()[hour - 1]);
            let brought = sum * (10_000 + u64::from(loss.unwrap_or(0))) / 10_000 + u64::from(self.rng.below(2));
            let energy = brought.clamp(1, u64::from(LARGEST_ENERGY)) as u32;
            let execution = self.rng.chance(40);
            let key = Key { execution, default: false, unit: unit.number & 0xffff, contract: u32::from(execution) };
            self.keys.push(key);
            let fields = Fields::of(key).with(hour, energy, 0);
            self.calls.push(Entry::Lodge(packed(1, u32::from(execution), &fields)));
        }
    }

    fn fields(&mut self) -> Fields {
        let unit = self.any_unit();
        let border = unit.is_some_and(|unit| unit.border != 0);
        let executions = if self.theme == Theme::Ladder { 10 } else { 38 };
        let execution = border && self.rng.chance(executions) || self.rng.chance(2);
        let key = Key {
            execution,
            default: self.rng.chance(22),
            unit: unit.map_or(1, |unit| unit.number) & 0xffff,
            contract: if execution { self.rng.between(1, self.contracts) } else { 0 },
        };
        let mut fields = Fields::of(key);
        let purchase = unit.is_some_and(|unit| unit.purchase);
        let few = self.rng.chance(30);
        let scale = if execution { self.scale.div_ceil(2) } else { self.scale };
        for index in 0..self.named.len() {
            if few && self.rng.chance(60) {
                continue;
            }
            let hour = self.named[index] as usize;
            let energy = if self.rng.chance(8) { scale.min(LARGEST_ENERGY) } else { self.rng.between(1, scale) };
            let price = if execution { 0 } else { self.price(purchase, border) };
            fields = fields.with(hour, energy, price);
        }
        if fields.map == 0 {
            let hour = self.rng.between(1, self.hours) as usize;
            let price = if execution { 0 } else { self.price(purchase, border) };
            fields = fields.with(hour, self.rng.between(1, scale), price);
        }
        fields
    }

    /// Purchases are dearer, for the most part. On a ladder a border's sales are the dearest.
    fn price(&mut self, purchase: bool, border: bool) -> u32 {
        if self.theme == Theme::Ladder && self.rng.chance(85) {
            return match (purchase, border) {
                (false, false) => self.rng.between(900, 902),
                (false, true) => self.rng.between(1000, 1003),
                (true, false) => self.rng.between(1001, 1004),
                (true, true) => self.rng.between(1003, 1006),
            };
        }
        let one = self.rng.pick(&self.prices);
        let other = self.rng.pick(&self.prices);
        match (purchase, self.rng.chance(70)) {
            (true, true) => one.max(other),
            (false, true) => one.min(other),
            _ => one,
        }
    }

    fn lodge(&mut self) {
        let fields = self.fields();
        self.keys.push(fields.key);
        let kind = u32::from(fields.key.execution);
        let message = if self.rng.chance(self.broken) { self.broken_message(fields) } else { packed(1, kind, &fields) };
        self.calls.push(Entry::Lodge(message));
    }

    /// A message that breaks a rule, or nearly.
    fn broken_message(&mut self, mut fields: Fields) -> Vec<u8> {
        let (mut form, mut kind) = (1, u32::from(fields.key.execution));
        let hour = fields.map.leading_zeros() as usize - 7;
        match self.rng.below(16) {
            0 => form = self.rng.below(16),
            1 => kind = self.rng.pick(&[2, 3]),
            2 => fields.map = 0,
            3 => fields = fields.with(25, 5, 0),
            4 => fields = fields.with(24, 5, 0),
            5 => fields.key.unit = self.rng.pick(&[0, 41, 65_535]),
            6 => fields.key.contract = if fields.key.execution { 0 } else { self.rng.between(1, 65_535) },
            7 => fields.energies[hour] = self.rng.pick(&[0, 100_000, 131_071, 99_999]),
            8 => fields.prices[hour] = self.rng.pick(&[18_031, 32_767, 18_030, 0]),
            9 => return (0..self.rng.below(120)).map(|_| self.rng.next() as u8).collect(),
            _ => {}
        }
        let mut message = packed(form, kind, &fields);
        match self.rng.below(10) {
            0 => {
                let flips = self.rng.between(1, 3);
                for _ in 0..flips {
                    let bit = self.rng.below(message.len() as u32 * 8) as usize;
                    message[bit / 8] ^= 1 << (bit % 8);
                }
            }
            1 => message.truncate(self.rng.below(message.len() as u32) as usize),
            2 => message.extend((0..self.rng.between(1, 5)).map(|_| 0)),
            3 => message.push(self.rng.next() as u8),
            // A filling bit of an execution, else the lowest of a price.
            4 => *message.last_mut().unwrap() |= 1,
            5 => {
                message.pop();
            }
            _ => {}
        }
        message
    }

    fn annul(&mut self) {
        let mut key = match self.keys.is_empty() {
            true => Key { execution: false, default: false, unit: 1, contract: 0 },
            false => self.rng.pick(&self.keys),
        };
        if self.rng.chance(20) {
            key.default = !key.default;
        }
        if self.rng.chance(self.broken) {
            match self.rng.below(5) {
                0 => key.unit = self.rng.pick(&[0, 65_536, u32::MAX]),
                1 => key.unit = self.rng.pick(&[41, 65_535]),
                2 => key.contract = self.rng.pick(&[0, 1, 9, 65_535, 65_536, u32::MAX]),
                3 => key.execution = !key.execution,
                _ => {
                    key.execution = true;
                    key.contract = 1;
                }
            }
        }
        self.calls.push(Entry::Annul(key));
    }

    fn query(&mut self) -> Query {
        let hour = match self.rng.below(8) {
            0 => self.rng.pick(&[0, 23, 24, 25, 26, u32::MAX]),
            _ => self.rng.between(1, self.hours),
        };
        let unit = match self.any_unit() {
            Some(unit) if self.rng.chance(85) => unit.number,
            _ => self.rng.pick(&[0, 1, 41, 65_535, 65_536]),
        };
        let border = self.rng.below(6);
        let direction = if self.rng.chance(50) { Direction::Export } else { Direction::Import };
        match self.rng.below(8) {
            0 => Query::Verdict(self.rng.below(self.keys.len() as u32 + 2)),
            1 => Query::Matched(unit, hour),
            2 => Query::Executed(unit, hour),
            3 => Query::Market(border, hour),
            4 => Query::Bilateral(border, hour),
            5 => Query::MarketMaximum(border, direction, hour),
            6 => Query::BilateralMaximum(border, direction, hour),
            _ => Query::Price(hour),
        }
    }

    /// A call of any sort.
    fn any_call(&mut self) {
        match self.rng.below(1000) {
            640..=869 if self.theme == Theme::Full && self.rng.chance(85) => self.lodge(),
            0..=569 => self.lodge(),
            570..=579 => self.at_the_sum(),
            580..=599 => self.loss(),
            600..=639 => self.rights(),
            640..=719 => self.annul(),
            720..=799 => self.capacity(),
            800..=869 => self.available(),
            870..=899 => self.register(),
            900..=979 => {
                let query = self.query();
                self.calls.push(Entry::Ask(query));
            }
            980..=993 => self.calls.push(Entry::Clear),
            994..=996 => self.calls.push(Entry::AskAll),
            _ if self.theme == Theme::Broken => self.calls.push(Entry::Close),
            _ => self.lodge(),
        }
    }

    /// An hour of many steps: a step takes a tenth or a few, and what leaves or comes with it holds the balance where it was.
    fn ladder(&mut self) {
        let hour = self.rng.pick(&self.named.clone()) as usize;
        let energy = self.rng.pick(&[5, 30, 200, 900]);
        let unit = |number, border, purchase, legacy| Unit {
            number,
            agent: number,
            border,
            purchase,
            maximum: LARGEST_ENERGY,
            legacy,
            rights: false,
        };
        // Domestic sale, exports, imports of the same border, legacy exports.
        let (sale, export) = (unit(101, 0, false, false), unit(111, 1, true, false));
        let (import, legacy) = (unit(112, 1, false, false), unit(113, 1, true, true));
        let mirrored = self.rng.chance(50);
        // The export balance of the first match, and what is lodged for it.
        let (balance, lodged) = if self.rng.chance(50) {
            let balance = self.rng.between(1, 5);
            (balance, [(sale, balance, 1000), (export, energy, 5000), (import, energy, 3000)])
        } else {
            (energy, [(sale, energy, 1000), (export, energy, 5000), (legacy, energy, 4000)])
        };
        let capacity = if self.rng.chance(60) { balance - 1 } else { self.rng.below(balance) };
        let (direction, other) = match mirrored {
            false => (Direction::Export, Direction::Import),
            true => (Direction::Import, Direction::Export),
        };
        let hours = self.hours as usize;
        let notice = Capacities::none().with(1, direction, Energies::flat(capacity, hours));
        let notice = if self.rng.chance(50) { notice.with(1, other, Energies::flat(90_000, hours)) } else { notice };
        self.calls.push(Entry::Capacity(Box::new(notice)));
        for (mut unit, energy, price) in lodged {
            unit.purchase ^= mirrored;
            self.units.push(unit);
            self.calls.push(Entry::Register(unit));
            let price = if mirrored { 6000 - price } else { price };
            let key = Key { execution: false, default: false, unit: unit.number, contract: 0 };
            self.keys.push(key);
            let fields = Fields::of(key).with(hour, energy, price);
            self.calls.push(Entry::Lodge(packed(1, 0, &fields)));
        }
    }

    /// An hour in which one border is over by exports and another by imports, with C and V' near each other. C is legacy exports with a
    /// loss, which count for less than their energy.
    fn two_prices(&mut self) {
        let hour = self.rng.between(1, self.hours) as usize;
        let out = self.rng.between(1, 4);
        let back = out % 4 + 1;
        let loss = self.rng.pick(&[300, 1_500, LARGEST_LOSS, LARGEST_LOSS]);
        let most = self.rng.pick(&[5, 12, 40, 300]);
        let [wanted, legacy, imported, more] = [(); 4].map(|()| self.rng.between(1, most));
        let figure = (legacy * 10_000).div_ceil(10_000 + loss);
        let dear = self.rng.between(figure.max(2) - 1, legacy + 1);
        let cheap = wanted + legacy + more;
        let at_home = cheap + imported + dear - wanted - legacy;
        // Border, side, legacy mark; energy and price.
        let lodged = [
            (0, false, false, cheap, 1_000),
            (back, false, false, imported, 2_000),
            (0, false, false, dear, 3_000),
            (0, true, false, at_home, 9_000),
            (out, true, false, wanted, 8_000),
            (out, true, true, legacy, 7_000),
        ];
        let flat = |energy| Energies::flat(energy, self.hours as usize);
        let (export, import) = (self.rng.below(wanted + 1), self.rng.below(imported));
        let notice =
            Capacities::none().with(out, Direction::Export, flat(export)).with(back, Direction::Import, flat(import));
        self.calls.extend([Entry::Capacity(Box::new(notice)), Entry::Loss(out, loss)]);
        for (number, (border, purchase, legacy, energy, price)) in (121..).zip(lodged) {
            let maximum = LARGEST_ENERGY;
            let unit = Unit { number, agent: number, border, purchase, maximum, legacy, rights: false };
            self.units.push(unit);
            self.calls.push(Entry::Register(unit));
            let key = Key { execution: false, default: false, unit: number, contract: 0 };
            self.keys.push(key);
            self.calls.push(Entry::Lodge(packed(1, 0, &Fields::of(key).with(hour, energy, price))));
        }
    }

    fn some_calls(&mut self, most: u32) {
        for _ in 0..self.rng.below(most + 1) {
            self.any_call();
        }
    }
}

/// The hours that a list's lodgements name.
fn named_hours(rng: &mut Rng, hours: u32) -> Vec<u32> {
    let mut named: Vec<u32> = match rng.below(10) {
        0..=5 => {
            let count = rng.between(1, 3);
            (0..count).map(|_| if rng.chance(40) { rng.pick(&[1, 3, 4, hours]) } else { rng.between(1, hours) }).collect()
        }
        6 | 7 => (1..=hours).collect(),
        _ => (1..=hours).filter(|_| rng.chance(40)).collect(),
    };
    named.sort_unstable();
    named.dedup();
    named
}

/// The list of a seed.
pub fn list(seed: u64) -> List {
    let mut rng = Rng::new(seed);
    let theme = match rng.below(100) {
        0..=37 => Theme::Mixed,
        38..=71 => Theme::Congested,
        72..=79 => Theme::Ladder,
        80..=82 => Theme::Full,
        _ => Theme::Broken,
    };
    let date = date(&mut rng);
    let hours = calendar::hours(date).unwrap_or(24);
    let scale = match theme {
        Theme::Ladder => rng.pick(&[4, 20, 60, 250]),
        Theme::Full => rng.pick(&[2, 10, 100, 500, 49_999, 99_999]),
        _ => rng.pick(&[2, 6, 10, 40, 100, 500, 3_000, 49_999, 99_999]),
    };
    let prices = match rng.below(4) {
        0 => (0..12).map(|_| rng.between(0, HIGHEST_PRICE)).collect(),
        1 => vec![0, 1, 2, HIGHEST_PRICE],
        2 => (0..3).map(|_| rng.between(0, HIGHEST_PRICE)).collect(),
        _ => (1..=8).map(|price| price * 1000).collect(),
    };
    let mut maker = Maker {
        named: named_hours(&mut rng, hours),
        theme,
        hours,
        scale,
        prices,
        units: Vec::new(),
        keys: Vec::new(),
        capacity_quarters: match theme {
            Theme::Congested => rng.pick(&[1, 2, 4]),
            Theme::Ladder => rng.pick(&[0, 1, 2]),
            Theme::Full => rng.pick(&[4, 400]),
            _ => rng.pick(&[2, 4, 8, 16]),
        },
        purchases: match theme {
            Theme::Congested => std::array::from_fn(|border| if border == 0 { 50 } else { rng.pick(&[10, 50, 90]) }),
            _ => [50; 5],
        },
        contracts: match theme {
            Theme::Full => 60,
            _ => rng.pick(&[1, 2, 4, 65_535]),
        },
        broken: match theme {
            Theme::Broken => 30,
            Theme::Full => rng.pick(&[0, 2]),
            _ => rng.pick(&[0, 1, 5]),
        },
        calls: Vec::new(),
        rng,
    };
    let (units, body) = match theme {
        Theme::Full => (maker.rng.between(50, 75), maker.rng.between(180, 360)),
        Theme::Ladder => (maker.rng.between(0, 14), maker.rng.pick(&[0, 5, 15, 30])),
        Theme::Congested => (maker.rng.between(6, 20), maker.rng.between(15, 50)),
        _ => (maker.rng.between(1, 16), maker.rng.between(2, 50)),
    };
    for _ in 0..units {
        maker.register();
    }
    if maker.rng.chance(30) {
        maker.losses();
    }
    if maker.rng.chance(80) {
        maker.capacity();
    }
    if maker.rng.chance(45) {
        maker.losses();
    }
    for _ in 0..body {
        maker.any_call();
    }
    if theme == Theme::Ladder && maker.rng.chance(70) && !maker.named.is_empty() {
        maker.ladder();
        maker.some_calls(3);
    }
    // Late notices.
    if maker.rng.chance(if theme == Theme::Ladder { 10 } else { 40 }) {
        maker.capacity();
    }
    if maker.rng.chance(30) {
        maker.available();
    }
    while maker.rng.chance(if theme == Theme::Ladder { 10 } else { 40 }) {
        maker.rights();
    }
    if maker.rng.chance(20) {
        maker.loss();
    }
    if theme == Theme::Congested && maker.rng.chance(12) {
        maker.two_prices();
    }
    if maker.rng.chance(5) {
        maker.calls.push(Entry::AskAll);
    }
    if maker.rng.chance(95) {
        maker.calls.push(Entry::Close);
        if maker.rng.chance(10) {
            maker.some_calls(8);
            maker.calls.push(Entry::AskAll);
        }
        if maker.rng.chance(97) {
            maker.calls.push(Entry::Clear);
            if maker.rng.chance(10) {
                maker.some_calls(8);
                maker.calls.push(Entry::Clear);
                maker.calls.push(Entry::Close);
            }
        }
    }
    maker.calls.push(Entry::AskAll);
    List { date, calls: maker.calls }
}
