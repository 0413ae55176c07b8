//! "Clearing, hour by hour."

use super::session::{Hours, Lodgement, Registered};
use crate::types::*;

/// An hour's figures. Borders are from 0; of two directions export is the first.
#[derive(Clone)]
pub(super) struct Figures {
    pub price: u32,
    pub market: [i64; 4],
    pub bilateral: [i64; 4],
    pub market_maxima: [[Option<i64>; 2]; 4],
    pub bilateral_maxima: [[Option<i64>; 2]; 4],
    /// By the unit's place.
    pub matched: [u32; MOST_UNITS],
    /// By the unit's place.
    pub executed: [u32; MOST_UNITS],
}

/// What an energy counts for at its border: of an export there is a loss, of an import and at home none.
///
/// With a loss l an export of e counts as the least whole f that brings it, f × (10,000 + l) ≥ e × 10,000.
#[derive(Clone, Copy)]
struct Scale {
    loss: u32,
}

impl Scale {
    fn of(losses: &[u32; 5], border: usize, purchase: bool) -> Scale {
        Scale { loss: if purchase { losses[border] } else { 0 } }
    }

    fn figure(self, energy: u32) -> u32 {
        match self.loss {
            0 => energy,
            loss => (u64::from(energy) * 10_000).div_ceil(10_000 + u64::from(loss)) as u32,
        }
    }

    /// What an energy keeps of which a part of the figure is taken: the largest that counts for what is left.
    ///
    /// The figure never falls as the energy grows, so it is looked for by halves.
    fn keeps(self, energy: u32, taken: u32) -> u32 {
        let left = self.figure(energy) - taken;
        if taken == 0 {
            return energy;
        }
        let (mut low, mut above) = (0, energy);
        // `low` counts for no more than is left, `above` for more.
        while above - low > 1 {
            let middle = low + (above - low) / 2;
            if self.figure(middle) > left {
                above = middle;
            } else {
                low = middle;
            }
        }
        low
    }
}

/// An accepted offer in an hour that it names.
struct Offer {
    place: usize,
    purchase: bool,
    /// 0 domestic.
    border: usize,
    legacy: bool,
    price: u32,
    offered: u32,
    matched: u32,
    scale: Scale,
}

impl Offer {
    /// What its matched energy counts for at its border.
    fn crossing(&self) -> u32 {
        self.scale.figure(self.matched)
    }
}

/// Export is 0, import 1.
fn direction(purchase: bool) -> usize {
    usize::from(!purchase)
}

/// The hour's offers by rising lodging number, and the two orders of merit over them.
#[derive(Default)]
struct Hour {
    offers: Vec<Offer>,
    /// By rising price, then by lodging number.
    sales: Vec<usize>,
    /// By falling price, then by lodging number.
    purchases: Vec<usize>,
    /// The offers at a border, by lodging number.
    abroad: Vec<usize>,
}

impl Hour {
    /// Sorts the hour once.
    fn sort(&mut self) {
        self.sales.clear();
        self.purchases.clear();
        self.abroad.clear();
        for (index, offer) in self.offers.iter().enumerate() {
            if offer.purchase { &mut self.purchases } else { &mut self.sales }.push(index);
            if offer.border > 0 {
                self.abroad.push(index);
            }
        }
        let offers = &self.offers;
        self.sales.sort_unstable_by_key(|index| (offers[*index].price, *index));
        self.purchases.sort_unstable_by_key(|index| (HIGHEST_PRICE - offers[*index].price, *index));
    }

    /// The offers at a border.
    fn at_borders(&self) -> impl Iterator<Item = &Offer> {
        self.abroad.iter().map(|index| &self.offers[*index])
    }

    /// Matches what is offered, by whole offers; gives the price of sale place V, or 0.
    fn match_offers(&mut self) -> u32 {
        let offers = &mut self.offers[..];
        for offer in offers.iter_mut() {
            offer.matched = 0;
        }
        let (mut sale, mut purchase, mut price) = (0, 0, 0);
        // What the first sale and the first purchase with energy left have given.
        let (mut sold, mut bought) = (0, 0);
        while let (Some(&seller), Some(&buyer)) = (self.sales.get(sale), self.purchases.get(purchase)) {
            if offers[seller].price > offers[buyer].price {
                break;
            }
            let energy = (offers[seller].offered - sold).min(offers[buyer].offered - bought);
            if energy > 0 {
                price = offers[seller].price;
            }
            sold += energy;
            bought += energy;
            offers[seller].matched = sold;
            offers[buyer].matched = bought;
            if sold == offers[seller].offered {
                (sale, sold) = (sale + 1, 0);
            }
            if bought == offers[buyer].offered {
                (purchase, bought) = (purchase + 1, 0);
            }
        }
        price
    }

    /// Exports less imports by border, from 0 for border 1.
    fn balances(&self) -> [i64; 4] {
        let mut balances = [0; 4];
        for offer in self.at_borders() {
            let energy = i64::from(offer.crossing());
            balances[offer.border - 1] += if offer.purchase { energy } else { -energy };
        }
        balances
    }

    /// What matched legacy energy counts for, by border and direction.
    fn legacy(&self) -> [[i64; 2]; 4] {
        let mut legacy = [[0; 2]; 4];
        for offer in self.at_borders().filter(|offer| offer.legacy) {
            legacy[offer.border - 1][direction(offer.purchase)] += i64::from(offer.crossing());
        }
        legacy
    }

    /// One withdrawal step without its match; `over` is the excess by border and direction, 0 where none.
    fn withdraw(&mut self, over: &[[i64; 2]; 4]) {
        let (mut lowest, mut highest) = (None, None);
        for index in &self.abroad {
            let offer = &mut self.offers[*index];
            if offer.legacy || over[offer.border - 1][direction(offer.purchase)] == 0 {
                continue;
            }
            offer.offered = offer.matched;
            if offer.matched == 0 {
                continue;
            }
            if offer.purchase {
                lowest = Some(lowest.map_or(offer.price, |price: u32| price.min(offer.price)));
            } else {
                highest = Some(highest.map_or(offer.price, |price: u32| price.max(offer.price)));
            }
        }
        let gone = match (lowest, highest) {
            (None, None) => None,
            (Some(price), None) => Some((true, price)),
            (None, Some(price)) => Some((false, price)),
            (Some(lowest), Some(highest)) => {
                let below = |offer: &&Offer| offer.purchase && offer.price < lowest;
                let above = |offer: &&Offer| !offer.purchase && offer.price > highest;
                let matched = |offer: &Offer| u64::from(offer.matched);
                let c: u64 = self.offers.iter().filter(below).map(matched).sum();
                let v: u64 = self.offers.iter().filter(above).map(matched).sum();
                Some(if c <= v { (true, lowest) } else { (false, highest) })
            }
        };
        for border in 1..=4 {
            for purchase in [true, false] {
                let excess = over[border - 1][direction(purchase)];
                if excess <= 0 {
                    continue;
                }
                match gone {
                    Some((side, price)) if side == purchase => self.take(excess, |offer| {
                        (offer.border, offer.purchase, offer.legacy, offer.price) == (border, purchase, false, price)
                    }),
                    Some(_) => {}
                    None => {
                        self.take(excess, |offer| (offer.border, offer.purchase, offer.legacy) == (border, purchase, true))
                    }
                }
            }
        }
    }

    /// Takes the lesser of the excess and what the group counts for by Share; each then offers what it keeps of its matched energy.
    fn take(&mut self, excess: i64, of_group: impl Fn(&Offer) -> bool) {
        let group = || self.at_borders().filter(|offer| of_group(offer)).map(Offer::crossing);
        let total: u64 = group().map(u64::from).sum();
        let mut share = Share::new(total.min(excess as u64), total, group());
        for index in &self.abroad {
            let offer = &mut self.offers[*index];
            if of_group(offer) {
                offer.offered = offer.scale.keeps(offer.matched, share.given(offer.crossing()));
            }
        }
    }
}

/// "To take R from amounts m summing to G": what each amount gives, asked by rising lodging number.
struct Share {
    taken: u64,
    total: u64,
    /// The leftover units still to be handed out.
    left: u64,
}

impl Share {
    fn new(taken: u64, total: u64, amounts: impl Iterator<Item = u32>) -> Share {
        let mut share = Share { taken, total, left: 0 };
        share.left = taken - amounts.map(|amount| share.rounded_down(amount)).sum::<u64>();
        share
    }

    fn rounded_down(&self, amount: u32) -> u64 {
        // G 0 gives nothing.
        (self.taken * u64::from(amount)).checked_div(self.total).unwrap_or(0)
    }

    fn given(&mut self, amount: u32) -> u32 {
        let more = u64::from(self.left > 0 && amount > 0);
        self.left -= more;
        (self.rounded_down(amount) + more) as u32
    }
}

/// The market maximum of a direction: capacity, executions' and market balance and matched legacy energy, all in that direction.
fn split(capacity: i64, executions: i64, market: i64, legacy: i64) -> i64 {
    let a = capacity + (-executions).max(0);
    if executions <= 0 {
        return a;
    }
    let s = (a - legacy).max(0);
    let d = (market.max(0) - legacy).max(0) + executions;
    // Rounded up; d is at least 1 here.
    let t = (executions * s.min(d) + d - 1) / d;
    a - t
}

/// An accepted execution in an hour that it names.
struct Execution {
    place: usize,
    border: usize,
    purchase: bool,
    energy: u32,
    /// What is left of the energy after a cut.
    left: u32,
    scale: Scale,
}

impl Execution {
    /// What its whole energy counts for at its border.
    fn crossing(&self) -> u32 {
        self.scale.figure(self.energy)
    }
}

/// The day's hours, cleared one after another in the same memory.
#[derive(Default)]
pub(super) struct Clearing {
    merit: Hour,
    executions: Vec<Execution>,
}

impl Clearing {
    /// The accepted lodgements that name an hour (from 0). The lodgements stand by rising number.
    fn load(&mut self, units: &[Registered], lodgements: &[Lodgement], losses: &[u32; 5], hour: usize) {
        self.merit.offers.clear();
        self.executions.clear();
        for lodgement in lodgements {
            let energy = lodgement.energies[hour];
            if lodgement.verdict != Verdict::Accepted || energy == 0 {
                continue;
            }
            let Unit { border, purchase, legacy, .. } = units[lodgement.place].unit;
            let (place, border) = (lodgement.place, border as usize);
            let scale = Scale::of(losses, border, purchase);
            if lodgement.key.execution {
                self.executions.push(Execution { place, border, purchase, energy, left: energy, scale });
            } else {
                let price = lodgement.prices[hour];
                let offer = Offer { place, purchase, border, legacy, price, offered: energy, matched: 0, scale };
                self.merit.offers.push(offer);
            }
        }
        self.merit.sort();
    }

    /// Clears an hour; gives its figures and its withdrawal steps.
    pub(super) fn clear(
        &mut self,
        units: &[Registered],
        lodgements: &[Lodgement],
        capacities: &[Option<Hours>; 8],
        losses: &[u32; 5],
        hour: usize,
    ) -> (Figures, u64) {
        self.load(units, lodgements, losses, hour);
        let Clearing { merit, executions } = self;
        let capacity = |border: usize, direction: usize| {
            capacities[border * 2 + direction].as_ref().map(|hours| i64::from(hours[hour]))
        };

        let mut uncut = [0; 4];
        for execution in executions.iter() {
            let energy = i64::from(execution.crossing());
            uncut[execution.border - 1] += if execution.purchase { energy } else { -energy };
        }
        let mut price = merit.match_offers();
        let mut market = merit.balances();
        let legacy = merit.legacy();
        let mut market_maxima = [[None; 2]; 4];
        for border in 0..4 {
            for (direction, sign) in [(0, 1), (1, -1)] {
                market_maxima[border][direction] = capacity(border, direction)
                    .map(|capacity| split(capacity, sign * uncut[border], sign * market[border], legacy[border][direction]));
            }
        }

        let mut steps = 0;
        loop {
            let mut over = [[0; 2]; 4];
            let mut any = false;
            for border in 0..4 {
                for (direction, sign) in [(0, 1), (1, -1)] {
                    if let Some(maximum) = market_maxima[border][direction] {
                        over[border][direction] = (sign * market[border] - maximum).max(0);
                        any |= over[border][direction] > 0;
                    }
                }
            }
            if !any {
                break;
            }
            merit.withdraw(&over);
            price = merit.match_offers();
            market = merit.balances();
            steps += 1;
        }

        let mut bilateral_maxima = [[None; 2]; 4];
        for border in 0..4 {
            for (direction, sign) in [(0, 1), (1, -1)] {
                let Some(capacity) = capacity(border, direction) else {
                    continue;
                };
                let maximum = capacity - sign * market[border];
                bilateral_maxima[border][direction] = Some(maximum);
                let excess = sign * uncut[border] - maximum;
                if excess > 0 {
                    let of_group =
                        |execution: &Execution| execution.border == border + 1 && execution.purchase == (direction == 0);
                    let group = || executions.iter().filter(|execution| of_group(execution)).map(Execution::crossing);
                    let mut share = Share::new(excess as u64, group().map(u64::from).sum(), group());
                    for execution in executions.iter_mut().filter(|execution| of_group(execution)) {
                        execution.left = execution.scale.keeps(execution.energy, share.given(execution.crossing()));
                    }
                }
            }
        }

        let mut figures = Figures {
            price,
            market,
            bilateral: [0; 4],
            market_maxima,
            bilateral_maxima,
            matched: [0; MOST_UNITS],
            executed: [0; MOST_UNITS],
        };
        for offer in &merit.offers {
            figures.matched[offer.place] += offer.matched;
        }
        for execution in executions.iter() {
            figures.executed[execution.place] += execution.left;
            let energy = i64::from(execution.scale.figure(execution.left));
            figures.bilateral[execution.border - 1] += if execution.purchase { energy } else { -energy };
        }
        (figures, steps)
    }
}

#[cfg(test)]
mod tests {
    use super::*;

    #[test]
    fn figures_4_to_10() {
        assert_eq!(split(100, 60, 80, 0), 57);
        assert_eq!(split(100, 60, 80, 40), 64);
        assert_eq!(split(100, -30, 200, 0), 130);
        assert_eq!(split(100, 0, 0, 0), 100);
        assert_eq!(split(100, 20, 30, 0), 80);
        assert_eq!(split(100, 60, 150, 120), 100);
        assert_eq!(given(10, &[7, 7, 7]), [4, 3, 3]);
        assert_eq!(given(10, &[7, 0, 7, 7]), [4, 0, 3, 3]);
        assert_eq!(given(0, &[0, 0]), [0, 0]);
        assert_eq!(given(21, &[7, 7, 7]), [7, 7, 7]);
    }

    #[test]
    fn the_largest_energy_is_kept() {
        assert_eq!([1, 5, 6, 11, 12].map(|energy| Scale { loss: 2000 }.figure(energy)), [1, 5, 5, 10, 10]);
        for loss in [0, 1, 300, 777, 1500, 2000] {
            let scale = Scale { loss };
            for energy in (0..150).chain([99_998, 99_999]) {
                let figure = scale.figure(energy);
                for taken in (0..=figure).take(150) {
                    let kept = scale.keeps(energy, taken);
                    assert_eq!(scale.figure(kept), figure - taken);
                    assert!(kept == energy || kept < energy && scale.figure(kept + 1) > figure - taken);
                }
            }
        }
    }

    fn given(taken: u64, amounts: &[u32]) -> Vec<u32> {
        let total = amounts.iter().map(|amount| u64::from(*amount)).sum();
        let mut share = Share::new(taken, total, amounts.iter().copied());
        amounts.iter().map(|amount| share.given(*amount)).collect()
    }
}
