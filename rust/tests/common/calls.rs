//! Lists of calls and queries, and two exchanges played side by side.

use jeddyspangle::*;
use std::fmt;

#[derive(Clone, Copy, Debug, PartialEq)]
pub enum Query {
    Verdict(u32),
    Matched(u32, u32),
    Executed(u32, u32),
    Market(u32, u32),
    Bilateral(u32, u32),
    MarketMaximum(u32, Direction, u32),
    BilateralMaximum(u32, Direction, u32),
    Price(u32),
}

/// An entry of a list: a call, or a query.
#[derive(Clone, Debug)]
pub enum Entry {
    Register(Unit),
    Available(u32, Energies),
    Capacity(Box<Capacities>),
    /// A rights notice of an agent, for its purchases or its sales.
    Rights(u32, bool, Energies),
    /// A border and its loss.
    Loss(u32, u32),
    Lodge(Vec<u8>),
    Annul(Key),
    Close,
    Clear,
    Ask(Query),
    /// Every query there is at this moment, out of range too.
    AskAll,
}

/// A session's date and the calls on it.
#[derive(Clone, Debug)]
pub struct List {
    pub date: Date,
    pub calls: Vec<Entry>,
}

#[derive(Clone, Copy, Debug, PartialEq)]
pub enum Answer {
    Done,
    Number(u32),
    Steps(u64),
    Verdict(Verdict),
    Amount(u32),
    Figure(i64),
    Maximum(Option<i64>),
    Refused(Refusal),
}

fn told<T>(result: Result<T, Refusal>, given: impl Fn(T) -> Answer) -> Answer {
    result.map_or_else(Answer::Refused, given)
}

pub fn ask<E: Exchange>(exchange: &E, query: Query) -> Answer {
    match query {
        Query::Verdict(number) => told(exchange.verdict(number), Answer::Verdict),
        Query::Matched(unit, hour) => told(exchange.matched(unit, hour), Answer::Amount),
        Query::Executed(unit, hour) => told(exchange.executed(unit, hour), Answer::Amount),
        Query::Market(border, hour) => told(exchange.market_balance(border, hour), Answer::Figure),
        Query::Bilateral(border, hour) => told(exchange.bilateral_balance(border, hour), Answer::Figure),
        Query::MarketMaximum(border, direction, hour) => {
            told(exchange.market_maximum(border, direction, hour), Answer::Maximum)
        }
        Query::BilateralMaximum(border, direction, hour) => {
            told(exchange.bilateral_maximum(border, direction, hour), Answer::Maximum)
        }
        Query::Price(hour) => told(exchange.price(hour), Answer::Amount),
    }
}

fn make<E: Exchange>(exchange: &mut E, call: Call<'_>) -> Answer {
    told(exchange.call(call), |accepted| match accepted {
        Accepted::Done => Answer::Done,
        Accepted::Number(number) => Answer::Number(number.0),
        Accepted::Steps(steps) => Answer::Steps(steps.0),
    })
}

/// The answer to an entry that is not `AskAll`.
pub fn answer<E: Exchange>(exchange: &mut E, entry: &Entry) -> Answer {
    let call = match entry {
        Entry::Register(unit) => Call::Register(*unit),
        Entry::Available(unit, energies) => Call::Available(*unit, energies),
        Entry::Capacity(capacities) => Call::Capacity(capacities),
        Entry::Rights(agent, purchase, energies) => Call::Rights(*agent, *purchase, energies),
        Entry::Loss(border, loss) => Call::Loss(*border, *loss),
        Entry::Lodge(message) => Call::Lodge(message),
        Entry::Annul(key) => Call::Annul(*key),
        Entry::Close => Call::Close,
        Entry::Clear => Call::Clear,
        Entry::Ask(query) => return ask(exchange, *query),
        Entry::AskAll => unreachable!("asked query by query"),
    };
    make(exchange, call)
}

/// Every query of a session with these units and lodging numbers up to `last`; stops when told to.
pub fn every_query(units: &[u32], last: u32, mut each: impl FnMut(Query) -> bool) {
    let far = [65_535, 65_536, u32::MAX];
    let unknown = (1..=65_535).find(|number| !units.contains(number)).unwrap();
    for number in (0..=last + 2).chain(far) {
        if !each(Query::Verdict(number)) {
            return;
        }
    }
    for hour in (0..=27).chain([u32::MAX]) {
        for unit in units.iter().copied().chain([0, unknown]).chain(far) {
            if !each(Query::Matched(unit, hour)) || !each(Query::Executed(unit, hour)) {
                return;
            }
        }
        for border in (0..=5).chain([u32::MAX]) {
            if !each(Query::Market(border, hour)) || !each(Query::Bilateral(border, hour)) {
                return;
            }
            for direction in [Direction::Export, Direction::Import] {
                if !each(Query::MarketMaximum(border, direction, hour))
                    || !each(Query::BilateralMaximum(border, direction, hour))
                {
                    return;
                }
            }
        }
        if !each(Query::Price(hour)) {
            return;
        }
    }
}

/// Where two exchanges differ.
#[derive(Debug)]
pub struct Difference {
    /// The call's place; none for opening.
    pub index: Option<usize>,
    /// The query that differs.
    pub query: Option<Query>,
    pub left: Answer,
    pub right: Answer,
}

/// What is told of each call and of each query, with its answer.
pub trait Observer {
    fn called(&mut self, call: &Entry, answer: Answer);
    fn asked(&mut self, query: Query, answer: Answer);
    fn opened(&mut self, answer: Answer);
}

/// Nothing is observed.
pub struct Nobody;

impl Observer for Nobody {
    fn called(&mut self, _: &Entry, _: Answer) {}
    fn asked(&mut self, _: Query, _: Answer) {}
    fn opened(&mut self, _: Answer) {}
}

/// Plays a list on two exchanges side by side, up to the first difference. What is observed is the second one's.
pub fn compare<A: Exchange, B: Exchange>(list: &List, observer: &mut impl Observer) -> Result<(), Difference> {
    let (left, mut a) = A::opened(list.date);
    let (right, mut b) = B::opened(list.date);
    let (left, right) = (told(left, |()| Answer::Done), told(right, |()| Answer::Done));
    if left != right {
        return Err(Difference { index: None, query: None, left, right });
    }
    observer.opened(right);
    let mut units = Vec::new();
    let mut last = 0;
    for (index, call) in list.calls.iter().enumerate() {
        if let Entry::AskAll = call {
            let mut found = Ok(());
            every_query(&units, last, |query| {
                let (left, right) = (ask(&a, query), ask(&b, query));
                observer.asked(query, right);
                if left != right {
                    found = Err(Difference { index: Some(index), query: Some(query), left, right });
                }
                found.is_ok()
            });
            found?;
            continue;
        }
        let (left, right) = (answer(&mut a, call), answer(&mut b, call));
        if left != right {
            let query = if let Entry::Ask(query) = call { Some(*query) } else { None };
            return Err(Difference { index: Some(index), query, left, right });
        }
        match (call, right) {
            (Entry::Register(unit), Answer::Done) => units.push(unit.number),
            (Entry::Lodge(_), Answer::Number(number)) => last = number,
            _ => {}
        }
        match call {
            Entry::Ask(query) => observer.asked(*query, right),
            _ => observer.called(call, right),
        }
    }
    Ok(())
}

fn word(direction: Direction) -> &'static str {
    match direction {
        Direction::Export => "export",
        Direction::Import => "import",
    }
}

fn side(purchase: bool) -> &'static str {
    if purchase {
        "purchase"
    } else {
        "sale"
    }
}

fn energies(energies: &Energies) -> String {
    let (count, values) = (energies.count(), energies.values());
    let kept = &values[..count.min(MOST_HOURS)];
    if count > 0 && kept.iter().all(|energy| *energy == kept[0]) {
        return format!("{}x{count}", kept[0]);
    }
    let words: Vec<String> = kept.iter().map(u32::to_string).collect();
    format!("{}{}", words.join(","), if count > MOST_HOURS { ",.." } else { "" })
}

impl fmt::Display for Query {
    fn fmt(&self, f: &mut fmt::Formatter<'_>) -> fmt::Result {
        match self {
            Query::Verdict(number) => write!(f, "verdict {number}"),
            Query::Matched(unit, hour) => write!(f, "matched {unit} {hour}"),
            Query::Executed(unit, hour) => write!(f, "executed {unit} {hour}"),
            Query::Market(border, hour) => write!(f, "market {border} {hour}"),
            Query::Bilateral(border, hour) => write!(f, "bilateral {border} {hour}"),
            Query::MarketMaximum(border, direction, hour) => {
                write!(f, "market-maximum {border} {} {hour}", word(*direction))
            }
            Query::BilateralMaximum(border, direction, hour) => {
                write!(f, "bilateral-maximum {border} {} {hour}", word(*direction))
            }
            Query::Price(hour) => write!(f, "price {hour}"),
        }
    }
}

/// A call as a line of a rehearsal (`docs/REHEARSAL.md`), so that a list that was found can be played there.
impl fmt::Display for Entry {
    fn fmt(&self, f: &mut fmt::Formatter<'_>) -> fmt::Result {
        match self {
            Entry::Register(unit) => {
                let side = side(unit.purchase);
                let legacy = if unit.legacy { " legacy" } else { "" };
                let rights = if unit.rights { " rights" } else { "" };
                let Unit { number, agent, border, maximum, .. } = unit;
                write!(f, "register {number} agent {agent} border {border} {side} max {maximum}{legacy}{rights}")
            }
            Entry::Available(unit, list) => write!(f, "available {unit} {}", energies(list)),
            Entry::Capacity(capacities) => {
                write!(f, "capacity")?;
                for (index, direction) in capacities.directions().iter().enumerate() {
                    if let Some(list) = direction {
                        let word = if index % 2 == 0 { "export" } else { "import" };
                        write!(f, " {} {word} {}", index / 2 + 1, energies(list))?;
                    }
                }
                Ok(())
            }
            Entry::Rights(agent, purchase, list) => write!(f, "rights {agent} {} {}", side(*purchase), energies(list)),
            Entry::Loss(border, loss) => write!(f, "loss {border} {loss}"),
            Entry::Lodge(message) => {
                write!(f, "lodge ")?;
                message.iter().try_for_each(|byte| write!(f, "{byte:02X}"))?;
                match model::message::read(message) {
                    Ok(fields) => write!(f, "   # {fields:?}"),
                    Err(refusal) => write!(f, "   # {refusal}"),
                }
            }
            Entry::Annul(key) => {
                let kind = if key.execution { "execution" } else { "offer" };
                let default = if key.default { " default" } else { "" };
                write!(f, "annul {kind} {}{default}", key.unit)?;
                match key {
                    Key { execution: false, contract: 0, .. } => Ok(()),
                    _ => write!(f, " contract {}", key.contract),
                }
            }
            Entry::Close => write!(f, "close"),
            Entry::Clear => write!(f, "clear"),
            Entry::Ask(query) => write!(f, "{query}"),
            Entry::AskAll => write!(f, "# every query"),
        }
    }
}

impl fmt::Display for List {
    fn fmt(&self, f: &mut fmt::Formatter<'_>) -> fmt::Result {
        writeln!(f, "open {}", self.date)?;
        self.calls.iter().try_for_each(|call| writeln!(f, "{call}"))
    }
}
