//! What the random lists met, so that a test can insist that they met everything.

use super::calls::{Answer, Entry, Observer, Query};
use jeddyspangle::*;
use std::fmt;

/// Counts of what was answered.
#[derive(Default)]
pub struct Seen {
    pub lists: u64,
    pub calls: u64,
    pub queries: u64,
    /// Refusals of calls by number, index 0 unused.
    pub refused: [u64; 16],
    /// Refusals of queries by number.
    pub refused_queries: [u64; 16],
    /// Calls that were carried out.
    pub accepted: [u64; 9],
    /// Days of 23, 24 and 25 hours cleared.
    pub cleared: [u64; 3],
    pub with_steps: u64,
    pub most_steps: u64,
    /// Verdicts: accepted, hidden, limit 10, 11, 12, 15.
    pub verdicts: [u64; 6],
    pub absent_maxima: u64,
    pub negative_bilateral_maxima: u64,
    /// Hours in which two borders or more stand at their market maximum, after steps.
    pub several_borders: u64,
    /// Directions in an hour whose executions stand at a bilateral maximum above zero.
    pub at_bilateral_maximum: u64,
    /// Units refused because 64 are registered.
    pub full_units: u64,
    /// Lodgements refused because 128 stand.
    pub full_lodgements: u64,
    /// Units with rights refused for want of a partner.
    pub partners: u64,
    /// Lodgements refused because rights are passed.
    pub rights_passed: u64,
    /// Lodgements of units with rights that were taken.
    pub with_rights: u64,
    /// Directions in an hour at their market maximum, after steps, at borders with a loss.
    pub full_with_loss: u64,
    /// Bilateral balances of exports that are less than the executed energy of their border's units, by a loss.
    pub lossy_balances: u64,
    /// Numbers of the list's units with rights.
    marked: Vec<u32>,
    /// By border, as last set.
    losses: [u32; 5],
    /// Of the list's units that buy abroad, number and border.
    exporters: Vec<(u32, u32)>,
    /// Executed energy of those in the hour asked, by border.
    exported: [i64; 5],
    hours: usize,
    steps: u64,
    /// The hour whose maxima are asked, and the borders at their maximum in it.
    at_maximum: (u32, u32),
    balance: i64,
    executed: i64,
}

const CALLS: [&str; 9] = ["register", "available", "capacity", "lodge", "annul", "close", "clear", "rights", "loss"];

fn index(call: &Entry) -> usize {
    match call {
        Entry::Register(_) => 0,
        Entry::Available(..) => 1,
        Entry::Capacity(_) => 2,
        Entry::Lodge(_) => 3,
        Entry::Annul(_) => 4,
        Entry::Close => 5,
        Entry::Rights(..) => 7,
        Entry::Loss(..) => 8,
        _ => 6,
    }
}

impl Seen {
    /// A list of a day of so many hours starts.
    pub fn start(&mut self, hours: u32) {
        self.lists += 1;
        self.hours = hours as usize;
        self.steps = 0;
        self.at_maximum = (0, 0);
        self.marked.clear();
        self.losses = [0; 5];
        self.exporters.clear();
        self.exported = [0; 5];
    }

    /// Insists that lists met every refusal of a call, and the rest that is counted.
    pub fn insist(&self) {
        for number in (1..=13).chain([15]) {
            assert!(self.refused[number] >= 20, "refusal {number} met {} times:\n{self}", self.refused[number]);
        }
        for number in [2, 4, 5, 6, 13] {
            assert!(self.refused_queries[number] >= 20, "refusal {number} of queries:\n{self}");
        }
        let counts = self.accepted.iter().chain(&self.cleared).chain(&self.verdicts).chain([
            &self.with_steps,
            &self.absent_maxima,
            &self.negative_bilateral_maxima,
            &self.several_borders,
            &self.at_bilateral_maximum,
            &self.full_units,
            &self.full_lodgements,
            &self.partners,
            &self.rights_passed,
            &self.with_rights,
            &self.full_with_loss,
            &self.lossy_balances,
        ]);
        assert!(counts.into_iter().all(|count| *count >= 20), "too thin:\n{self}");
    }
}

impl Observer for Seen {
    fn opened(&mut self, answer: Answer) {
        if let Answer::Refused(refusal) = answer {
            self.refused[refusal.number() as usize] += 1;
        }
    }

    fn called(&mut self, call: &Entry, answer: Answer) {
        self.calls += 1;
        match answer {
            Answer::Refused(refusal) => {
                self.refused[refusal.number() as usize] += 1;
                match (refusal, call) {
                    (Refusal::Full, Entry::Register(_)) => self.full_units += 1,
                    (Refusal::Full, _) => self.full_lodgements += 1,
                    (Refusal::Partner, _) => self.partners += 1,
                    (Refusal::Limit { limit: Limit::Rights, .. }, _) => self.rights_passed += 1,
                    _ => {}
                }
            }
            _ => self.accepted[index(call)] += 1,
        }
        match (call, answer) {
            (Entry::Register(unit), Answer::Done) => {
                if unit.rights {
                    self.marked.push(unit.number);
                }
                if unit.purchase && unit.border > 0 {
                    self.exporters.push((unit.number, unit.border));
                }
            }
            (Entry::Loss(border, loss), Answer::Done) => self.losses[*border as usize] = *loss,
            (Entry::Lodge(message), Answer::Number(_)) => {
                let unit = model::message::read(message).map_or(0, |fields| fields.key.unit);
                self.with_rights += u64::from(self.marked.contains(&unit));
            }
            _ => {}
        }
        if let Answer::Steps(steps) = answer {
            self.cleared[self.hours - 23] += 1;
            self.with_steps += u64::from(steps > 0);
            self.most_steps = self.most_steps.max(steps);
            self.steps = steps;
        }
    }

    fn asked(&mut self, query: Query, answer: Answer) {
        self.queries += 1;
        self.seen_with_losses(query, answer);
        match answer {
            Answer::Refused(refusal) => self.refused_queries[refusal.number() as usize] += 1,
            Answer::Verdict(verdict) => {
                let place = match verdict {
                    Verdict::Accepted => 0,
                    Verdict::Hidden => 1,
                    Verdict::Refused { limit: Limit::Rights, .. } => 5,
                    Verdict::Refused { limit, .. } => limit.number() as usize - 8,
                };
                self.verdicts[place] += 1;
            }
            Answer::Maximum(None) => self.absent_maxima += 1,
            Answer::Maximum(Some(maximum)) => match query {
                Query::BilateralMaximum(_, direction, _) => {
                    let executed = if direction == Direction::Export { self.executed } else { -self.executed };
                    self.negative_bilateral_maxima += u64::from(maximum < 0);
                    self.at_bilateral_maximum += u64::from(maximum > 0 && maximum == executed);
                }
                Query::MarketMaximum(_, direction, hour) => {
                    let balance = if direction == Direction::Export { self.balance } else { -self.balance };
                    if self.steps > 0 && maximum > 0 && balance == maximum {
                        let count = if self.at_maximum.0 == hour { self.at_maximum.1 + 1 } else { 1 };
                        self.at_maximum = (hour, count);
                        self.several_borders += u64::from(count == 2);
                    }
                }
                _ => {}
            },
            Answer::Figure(balance) => match query {
                Query::Market(..) => self.balance = balance,
                _ => self.executed = balance,
            },
            _ => {}
        }
    }
}

impl Seen {
    /// Of balances at borders with a loss. Units are asked before the borders of an hour.
    fn seen_with_losses(&mut self, query: Query, answer: Answer) {
        match (query, answer) {
            (Query::Executed(unit, _), Answer::Amount(energy)) => {
                if let Some((_, border)) = self.exporters.iter().find(|(number, _)| *number == unit) {
                    self.exported[*border as usize] += i64::from(energy);
                }
            }
            (Query::Bilateral(border, _), Answer::Figure(balance)) => {
                let lossy = self.losses[border as usize] > 0 && balance > 0 && balance < self.exported[border as usize];
                self.lossy_balances += u64::from(lossy);
            }
            (Query::MarketMaximum(border, Direction::Export, _), Answer::Maximum(Some(maximum))) => {
                let full = self.steps > 0 && maximum > 0 && self.balance == maximum;
                self.full_with_loss += u64::from(full && self.losses[border as usize] > 0);
            }
            (Query::Price(_) | Query::Verdict(_), _) => self.exported = [0; 5],
            _ => {}
        }
    }
}

impl fmt::Display for Seen {
    fn fmt(&self, f: &mut fmt::Formatter<'_>) -> fmt::Result {
        writeln!(f, "{} lists, {} calls, {} queries, every answer compared", self.lists, self.calls, self.queries)?;
        write!(f, "accepted:")?;
        for (word, count) in CALLS.iter().zip(self.accepted) {
            write!(f, " {word} {count}")?;
        }
        let rows = |f: &mut fmt::Formatter<'_>, word: &str, counts: &[u64; 16]| {
            write!(f, "\n{word}:")?;
            for (number, count) in counts.iter().enumerate().skip(1) {
                if *count > 0 {
                    write!(f, " {number}: {count}")?;
                }
            }
            Ok(())
        };
        rows(f, "refused calls by number", &self.refused)?;
        rows(f, "refused queries by number", &self.refused_queries)?;
        let [short, plain, long] = self.cleared;
        writeln!(
            f,
            "\ncleared days: {short} of 23 hours, {plain} of 24, {long} of 25; {} with steps, at most {}",
            self.with_steps, self.most_steps
        )?;
        let [accepted, hidden, ten, eleven, twelve, fifteen] = self.verdicts;
        writeln!(
            f,
            "verdicts: {accepted} accepted, {hidden} hidden, limit 10: {ten}, 11: {eleven}, 12: {twelve}, 15: {fifteen}"
        )?;
        writeln!(
            f,
            "rights: {} units refused for want of a partner, {} lodgements that pass them; {} taken of units with rights",
            self.partners, self.rights_passed, self.with_rights
        )?;
        writeln!(
            f,
            "losses: {} directions at their market maximum, {} bilateral balances below the executed energy",
            self.full_with_loss, self.lossy_balances
        )?;
        write!(
            f,
            "maxima: {} absent, {} bilateral below zero, {} reached by executions; hours with several borders at their \
             market maximum: {}\nfull: {} units and {} lodgements refused",
            self.absent_maxima,
            self.negative_bilateral_maxima,
            self.at_bilateral_maximum,
            self.several_borders,
            self.full_units,
            self.full_lodgements
        )
    }
}
