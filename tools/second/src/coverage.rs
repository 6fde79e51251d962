//! The table of calls: how each is drawn and how often, the refusals that it lists, and its kinds of answer. Every
//! row must come up in a run, and each kind of answer at every degree.

use crate::ask::Ask;
use crate::compare::Stored;
use crate::draw;
use crate::model::{Refusal, MAX_DEGREE};
use crate::rng::Rng;

/// What is drawn and must come up of one call.
pub struct Call {
    pub name: &'static str,
    pub draw: fn(&mut Rng) -> Ask,
    /// How many are drawn in a run, lists and facts aside.
    pub drawn: usize,
    refusals: &'static [u32],
    kinds: &'static [&'static str],
    /// Wrong forms of the curve or the measurement that is lent.
    forms: &'static [&'static str],
    /// The least and the highest degree of an accepted call, both 0 where there is no curve.
    degrees: [usize; 2],
}

const ALL: [usize; 2] = [1, MAX_DEGREE];
const FLAG: &[&str] = &["rounded", "exact"];

#[rustfmt::skip]
const CURVE: &[&str] = &["no degree", "a degree below 0", "no sum", "too few sides", "a sum out of range"];

#[rustfmt::skip]
pub const CALLS: [Call; 11] = [
    Call { name: "evaluate", draw: draw::evaluate, drawn: 800_000,
        refusals: &[1, 2, 3, 4, 5, 12], kinds: FLAG, forms: CURVE, degrees: ALL },
    Call { name: "evaluate_sixteenths", draw: draw::evaluate_sixteenths, drawn: 600_000,
        refusals: &[1, 2, 3, 15, 12], kinds: FLAG, forms: CURVE, degrees: ALL },
    Call { name: "subdivide", draw: draw::subdivide, drawn: 600_000,
        refusals: &[1, 2, 3, 4, 5, 17, 12], kinds: FLAG, forms: CURVE, degrees: ALL },
    Call { name: "elevate", draw: draw::elevate, drawn: 400_000,
        refusals: &[1, 2, 3, 6, 17, 12], kinds: FLAG, forms: CURVE, degrees: [1, MAX_DEGREE - 1] },
    Call { name: "bounds", draw: draw::bounds, drawn: 300_000,
        refusals: &[1, 2, 3, 12], kinds: &["bounds"], forms: CURVE, degrees: ALL },
    Call { name: "search", draw: draw::search, drawn: 400_000,
        refusals: &[1, 2, 3, 7, 8, 9, 17, 12], kinds: &["Inside", "Outside", "Spent", "Undecided"], forms: CURVE, degrees: ALL },
    Call { name: "choose_setting", draw: draw::choose_setting, drawn: 150_000,
        refusals: &[16, 1, 2, 3, 7, 8, 9, 17, 12], kinds: &["fits", "none fits"], forms: CURVE, degrees: ALL },
    Call { name: "enclose", draw: draw::enclose, drawn: 2_000_000,
        refusals: &[13, 14, 12], kinds: &["no carrier", "a load", "with a spread"], forms: &["more than three"], degrees: [0, 0] },
    Call { name: "read_card", draw: draw::read_card, drawn: 600_000,
        refusals: &[10, 11, 1, 2, 3, 12], kinds: &["read"], forms: &[], degrees: ALL },
    Call { name: "write_card", draw: draw::write_card, drawn: 300_000,
        refusals: &[1, 2, 3, 12], kinds: &["written"], forms: CURVE, degrees: ALL },
    Call { name: "panel", draw: draw::panel, drawn: 1_200_000,
        refusals: &[10, 11, 1, 2, 3, 4, 5, 12], kinds: &["read"], forms: &[], degrees: ALL },
];

/// What is tried with exact fractions. Each must come up too.
const FACTS: [&str; 14] = [
    "demand 3 at a staged reading",
    "demand 3 at a summed reading",
    "a control point lies within its record's sum",
    "Inside",
    "Outside",
    "a summed reading lies in the staged one",
    "a lit reading is exact",
    "a dark reading is not",
    "a lit sum is exact",
    "a dark sum is not",
    "lit pieces are exact",
    "dark pieces are not",
    "a lit raising is exact",
    "a dark raising is not",
];

const REFUSALS: usize = 32;
const KINDS: usize = 4;

/// How often each row came up.
#[derive(Clone, Default)]
pub struct Coverage {
    refusals: [[u64; REFUSALS]; CALLS.len()],
    kinds: [[[u64; MAX_DEGREE + 1]; KINDS]; CALLS.len()],
    forms: [[u64; CURVE.len()]; CALLS.len()],
    facts: [u64; FACTS.len()],
}

impl Coverage {
    /// Counts a call that both answered alike.
    pub fn count(&mut self, ask: &Ask, answer: &Result<Stored, Refusal>) {
        let row = ask.row();
        match answer {
            Ok(stored) => self.kinds[row][ask.kind(stored)][ask.degree()] += 1,
            Err(refusal) => self.refusals[row][refusal.number as usize] += 1,
        }
        let number = answer.as_ref().map_or_else(|refusal| refusal.number, |_| 0);
        if let Some(form) = ask.form(number) {
            self.forms[row][form] += 1;
        }
    }

    /// Counts a fact that held, by its name.
    pub fn hold(&mut self, fact: &str) {
        let row = FACTS.iter().position(|name| *name == fact);
        self.facts[row.expect("a fact that is listed")] += 1;
    }

    pub fn add(&mut self, other: &Coverage) {
        let mine = self.numbers().collect::<Vec<_>>();
        for (mine, theirs) in mine.into_iter().zip(other.clone().numbers()) {
            *mine += *theirs;
        }
    }

    fn numbers(&mut self) -> impl Iterator<Item = &mut u64> {
        let kinds = self.kinds.as_flattened_mut().as_flattened_mut();
        let refusals = self.refusals.as_flattened_mut();
        let forms = self.forms.as_flattened_mut();
        let calls = refusals.iter_mut().chain(kinds).chain(forms);
        calls.chain(&mut self.facts)
    }

    /// How many calls were compared.
    pub fn calls(&self) -> u64 {
        let kinds = self.kinds.as_flattened().as_flattened();
        self.refusals.as_flattened().iter().chain(kinds).sum()
    }

    /// How many facts were tried.
    pub fn facts(&self) -> u64 {
        self.facts.iter().sum()
    }

    /// The rows that did not come up, and refusals that came and are not listed.
    pub fn missing(&self) -> Vec<String> {
        let facts = FACTS.iter().zip(&self.facts);
        let facts = facts.filter(|(_, times)| **times == 0);
        let facts = facts.map(|(name, _)| name.to_string());
        let calls = CALLS.iter().enumerate();
        let calls = calls.flat_map(|(row, call)| self.missing_of(row, call));
        calls.chain(facts).collect()
    }

    fn missing_of(&self, row: usize, call: &Call) -> Vec<String> {
        let name = call.name;
        let refusals = self.refusals[row].iter().enumerate();
        let wrong = refusals
            .filter(|(number, times)| call.refusals.contains(&(*number as u32)) != (**times > 0));
        let mut missing: Vec<String> = wrong
            .map(|(number, times)| format!("{name}, refusal {number}: {times}"))
            .collect();
        let [least, highest] = call.degrees;
        for (kind, times) in call.kinds.iter().zip(&self.kinds[row]) {
            let degrees = (least..=highest).filter(|degree| times[*degree] == 0);
            missing.extend(degrees.map(|degree| format!("{name}, {kind}, degree {degree}")));
        }
        let forms = call.forms.iter().zip(&self.forms[row]);
        let forms = forms.filter(|(_, times)| **times == 0);
        missing.extend(forms.map(|(form, _)| format!("{name}, {form}")));
        missing
    }

    /// The table, a line for each call.
    pub fn table(&self) -> String {
        let mut lines = String::new();
        for (row, call) in CALLS.iter().enumerate() {
            let kinds = call.kinds.iter().zip(&self.kinds[row]);
            let mut cells: Vec<String> = kinds
                .map(|(name, times)| format!("{name} {}", times.iter().sum::<u64>()))
                .collect();
            let refused =
                |number: &u32| format!("{number}: {}", self.refusals[row][*number as usize]);
            cells.extend(call.refusals.iter().map(refused));
            let forms = call.forms.iter().zip(&self.forms[row]);
            cells.extend(forms.map(|(form, times)| format!("{form} {times}")));
            lines += &format!("{}: {}\n", call.name, cells.join(", "));
        }
        let facts = FACTS.iter().zip(&self.facts);
        lines
            + &facts
                .map(|(name, times)| format!("{name}: {times}\n"))
                .collect::<String>()
    }
}
