//! Counts of what was compared, and of each class of difference with its smallest input.
use crate::engine::{agree, ask, Answer, Call, Engine, PANICKED};
use model::cards::CARDS;
use model::places::places;
use model::proper::pair_rule;
use model::types::Position;
use std::collections::BTreeMap;

type Sides = (&'static str, &'static str);

struct Difference {
    times: u64,
    call: Call,
    answers: (Answer, Answer),
}

#[derive(Default)]
pub struct Tally {
    asked: BTreeMap<&'static str, u64>,
    /// by the number that the first side to answer gives, which is the model's where it has one
    refused: BTreeMap<u8, u64>,
    compared: BTreeMap<(Sides, &'static str), u64>,
    differences: BTreeMap<(String, Sides, &'static str), Difference>,
    notes: BTreeMap<String, u64>,
    broken: BTreeMap<String, (u64, String)>,
}

/// The foundations overlap heads, and neither deck nor buried cards.
fn on_head_alone(p: &Position) -> bool {
    let s = places(p);
    (0..CARDS).all(|card| !s.foundation[card] || !(s.deck[card] || s.buried[card]))
}

/// The class of a difference that docs/DIFFERENCES.md explains, for document 01's answer and the Rust's.
fn known(call: &Call, a: &Answer, b: &Answer) -> Option<&'static str> {
    match (call, a, b) {
        (Call::Find { p, card }, Answer::Located(m), Answer::Located(r)) => {
            let never_there = !p.deal[28..].contains(card);
            (never_there && !m.found && !r.found && (r.place == p.left || r.place == 255)).then_some("D1")
        }
        (Call::Resume { .. }, Answer::Started(m), Answer::Started(r)) => match (m.refusal, r.refusal) {
            (6, 0) => Some("D2"),
            (7, 0) => Some("D3"),
            (6 | 7, PANICKED) => Some("D4"),
            (8, 0) => on_head_alone(&r.position).then_some("D5"),
            (9, 0) => (!pair_rule(&places(&r.position))).then_some("D6"),
            (5, PANICKED) => Some("D7"),
            _ => None,
        },
        _ => None,
    }
}

impl Tally {
    /// Asks every side, and holds each two answers together.
    pub fn ask(&mut self, sides: &mut [Box<dyn Engine>], call: &Call) -> Vec<Option<Answer>> {
        let answers: Vec<Option<Answer>> = sides.iter_mut().map(|side| ask(side.as_mut(), call)).collect();
        *self.asked.entry(call.name()).or_default() += 1;
        if let Some(number) = answers.iter().flatten().next().and_then(Answer::refusal) {
            *self.refused.entry(number).or_default() += 1;
        }
        for i in 0..sides.len() {
            for j in i + 1..sides.len() {
                if let (Some(a), Some(b)) = (&answers[i], &answers[j]) {
                    self.hold((sides[i].name(), sides[j].name()), call, a, b);
                }
            }
        }
        answers
    }

    fn hold(&mut self, sides: Sides, call: &Call, a: &Answer, b: &Answer) {
        *self.compared.entry((sides, call.name())).or_default() += 1;
        if agree(a, b) {
            return;
        }
        let class = match sides {
            (_, "Rust") => known(call, a, b),
            ("Rust", _) => known(call, b, a),
            _ => None,
        };
        let class = class.unwrap_or("NEW").to_string();
        let found = Difference { times: 0, call: call.clone(), answers: (a.clone(), b.clone()) };
        let kept = self.differences.entry((class, sides, call.name())).or_insert(found);
        kept.times += 1;
        if call.size() < kept.call.size() {
            kept.call = call.clone();
            kept.answers = (a.clone(), b.clone());
        }
    }

    /// Counts something that is not a call.
    pub fn note(&mut self, what: &str, times: u64) {
        *self.notes.entry(what.to_string()).or_default() += times;
    }

    /// Counts something that must hold; the first failure is kept.
    pub fn must(&mut self, what: &str, holds: bool, shown: impl Fn() -> String) {
        self.note(what, 1);
        if !holds {
            self.broken.entry(what.to_string()).or_insert_with(|| (0, shown())).0 += 1;
        }
    }

    /// Prints all; true where nothing new differs.
    pub fn report(&self) -> bool {
        println!("calls asked:");
        for (name, times) in &self.asked {
            println!("  {times:>10}  {name}");
        }
        println!("answers by their refusal, 0 for accepted:");
        for (number, times) in &self.refused {
            println!("  {times:>10}  {number}");
        }
        println!("answers compared:");
        for ((sides, name), times) in &self.compared {
            println!("  {times:>10}  {name} ({} and {})", sides.0, sides.1);
        }
        println!("also:");
        for (what, times) in &self.notes {
            println!("  {times:>10}  {what}");
        }
        println!(
            "differences (cards, codes and single numbers in hexadecimal): {}",
            self.differences.len() + self.broken.len()
        );
        for ((class, sides, name), d) in &self.differences {
            println!("  {class} {name}, {} times; the smallest found:", d.times);
            println!("    call  {:x?}", d.call);
            println!("    {}  {:x?}", sides.0, d.answers.0);
            println!("    {}  {:x?}", sides.1, d.answers.1);
        }
        for (what, (times, shown)) in &self.broken {
            println!("  NEW not so: {what}, {times} times; the first:\n    {shown}");
        }
        self.broken.is_empty() && self.differences.keys().all(|(class, ..)| class != "NEW")
    }
}
