//! The program `show`: what it prints for the bytes that it reads.
use crate::calls::{deal, masks, save};

/// "reads one byte of step, then the deal". "With no input at all N is 2."
pub fn show(input: &[u8]) -> String {
    let Some((&step, cards)) = input.split_first() else {
        return "refused 2\n".to_string();
    };
    let started = deal(cards, step);
    if started.refusal != 0 {
        return format!("refused {}\n", started.refusal);
    }
    let m = masks(&started.position).masks;
    let lines = [save(&started.position).code, m.reveal, m.pile_stack, m.deck_pile, m.deck_stack, m.stack_pile];
    lines.iter().map(|line| format!("{line:016x}\n")).collect()
}
