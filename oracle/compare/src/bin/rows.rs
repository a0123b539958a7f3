//! rows write [SEED]: writes the rows (compare::rows has the format) to standard output.
//! rows check: reads them from standard input, replays them over the sides here, and names each byte that differs.
//! Answers are the Rust's and the model's where both have one and agree, the model's where document 01 differs from the Rust
//! (docs/DIFFERENCES.md) and for refusals, and the Rust's alone for pruned masks and listings.
use compare::player::Player;
use compare::rows::{Record, SET, SIZE, VERSION};
use compare::sides;
use compare::writer::Writer;
use std::io::{Read, Write};

const LIMIT: usize = 300_000;

fn write(seed: u64) {
    let mut w = Writer::new(Player::new(sides::all()), seed);
    w.worked();
    for step in 1..=24 {
        w.game(step);
    }
    for _ in 0..150 {
        w.position();
    }
    for _ in 0..18 {
        w.histories();
        w.refused_starts();
        w.improper();
        w.cursors();
    }
    assert!(w.player.faults.is_empty(), "{:?}", w.player.faults);
    let mut bytes = vec![b'R', VERSION, 0, 0];
    bytes.extend((w.records.len() as u32).to_le_bytes());
    bytes.resize(SIZE, 0);
    for r in &w.records {
        bytes.extend(r.0);
    }
    assert!(bytes.len() <= LIMIT, "{} bytes", bytes.len());
    let mut out = std::io::stdout().lock();
    out.write_all(&bytes).and_then(|()| out.flush()).expect("standard output");
    eprintln!("{} records, {} bytes", w.records.len(), bytes.len());
    for tag in 1..=SET {
        eprintln!("  tag {tag:>2}: {}", w.records.iter().filter(|r| r.0[0] == tag).count());
    }
}

/// What is wrong with the file as a whole: a file cut short must not pass.
fn file_fault(bytes: &[u8]) -> Option<String> {
    if bytes.len() < SIZE || bytes[..2] != [b'R', VERSION] {
        return Some("no header".to_string());
    }
    let told = u32::from_le_bytes(bytes[4..8].try_into().unwrap()) as usize;
    let whole = SIZE * (told + 1);
    (bytes.len() != whole).then(|| format!("{} bytes, and not the {whole} of {told} records", bytes.len()))
}

/// How many bytes are wrong.
fn check() -> usize {
    let mut bytes = vec![];
    std::io::stdin().read_to_end(&mut bytes).expect("standard input");
    if let Some(fault) = file_fault(&bytes) {
        println!("{fault}");
        return 1;
    }
    let mut player = Player::new(sides::all());
    let mut wrong = 0;
    for (i, chunk) in bytes.chunks_exact(SIZE).skip(1).enumerate() {
        let expected = Record(chunk.try_into().unwrap());
        let mut r = expected;
        player.fill(&mut r);
        for at in (0..SIZE).filter(|&at| r.0[at] != expected.0[at]) {
            println!("record {i}, tag {}, byte {at}: {} and not {}", r.0[0], r.0[at], expected.0[at]);
            wrong += 1;
        }
        for fault in player.faults.drain(..) {
            println!("record {i}, tag {}: not so: {fault}", r.0[0]);
            wrong += 1;
        }
    }
    let told = player.tally.report();
    println!("{} records, {wrong} wrong", bytes.len() / SIZE - 1);
    wrong + usize::from(!told)
}

fn main() {
    std::panic::set_hook(Box::new(|info| {
        if !info.location().is_some_and(|at| at.file().contains("lonelybot")) {
            eprintln!("{info}");
        }
    }));
    let words: Vec<String> = std::env::args().skip(1).collect();
    match words.first().map(String::as_str) {
        Some("write") => write(words.get(1).map_or(1, |w| w.parse().expect("a number"))),
        Some("check") => std::process::exit(i32::from(check() > 0)),
        _ => {
            eprintln!("rows write [SEED] | rows check");
            std::process::exit(2);
        }
    }
}
