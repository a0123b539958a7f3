//! Runs our inner calls and the Rust's on the same positions, in one process.
//!   bench [THING..]               a table of the best of many rounds, in ns for each call; of these things alone
//!   bench instructions [THING..]  the same in instructions, which repeat: each thing of each side under callgrind
//!   bench one FILE THING SIDE ROUNDS   one of them alone, for callgrind (SIDE 0 is ours, 1 the Rust's; FILE has the cases)
mod cases;
mod ours;
mod things;

use cases::{Case, COUNT};
use std::path::Path;
use std::process::Command;
use std::time::Instant;
use things::{Thing, THINGS};

const SEED: u64 = 1;
const ROUNDS: usize = 100;
const COUNTED_ROUNDS: usize = 1;

/// Callgrind counts what happens in here.
#[no_mangle]
#[inline(never)]
fn measured(run: fn(&mut [Case]), cases: &mut [Case]) {
    run(cases);
}

fn timed(run: fn(&mut [Case]), cases: &mut [Case]) -> f64 {
    let start = Instant::now();
    run(cases);
    start.elapsed().as_nanos() as f64 / cases.len() as f64
}

/// Round about, so that what else runs on the machine disturbs both sides alike.
fn best(thing: &Thing, cases: &mut [Case]) -> [f64; 2] {
    let mut least = [f64::INFINITY; 2];
    for _ in 0..ROUNDS {
        for (side, run) in thing.both.iter().enumerate() {
            least[side] = least[side].min(timed(*run, cases));
        }
    }
    least
}

/// In instructions for each call.
fn counted(file: &Path, thing: &Thing, side: usize) -> f64 {
    let out = Command::new("valgrind")
        .args(["--tool=callgrind", "--toggle-collect=measured", "--callgrind-out-file=/dev/null"])
        .arg(std::env::current_exe().unwrap())
        .arg("one")
        .arg(file)
        .args([thing.name, &side.to_string(), &COUNTED_ROUNDS.to_string()])
        .output()
        .expect("valgrind is not installed");
    let text = String::from_utf8_lossy(&out.stderr).into_owned();
    let line = text.lines().find(|line| line.contains("Collected :")).expect("callgrind counts nothing");
    let count: f64 = line.rsplit(' ').next().unwrap().parse().unwrap();
    count / (COUNT * COUNTED_ROUNDS) as f64
}

fn one(words: &[String]) {
    let [file, name, side, rounds] = words else { panic!("one FILE THING SIDE ROUNDS") };
    let mut cases = cases::read(&std::fs::read(file).unwrap());
    let thing = THINGS.iter().find(|t| t.name == name).expect("no such thing");
    let run = thing.both[side.parse::<usize>().unwrap()];
    for _ in 0..rounds.parse().unwrap() {
        measured(run, &mut cases);
    }
}

/// A row: for each set ours, the Rust's, and their ratio, what handing a position over costs taken off on each side.
fn row(thing: &Thing, numbers: &[[f64; 2]], nothing: &mut Vec<[f64; 2]>) {
    if thing.name == "nothing" {
        *nothing = numbers.to_vec();
    }
    print!("| {} | {} |", thing.name, thing.rust);
    for (n, empty) in numbers.iter().zip(nothing.iter()) {
        let ratio = (n[0] - empty[0]) / (n[1] - empty[1]);
        if thing.name == "nothing" {
            print!(" {:.1} | {:.1} | |", n[0], n[1]);
        } else {
            print!(" {:.1} | {:.1} | {:.2} |", n[0], n[1], ratio);
        }
    }
    println!(" {} |", thing.target.map_or(String::new(), |t| format!("{t:.1}")));
}

fn main() {
    let words: Vec<String> = std::env::args().skip(1).collect();
    if words.first().is_some_and(|w| w == "one") {
        return one(&words[1..]);
    }
    let instructions = words.first().is_some_and(|w| w == "instructions");
    let mut sets = cases::sets(SEED);
    assert!(sets.iter().all(|(_, cases)| cases.iter().all(things::agree)), "the sides differ");
    println!("| ours | the Rust's | play: ours | Rust | ratio | any: ours | Rust | ratio | target |");
    println!("|---|---|---|---|---|---|---|---|---|");
    let mut nothing = vec![];
    let files = sets.each_ref().map(|(set, cases)| {
        let file = std::env::temp_dir().join(format!("bench-{set}-{}", std::process::id()));
        std::fs::write(&file, cases::write(cases)).unwrap();
        file
    });
    let asked = &words[usize::from(instructions)..];
    for thing in THINGS {
        if !asked.is_empty() && thing.name != "nothing" && !asked.iter().any(|word| word == thing.name) {
            continue;
        }
        let numbers: Vec<[f64; 2]> = sets
            .iter_mut()
            .zip(&files)
            .map(|((_, cases), file)| match instructions {
                true => [0, 1].map(|side| counted(file, thing, side)),
                false => best(thing, cases),
            })
            .collect();
        row(thing, &numbers, &mut nothing);
    }
    for file in files {
        std::fs::remove_file(file).unwrap();
    }
}
