//! A table of Klondike in Rust: deals W, lists, moves, undoes, saves and resumes, and prints what it gets.
//! `examples/table.c` of the project prints the same in C.
use gravyhelm::{kind, Cursor, Position, TurnedUp, PILE_BYTES, PILE_ROOM};

const KINDS: [&str; 5] = ["DeckStack", "PileStack", "DeckPile", "StackPile", "Reveal"];

fn print_piles(p: Position) {
    let mut bytes = [0; PILE_BYTES];
    let piled = gravyhelm::piles(p, &mut bytes);
    for (i, pile) in bytes.chunks(PILE_ROOM).enumerate() {
        let cards: String = pile[..usize::from(piled.lengths[i])].iter().map(|card| format!(" {card}")).collect();
        println!("pile {i} shows{cards}");
    }
}

fn print_moves(p: Position, pruned: bool) {
    let mut moves = [0; 260];
    let front = gravyhelm::list(p, pruned, &mut moves);
    let listed: String = front.iter().map(|m| format!(" {} {}", KINDS[usize::from(m / 64)], m % 64)).collect();
    println!("{}:{listed}", if pruned { "worth trying" } else { "moves" });
}

/// Makes a move and prints it; gives the position after it.
fn make(p: Position, history: &mut [u16], count: &mut usize, kind: u8, card: u8) -> Position {
    let m = gravyhelm::do_move(p, history, *count, kind, card);
    let (case, up) = match m.turned {
        TurnedUp::Nothing => (0, 0),
        TurnedUp::Emptied => (1, 0),
        TurnedUp::Card(card) => (2, card),
    };
    let name = KINDS[usize::from(kind)];
    println!("{name} {card}: refusal {}, count {}, byte {}, turned up {case} {up}", m.refusal, m.count, m.byte);
    if m.refusal == 0 {
        println!("entry {}, code {:016x}", history[m.count - 1], gravyhelm::save(m.position).code);
    }
    *count = m.count;
    m.position
}

fn main() {
    let w: [u8; 52] = core::array::from_fn(|k| k as u8);
    let started = gravyhelm::deal(3, &w);
    let mut p = started.position;
    let code = gravyhelm::save(p).code;
    println!("deal W: refusal {}, visible {:x}, code {code:016x}", started.refusal, p.visible);
    print_moves(p, false);
    print_moves(p, true);

    let mut history = [0; 3];
    let mut count = 0;
    p = make(p, &mut history, &mut count, kind::PILE_STACK, 0);
    p = make(p, &mut history, &mut count, kind::PILE_STACK, 2);
    p = make(p, &mut history, &mut count, kind::REVEAL, 9);
    p = make(p, &mut history, &mut count, kind::DECK_PILE, 51);
    print_moves(p, false);
    print_piles(p);

    while count > 0 {
        let undone = gravyhelm::undo_move(p, &history, count);
        let code = gravyhelm::save(undone.position).code;
        println!("undo: refusal {}, count {}, code {code:016x}", undone.refusal, undone.count);
        assert_eq!(undone.refusal, 0);
        p = undone.position;
        count = undone.count;
    }
    println!("undo: refusal {}", gravyhelm::undo_move(p, &history, count).refusal);

    p = make(p, &mut history, &mut count, kind::REVEAL, 5);
    print_piles(p);
    let again = gravyhelm::resume(3, &w, gravyhelm::save(p).code);
    let same = gravyhelm::ladder(p, again.position).same;
    println!("resume: refusal {}, on the ladder {}", again.refusal, if same { "the same" } else { "another" });
    let too_large = gravyhelm::resume(3, &w, 0x18FF_FFFF_9D80_0000);
    println!("resume of a pile field too large: refusal {}", too_large.refusal);
    let won = gravyhelm::resume(3, &w, 0xDDDD);
    let yes = gravyhelm::is_win(won.position).yes;
    println!("resume of dddd: refusal {}, won {}", won.refusal, if yes { "yes" } else { "no" });
    print_moves(won.position, false);

    let mut cursor = Cursor { len: 24, step: 3, offset: 0 };
    for _ in 0..3 {
        gravyhelm::deal_once_lent(&mut cursor);
    }
    let [by_three, by_all] = [3, 255].map(|n| gravyhelm::offset(p, n).offset);
    println!("three deals: offset {}, and by offset(3) {by_three}; offset(255) {by_all}", cursor.offset);
    p.visible ^= 1;
    println!("a card more is visible: refusal {}", gravyhelm::save(p).refusal);
}
