//! "Worked positions", P1 to P14, and the output of `show`.
use crate::calls::*;
use crate::dealing::{available_places, deals};
use crate::types::*;

fn w() -> [u8; 52] {
    core::array::from_fn(|k| k as u8)
}

fn five(reveal: u64, pile_stack: u64, stack_pile: u64) -> Masks {
    Masks { reveal, pile_stack, stack_pile, ..Masks::default() }
}

#[test]
fn fresh_and_moves() {
    let p1 = deal(&w(), 3).position;
    assert_eq!((p1.visible, save(&p1).code), (0x8104225, 0x18FFFFFF9D7F0000));
    assert_eq!(masks(&p1).masks, five(0x21, 0x5, 0));
    let mut history = [7; 3];
    let p4 = do_move(&p1, &mut history, 0, 1, 0);
    assert_eq!((p4.byte, p4.position.visible, save(&p4.position).code), (1, 0x8104224, 0x18FFFFFF9D7E0001));
    let p5 = do_move(&p4.position, &mut history, p4.count, 1, 2);
    assert_eq!((p5.byte, p5.position.visible, save(&p5.position).code), (1, 0x8104222, 0x18FFFFFF9D7C0101));
    assert_eq!((p5.count, history), (2, [512 + 64, 512 + 64 + 2, 7]));
    let back = undo(&p5.position, &history, 2);
    assert_eq!((back.refusal, back.position, back.count), (0, p4.position, 1));
    let p6 = do_move(&p1, &mut history, 0, 4, 5);
    assert_eq!((p6.turned, save(&p6.position).code), (TurnedUp::Card(4), 0x18FFFFFF9D790000));
    let mut buffer = [9; 92];
    assert_eq!(face_up(&p6.position, &mut buffer).lengths, [1, 1, 1, 2, 1, 1, 1]);
    assert_eq!((buffer[26], buffer[27], &buffer[39..42], buffer[91]), (4, 255, &[9, 5, 255][..], 9));
    assert_eq!(do_move(&p1, &mut history, 0, 4, 9).refusal, 11);
}

#[test]
fn resumes() {
    let refusal = |code| resume(&w(), 3, code).refusal;
    assert_eq!(refusal(0x18FFFFFF9D800000), 6);
    assert_eq!((refusal(0x03FFFFFF9D7F0000), refusal(0x04FFFFFF9D7F0000)), (7, 0));
    assert_eq!(refusal(0x18FFFFFF9D7F0001), 8);
    assert_eq!(refusal(0x000000009D7F0000), 9);
    let won = resume(&w(), 3, 0xDDDD).position;
    assert!(is_win(&won).yes);
    assert_eq!(masks(&won).masks, five(0, 0, 0x000F000000000000));
}

#[test]
fn dealing() {
    let places = available_places(10, 4, 5);
    let available: Vec<usize> = (0..10).filter(|&k| places[k]).collect();
    assert_eq!(available, [3, 4, 7, 8, 9]);
    assert_eq!((deals(24, 3, 0, 8), deals(24, 3, 0, 9), deals(24, 3, 0, 255)), (24, 0, 9));
}

#[test]
fn show_prints() {
    let mut input = vec![3];
    input.extend(w());
    let lines = ["18ffffff9d7f0000", "0000000000000021", "0000000000000005"];
    let expected = lines.map(|line| format!("{line}\n")).concat() + &"0000000000000000\n".repeat(3);
    assert_eq!(crate::show::show(&input), expected);
    assert_eq!(crate::show::show(&[]), "refused 2\n");
}
