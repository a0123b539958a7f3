//! "Cards and masks".

pub const CARDS: usize = 52;
pub const PAIRS: usize = 26;
pub const KING: usize = 12;

/// A set of cards.
pub type Set = [bool; CARDS];

/// "Card number = 4·rank + suit, with 2 of the suit flipped on odd ranks"
pub fn card_of(rank: usize, suit: usize) -> usize {
    if rank % 2 == 1 {
        4 * rank + (suit + 2) % 4
    } else {
        4 * rank + suit
    }
}

/// The rank and the suit with that card number.
pub fn rank_and_suit(card: usize) -> (usize, usize) {
    for rank in 0..13 {
        for suit in 0..4 {
            if card_of(rank, suit) == card {
                return (rank, suit);
            }
        }
    }
    panic!("no card {card}")
}

pub fn rank(card: usize) -> usize {
    rank_and_suit(card).0
}

pub fn suit(card: usize) -> usize {
    rank_and_suit(card).1
}

pub fn is_king(card: usize) -> bool {
    rank(card) == KING
}

/// "Numbers 2k and 2k+1 are a pair": the cards of pair k
pub fn cards_of_pair(pair: usize) -> [usize; 2] {
    [2 * pair, 2 * pair + 1]
}

pub fn pair(card: usize) -> usize {
    card / 2
}

/// The other card of its pair.
pub fn partner(card: usize) -> usize {
    let [a, b] = cards_of_pair(pair(card));
    if card == a {
        b
    } else {
        a
    }
}

/// "it is also the bit in every mask"
pub fn mask_of(set: &Set) -> u64 {
    let mut mask = 0;
    for card in 0..CARDS {
        if set[card] {
            mask += 2u64.pow(card as u32);
        }
    }
    mask
}

pub fn set_of(mask: u64) -> Set {
    let mut set = [false; CARDS];
    for card in 0..CARDS {
        set[card] = mask / 2u64.pow(card as u32) % 2 == 1;
    }
    set
}
