//! Inputs: deals, proper positions that play need not reach, positions that are spoilt, and codes.
use crate::rng::Rng;
use model::cards::{is_king, mask_of, pair, rank, suit};
use model::places::worked_out;
use model::play::slots;
use model::types::{Position, BLANK};

/// Deal W: card number equals place.
pub fn deal_w() -> [u8; 52] {
    core::array::from_fn(|k| k as u8)
}

pub fn shuffled(rng: &mut Rng) -> [u8; 52] {
    let mut deal = deal_w();
    rng.shuffle(&mut deal);
    deal
}

pub fn some_step(rng: &mut Rng) -> u8 {
    1 + if rng.once_in(2) { rng.byte_below(4) } else { rng.byte_below(24) }
}

#[derive(Clone, Copy, PartialEq)]
enum Home {
    Foundation,
    Head,
    Free,
    /// buried or in the deck
    Away,
}

fn some_heights(rng: &mut Rng) -> [u8; 4] {
    match rng.below(4) {
        0 => [0; 4].map(|_: u8| rng.byte_below(14)),
        1 => [0; 4].map(|_: u8| rng.byte_below(4)),
        2 => {
            let low = rng.byte_below(12);
            [0; 4].map(|_: u8| low + rng.byte_below(3)).map(|h| h.min(13))
        }
        _ => [0; 4].map(|_: u8| 13 - rng.byte_below(5)),
    }
}

/// A home for each card such that the pair rule and the seven rule hold.
fn some_homes(rng: &mut Rng, heights: &[u8; 4]) -> [Home; 52] {
    let mut homes = [Home::Away; 52];
    let mut others = vec![];
    for card in 0..52 {
        if rank(card) < usize::from(heights[suit(card)]) {
            homes[card] = Home::Foundation;
        } else {
            others.push(card);
        }
    }
    rng.shuffle(&mut others);
    let heads = rng.below(8).min(others.len());
    for &card in &others[..heads] {
        homes[card] = Home::Head;
    }
    // from the kings down, so that the pair four higher is settled
    let free_chance = rng.below(101);
    let visible = |homes: &[Home; 52], k: usize| {
        [2 * k, 2 * k + 1].iter().filter(|&&c| homes[c] == Home::Head || homes[c] == Home::Free).count()
    };
    let mut kings = 0;
    others.sort_by_key(|&card| core::cmp::Reverse(card));
    let mut free_in_pair = [0; 26];
    for card in others {
        if homes[card] != Home::Away || rng.below(100) >= free_chance {
            continue;
        }
        let k = pair(card);
        let fits = if is_king(card) { heads + kings < 7 } else { free_in_pair[k] < visible(&homes, k + 2) };
        if fits {
            homes[card] = Home::Free;
            free_in_pair[k] += 1;
            kings += usize::from(is_king(card));
        }
    }
    homes
}

/// Cards of a home, in random order.
fn cards_at(rng: &mut Rng, homes: &[Home; 52], wanted: &[Home]) -> Vec<u8> {
    let mut cards: Vec<u8> = (0..52).filter(|&c| wanted.contains(&homes[usize::from(c)])).collect();
    rng.shuffle(&mut cards);
    cards
}

/// Counts with this many heads and room for `away` cards under them and in the deck, if the piles drawn have it.
fn some_counts(rng: &mut Rng, heads: usize, away: usize) -> Option<[u8; 7]> {
    let mut piles = [0, 1, 2, 3, 4, 5, 6];
    rng.shuffle(&mut piles);
    let mut chosen = piles[..heads].to_vec();
    let room = |chosen: &[usize]| chosen.iter().sum::<usize>();
    if room(&chosen) + 24 < away {
        chosen = (7 - heads..7).collect();
    }
    let most = room(&chosen).min(away);
    let least = away.saturating_sub(24);
    if least > most {
        return None;
    }
    let mut counts = [0; 7];
    for &pile in &chosen {
        counts[pile] = 1;
    }
    for _ in 0..least + rng.below(most - least + 1) {
        let open: Vec<usize> = chosen.iter().copied().filter(|&pile| usize::from(counts[pile]) <= pile).collect();
        counts[rng.pick(&open)] += 1;
    }
    Some(counts)
}

/// A position built from its parts, and the deal around it.
fn try_position(rng: &mut Rng) -> Option<Position> {
    let heights = some_heights(rng);
    let homes = some_homes(rng, &heights);
    let mut heads = cards_at(rng, &homes, &[Home::Head]);
    let mut away = cards_at(rng, &homes, &[Home::Away]);
    let mut gone = cards_at(rng, &homes, &[Home::Foundation, Home::Free]);
    let counts = some_counts(rng, heads.len(), away.len())?;
    let mut deal = vec![];
    for pile in 0..7 {
        for k in 0..=pile {
            let n = usize::from(counts[pile]);
            let from = match k + 1 {
                place if place < n => &mut away,
                place if place == n => &mut heads,
                _ => &mut gone,
            };
            deal.push(from.pop()?);
        }
    }
    let mut stock: Vec<u8> = away.iter().copied().chain(gone).collect();
    rng.shuffle(&mut stock);
    deal.extend(&stock);
    stock.retain(|card| away.contains(card));
    let left = stock.len();
    let mut p = Position {
        deal: deal.try_into().unwrap(),
        step: some_step(rng),
        counts,
        heights,
        deck: some_slots(rng, &stock),
        left: left as u8,
        offset: rng.byte_below(left + 1),
        ..BLANK
    };
    p.visible = mask_of(&worked_out(&p));
    Some(p)
}

/// A deck's slots, the spare ones 0 or anything.
fn some_slots(rng: &mut Rng, cards: &[u8]) -> [u8; 24] {
    let mut deck = slots(cards);
    if rng.once_in(4) {
        deck[cards.len()..].fill_with(|| rng.byte_below(256));
    }
    deck
}

/// A proper position that play need not reach. Every proper position can come.
pub fn proper_position(rng: &mut Rng) -> Position {
    loop {
        if let Some(p) = try_position(rng) {
            assert!(model::proper::proper(&p), "the generator gives an improper position {p:?}");
            return p;
        }
    }
}

/// A position with a few of its numbers changed: seldom proper.
pub fn spoilt(rng: &mut Rng, p: &Position) -> Position {
    let mut q = *p;
    for _ in 0..1 + rng.below(2) {
        let small = |rng: &mut Rng, top: usize| if rng.once_in(4) { rng.byte_below(256) } else { rng.byte_below(top) };
        match rng.below(9) {
            0 => q.deal[rng.below(52)] = small(rng, 54),
            1 => q.deal.swap(rng.below(52), rng.below(52)),
            2 => q.step = small(rng, 27),
            3 => q.counts[rng.below(7)] = small(rng, 9),
            4 => q.heights[rng.below(4)] = small(rng, 16),
            5 => q.deck[rng.below(24)] = small(rng, 54),
            6 => q.left = small(rng, 27),
            7 => q.offset = small(rng, 27),
            _ => q.visible ^= 1 << rng.below(64),
        }
    }
    q
}

/// The position's bytes, one after the other.
fn bytes_of(p: &Position) -> Vec<u8> {
    let mut bytes = p.deal.to_vec();
    bytes.push(p.step);
    bytes.extend(p.counts.iter().chain(&p.heights).chain(&p.deck).chain(&[p.left, p.offset]));
    bytes.extend(p.visible.to_le_bytes());
    bytes
}

fn of_bytes(bytes: &[u8]) -> Position {
    let (deal, rest) = bytes.split_first_chunk().unwrap();
    let (&[step], rest) = rest.split_first_chunk().unwrap();
    let (counts, rest) = rest.split_first_chunk().unwrap();
    let (heights, rest) = rest.split_first_chunk().unwrap();
    let (deck, rest) = rest.split_first_chunk().unwrap();
    let (&[left, offset], visible) = rest.split_first_chunk().unwrap();
    let visible = u64::from_le_bytes(visible.try_into().unwrap());
    Position { deal: *deal, step, counts: *counts, heights: *heights, deck: *deck, left, offset, visible }
}

/// Any bytes at all.
pub fn any_bytes(rng: &mut Rng) -> Position {
    let bytes: Vec<u8> = bytes_of(&BLANK).iter().map(|_| rng.next() as u8).collect();
    of_bytes(&bytes)
}

/// One byte is another.
pub fn byte_changed(rng: &mut Rng, p: &Position) -> Position {
    let mut bytes = bytes_of(p);
    let at = rng.below(bytes.len());
    bytes[at] ^= 1 + rng.byte_below(255);
    of_bytes(&bytes)
}

/// One bit is another.
pub fn bit_changed(rng: &mut Rng, p: &Position) -> Position {
    let mut bytes = bytes_of(p);
    let at = rng.below(bytes.len());
    bytes[at] ^= 1 << rng.below(8);
    of_bytes(&bytes)
}

/// A position near a proper p: one card takes another home, the visible mask worked out. Often proper.
pub fn shifted(rng: &mut Rng, p: &Position) -> Position {
    let mut q = *p;
    if !model::proper::proper(p) {
        return q;
    }
    match rng.below(3) {
        0 => {
            let pile = rng.below(7);
            q.counts[pile] = rng.byte_below(pile + 2);
        }
        1 => q.heights[rng.below(4)] = rng.byte_below(14),
        _ => q.offset = rng.byte_below(usize::from(q.left) + 1),
    }
    q.visible = mask_of(&worked_out(&q));
    q
}

/// A code for a deal that may be of no proper position.
pub fn some_code_or_any(rng: &mut Rng, p: &Position) -> u64 {
    if model::proper::proper(p) {
        some_code(rng, p)
    } else {
        rng.next()
    }
}

/// A code for a deal: of a proper position, the same with a bit or a field changed, or any fields.
pub fn some_code(rng: &mut Rng, p: &Position) -> u64 {
    let code = model::code::code(p);
    let field = |rng: &mut Rng, code: u64, at: u32, width: u32| {
        let mask = ((1u64 << width) - 1) << at;
        code & !mask | rng.next() << at & mask
    };
    match rng.below(8) {
        0 => code,
        1 => code ^ 1 << rng.below(64),
        2 => code ^ 1 << rng.below(64) ^ 1 << rng.below(64),
        3 => code & !(0xFF << 56) | (rng.below(28) as u64) << 56,
        4 => {
            let at = 4 * rng.below(4) as u32;
            field(rng, code, at, 4)
        }
        5 => code & !(0xFFFF << 16) | (rng.below(40400) as u64) << 16,
        6 => field(rng, code, 32, 24),
        _ => rng.next(),
    }
}
