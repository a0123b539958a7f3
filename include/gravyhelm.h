/* Gravyhelm: the rules of Klondike, proved. What C and C++ link: target/staticlib/libpanel.a, which `tools/staticlib panel` writes (x86-64).
 *
 * Every call takes any input at all. It judges what it is given, and says no with one of the numbers below, the first that fits in the order that stands with the call.
 * A refused call hands back the position it was given, 0 for all else, and writes nothing. Nothing is kept between two calls, nothing is allocated, and no call fails.
 * Positions, cursors and answers go by value. The padding of a record is not read, and has no promised content in an answer.
 *
 * What a call asks of its caller is C's own rule alone: a pointer points to `length` items (to none where `length` is 0, but it is not NULL even then), which no other thread
 * writes meanwhile, and for the calls that write, which no other thread reads. A pointer to 16-bit numbers is even.
 */
#ifndef GRAVYHELM_H
#define GRAVYHELM_H

#include <stdbool.h>
#include <stddef.h>
#include <stdint.h>

#ifdef __cplusplus
extern "C" {
#endif

/* ---- Sizes */

#define GRAVYHELM_CARDS 52       /* card number = 4 * rank + suit, with 2 of the suit flipped on odd ranks; also the card's bit in a mask */
#define GRAVYHELM_SUITS 4
#define GRAVYHELM_PILES 7
#define GRAVYHELM_DECK_CARDS 24  /* the last 24 cards of a deal */
#define GRAVYHELM_LAST_STEP 24   /* steps are 1 to 24 */
#define GRAVYHELM_PILE_ROOM 13   /* bytes for a face-up pile */
#define GRAVYHELM_PILE_BYTES 91  /* bytes for the seven of them */
#define GRAVYHELM_MOST_MOVES 260 /* no listing needs more slots: five kinds of 52 cards */

/* ---- Kinds of move. A move is kind * 64 + card; an entry of a history is byte * 512 + kind * 64 + card */

#define GRAVYHELM_DECK_STACK 0
#define GRAVYHELM_PILE_STACK 1
#define GRAVYHELM_DECK_PILE 2
#define GRAVYHELM_STACK_PILE 3
#define GRAVYHELM_REVEAL 4

/* ---- What a move turned up */

#define GRAVYHELM_TURNED_NOTHING 0 /* no head was removed */
#define GRAVYHELM_TURNED_EMPTIED 1 /* a head was removed, and its pile is empty */
#define GRAVYHELM_TURNED_CARD 2    /* the card under the head that was removed */

/* ---- The numbers given when saying no. 0 is no refusal */

#define GRAVYHELM_WRONG_STEP 1       /* step 0 or above 24 */
#define GRAVYHELM_WRONG_LENGTH 2     /* deal not 52 bytes */
#define GRAVYHELM_NO_CARD 3          /* a card byte above 51 */
#define GRAVYHELM_SAME_CARD 4        /* a card twice */
#define GRAVYHELM_WRONG_HEIGHT 5     /* foundation height above 13 */
#define GRAVYHELM_WRONG_PILES 6      /* pile field 40320 or more */
#define GRAVYHELM_WRONG_OFFSET 7     /* offset above cards left, or not the stored form */
#define GRAVYHELM_OVERLAPPING 8      /* foundation overlaps deck, buried or heads */
#define GRAVYHELM_UNARRANGED 9       /* no arrangement: the pair rule or the seven rule broken */
#define GRAVYHELM_NO_SUCH_MOVE 10    /* kind above 4 or card above 51 */
#define GRAVYHELM_NOT_LEGAL 11       /* move not legal */
#define GRAVYHELM_HISTORY_FULL 12    /* history full */
#define GRAVYHELM_NOTHING_TO_UNDO 13 /* nothing to undo */
#define GRAVYHELM_WRONG_COUNT 14     /* history count beyond its slice */
#define GRAVYHELM_WRONG_ENTRY 15     /* last entry impossible: no legal move that writes it reaches this position */
#define GRAVYHELM_NOT_PROPER 16      /* position not proper; a cursor's length above 24, or its offset above its length */
#define GRAVYHELM_TOO_SHORT 17       /* lent pile or listing buffer too short */

/* ---- The records */

/* A position, 104 bytes. It is proper when every number is in its range, every card is in exactly one of foundation, deck, buried and visible, every head is visible, and the
 * pair rule and the seven rule hold. Whoever keeps positions from answers has proper ones; any other bytes are refused with 16. */
typedef struct gravyhelm_position {
    uint8_t deal[52];   /* 52 different cards, 0 to 51: pile i (0 to 6) takes i + 1 of them, pile after pile; the last 24 are the deck */
    uint8_t step;       /* 1 to 24: how many cards a deal turns */
    uint8_t counts[7];  /* of pile i, 0 to i + 1: how many of its places are locked. The last of them is the head, which shows; the others are buried */
    uint8_t heights[4]; /* of each suit's foundation, 0 to 13 */
    uint8_t deck[24];   /* the deck cards left, in deal order, in its first `left` slots; the other slots are spare, and are not read */
    uint8_t left;       /* 0 to 24 */
    uint8_t offset;     /* 0 to left */
    uint64_t visible;   /* the mask of the cards that show, on the piles; bits 52 to 63 are 0 */
} gravyhelm_position;

/* The moves of each kind as masks of cards, in the order of the listing. 40 bytes. */
typedef struct gravyhelm_masks_record {
    uint64_t reveal;
    uint64_t pile_stack;
    uint64_t deck_pile;
    uint64_t deck_stack;
    uint64_t stack_pile;
} gravyhelm_masks_record;

/* A deck's length, step and offset alone. 3 bytes. */
typedef struct gravyhelm_cursor {
    uint8_t len;    /* 0 to 24 */
    uint8_t step;   /* 1 to 24 */
    uint8_t offset; /* 0 to len */
} gravyhelm_cursor;

/* ---- The answers. `refusal` is 0 where the call is accepted. `position` is the given one, but for a deal, a resume, a move and an undo that is accepted: there it is the new one. */

typedef struct gravyhelm_started { uint8_t refusal; gravyhelm_position position; } gravyhelm_started; /* refused, the position is all 0 */
typedef struct gravyhelm_saved { uint8_t refusal; gravyhelm_position position; uint64_t code; } gravyhelm_saved;
typedef struct gravyhelm_masked { uint8_t refusal; gravyhelm_position position; gravyhelm_masks_record masks; } gravyhelm_masked;
typedef struct gravyhelm_told { uint8_t refusal; gravyhelm_position position; bool yes; } gravyhelm_told;
typedef struct gravyhelm_listed { uint8_t refusal; gravyhelm_position position; size_t count; } gravyhelm_listed;
typedef struct gravyhelm_heights_record { uint8_t refusal; gravyhelm_position position; uint8_t heights[4]; } gravyhelm_heights_record;
typedef struct gravyhelm_deck_view { uint8_t refusal; gravyhelm_position position; uint8_t cards[24]; uint8_t left; uint8_t offset; } gravyhelm_deck_view;
typedef struct gravyhelm_located { uint8_t refusal; gravyhelm_position position; bool found; uint8_t place; } gravyhelm_located;
typedef struct gravyhelm_offset_record { uint8_t refusal; gravyhelm_position position; uint8_t offset; } gravyhelm_offset_record;
typedef struct gravyhelm_piled { uint8_t refusal; gravyhelm_position position; uint8_t lengths[7]; } gravyhelm_piled;
typedef struct gravyhelm_turned_up { uint8_t kind; uint8_t card; } gravyhelm_turned_up; /* kind: GRAVYHELM_TURNED_..; card: 0 but with TURNED_CARD */
typedef struct gravyhelm_moved { uint8_t refusal; gravyhelm_position position; size_t count; uint8_t byte; gravyhelm_turned_up turned; } gravyhelm_moved;
typedef struct gravyhelm_undone { uint8_t refusal; gravyhelm_position position; size_t count; } gravyhelm_undone;
typedef struct gravyhelm_compared { uint8_t refusal; gravyhelm_position first; gravyhelm_position second; bool same; } gravyhelm_compared;
typedef struct gravyhelm_turned { uint8_t refusal; gravyhelm_cursor cursor; } gravyhelm_turned;

/* ---- Beginning and saving */

/* A fresh deal. Refuses 1, 2, 3, 4, in this order. Only reads the deal. */
gravyhelm_started gravyhelm_deal(uint8_t step, const uint8_t *deal, size_t length);

/* The position of a deal, a step and a save code. Refuses 1 to 9, as numbered. Only reads the deal. */
gravyhelm_started gravyhelm_resume(uint8_t step, const uint8_t *deal, size_t length, uint64_t code);

/* The save code. Bits 0 to 15: heights, four bits each. 16 to 31: counts as n0 + 2 (n1 + 3 (n2 + 4 (n3 + 5 (n4 + 6 (n5 + 7 n6))))). 32 to 55: deck cards left, by place
 * in the 24. 56 to 63: the offset, but the number of cards left where the offset is a multiple of step. Refuses 16. */
gravyhelm_saved gravyhelm_save(gravyhelm_position p);

/* ---- Moves: what there is */

/* The legal moves as masks; where `pruned` is not 0, those worth trying alone, which are among them. Refuses 16. */
gravyhelm_masked gravyhelm_masks(gravyhelm_position p, uint8_t pruned);

/* Whether a move is legal. Refuses 16, 10. */
gravyhelm_told gravyhelm_test(gravyhelm_position p, uint8_t kind, uint8_t card);

/* Writes the moves into the front of `out`: Reveal, PileStack, DeckPile, DeckStack, StackPile, ascending by card in each, each as kind * 64 + card. `count` slots are written,
 * and later slots stay. Refuses 16, and 17 where there are more moves than `length`: then no slot is written and `count` is 0. */
gravyhelm_listed gravyhelm_list_into(gravyhelm_position p, uint8_t pruned, uint16_t *out, size_t length);

/* What gravyhelm_list_into would answer with a buffer of `room` slots. Writes nothing. Refuses 16, 17. */
gravyhelm_listed gravyhelm_list_count(gravyhelm_position p, uint8_t pruned, size_t room);

/* ---- Moves: making and undoing. A history is `length` slots of which the first `count` are entries; the answer has the new count. */

/* Makes a move, and writes its entry at slot `count`; no other slot is written. `byte` is the undo byte. Refuses 16, 14 (count > length), 10, 11, 12 (count == length):
 * then position and count are those given, and no slot is written. */
gravyhelm_moved gravyhelm_do_move(gravyhelm_position p, uint16_t *history, size_t length, size_t count, uint8_t kind, uint8_t card);

/* Undoes the last entry, and lowers the count. Only reads the history. Refuses 16, 14 (count > length), 13 (count == 0), 15: then position and count are those given. */
gravyhelm_undone gravyhelm_undo_move(gravyhelm_position p, const uint16_t *history, size_t length, size_t count);

/* ---- Questions */

/* Whether every foundation is full. Refuses 16. */
gravyhelm_told gravyhelm_is_win(gravyhelm_position p);

/* Whether at most one card is in the deck and nothing is buried. Refuses 16. */
gravyhelm_told gravyhelm_is_sure_win(gravyhelm_position p);

/* Whether two positions are the same on the ladder: of one deal and step, with equal codes. Refuses 16, for either. */
gravyhelm_compared gravyhelm_ladder(gravyhelm_position p, gravyhelm_position q);

/* ---- What shows */

/* The foundation heights. Refuses 16. */
gravyhelm_heights_record gravyhelm_heights(gravyhelm_position p);

/* The deck cards left, in deal order, the slots past them 0; their number; the offset. Refuses 16. */
gravyhelm_deck_view gravyhelm_deck(gravyhelm_position p);

/* Whether a card is among the deck cards left, and the number of cards left that were dealt before it; place 0 for a card that the deck never had. Refuses 16, 10. */
gravyhelm_located gravyhelm_find(gravyhelm_position p, uint8_t card);

/* The offset after n deals in a row. Refuses 16. */
gravyhelm_offset_record gravyhelm_offset(gravyhelm_position p, uint8_t n);

/* Writes the face-up piles: pile i from byte 13 i on, `lengths[i]` cards, 255 in its other bytes. Bytes from 91 on stay. Refuses 16, 17 (length < 91): then no byte is written. */
gravyhelm_piled gravyhelm_piles(gravyhelm_position p, uint8_t *out, size_t length);

/* ---- A cursor */

/* A deal: the offset goes to 0 where it is at the length, else on by the step, or to the length where that is nearer. Refuses 1, 16: then the cursor is the given one. */
gravyhelm_turned gravyhelm_deal_once(gravyhelm_cursor c);

/* The same on a lent cursor, which it changes itself. The answer is the refusal's number, or 0. Refused, the cursor stays. */
uint8_t gravyhelm_deal_once_lent(gravyhelm_cursor *c);

#ifdef __cplusplus
}
#endif

#endif
