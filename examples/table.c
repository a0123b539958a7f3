/* A table of Klondike in C: deals W, lists, moves, undoes, saves and resumes, and prints what it gets. oracle/gravyhelm/examples/table.rs prints the same in Rust. */
#include <inttypes.h>
#include <stdio.h>

#include "gravyhelm.h"

static const char *const kinds[] = {"DeckStack", "PileStack", "DeckPile", "StackPile", "Reveal"};

static void print_piles(gravyhelm_position p) {
    uint8_t bytes[GRAVYHELM_PILE_BYTES];
    gravyhelm_piled piled = gravyhelm_piles(p, bytes, sizeof bytes);
    for (int i = 0; i < GRAVYHELM_PILES; i++) {
        printf("pile %d shows", i);
        for (int k = 0; k < piled.lengths[i]; k++)
            printf(" %d", bytes[GRAVYHELM_PILE_ROOM * i + k]);
        printf("\n");
    }
}

static void print_moves(gravyhelm_position p, uint8_t pruned) {
    uint16_t moves[GRAVYHELM_MOST_MOVES];
    gravyhelm_listed listed = gravyhelm_list_into(p, pruned, moves, GRAVYHELM_MOST_MOVES);
    printf("%s:", pruned ? "worth trying" : "moves");
    for (size_t i = 0; i < listed.count; i++)
        printf(" %s %d", kinds[moves[i] / 64], moves[i] % 64);
    printf("\n");
}

/* Makes a move and prints it; gives the position after it. */
static gravyhelm_position make(gravyhelm_position p, uint16_t *history, size_t length, size_t *count, uint8_t kind, uint8_t card) {
    gravyhelm_moved m = gravyhelm_do_move(p, history, length, *count, kind, card);
    printf("%s %d: refusal %d, count %zu, byte %d, turned up %d %d\n", kinds[kind], card, m.refusal, m.count, m.byte, m.turned.kind, m.turned.card);
    if (m.refusal == 0)
        printf("entry %d, code %016" PRIx64 "\n", history[m.count - 1], gravyhelm_save(m.position).code);
    *count = m.count;
    return m.position;
}

int main(void) {
    uint8_t w[GRAVYHELM_CARDS];
    for (int k = 0; k < GRAVYHELM_CARDS; k++)
        w[k] = (uint8_t)k;
    gravyhelm_started started = gravyhelm_deal(3, w, sizeof w);
    gravyhelm_position p = started.position;
    gravyhelm_saved saved = gravyhelm_save(p);
    printf("deal W: refusal %d, visible %" PRIx64 ", code %016" PRIx64 "\n", started.refusal, p.visible, saved.code);
    print_moves(p, 0);
    print_moves(p, 1);

    uint16_t history[3];
    size_t count = 0;
    p = make(p, history, 3, &count, GRAVYHELM_PILE_STACK, 0);
    p = make(p, history, 3, &count, GRAVYHELM_PILE_STACK, 2);
    p = make(p, history, 3, &count, GRAVYHELM_REVEAL, 9);
    p = make(p, history, 3, &count, GRAVYHELM_DECK_PILE, 51);
    print_moves(p, 0);
    print_piles(p);

    while (count > 0) {
        gravyhelm_undone undone = gravyhelm_undo_move(p, history, 3, count);
        printf("undo: refusal %d, count %zu, code %016" PRIx64 "\n", undone.refusal, undone.count, gravyhelm_save(undone.position).code);
        if (undone.refusal != 0)
            return 1;
        p = undone.position;
        count = undone.count;
    }
    printf("undo: refusal %d\n", gravyhelm_undo_move(p, history, 3, count).refusal);

    p = make(p, history, 3, &count, GRAVYHELM_REVEAL, 5);
    print_piles(p);
    gravyhelm_started again = gravyhelm_resume(3, w, sizeof w, gravyhelm_save(p).code);
    printf("resume: refusal %d, on the ladder %s\n", again.refusal, gravyhelm_ladder(p, again.position).same ? "the same" : "another");
    printf("resume of a pile field too large: refusal %d\n", gravyhelm_resume(3, w, sizeof w, UINT64_C(0x18FFFFFF9D800000)).refusal);
    gravyhelm_started won = gravyhelm_resume(3, w, sizeof w, 0xDDDD);
    printf("resume of dddd: refusal %d, won %s\n", won.refusal, gravyhelm_is_win(won.position).yes ? "yes" : "no");
    print_moves(won.position, 0);

    gravyhelm_cursor cursor = {24, 3, 0};
    for (int k = 0; k < 3; k++)
        gravyhelm_deal_once_lent(&cursor);
    printf("three deals: offset %d, and by offset(3) %d; offset(255) %d\n", cursor.offset, gravyhelm_offset(p, 3).offset, gravyhelm_offset(p, 255).offset);
    p.visible ^= 1;
    printf("a card more is visible: refusal %d\n", gravyhelm_save(p).refusal);
    return 0;
}
