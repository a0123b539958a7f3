/* fuzz SECONDS SEED: calls every exported function with random bytes. Lent memory ends at a page that may not be touched, so that one byte past it stops the program.
 * It holds each answer to what the header says of every input: a refused call hands the position back and writes nothing; a move that is made can be undone; a saved
 * position can be resumed; what is saved or made is proper. */
#define _GNU_SOURCE
#include <stdio.h>
#include <stdlib.h>
#include <string.h>
#include <sys/mman.h>
#include <time.h>

#include "gravyhelm.h"

enum { PAGE = 4096 };

static uint64_t seed, calls;
static uint8_t *end_of_page; /* the byte after it may not be touched */

static uint64_t random64(void) {
    seed += UINT64_C(0x9E3779B97F4A7C15);
    uint64_t x = seed;
    x = (x ^ (x >> 30)) * UINT64_C(0xBF58476D1CE4E5B9);
    x = (x ^ (x >> 27)) * UINT64_C(0x94D049BB133111EB);
    return x ^ (x >> 31);
}

static size_t below(size_t n) { return random64() % n; }

static void random_bytes(void *to, size_t n) {
    for (size_t i = 0; i < n; i++)
        ((uint8_t *)to)[i] = (uint8_t)random64();
}

#define MUST(what)                                                     \
    do {                                                               \
        if (!(what)) {                                                 \
            printf("line %d is not so: %s\n", __LINE__, #what);        \
            exit(1);                                                   \
        }                                                              \
    } while (0)

/* Records have padding, so they are compared field by field. */
static bool alike(const gravyhelm_position *p, const gravyhelm_position *q) {
    return memcmp(p, q, offsetof(gravyhelm_position, offset) + 1) == 0 && p->visible == q->visible;
}

static gravyhelm_position some_position(void) {
    static gravyhelm_position kept;
    gravyhelm_position p;
    random_bytes(&p, sizeof p);
    if (below(4) == 0)
        return p;
    if (below(64) == 0 || kept.step == 0) { /* a fresh deal, shuffled */
        for (int i = 0; i < GRAVYHELM_CARDS; i++) {
            size_t j = below(i + 1);
            p.deal[i] = p.deal[j];
            p.deal[j] = (uint8_t)i;
        }
        kept = gravyhelm_deal((uint8_t)(1 + below(24)), p.deal, GRAVYHELM_CARDS).position;
    }
    uint16_t moves[GRAVYHELM_MOST_MOVES];
    size_t n = gravyhelm_list_into(kept, 0, moves, GRAVYHELM_MOST_MOVES).count;
    uint16_t slot;
    if (n > 0) {
        uint16_t m = moves[below(n)];
        gravyhelm_moved made = gravyhelm_do_move(kept, &slot, 1, 0, (uint8_t)(m / 64), m % 64);
        MUST(made.refusal == 0);
        kept = made.position;
    }
    p = kept;
    if (below(2) == 0) {
        size_t at = below(98); /* the bytes of its fields; six of padding stand before the mask */
        ((uint8_t *)&p)[at < 90 ? at : at + 6] = (uint8_t)random64();
    }
    return p;
}

static void read_calls(gravyhelm_position p, uint8_t a, uint8_t b) {
    gravyhelm_saved saved = gravyhelm_save(p);
    bool proper = saved.refusal == 0;
    MUST(proper || (saved.refusal == GRAVYHELM_NOT_PROPER && saved.code == 0));
    MUST(alike(&saved.position, &p));
    gravyhelm_masked masked = gravyhelm_masks(p, a);
    MUST(masked.refusal == saved.refusal && alike(&masked.position, &p));
    gravyhelm_told test = gravyhelm_test(p, a, b);
    MUST(!test.yes || (proper && a < 5 && b < 52));
    MUST(alike(&test.position, &p));
    gravyhelm_told win = gravyhelm_is_win(p), sure = gravyhelm_is_sure_win(p);
    MUST(win.refusal == saved.refusal && sure.refusal == saved.refusal && (!win.yes || sure.yes));
    gravyhelm_heights_record heights = gravyhelm_heights(p);
    gravyhelm_deck_view deck = gravyhelm_deck(p);
    gravyhelm_located located = gravyhelm_find(p, b);
    gravyhelm_offset_record offset = gravyhelm_offset(p, a);
    MUST(heights.refusal == saved.refusal && deck.refusal == saved.refusal && deck.left <= GRAVYHELM_DECK_CARDS);
    MUST(located.refusal == (proper ? (b > 51 ? GRAVYHELM_NO_SUCH_MOVE : 0) : GRAVYHELM_NOT_PROPER) && located.place <= deck.left);
    MUST(offset.refusal == saved.refusal && offset.offset <= deck.left);
    gravyhelm_compared compared = gravyhelm_ladder(p, p);
    MUST(compared.refusal == saved.refusal && compared.same == proper);
    if (proper) {
        gravyhelm_started again = gravyhelm_resume(p.step, p.deal, GRAVYHELM_CARDS, saved.code);
        MUST(again.refusal == 0 && gravyhelm_ladder(p, again.position).same);
    }
    calls += 12;
}

static void lent_calls(gravyhelm_position p, uint8_t a, uint8_t b) {
    uint8_t before[256];
    bool proper = gravyhelm_save(p).refusal == 0;
    random_bytes(end_of_page - sizeof before, sizeof before);
    memcpy(before, end_of_page - sizeof before, sizeof before);

    size_t room = below(4) == 0 ? below(104) : 89 + below(5);
    gravyhelm_piled piled = gravyhelm_piles(p, end_of_page - room, room);
    MUST(piled.refusal == (!proper ? GRAVYHELM_NOT_PROPER : room < GRAVYHELM_PILE_BYTES ? GRAVYHELM_TOO_SHORT : 0));
    MUST(memcmp(before, end_of_page - sizeof before, piled.refusal ? sizeof before : sizeof before - room) == 0);
    memcpy(end_of_page - sizeof before, before, sizeof before);

    size_t slots = below(24);
    uint16_t *lent = (uint16_t *)(void *)end_of_page - slots;
    gravyhelm_listed listed = gravyhelm_list_into(p, a % 2, lent, slots), twin = gravyhelm_list_count(p, a % 2, slots);
    MUST(listed.refusal == twin.refusal && listed.count == twin.count && listed.count <= slots);
    MUST(memcmp(before, end_of_page - sizeof before, sizeof before - (listed.refusal ? 0 : 2 * slots)) == 0);
    MUST(memcmp(before + sizeof before - 2 * (slots - listed.count), lent + listed.count, 2 * (slots - listed.count)) == 0);
    memcpy(end_of_page - sizeof before, before, sizeof before);

    slots = below(4);
    lent = (uint16_t *)(void *)end_of_page - slots;
    size_t count = below(8) == 0 ? random64() : below(slots + 2);
    gravyhelm_moved moved = gravyhelm_do_move(p, lent, slots, count, b % 8, a % 64);
    if (moved.refusal != 0) {
        MUST(memcmp(before, end_of_page - sizeof before, sizeof before) == 0 && moved.count == count && alike(&moved.position, &p));
    } else {
        MUST(gravyhelm_save(moved.position).refusal == 0 && moved.count == count + 1);
        gravyhelm_undone back = gravyhelm_undo_move(moved.position, lent, slots, moved.count);
        MUST(back.refusal == 0 && back.count == count && gravyhelm_ladder(back.position, p).same && back.position.offset == p.offset);
    }
    gravyhelm_undone undone = gravyhelm_undo_move(p, lent, slots, count);
    MUST(undone.refusal == 0 ? undone.count + 1 == count : undone.count == count && alike(&undone.position, &p));
    calls += 6;
}

static void deals(gravyhelm_position p, uint8_t a) {
    size_t length = below(4) == 0 ? below(60) : GRAVYHELM_CARDS;
    uint8_t *deal = end_of_page - length;
    random_bytes(deal, length);
    if (length == GRAVYHELM_CARDS && below(4) != 0)
        memcpy(deal, p.deal, length);
    uint8_t step = below(4) == 0 ? a : p.step;
    gravyhelm_started started = gravyhelm_deal(step, deal, length), resumed = gravyhelm_resume(step, deal, length, random64());
    MUST(started.refusal <= 4 && resumed.refusal <= 9 && (started.refusal == 0 || resumed.refusal == started.refusal));
    gravyhelm_cursor *lent = (gravyhelm_cursor *)(void *)(end_of_page - sizeof *lent);
    random_bytes(lent, sizeof *lent);
    if (below(2) == 0)
        *lent = (gravyhelm_cursor){p.left, p.step, p.offset};
    gravyhelm_turned turned = gravyhelm_deal_once(*lent);
    uint8_t refusal = gravyhelm_deal_once_lent(lent);
    MUST(refusal == turned.refusal && memcmp(lent, &turned.cursor, sizeof *lent) == 0);
    calls += 4;
}

int main(int argc, char **argv) {
    time_t end = time(NULL) + (argc > 1 ? atoi(argv[1]) : 10);
    seed = argc > 2 ? strtoull(argv[2], NULL, 0) : 1;
    uint8_t *pages = mmap(NULL, 2 * PAGE, PROT_READ | PROT_WRITE, MAP_PRIVATE | MAP_ANONYMOUS, -1, 0);
    MUST(pages != MAP_FAILED && mprotect(pages + PAGE, PAGE, PROT_NONE) == 0);
    end_of_page = pages + PAGE;
    uint64_t rounds = 0, accepted = 0;
    for (; rounds % 1024 != 0 || time(NULL) < end; rounds++) {
        gravyhelm_position p = some_position();
        uint8_t a = (uint8_t)random64(), b = (uint8_t)(below(2) ? random64() : below(52));
        accepted += gravyhelm_save(p).refusal == 0;
        read_calls(p, a, b);
        lent_calls(p, a, b);
        deals(p, a);
    }
    printf("%llu positions, %llu of them proper, %llu calls: nothing is amiss\n", (unsigned long long)rounds, (unsigned long long)accepted, (unsigned long long)calls);
    return 0;
}
