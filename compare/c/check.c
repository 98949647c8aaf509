/* Every function called from C through the header: layouts as the library has them, readings of document 01, refusals, empty lists at NULL. */
#include <stdio.h>
#include <string.h>

#include "turretmedlar.h"

/* The layouts that compare/bindings/src/raw.rs asserts too. */
_Static_assert(sizeof(tm_permutation) == 32 && offsetof(tm_permutation, cells) == 8, "tm_permutation");
_Static_assert(sizeof(tm_permuted) == 40 && offsetof(tm_permuted, permutation) == 8, "tm_permuted");
_Static_assert(sizeof(tm_placed) == 32 && offsetof(tm_placed, place) == 8, "tm_placed");
_Static_assert(offsetof(tm_placed, tests) == 16 && offsetof(tm_placed, size) == 24, "tm_placed");
_Static_assert(sizeof(tm_digit_row) == 21 && offsetof(tm_digit_row, row) == 1, "tm_digit_row");
_Static_assert(sizeof(tm_ranked) == 16 && offsetof(tm_ranked, rank) == 8, "tm_ranked");
_Static_assert(sizeof(tm_valued) == 16 && offsetof(tm_valued, value) == 8, "tm_valued");
_Static_assert(sizeof(tm_pushes) == 12 && offsetof(tm_pushes, pushes) == 4 && offsetof(tm_pushes, charge) == 8, "tm_pushes");
_Static_assert(sizeof(tm_reached) == 16 && offsetof(tm_reached, permutations) == 8, "tm_reached");
_Static_assert(sizeof(tm_symbol) == 16 && offsetof(tm_symbol, symbol) == 8, "tm_symbol");
_Static_assert(sizeof(tm_prefixed) == 40 && offsetof(tm_prefixed, length) == 8 && offsetof(tm_prefixed, cells) == 16, "tm_prefixed");
_Static_assert(sizeof(tm_rearranged) == 2 && offsetof(tm_rearranged, cost) == 1, "tm_rearranged");
_Static_assert(sizeof(tm_printed) == 16 && offsetof(tm_printed, length) == 8, "tm_printed");
_Static_assert(sizeof(tm_written) == 16 && offsetof(tm_written, length) == 8, "tm_written");

/* The constants of compare/bindings/src/lib.rs. */
_Static_assert(TM_CELLS == 20 && TM_SHEET_BYTES == 24692 && TM_TEXT_BYTES == 31344 && TM_SHEET == 8 && TM_PAPER == 9 && TM_UNSURE == 10, "constants");
_Static_assert(TM_OLD_ZERO == 0 && TM_NEW_ZERO == 1, "zeros");

static int passed, failed;

static void check(int holds, const char *what, int line) {
    if (holds) {
        passed++;
    } else {
        failed++;
        printf("line %d: %s\n", line, what);
    }
}
#define CHECK(holds) check((holds), #holds, __LINE__)

static const tm_permutation blank_record = {0, {0}};

static int same(tm_permutation a, tm_permutation b) {
    return a.n == b.n && memcmp(a.cells, b.cells, TM_CELLS) == 0;
}

static int refused(tm_permuted answer, uint8_t number) {
    return answer.number == number && same(answer.permutation, blank_record);
}

static int spent(tm_pushes answer, uint32_t pushes, uint32_t charge) {
    return answer.number == TM_DONE && answer.pushes == pushes && answer.charge == charge;
}

static int sent_back(tm_pushes answer, uint8_t number) {
    return answer.number == number && answer.pushes == 0 && answer.charge == 0;
}

static void check_permutations(void) {
    const tm_permutation p = {4, {4, 2, 3, 1}}, next = {4, {2, 4, 3, 1}}, six = {6, {2, 5, 4, 3, 6, 1}};
    const tm_permutation small = {1, {1}}, muddled = {4, {4, 2, 2, 1}};
    const uint8_t digits[TM_CELLS] = {3, 1, 3, 1, 0, 0}, none[TM_CELLS] = {0};
    tm_permuted answer = tm_push(p, 2);
    CHECK(answer.number == TM_DONE && same(answer.permutation, next));
    CHECK(refused(tm_push(p, 1), TM_VALUE) && refused(tm_push(p, 5), TM_VALUE));
    CHECK(refused(tm_push(small, 2), TM_SIZE) && refused(tm_push(muddled, 2), TM_MUDDLE));
    tm_digit_row row = tm_digits(six), no_row = tm_digits(small);
    CHECK(row.number == TM_DONE && memcmp(row.row, digits, TM_CELLS) == 0);
    CHECK(no_row.number == TM_SIZE && memcmp(no_row.row, none, TM_CELLS) == 0);
    tm_ranked ranked = tm_rank(six), unranked = tm_rank(muddled);
    CHECK(ranked.number == TM_DONE && ranked.rank == 219);
    CHECK(unranked.number == TM_MUDDLE && unranked.rank == 0);
    answer = tm_unrank(6, 219);
    CHECK(answer.number == TM_DONE && same(answer.permutation, six));
    CHECK(refused(tm_unrank(3, 6), TM_VALUE) && refused(tm_unrank(21, 0), TM_SIZE));
}

static int placed(tm_placed answer, size_t place, size_t tests, size_t size) {
    return answer.number == TM_DONE && answer.place == place && answer.tests == tests && answer.size == size;
}

static int unplaced(tm_placed answer, uint8_t number) {
    return answer.number == number && answer.place == 0 && answer.tests == 0 && answer.size == 0;
}

/* Document 02, request 9, of document 01's steps, of two cells, and of twenty: in `last` each shrunken group has its largest cell on top, so that those of 20 to
 * 3 cells are tested; in `rising` the first test decides. Then a whole round of four cells, of 30 tests. */
static void check_next_step(void) {
    const tm_permutation p = {4, {4, 2, 3, 1}}, q = {4, {4, 1, 2, 3}}, two = {2, {1, 2}}, swapped = {2, {2, 1}};
    const tm_permutation last = {20, {20, 18, 16, 14, 12, 10, 8, 6, 4, 2, 1, 3, 5, 7, 9, 11, 13, 15, 17, 19}};
    const tm_permutation rising = {20, {1, 2, 3, 4, 5, 6, 7, 8, 9, 10, 11, 12, 13, 14, 15, 16, 17, 18, 19, 20}};
    const tm_permutation empty = {0, {0}}, small = {1, {1}}, muddled = {4, {4, 2, 2, 1}}, past = {3, {3, 2, 1, 4}};
    tm_permutation large = rising;
    large.n = 21;
    CHECK(placed(tm_successor(p), 2, 2, 3) && placed(tm_successor(q), 3, 2, 2));
    CHECK(placed(tm_successor(two), 2, 0, 2) && placed(tm_successor(swapped), 2, 0, 2));
    CHECK(placed(tm_successor(last), 11, 18, 2) && placed(tm_successor(rising), 20, 1, 20));
    CHECK(unplaced(tm_successor(empty), TM_SIZE) && unplaced(tm_successor(small), TM_SIZE) && unplaced(tm_successor(large), TM_SIZE));
    CHECK(unplaced(tm_successor(muddled), TM_MUDDLE) && unplaced(tm_successor(past), TM_MUDDLE));
    tm_permutation here = p;
    size_t tests = 0;
    for (int step = 0; step < 24; step++) {
        tm_placed next = tm_successor(here);
        tests += next.tests;
        here = tm_push(here, next.place).permutation;
    }
    CHECK(tests == 30 && same(here, p));
}

static int valued(tm_valued answer, uint8_t number, uint64_t value) {
    return answer.number == number && answer.value == value;
}

/* Document 02, request 7: "[1,2,3,4] is 10 on the old and 0 on the new, and [1,3,2] is 0 and 2". Then twenty cells: 20! is 2,432,902,008,176,640,000. */
static void check_values(void) {
    const tm_permutation four = {4, {1, 2, 3, 4}}, three = {3, {1, 3, 2}}, small = {1, {1}}, muddled = {4, {4, 2, 2, 1}};
    const tm_permutation twenty = {20, {1, 2, 3, 4, 5, 6, 7, 8, 9, 10, 11, 12, 13, 14, 15, 16, 17, 18, 19, 20}};
    const uint64_t round = 2432902008176640000;
    CHECK(valued(tm_value(four, TM_OLD_ZERO), TM_DONE, 10) && valued(tm_value(four, TM_NEW_ZERO), TM_DONE, 0));
    CHECK(valued(tm_value(three, TM_OLD_ZERO), TM_DONE, 0) && valued(tm_value(three, TM_NEW_ZERO), TM_DONE, 2));
    CHECK(valued(tm_value(four, 2), TM_VALUE, 0) && valued(tm_value(four, 255), TM_VALUE, 0));
    CHECK(valued(tm_value(small, TM_NEW_ZERO), TM_SIZE, 0) && valued(tm_value(small, 2), TM_SIZE, 0));
    CHECK(valued(tm_value(muddled, TM_NEW_ZERO), TM_MUDDLE, 0) && valued(tm_value(muddled, 2), TM_MUDDLE, 0));
    tm_permuted old = tm_permutation_of_value(4, 10, TM_OLD_ZERO), new = tm_permutation_of_value(4, 0, TM_NEW_ZERO);
    CHECK(old.number == TM_DONE && same(old.permutation, four) && new.number == TM_DONE && same(new.permutation, four));
    old = tm_permutation_of_value(3, 0, TM_OLD_ZERO);
    new = tm_permutation_of_value(3, 2, TM_NEW_ZERO);
    CHECK(old.number == TM_DONE && same(old.permutation, three) && new.number == TM_DONE && same(new.permutation, three));
    CHECK(refused(tm_permutation_of_value(3, 6, TM_OLD_ZERO), TM_VALUE) && refused(tm_permutation_of_value(3, 6, TM_NEW_ZERO), TM_VALUE));
    CHECK(refused(tm_permutation_of_value(3, 2, 2), TM_VALUE) && refused(tm_permutation_of_value(3, 2, 255), TM_VALUE));
    CHECK(refused(tm_permutation_of_value(21, 0, TM_NEW_ZERO), TM_SIZE) && refused(tm_permutation_of_value(1, 1, 2), TM_SIZE));
    old = tm_permutation_of_value(20, tm_rank(twenty).rank, TM_OLD_ZERO);
    new = tm_permutation_of_value(20, 0, TM_NEW_ZERO);
    CHECK(same(old.permutation, twenty) && same(new.permutation, twenty));
    new = tm_permutation_of_value(20, round - 1, TM_NEW_ZERO);
    tm_permuted next = tm_push(new.permutation, tm_successor(new.permutation).place);
    CHECK(new.number == TM_DONE && valued(tm_value(new.permutation, TM_NEW_ZERO), TM_DONE, round - 1) && same(next.permutation, twenty));
    CHECK(refused(tm_permutation_of_value(20, round, TM_NEW_ZERO), TM_VALUE) && refused(tm_permutation_of_value(20, UINT64_MAX, TM_NEW_ZERO), TM_VALUE));
}

static void check_levels(void) {
    const tm_permutation expected = {3, {1, 3, 2}};
    const uint16_t tied[2] = {7, 7};
    uint16_t levels[3] = {9, 3, 5};
    tm_permuted answer = tm_read(levels, 3);
    CHECK(answer.number == TM_DONE && same(answer.permutation, expected));
    CHECK(refused(tm_read(tied, 2), TM_TIE) && refused(tm_read(levels, 1), TM_SIZE));
    const uint16_t after_push[3] = {9, 3, 10};
    CHECK(spent(tm_push_level(levels, 3, 2), 1, 5) && memcmp(levels, after_push, sizeof levels) == 0);
    CHECK(sent_back(tm_push_level(levels, 3, 4), TM_VALUE) && sent_back(tm_push_level(levels, 1, 2), TM_SIZE));
    CHECK(memcmp(levels, after_push, sizeof levels) == 0);
    uint16_t high[3] = {65530, 65528, 65529}, twins[2] = {7, 7};
    const uint16_t standing[3] = {65530, 65528, 65529}, counted[3] = {65534, 65533, 65535};
    CHECK(sent_back(tm_count_up(high, 3, 6), TM_CEILING) && memcmp(high, standing, sizeof high) == 0);
    CHECK(spent(tm_count_up(high, 3, 5), 5, 15) && memcmp(high, counted, sizeof high) == 0);
    CHECK(sent_back(tm_push_level(high, 3, 2), TM_CEILING) && spent(tm_count_up(high, 3, 0), 0, 0) && memcmp(high, counted, sizeof high) == 0);
    CHECK(sent_back(tm_push_level(twins, 2, 2), TM_TIE) && sent_back(tm_count_up(twins, 2, 1), TM_TIE) && memcmp(twins, tied, sizeof twins) == 0);
}

static void check_rewriting(void) {
    const tm_permutation target = {5, {5, 2, 1, 3, 4}}, other = {4, {1, 2, 3, 4}}, muddled = {5, {5, 5, 1, 3, 4}}, empty = {0, {0}};
    uint16_t levels[5] = {14, 13, 12, 11, 10}, high[5] = {65534, 13, 12, 11, 10}, tied[5] = {14, 13, 12, 13, 10};
    const uint16_t before[5] = {14, 13, 12, 11, 10}, after[5] = {14, 15, 12, 11, 16}, high_before[5] = {65534, 13, 12, 11, 10};
    uint8_t list[6] = {90, 91, 92, 93, 94, 95};
    const uint8_t list_before[6] = {90, 91, 92, 93, 94, 95}, list_after[6] = {2, 5, 92, 93, 94, 95};
    CHECK(sent_back(tm_rewrite(levels, 5, other, list, 6), TM_FIT) && sent_back(tm_rewrite(levels, 5, target, list, 3), TM_FIT));
    CHECK(sent_back(tm_rewrite(levels, 5, muddled, list, 6), TM_MUDDLE) && sent_back(tm_rewrite(levels, 5, empty, list, 6), TM_SIZE));
    CHECK(sent_back(tm_rewrite(tied, 5, target, list, 6), TM_TIE) && sent_back(tm_rewrite(high, 5, target, list, 6), TM_CEILING));
    CHECK(memcmp(list, list_before, sizeof list) == 0 && memcmp(levels, before, sizeof levels) == 0 && memcmp(high, high_before, sizeof high) == 0);
    CHECK(spent(tm_rewrite(levels, 5, target, list, 6), 2, 8));
    CHECK(memcmp(list, list_after, sizeof list) == 0 && memcmp(levels, after, sizeof levels) == 0);
    CHECK(spent(tm_rewrite(levels, 5, target, list, 4), 0, 0) && memcmp(levels, after, sizeof levels) == 0);
}

static void check_symbols(void) {
    uint16_t levels[4] = {4, 3, 2, 1}, high[4] = {65535, 3, 2, 1}, tied[4] = {4, 3, 4, 1};
    const uint16_t after[4] = {4, 3, 5, 1}, high_before[4] = {65535, 3, 2, 1};
    CHECK(spent(tm_store(levels, 4, 12, 6), 1, 3) && memcmp(levels, after, sizeof levels) == 0);
    /* document 02, request 1: symbol 6 stands now, on [3,1,2,4] */
    CHECK(spent(tm_store(levels, 4, 12, 6), 0, 0) && memcmp(levels, after, sizeof levels) == 0);
    tm_symbol symbol = tm_read_symbol(levels, 4, 12), idle = tm_read_symbol(levels, 4, 6), outside = tm_read_symbol(levels, 4, 25);
    CHECK(symbol.number == TM_DONE && symbol.symbol == 6);
    CHECK(idle.number == TM_IDLE && idle.symbol == 0 && outside.number == TM_VALUE && outside.symbol == 0);
    CHECK(sent_back(tm_store(levels, 4, 12, 12), TM_VALUE) && memcmp(levels, after, sizeof levels) == 0);
    CHECK(sent_back(tm_store(high, 4, 12, 6), TM_CEILING) && memcmp(high, high_before, sizeof high) == 0);
    CHECK(sent_back(tm_store(tied, 4, 12, 6), TM_TIE) && tm_read_symbol(tied, 4, 12).number == TM_TIE && sent_back(tm_store(levels, 1, 1, 0), TM_SIZE));
}

/* Document 02, request 3: the jobs of document 01's bench sheet, a push over the whole range, and totals past 16 bits. */
static void check_charge(void) {
    const tm_permutation target = {3, {3, 1, 2}}, reversed = {3, {2, 3, 1}};
    uint16_t levels[3] = {3, 1, 2}, deep[2] = {0, 65534}, low[3] = {65533, 0, 1}, again[3] = {65533, 0, 1};
    const uint16_t after[3] = {7, 6, 8}, ceiling[2] = {65535, 65534}, all_high[3] = {65533, 65535, 65534};
    uint8_t list[2];
    CHECK(spent(tm_count_up(levels, 3, 4), 4, 3 + 3 + 2 + 4) && spent(tm_rewrite(levels, 3, target, list, 2), 1, 3));
    CHECK(sent_back(tm_store(levels, 3, 3, 3), TM_VALUE) && memcmp(levels, after, sizeof levels) == 0);
    CHECK(spent(tm_push_level(deep, 2, 2), 1, 65535) && memcmp(deep, ceiling, sizeof deep) == 0);
    CHECK(spent(tm_rewrite(low, 3, reversed, list, 2), 2, 65533 + 65535) && memcmp(low, all_high, sizeof low) == 0);
    /* of six symbols, 3 has the prefix [2,3] */
    CHECK(spent(tm_store(again, 3, 6, 3), 2, 65533 + 65535) && memcmp(again, all_high, sizeof again) == 0);
}

static int symbol_is(tm_symbol answer, uint8_t number, uint64_t symbol) {
    return answer.number == number && answer.symbol == symbol;
}

/* Document 02, request 4: bands of [3,1,2,4]. In `wide` those of cells 2 and 4 touch, in `wider` those of cells 1 and 2 too; `under` is below a lowest level. */
static void check_bands(void) {
    const tm_permutation expected = {4, {3, 1, 2, 4}};
    uint16_t lowest[4] = {30, 20, 65535, 0}, highest[5] = {35, 25, 65535, 19, 7}, wide[4] = {35, 25, 65535, 20}, wider[4] = {35, 30, 65535, 20};
    const uint16_t lowest_before[4] = {30, 20, 65535, 0}, highest_before[5] = {35, 25, 65535, 19, 7}, under[4] = {35, 19, 65535, 19};
    tm_permuted answer = tm_read_bands(lowest, 4, highest, 4);
    CHECK(answer.number == TM_DONE && same(answer.permutation, expected));
    CHECK(refused(tm_read_bands(lowest, 4, wide, 4), TM_UNSURE) && refused(tm_read_bands(lowest, 4, under, 4), TM_VALUE));
    CHECK(refused(tm_read_bands(lowest, 4, highest, 3), TM_FIT) && refused(tm_read_bands(lowest, 4, highest, 5), TM_FIT));
    CHECK(refused(tm_read_bands(lowest, 1, highest, 1), TM_SIZE) && refused(tm_read_bands(lowest, 1, highest, 5), TM_SIZE));
    CHECK(symbol_is(tm_read_symbol_bands(lowest, 4, highest, 4, 24), TM_DONE, 12) && symbol_is(tm_read_symbol_bands(lowest, 4, wide, 4, 24), TM_UNSURE, 0));
    CHECK(symbol_is(tm_read_symbol_bands(lowest, 4, wide, 4, 12), TM_DONE, 6) && symbol_is(tm_read_symbol_bands(lowest, 4, wider, 4, 12), TM_UNSURE, 0));
    /* prefix [3,1] is number 6: idle of six symbols where it leads, unsure where it may not */
    CHECK(symbol_is(tm_read_symbol_bands(lowest, 4, wide, 4, 6), TM_IDLE, 0) && symbol_is(tm_read_symbol_bands(lowest, 4, wider, 4, 6), TM_UNSURE, 0));
    CHECK(symbol_is(tm_read_symbol_bands(lowest, 4, wider, 4, 4), TM_DONE, 2) && symbol_is(tm_read_symbol_bands(lowest, 4, wider, 4, 1), TM_DONE, 0));
    CHECK(symbol_is(tm_read_symbol_bands(lowest, 4, under, 4, 12), TM_VALUE, 0) && symbol_is(tm_read_symbol_bands(lowest, 4, highest, 4, 0), TM_VALUE, 0));
    CHECK(symbol_is(tm_read_symbol_bands(lowest, 4, wider, 4, 25), TM_VALUE, 0) && symbol_is(tm_read_symbol_bands(lowest, 4, highest, 3, 0), TM_FIT, 0));
    CHECK(symbol_is(tm_read_symbol_bands(lowest, 1, highest, 5, 0), TM_SIZE, 0));
    CHECK(memcmp(lowest, lowest_before, sizeof lowest) == 0 && memcmp(highest, highest_before, sizeof highest) == 0);
}

static int prefix_is(tm_prefixed answer, size_t length, const uint8_t *cells) {
    uint8_t expected[TM_CELLS] = {0};
    memcpy(expected, cells, length);
    return answer.number == TM_DONE && answer.length == length && memcmp(answer.cells, expected, TM_CELLS) == 0;
}

static int no_prefix(tm_prefixed answer, uint8_t number) {
    const uint8_t none[TM_CELLS] = {0};
    return answer.number == number && answer.length == 0 && memcmp(answer.cells, none, TM_CELLS) == 0;
}

/* Document 02, request 12: the prefixes of document 001's figure 4(b), and its example 21, by weights that give them. Then three symbols on four cells, where the
 * permutations with cell 4 on top have none. */
static void check_uneven(void) {
    const struct {
        size_t length;
        uint8_t cells[3];
    } figure[9] = {{1, {1}}, {1, {2}}, {2, {3, 1}}, {2, {3, 2}}, {2, {3, 4}}, {2, {4, 1}}, {2, {4, 2}}, {3, {4, 3, 1}}, {3, {4, 3, 2}}};
    const uint16_t weights[9] = {9, 8, 7, 6, 5, 4, 3, 2, 1}, three[3] = {5, 9, 7}, after[4] = {4, 3, 5, 6}, four_on_top[4] = {3, 2, 1, 4};
    uint16_t levels[4] = {4, 3, 2, 1};
    for (uint64_t symbol = 0; symbol < 9; symbol++) {
        CHECK(prefix_is(tm_prefix_uneven(4, weights, 9, 9, symbol), figure[symbol].length, figure[symbol].cells));
    }
    CHECK(spent(tm_store_uneven(levels, 4, weights, 9, 9, 7), 2, 3 + 5) && memcmp(levels, after, sizeof levels) == 0);
    CHECK(spent(tm_store_uneven(levels, 4, weights, 9, 9, 7), 0, 0) && memcmp(levels, after, sizeof levels) == 0);
    CHECK(symbol_is(tm_read_uneven(levels, 4, weights, 9, 9), TM_DONE, 7));
    CHECK(prefix_is(tm_prefix_uneven(4, three, 3, 3, 0), 1, figure[2].cells) && symbol_is(tm_read_uneven(four_on_top, 4, three, 3, 3), TM_IDLE, 0));
}

/* Where several hold the lowest is given: `tied` is refused for its tie after all that is wrong with n and with the weights, and before all that is with m. */
static void check_uneven_refusals(void) {
    uint16_t weights[65] = {9, 8, 7, 6, 5, 4, 3, 2, 1}, nine[9] = {9, 8, 7, 6, 5, 4, 3, 2, 1}, tied[4] = {4, 3, 4, 1}, high[4] = {65534, 3, 2, 1};
    const uint16_t tied_before[4] = {4, 3, 4, 1}, high_before[4] = {65534, 3, 2, 1};
    CHECK(no_prefix(tm_prefix_uneven(1, weights, 8, 9, 0), TM_SIZE) && no_prefix(tm_prefix_uneven(9, weights, 9, 9, 0), TM_SIZE));
    CHECK(no_prefix(tm_prefix_uneven(4, weights, 8, 9, 0), TM_FIT) && no_prefix(tm_prefix_uneven(4, weights, 10, 9, 9), TM_FIT));
    CHECK(no_prefix(tm_prefix_uneven(4, weights, 1, 1, 0), TM_VALUE) && no_prefix(tm_prefix_uneven(4, weights, 25, 25, 0), TM_VALUE));
    CHECK(no_prefix(tm_prefix_uneven(8, weights, 65, 65, 0), TM_VALUE) && no_prefix(tm_prefix_uneven(4, weights, 9, 9, 9), TM_VALUE));
    CHECK(sent_back(tm_store_uneven(nine, 9, weights, 8, 9, 0), TM_SIZE) && sent_back(tm_store_uneven(nine, 1, weights, 9, 9, 0), TM_SIZE));
    CHECK(sent_back(tm_store_uneven(tied, 4, weights, 8, 9, 0), TM_FIT) && sent_back(tm_store_uneven(tied, 4, weights, 25, 25, 0), TM_TIE));
    CHECK(sent_back(tm_store_uneven(high, 4, weights, 25, 25, 0), TM_VALUE) && sent_back(tm_store_uneven(high, 4, weights, 9, 9, 9), TM_VALUE));
    CHECK(sent_back(tm_store_uneven(high, 4, weights, 9, 9, 7), TM_CEILING) && spent(tm_store_uneven(high, 4, weights, 9, 9, 0), 0, 0));
    CHECK(symbol_is(tm_read_uneven(nine, 9, weights, 8, 9), TM_SIZE, 0) && symbol_is(tm_read_uneven(tied, 4, weights, 10, 9), TM_FIT, 0));
    CHECK(symbol_is(tm_read_uneven(tied, 4, weights, 1, 1), TM_TIE, 0) && symbol_is(tm_read_uneven(high, 4, weights, 1, 1), TM_VALUE, 0));
    CHECK(memcmp(tied, tied_before, sizeof tied) == 0 && memcmp(high, high_before, sizeof high) == 0 && nine[0] == 9 && nine[8] == 1);
}

/* Eight cells and 64 symbols: the i-th has weight i. Each is stored and read. */
static void check_large_uneven(void) {
    uint16_t weights[64], levels[8] = {8, 7, 6, 5, 4, 3, 2, 1};
    for (uint16_t symbol = 0; symbol < 64; symbol++) {
        weights[symbol] = symbol;
    }
    int stored = 0;
    for (uint64_t symbol = 0; symbol < 64; symbol++) {
        tm_pushes answer = tm_store_uneven(levels, 8, weights, 64, 64, symbol);
        size_t length = tm_prefix_uneven(8, weights, 64, 64, symbol).length;
        stored += answer.number == TM_DONE && answer.pushes <= length && symbol_is(tm_read_uneven(levels, 8, weights, 64, 64), TM_DONE, symbol);
    }
    CHECK(stored == 64);
}

static int reached(tm_reached answer, uint8_t number, size_t permutations) {
    return answer.number == number && answer.permutations == permutations;
}

/* Document 02, request 6: from [1,3,2] two permutations are one push away, and three need two. Then eight cells by five pushes, than which no listing is longer; six would
 * exceed 65,536 bytes, whatever is lent. */
static void check_reach(void) {
    const uint16_t before[3] = {65535, 3, 4}, tied[3] = {65535, 3, 65535}, eight[8] = {8, 7, 6, 5, 4, 3, 2, 1};
    const uint8_t all[19] = {1, 3, 2, 2, 1, 3, 3, 1, 2, 1, 2, 3, 2, 3, 1, 3, 2, 1, 99}, last[8] = {8, 7, 6, 5, 4, 1, 2, 3};
    uint16_t levels[3] = {65535, 3, 4};
    uint8_t list[19], blank[19];
    static uint8_t longest[161280], blanks[161280];
    memset(list, 99, sizeof list);
    memset(blank, 99, sizeof blank);
    memset(longest, 99, sizeof longest);
    memset(blanks, 99, sizeof blanks);
    CHECK(reached(tm_within_reach(levels, 3, 2, list, 17), TM_FIT, 0) && reached(tm_within_reach(levels, 3, 0, list, 2), TM_FIT, 0));
    CHECK(reached(tm_within_reach(levels, 3, 3, list, 19), TM_VALUE, 0) && reached(tm_within_reach(levels, 3, SIZE_MAX, list, 2), TM_VALUE, 0));
    CHECK(reached(tm_within_reach(tied, 3, 2, list, 18), TM_TIE, 0) && reached(tm_within_reach(tied, 3, 3, list, 2), TM_TIE, 0));
    CHECK(reached(tm_within_reach(levels, 1, 0, list, 19), TM_SIZE, 0) && memcmp(list, blank, sizeof list) == 0);
    CHECK(reached(tm_within_reach(levels, 3, 0, list, 19), TM_DONE, 1) && memcmp(list, all, 3) == 0 && memcmp(list + 3, blank, 16) == 0);
    CHECK(reached(tm_within_reach(levels, 3, 1, list, 9), TM_DONE, 3) && memcmp(list, all, 9) == 0 && memcmp(list + 9, blank, 10) == 0);
    CHECK(reached(tm_within_reach(levels, 3, 2, list, 18), TM_DONE, 6) && memcmp(list, all, sizeof list) == 0 && memcmp(levels, before, sizeof levels) == 0);
    CHECK(reached(tm_within_reach(eight, 8, 6, longest, 161280), TM_VALUE, 0) && reached(tm_within_reach(eight, 8, 5, longest, 53759), TM_FIT, 0));
    CHECK(memcmp(longest, blanks, sizeof longest) == 0 && reached(tm_within_reach(eight, 8, 5, longest, 53760), TM_DONE, 6720));
    CHECK(memcmp(longest + 53752, last, 8) == 0 && memcmp(longest + 53760, blanks, 161280 - 53760) == 0);
}

static int rearranged(tm_rearranged answer, uint8_t number, uint8_t cost) {
    return answer.number == number && answer.cost == cost;
}

/* Document 02, request 11: three levels with two cells each, of document 000's example 2, and of its section IV-A. `low`, `past` and `uneven` are no
 * arrangements. */
static void check_arrangements(void) {
    uint8_t old[7] = {2, 3, 1, 2, 3, 1, 9}, new[7] = {1, 1, 2, 2, 3, 3, 9}, list[7], blank[7];
    const uint8_t old_before[7] = {2, 3, 1, 2, 3, 1, 9}, new_before[7] = {1, 1, 2, 2, 3, 3, 9}, raised[7] = {3, 3, 4, 4, 5, 5, 99};
    const uint8_t state[6] = {1, 2, 1, 3, 2, 3}, message[6] = {2, 1, 3, 2, 1, 3}, above[7] = {3, 2, 4, 3, 2, 4, 99};
    const uint8_t low[6] = {1, 1, 2, 0, 3, 3}, past[6] = {1, 1, 2, 2, 3, 4}, uneven[6] = {1, 1, 2, 2, 2, 3};
    memset(list, 99, sizeof list);
    memset(blank, 99, sizeof blank);
    CHECK(rearranged(tm_rearrange(1, 6, old, 6, new, 6, list, 6), TM_SIZE, 0) && rearranged(tm_rearrange(17, 2, old, 6, new, 6, list, 6), TM_SIZE, 0));
    CHECK(rearranged(tm_rearrange(3, 0, old, 6, new, 6, list, 6), TM_SIZE, 0) && rearranged(tm_rearrange(3, 17, old, 6, new, 6, list, 6), TM_SIZE, 0));
    CHECK(rearranged(tm_rearrange(13, 5, old, 6, low, 6, list, 7), TM_SIZE, 0));
    /* modulo 2^64 the product is 6 */
    CHECK(rearranged(tm_rearrange(SIZE_MAX / 2 + 4, 2, old, 6, new, 6, list, 6), TM_SIZE, 0));
    CHECK(rearranged(tm_rearrange(3, 2, old, 5, new, 6, list, 6), TM_FIT, 0) && rearranged(tm_rearrange(3, 2, old, 7, new, 6, list, 6), TM_FIT, 0));
    CHECK(rearranged(tm_rearrange(3, 2, old, 6, new, 5, list, 6), TM_FIT, 0) && rearranged(tm_rearrange(3, 2, old, 6, new, 7, list, 6), TM_FIT, 0));
    CHECK(rearranged(tm_rearrange(3, 2, old, 6, new, 6, list, 5), TM_FIT, 0) && rearranged(tm_rearrange(3, 2, old, 6, low, 6, list, 7), TM_FIT, 0));
    CHECK(rearranged(tm_rearrange(3, 2, low, 6, new, 6, list, 6), TM_MUDDLE, 0) && rearranged(tm_rearrange(3, 2, old, 6, low, 6, list, 6), TM_MUDDLE, 0));
    CHECK(rearranged(tm_rearrange(3, 2, past, 6, new, 6, list, 6), TM_MUDDLE, 0) && rearranged(tm_rearrange(3, 2, old, 6, past, 6, list, 6), TM_MUDDLE, 0));
    CHECK(rearranged(tm_rearrange(3, 2, uneven, 6, new, 6, list, 6), TM_MUDDLE, 0) && rearranged(tm_rearrange(3, 2, old, 6, uneven, 6, list, 6), TM_MUDDLE, 0));
    CHECK(memcmp(list, blank, sizeof list) == 0);
    CHECK(rearranged(tm_rearrange(3, 2, old, 6, new, 6, list, 6), TM_DONE, 2) && memcmp(list, raised, sizeof list) == 0);
    CHECK(rearranged(tm_rearrange(3, 2, state, 6, message, 6, list, 6), TM_DONE, 1) && memcmp(list, above, sizeof list) == 0);
    CHECK(rearranged(tm_rearrange(3, 2, old, 6, old, 6, list, 6), TM_DONE, 0) && memcmp(list, old, 6) == 0 && list[6] == 99);
    CHECK(memcmp(old, old_before, sizeof old) == 0 && memcmp(new, new_before, sizeof new) == 0);
}

/* Sixteen levels with four cells each, and four with sixteen, upside down: no level rises above 31. */
static void check_large_arrangements(void) {
    uint8_t old[64], new[64], list[64], expected[64];
    for (size_t q = 4; q <= 16; q += 12) {
        for (size_t cell = 0; cell < 64; cell++) {
            new[cell] = (uint8_t)(1 + cell * q / 64);
            old[cell] = (uint8_t)(q + 1 - new[cell]);
            expected[cell] = (uint8_t)(new[cell] + q - 1);
        }
        CHECK(rearranged(tm_rearrange(q, 64 / q, old, 64, new, 64, list, 64), TM_DONE, (uint8_t)(q - 1)) && memcmp(list, expected, sizeof list) == 0);
    }
    CHECK(list[63] == 31);
}

/* Document 01's bench sheet, and with its group on the new zero. */
static const uint8_t sheet[] = {1, 3, 3, 0, 1, 0, 2, 0, 3, 0, 1, 0, 4, 0, 0, 0, 2, 0, 3, 1, 2, 3, 0, 3, 0, 0, 0, 0, 0, 0, 0, 3, 0, 0, 0, 0, 0, 0, 0};
static const uint8_t renewed[] = {1, 3, 3, 0, 1, 0, 2, 0, 3, 0, 1, 0, 4, 0, 0, 0, 2, 0, 3, 1, 2, 3, 0, 3, 0, 0, 0, 0, 0, 0, 0, 3, 0, 0, 0, 0, 0, 0, 0, 1, 0};

static void check_sheet(void) {
    const char expected[] = "c 1 0 4\nc 2 0 1\nc 3 5 0\ng 0 5 7 6 8\n", faulty[] = "s 8\n";
    const size_t length = sizeof expected - 1;
    uint8_t text[64], blank[64];
    memset(text, 'x', sizeof text);
    memset(blank, 'x', sizeof blank);
    tm_printed printed = tm_bench(sheet, sizeof sheet, text, length - 1);
    CHECK(printed.number == TM_FIT && printed.length == 0 && memcmp(text, blank, sizeof text) == 0);
    printed = tm_bench(sheet, sizeof sheet, text, length);
    CHECK(printed.number == TM_DONE && printed.length == length && memcmp(text, expected, length) == 0);
    CHECK(memcmp(text + length, blank, sizeof text - length) == 0);
    static uint8_t page[TM_TEXT_BYTES];
    printed = tm_bench(sheet, sizeof sheet, page, sizeof page);
    CHECK(printed.number == TM_DONE && printed.length == length && memcmp(page, expected, length) == 0);
    printed = tm_bench(sheet, sizeof sheet - 1, text, sizeof text);
    CHECK(printed.number == TM_DONE && printed.length == 4 && memcmp(text, faulty, 4) == 0);
    /* rank 5 is 1 on the new zero, since [1,2,3] has rank 4 */
    const char new_text[] = "c 1 0 4\nc 2 0 1\nc 3 5 0\ng 0 1 7 6 8\n";
    printed = tm_bench(renewed, sizeof renewed, text, sizeof text);
    CHECK(printed.number == TM_DONE && printed.length == length && memcmp(text, new_text, length) == 0);
    printed = tm_bench(renewed, sizeof renewed - 1, text, sizeof text);
    CHECK(printed.number == TM_DONE && printed.length == 4 && memcmp(text, faulty, 4) == 0);
}

/* One group and three commands, in the lists of tm_write_sheet; those of that sheet are `paper`. */
typedef struct held {
    size_t sizes[1];
    uint16_t levels[TM_CELLS];
    uint8_t zeros[1], kinds[3], groups[3];
    uint64_t numbers[6];
    uint8_t names[3 * TM_CELLS];
} held;
static const held paper = {{3}, {3, 1, 2}, {TM_OLD_ZERO}, {1, 2, 3}, {0, 0, 0}, {4, 0, 3, 0, 3, 3}, {[TM_CELLS] = 3, 1, 2}};

static tm_written write_held(held h, uint8_t *out, size_t room) {
    return tm_write_sheet(h.sizes, 1, h.levels, TM_CELLS, h.zeros, 1, h.kinds, 3, h.groups, 3, h.numbers, 6, h.names, 3 * TM_CELLS, out, room);
}

/* Refused by this number, and no byte altered. */
static int unwritten(held h, size_t room, uint8_t number) {
    uint8_t out[64], blank[64];
    memset(out, 'x', sizeof out);
    memset(blank, 'x', sizeof blank);
    tm_written answer = write_held(h, out, room);
    return answer.number == number && answer.length == 0 && memcmp(out, blank, sizeof out) == 0;
}

/* The example of the header's comment, as it stands there. */
static tm_written header_example(uint8_t *written) {
    size_t sizes[1] = {3};
    uint16_t levels[1][TM_CELLS] = {{3, 1, 2}};
    uint8_t zeros[1] = {TM_OLD_ZERO};
    uint8_t kinds[3] = {1, 2, 3}, groups[3] = {0, 0, 0};
    uint64_t numbers[3][2] = {{4}, {3}, {3, 3}};
    uint8_t names[3][TM_CELLS] = {{0}, {3, 1, 2}};
    uint8_t out[TM_SHEET_BYTES];
    tm_written sheet = tm_write_sheet(sizes, 1, levels[0], TM_CELLS, zeros, 1, kinds, 3, groups, 3, numbers[0], 6, names[0], 3 * TM_CELLS, out, sizeof out);
    memcpy(written, out, sheet.length);
    return sheet;
}

static void check_writing(void) {
    uint8_t out[64], blank[64];
    memset(out, 'x', sizeof out);
    memset(blank, 'x', sizeof blank);
    tm_written answer = write_held(paper, out, sizeof out);
    CHECK(answer.number == TM_DONE && answer.length == sizeof sheet && memcmp(out, sheet, sizeof sheet) == 0);
    CHECK(memcmp(out + sizeof sheet, blank, sizeof out - sizeof sheet) == 0);
    memset(out, 'x', sizeof out);
    CHECK(header_example(out).length == sizeof sheet && memcmp(out, sheet, sizeof sheet) == 0);
    CHECK(write_held(paper, out, sizeof sheet).number == TM_DONE && unwritten(paper, sizeof sheet - 1, TM_PAPER) && unwritten(paper, 0, TM_PAPER));
    held new = paper, unzeroed = paper, unsized = paper, tied = paper, kind = paper, group = paper, count = paper, unfit = paper, muddled = paper, unseen = paper;
    new.zeros[0] = TM_NEW_ZERO;
    memset(out, 'x', sizeof out);
    answer = write_held(new, out, sizeof out);
    CHECK(answer.number == TM_DONE && answer.length == sizeof renewed && memcmp(out, renewed, sizeof renewed) == 0);
    CHECK(memcmp(out + sizeof renewed, blank, sizeof out - sizeof renewed) == 0 && unwritten(new, sizeof sheet, TM_PAPER));
    unzeroed.zeros[0] = 2;
    CHECK(unwritten(unzeroed, 64, TM_VALUE) && unwritten(unzeroed, 0, TM_VALUE));
    unzeroed.sizes[0] = 21;
    unzeroed.zeros[0] = 255;
    CHECK(unwritten(unzeroed, 64, TM_VALUE));
    unsized.sizes[0] = 21;
    tied.levels[2] = 3;
    kind.kinds[2] = 5;
    group.groups[2] = 1;
    count.numbers[0] = 4294967296;
    unfit.numbers[2] = 2;
    muddled.names[TM_CELLS + 3] = 4;
    CHECK(unwritten(unsized, 64, TM_SIZE) && unwritten(tied, 64, TM_TIE) && unwritten(unfit, 64, TM_FIT) && unwritten(muddled, 64, TM_MUDDLE));
    CHECK(unwritten(kind, 64, TM_SHEET) && unwritten(group, 64, TM_SHEET) && unwritten(count, 64, TM_SHEET));
    unseen.levels[3] = 3;
    unseen.numbers[1] = unseen.numbers[3] = 9;
    unseen.names[0] = unseen.names[2 * TM_CELLS] = 9;
    CHECK(write_held(unseen, out, sizeof out).length == sizeof sheet && memcmp(out, sheet, sizeof sheet) == 0);
}

/* What is written of this is these bytes and no more, and its text is this one. */
static int writes(held h, const uint8_t *bytes, size_t length, const char *expected) {
    uint8_t out[64], blank[64], text[64];
    memset(out, 'x', sizeof out);
    memset(blank, 'x', sizeof blank);
    tm_written answer = write_held(h, out, length);
    tm_printed printed = tm_bench(out, length, text, sizeof text);
    int written = answer.number == TM_DONE && answer.length == length && memcmp(out, bytes, length) == 0 && memcmp(out + length, blank, sizeof out - length) == 0;
    return written && printed.number == TM_DONE && printed.length == strlen(expected) && memcmp(text, expected, strlen(expected)) == 0;
}

/* Document 02, request 8: a change to the new zero in the place of that sheet's store, of a group on either zero; then between two counts. Of its row only the group
 * number is looked at. */
static void check_change(void) {
    const uint8_t last[] = {1, 3, 3, 0, 1, 0, 2, 0, 3, 0, 1, 0, 4, 0, 0, 0, 2, 0, 3, 1, 2, 4, 0, 1, 0};
    const uint8_t between[] = {1, 3, 3, 0, 1, 0, 2, 0, 3, 0, 1, 0, 4, 0, 0, 0, 4, 0, 1, 0, 1, 0, 0, 0};
    held change = paper, counts = paper, group;
    change.kinds[2] = 4;
    change.numbers[4] = change.numbers[5] = UINT64_MAX;
    change.names[3 * TM_CELLS - 1] = 255;
    CHECK(writes(change, last, sizeof last - 2, "c 1 0 4\nc 2 0 1\nc 3 0 0\ng 0 1 7 6 8\n") && unwritten(change, sizeof last - 3, TM_PAPER));
    group = change;
    group.groups[2] = 1;
    CHECK(unwritten(group, 64, TM_SHEET));
    change.zeros[0] = TM_NEW_ZERO;
    CHECK(writes(change, last, sizeof last, "c 1 0 4\nc 2 0 1\nc 3 0 0\ng 0 1 7 6 8\n") && unwritten(change, sizeof last - 1, TM_PAPER));
    counts.kinds[1] = 4;
    counts.kinds[2] = 1;
    counts.numbers[4] = 1;
    CHECK(writes(counts, between, sizeof between, "c 1 0 4\nc 2 0 0\nc 3 0 1\ng 0 1 7 6 8\n"));
    uint8_t text[64];
    CHECK(tm_bench(last, sizeof last - 3, text, sizeof text).length == 4 && memcmp(text, "s 8\n", 4) == 0);
}

/* "with length 0 the address is not used and may be NULL" */
static void check_null(void) {
    const tm_permutation target = {2, {1, 2}};
    const uint8_t arranged[2] = {1, 2};
    uint16_t levels[2] = {0, 1};
    uint8_t text[4];
    CHECK(refused(tm_read(NULL, 0), TM_SIZE) && sent_back(tm_push_level(NULL, 0, 2), TM_SIZE) && sent_back(tm_count_up(NULL, 0, 1), TM_SIZE));
    CHECK(sent_back(tm_rewrite(NULL, 0, target, NULL, 0), TM_SIZE) && sent_back(tm_rewrite(levels, 2, target, NULL, 0), TM_FIT));
    CHECK(reached(tm_within_reach(NULL, 0, 0, NULL, 0), TM_SIZE, 0) && reached(tm_within_reach(levels, 2, 0, NULL, 0), TM_FIT, 0));
    CHECK(reached(tm_within_reach(levels, 2, 2, NULL, 0), TM_VALUE, 0));
    CHECK(sent_back(tm_store(NULL, 0, 1, 0), TM_SIZE) && tm_read_symbol(NULL, 0, 1).number == TM_SIZE);
    CHECK(refused(tm_read_bands(NULL, 0, NULL, 0), TM_SIZE) && refused(tm_read_bands(levels, 2, NULL, 0), TM_FIT));
    CHECK(tm_read_symbol_bands(NULL, 0, levels, 2, 1).number == TM_SIZE && tm_read_symbol_bands(levels, 2, NULL, 0, 1).number == TM_FIT);
    CHECK(no_prefix(tm_prefix_uneven(2, NULL, 0, 2, 0), TM_FIT) && no_prefix(tm_prefix_uneven(2, NULL, 0, 0, 0), TM_VALUE));
    CHECK(sent_back(tm_store_uneven(NULL, 0, NULL, 0, 0, 0), TM_SIZE) && sent_back(tm_store_uneven(levels, 2, NULL, 0, 2, 0), TM_FIT));
    CHECK(symbol_is(tm_read_uneven(NULL, 0, NULL, 0, 0), TM_SIZE, 0) && symbol_is(tm_read_uneven(levels, 2, NULL, 0, 0), TM_VALUE, 0));
    CHECK(rearranged(tm_rearrange(0, 0, NULL, 0, NULL, 0, NULL, 0), TM_SIZE, 0) && rearranged(tm_rearrange(2, 1, NULL, 0, NULL, 0, NULL, 0), TM_FIT, 0));
    CHECK(rearranged(tm_rearrange(2, 1, NULL, 0, arranged, 2, text, 2), TM_FIT, 0) && rearranged(tm_rearrange(2, 1, arranged, 2, NULL, 0, text, 2), TM_FIT, 0));
    CHECK(rearranged(tm_rearrange(2, 1, arranged, 2, arranged, 2, NULL, 0), TM_FIT, 0));
    CHECK(tm_bench(NULL, 0, NULL, 0).number == TM_FIT);
    CHECK(tm_bench(NULL, 0, text, sizeof text).length == 4 && memcmp(text, "s 8\n", 4) == 0);
    const held *h = &paper;
    CHECK(tm_write_sheet(NULL, 0, NULL, 0, NULL, 0, NULL, 0, NULL, 0, NULL, 0, NULL, 0, NULL, 0).number == TM_SHEET);
    CHECK(tm_write_sheet(h->sizes, 1, NULL, 0, h->zeros, 1, NULL, 0, NULL, 0, NULL, 0, NULL, 0, NULL, 0).number == TM_FIT);
    CHECK(tm_write_sheet(h->sizes, 1, h->levels, TM_CELLS, NULL, 0, NULL, 0, NULL, 0, NULL, 0, NULL, 0, NULL, 0).number == TM_FIT);
    CHECK(tm_write_sheet(h->sizes, 1, h->levels, TM_CELLS, h->zeros, 1, NULL, 0, NULL, 0, NULL, 0, NULL, 0, NULL, 0).number == TM_PAPER);
    CHECK(tm_write_sheet(h->sizes, 1, h->levels, TM_CELLS, h->zeros, 1, h->kinds, 1, NULL, 0, NULL, 0, NULL, 0, NULL, 0).number == TM_FIT);
}

int main(void) {
    check_permutations();
    check_next_step();
    check_values();
    check_levels();
    check_rewriting();
    check_symbols();
    check_charge();
    check_bands();
    check_uneven();
    check_uneven_refusals();
    check_large_uneven();
    check_reach();
    check_arrangements();
    check_large_arrangements();
    check_sheet();
    check_writing();
    check_change();
    check_null();
    printf("%d passed, %d failed\n", passed, failed);
    return failed != 0;
}
