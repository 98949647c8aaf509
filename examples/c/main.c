/* Counts run hours on one group of four cells and keeps a setting on another. */
#include <inttypes.h>
#include <stdio.h>

#include "turretmedlar.h"

static void show(const char *job, tm_pushes answer, const uint16_t *levels) {
    printf("%s: number %u, pushes %" PRIu32 ", charge %" PRIu32, job, answer.number, answer.pushes, answer.charge);
    printf(", levels %u %u %u %u\n", levels[0], levels[1], levels[2], levels[3]);
}

int main(void) {
    /* Levels by cell name. Cell 1 has the most charge, then cells 4, 2 and 3: the permutation of rank 0. */
    uint16_t hours[4] = {3, 1, 0, 2};
    show("count up by 10", tm_count_up(hours, 4, 10), hours);
    tm_permuted standing = tm_read(hours, 4);
    if (standing.number != TM_DONE) {
        return 1;
    }
    printf("hours: rank %" PRIu64 "\n", tm_rank(standing.permutation).rank);

    /* They stand at [1, 2, 3, 4], from which a group on the new zero counts. */
    printf("hours on the new zero: value %" PRIu64 "\n", tm_value(standing.permutation, TM_NEW_ZERO).value);

    /* Refused: the highest level would pass 65,535. Nothing is changed. */
    show("count up by 65,530", tm_count_up(hours, 4, 65530), hours);

    /* Setting 6 of 12. */
    uint16_t setting[4] = {3, 2, 1, 0};
    show("store 6 of 12", tm_store(setting, 4, 12, 6), setting);
    tm_symbol read = tm_read_symbol(setting, 4, 12);
    printf("setting: number %u, symbol %" PRIu64 "\n", read.number, read.symbol);

    /* The same setting by bands, a lowest and a highest level for each cell. Cells 2 and 4 may have equal ones, further down than the setting goes. */
    const uint16_t lowest[4] = {3, 1, 4, 0}, highest[4] = {3, 2, 5, 1};
    read = tm_read_symbol_bands(lowest, 4, highest, 4, 12);
    printf("setting by bands: number %u, symbol %" PRIu64 "\n", read.number, read.symbol);

    /* Where one push can bring the group: the permutation that stands, and those one push away. Four names each. */
    uint8_t names[16];
    tm_reached near = tm_within_reach(setting, 4, 1, names, sizeof names);
    printf("within one push: number %u, permutations %zu:", near.number, near.permutations);
    for (size_t i = 0; i < 4 * near.permutations; i++) {
        printf("%s%u", i % 4 == 0 ? " " : "", names[i]);
    }
    printf("\n");
    return 0;
}
