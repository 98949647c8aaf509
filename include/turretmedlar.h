/* Turretmedlar: groups of 2 to 20 cells that store by order of charge, and arrangements of up to 64 cells with several to a level.
 *
 * The functions of the static library crates/turretmedlar/out/libturretmedlar.a, which `rt lib --cpu x86-64` in crates/turretmedlar proves and builds for x86-64
 * Linux (System V calling convention; it needs memcpy, memmove and memset, and uses SSE registers). What each gives is proved, for every input value. "Document 01" is the scope paper
 * whose terms the comments name.
 *
 * A group's charge is a list of 16-bit levels, entry by cell name: levels[0] is the level of cell 1. A permutation (document 01: an order) lists the names
 * from the highest level to the lowest; place 1 is the top. A push raises one cell's level to the highest plus 1, so that the cell comes to place 1.
 *
 * Every answer starts with `number`. 0: the job is done. Any other number is the reason for which it is refused (enum tm_reason); then all other fields of
 * the answer are 0, and every lent list keeps its values. Where several reasons hold, the lowest number is given, but for tm_write_sheet, where the first met
 * decides, tm_read_symbol_bands, where 10 comes before 7, and tm_within_reach, where 2 comes last. Each function names its reasons; no other can come from it.
 *
 * What the caller sees to, since no proof reaches into C:
 * - an address that goes with a length has that many readable entries (writable ones where it is not const), aligned as their type asks; with length 0 the
 *   address is not used and may be NULL;
 * - two lists lent to one call do not overlap unless both are const, and nobody else writes a lent list during the call, or reads one that the call may write;
 * - the stack has room: 256 KiB for tm_bench and tm_write_sheet, 32 KiB for the three of uneven codes, 4 KiB for any other function (docs/PERFORMANCE.md has what was
 *   measured).
 * The functions use no heap and no variables of their own, so that calls on different lists can run at the same time. */
#ifndef TURRETMEDLAR_H
#define TURRETMEDLAR_H

#include <stddef.h>
#include <stdint.h>

#ifdef __cplusplus
extern "C" {
#endif

/* The version of this header and its library; README.md and the Rust package have the same. The second number counts landings (docs/landings/), each of which
 * may change what a caller sees; the third counts corrections since, which change nothing that a caller relies on. The first is 0 until a release. */
#define TM_VERSION "0.19.0"
/* The most cells of a group, and the places of a record's row. */
#define TM_CELLS 20
/* The most bytes of a sheet without fault; a longer one is faulty. */
#define TM_SHEET_BYTES 24692
/* A buffer of so many bytes has room for the text of any sheet. */
#define TM_TEXT_BYTES 31344

/* Document 01, "Why a job is sent back", and document 02's new numbers. */
enum tm_reason {
    TM_DONE = 0,
    TM_SIZE = 1,    /* size: n is below 2 or above 20, for the group first, then for a target; for an uneven code, n is above 8; of an arrangement, q is not 2 to
                       16, z not 1 to 16, or q * z above 64 */
    TM_FIT = 2,     /* fit: a target's n differs from the group's; the two lists of bands differ in length; or a lent list is too short: a push list has fewer
                       than n - 1 bytes, a text buffer fewer than the text, a list of tm_within_reach fewer than the listing, a list of tm_write_sheet fewer
                       entries than the others say; or a list of weights has not m entries, or one of tm_rearrange not q * z */
    TM_MUDDLE = 3,  /* muddle: a record is no permutation, or a list no arrangement */
    TM_TIE = 4,     /* tie: two levels are equal */
    TM_VALUE = 5,   /* value: a rank, value, zero, place, m, symbol or r is outside its range; a lowest level is above its highest; or a listing would exceed
                       65,536 bytes */
    TM_CEILING = 6, /* ceiling: the highest level plus the job's pushes exceeds 65,535 */
    TM_IDLE = 7,    /* idle: none of the m symbols' prefixes leads */
    TM_SHEET = 8,   /* sheet: a bench sheet is ill-formed, or what is to be written is on none: a count, kind, group number or k is outside its range */
    TM_PAPER = 9,   /* paper: a lent list is shorter than the sheet that is to be written */
    TM_UNSURE = 10  /* unsure: bands leave open which permutation it is, or which prefix leads */
};

/* Document 02: the zero of a group, the permutation from which its value is counted. It crosses as a byte. */
enum tm_zero {
    TM_OLD_ZERO = 0, /* the permutation of rank 0, so that the value is the rank */
    TM_NEW_ZERO = 1  /* [1, 2, ..., n] */
};

/* Document 01: an order. The first n places of `cells` hold each of 1 to n once, highest charge first; the places past n hold 0, and a record that has anything
 * else there is muddle. Compare records by their fields: the structs have padding. */
typedef struct tm_permutation {
    size_t n;
    uint8_t cells[TM_CELLS];
} tm_permutation;

typedef struct tm_permuted {
    uint8_t number;
    tm_permutation permutation;
} tm_permuted;

/* The place that the next step pushes, and how it was chosen (document 02): how many times "is the largest cell on top" was tested, and the size of the
 * shrunken group at which the answer fell. Refused, all three are 0. */
typedef struct tm_placed {
    uint8_t number;
    size_t place; /* 2 to n */
    size_t tests; /* 1 to n - 2; 0 where n is 2 */
    size_t size;  /* 2 to n */
} tm_placed;

/* The n digits, b0 first, the last always 0; 0 past them. */
typedef struct tm_digit_row {
    uint8_t number;
    uint8_t row[TM_CELLS];
} tm_digit_row;

typedef struct tm_ranked {
    uint8_t number;
    uint64_t rank;
} tm_ranked;

typedef struct tm_valued {
    uint8_t number;
    uint64_t value;
} tm_valued;

/* What a job that pushes on levels spends: its number of pushes, and its charge (document 02), the total of their jumps. The jump of a push is its cell's new
 * level less the old, so that the charge equals the sum of all levels after the call less the sum before; it is at most 20 * 65,535 and fits. Refused, both are 0. */
typedef struct tm_pushes {
    uint8_t number;
    uint32_t pushes;
    uint32_t charge;
} tm_pushes;

/* How many permutations are listed. */
typedef struct tm_reached {
    uint8_t number;
    size_t permutations;
} tm_reached;

typedef struct tm_symbol {
    uint8_t number;
    uint64_t symbol;
} tm_symbol;

/* A prefix: its length, 1 to n - 1, and its cells, highest charge first, with 0 past them. */
typedef struct tm_prefixed {
    uint8_t number;
    size_t length;
    uint8_t cells[TM_CELLS];
} tm_prefixed;

/* The cost of changing an arrangement: how far the highest level rises above q, 0 to q - 1. */
typedef struct tm_rearranged {
    uint8_t number;
    uint8_t cost;
} tm_rearranged;

typedef struct tm_written {
    uint8_t number;
    size_t length;
} tm_written;

typedef struct tm_printed {
    uint8_t number;
    size_t length;
} tm_printed;

/* ---- permutations: records by value, so that nothing of the caller's changes ---- */

/* The permutation after a push at `place`: the cell there moves to place 1, and those above it move down one.
 * Refused: 1 size, n is not 2 to 20; 3 muddle, the record is no permutation; 5 value, `place` is not 2 to n. */
tm_permuted tm_push(tm_permutation permutation, size_t place);

/* The place, 2 to n, that the next step pushes: the step to the permutation whose rank is one higher, or from the last rank to rank 0. It is chosen so: while
 * the group has more than two cells, it is tested whether the largest, that of the highest name, is on top; if so, the group shrinks to its other cells, lowest
 * first. `tests` is how many times that was tested. `size` is the size of the first group, whole or shrunken, whose largest cell is not on top, or 2. A round
 * of n! steps has 3! + 4! + ... + n! tests, wherever it starts.
 * Refused: 1 size, n is not 2 to 20; 3 muddle, the record is no permutation. */
tm_placed tm_successor(tm_permutation permutation);

/* The digits of the rank: rank = b0 + n * (b1 + (n - 1) * (b2 + ...)).
 * Refused: 1 size, n is not 2 to 20; 3 muddle, the record is no permutation. */
tm_digit_row tm_digits(tm_permutation permutation);

/* The rank, 0 to n! - 1: the least number of next steps that lead here from the permutation of rank 0.
 * Refused: 1 size, n is not 2 to 20; 3 muddle, the record is no permutation. */
tm_ranked tm_rank(tm_permutation permutation);

/* The permutation of n cells whose rank is `rank`.
 * Refused: 1 size, n is not 2 to 20; 5 value, `rank` is n! or more. */
tm_permuted tm_unrank(size_t n, uint64_t rank);

/* The value on a zero (enum tm_zero), 0 to n! - 1: the rank less the rank of the zero's permutation, modulo n!. It is the least number of next steps that lead
 * here from that permutation, and k steps add k to it, modulo n!.
 * Refused: 1 size, n is not 2 to 20; 3 muddle, the record is no permutation; 5 value, `zero` is neither 0 nor 1. */
tm_valued tm_value(tm_permutation permutation, uint8_t zero);

/* The permutation of n cells whose value on a zero is `value`.
 * Refused: 1 size, n is not 2 to 20; 5 value, `value` is n! or more, or `zero` is neither 0 nor 1. */
tm_permuted tm_permutation_of_value(size_t n, uint64_t value, uint8_t zero);

/* ---- charge levels: the group has n cells, levels[0] to levels[n - 1] ---- */

/* The permutation of the levels, highest first.
 * Refused: 1 size, n is not 2 to 20; 4 tie, two levels are equal.
 * Unchanged: `levels`, always. */
tm_permuted tm_read(const uint16_t *levels, size_t n);

/* Pushes the cell at `place` of the levels' permutation: its level becomes the highest plus 1. Gives the number of pushes, 1, and its jump as charge.
 * Refused: 1 size, n is not 2 to 20; 4 tie, two levels are equal; 5 value, `place` is not 2 to n; 6 ceiling, the highest level is 65,535.
 * Unchanged: all other levels; refused, all levels. */
tm_pushes tm_push_level(uint16_t *levels, size_t n, size_t place);

/* Counts up by k: k next steps, each a push on the levels. Gives the number of pushes, k, and the total of their jumps as charge. With k = 0 nothing
 * is pushed, and both are 0.
 * Refused: 1 size, n is not 2 to 20; 4 tie, two levels are equal; 6 ceiling, the highest level plus k exceeds 65,535.
 * Unchanged: the levels of cells that are not pushed; refused, all levels. A call is done in full or not at all. */
tm_pushes tm_count_up(uint16_t *levels, size_t n, uint32_t k);

/* Pushes the target's cells at places r, r - 1, ..., 1, in that sequence, so that the levels are then read as `target`; r, 0 to n - 1, is the fewest pushes
 * that lead there. Gives r, and the total of the jumps as charge. The names of the cells pushed go to the first r bytes of `list`, in the sequence of the
 * pushes; `list` has `room` bytes.
 * Refused: 1 size, the group's n or the target's is not 2 to 20; 2 fit, the target's n is not the group's or `room` is below n - 1; 3 muddle, the target is no
 * permutation; 4 tie, two levels are equal; 6 ceiling, the highest level plus r exceeds 65,535.
 * Unchanged: the levels of cells that are not pushed, and the list's bytes after the first r; refused, all levels and the whole list. */
tm_pushes tm_rewrite(uint16_t *levels, size_t n, tm_permutation target, uint8_t *list, size_t room);

/* Lists every permutation that r pushes or fewer lead to from the levels' own, each once, n names apiece, into the first bytes of `list`, which has `room`
 * bytes and may not overlap `levels`. Those that need the fewest pushes come first, and those that need equally many in lexicographic sequence: the levels' own
 * is the first. Gives how many there are, n!/(n-r)!. Nothing is pushed, so that the ceiling does not matter. The listing has n times so many bytes, 65,536 at most.
 * Refused: 1 size, n is not 2 to 20; 4 tie, two levels are equal; 5 value, r is above n - 1, or the listing would exceed 65,536 bytes; after these 2 fit, the
 * listing has more than `room` bytes.
 * Unchanged: `levels`, always, and the bytes of `list` after the listing; refused, all of `list`. */
tm_reached tm_within_reach(const uint16_t *levels, size_t n, size_t r, uint8_t *list, size_t room);

/* ---- symbols: a code of m symbols, 1 to n!, numbered 0 to m - 1, on a group of n cells ----
 * Symbol s is the prefix number s, counted from 0 in lexicographic sequence, of length p: the first p names of a permutation, p the smallest number with
 * n!/(n-p)! at least m. With m = 1, p is 0: nothing is pushed, and 0 is read. */

/* Stores `symbol`: its prefix comes to the top, by pushing its cells at places r, r - 1, ..., 1, in that sequence. r is the smallest number for which the levels'
 * permutation, with the prefix's first r cells taken out, begins with the rest of the prefix, and the fewest pushes that lead to any permutation with that prefix.
 * Gives r, and the total of the jumps as charge. A symbol that stands already is not pushed at all: both are 0, and it is stored at 65,535 too.
 * Refused: 1 size, n is not 2 to 20; 4 tie, two levels are equal; 5 value, m is 0 or above n!, or `symbol` is m or more; 6 ceiling, the highest level plus the
 * pushes exceeds 65,535.
 * Unchanged: the levels of cells that are not pushed; refused, all levels. */
tm_pushes tm_store(uint16_t *levels, size_t n, uint64_t m, uint64_t symbol);

/* The symbol whose prefix leads the levels' permutation: after tm_store with the same m, the symbol stored.
 * Refused: 1 size, n is not 2 to 20; 4 tie, two levels are equal; 5 value, m is 0 or above n!; 7 idle, the prefix that leads has number m or higher.
 * Unchanged: `levels`, always. */
tm_symbol tm_read_symbol(const uint16_t *levels, size_t n, uint64_t m);

/* ---- bands: of each cell a lowest and a highest level, lowest[0] and highest[0] of cell 1, in two lists; n is the length of `lowest` ----
 * A choice takes one level from each band, its ends included. So a cell is above another in every choice exactly when its lowest level is above the other's
 * highest. */

/* The permutation that every choice gives, without a tie in any.
 * Refused: 1 size, n is not 2 to 20; 2 fit, `highest_length` is not n; 5 value, a lowest level is above its highest; 10 unsure, a choice has a tie, or two
 * choices give different permutations.
 * Unchanged: both lists, always. */
tm_permuted tm_read_bands(const uint16_t *lowest, size_t n, const uint16_t *highest, size_t highest_length);

/* The symbol whose prefix leads in every choice: the same p cells in the same sequence, each above all cells below it. Ties further down do not matter. With
 * m = 1, p is 0: 0 is read of any bands.
 * Refused: 1 size, n is not 2 to 20; 2 fit, `highest_length` is not n; 5 value, a lowest level is above its highest, or m is 0 or above n!; 10 unsure, there is
 * no such prefix; after that 7 idle, its number is m or higher.
 * Unchanged: both lists, always. */
tm_symbol tm_read_symbol_bands(const uint16_t *lowest, size_t n, const uint16_t *highest, size_t highest_length, uint64_t m);

/* ---- uneven codes: m symbols, 2 to 64 and at most n!, each with a weight, on a group of n cells, 2 to 8 (document 02, request 12) ----
 * weights[0] is the weight of symbol 0. Each symbol has a prefix of 1 to n - 1 names, none the start of another, so that the sum of weight times length is the
 * least of all such choices. Among equals the lengths sorted from short to long come first lexicographically. Heavier symbols have the shorter ones, the lower
 * symbol first where weights are equal; in that sequence each has the first prefix of its length, lexicographically, that no earlier one starts. So n and the
 * weights say the whole code, and each call works it out.
 * A symbol that tm_store_uneven stored is the one that tm_read_uneven reads next with the same weights. Nothing is said of one that was stored or is read with
 * other weights, or by tm_store or tm_read_symbol. Bands and bench sheets have the even code of these two. */

/* The prefix of `symbol`.
 * Refused: 1 size, n is not 2 to 8; 2 fit, `weights_length` is not m; 5 value, m is not 2 to 64 or is above n!, or `symbol` is m or more.
 * Unchanged: `weights`, always. */
tm_prefixed tm_prefix_uneven(size_t n, const uint16_t *weights, size_t weights_length, uint64_t m, uint64_t symbol);

/* Stores `symbol`: its prefix comes to the top, by pushing its cells at places r, r - 1, ..., 1, in that sequence, with r the smallest number as for tm_store: no
 * fewer pushes lead to any permutation with that prefix. Gives r, and the total of the jumps as charge. A symbol that stands already is not pushed at all.
 * Refused: 1 size, n is not 2 to 8; 2 fit, `weights_length` is not m; 4 tie, two levels are equal; 5 value, m is not 2 to 64 or is above n!, or `symbol` is m or
 * more; 6 ceiling, the highest level plus the pushes exceeds 65,535.
 * Unchanged: `weights`, always, and the levels of cells that are not pushed; refused, all levels. */
tm_pushes tm_store_uneven(uint16_t *levels, size_t n, const uint16_t *weights, size_t weights_length, uint64_t m, uint64_t symbol);

/* The symbol whose prefix leads the levels' permutation.
 * Refused: 1 size, n is not 2 to 8; 2 fit, `weights_length` is not m; 4 tie, two levels are equal; 5 value, m is not 2 to 64 or is above n!; 7 idle, the
 * permutation starts with none of the prefixes.
 * Unchanged: both lists, always. */
tm_symbol tm_read_uneven(const uint16_t *levels, size_t n, const uint16_t *weights, size_t weights_length, uint64_t m);

/* ---- arrangements: q levels with z cells each (document 02, request 11); q is 2 to 16, z 1 to 16, and q * z at most 64 ----
 * An arrangement gives each of the q * z cells a level from 1 to q, each level used z times: its entry 0 is the level of cell 1. */

/* Changes one arrangement into another. Cells only rise, by whole levels, so that every cell of a lower new level ends strictly below every cell of a higher one.
 * Gives the cost, which is the largest of old level less new level over all cells: no levels to which the cells may so rise cost less. Into `list` go the raised
 * levels, each cell's new level plus the cost, at most 31. All three lists have just q * z entries, `list` too. What is left is the new arrangement, all of it
 * higher by the cost, so that the next change takes `new_levels` as old, and the costs add up.
 * Refused: 1 size, q is not 2 to 16, z is not 1 to 16, or q * z is above 64; 2 fit, one of the three lengths is not q * z; 3 muddle, `old_levels` or `new_levels` is
 * no arrangement.
 * Unchanged: `old_levels` and `new_levels`, always; refused, all of `list`. */
tm_rearranged tm_rearrange(size_t q, size_t z, const uint8_t *old_levels, size_t old_length, const uint8_t *new_levels, size_t new_length, uint8_t *list,
                           size_t list_length);

/* ---- the bench sheet ---- */

/* Works through a bench sheet of `length` bytes and lays the whole printed text, as documents 01 and 02 give it, in the first bytes of `text`, which has `room`
 * bytes. Gives the text's length; no 0 byte is put after it. A faulty sheet is done too: its text is one line, "s", a space, the number of the first fault met
 * (1 size, 4 tie, 8 sheet) and a newline. Each command of a good sheet has its own number in its line: 0, 3 muddle, 5 value or 6 ceiling; a change to the new zero
 * has 0, and 0 pushes. The line of a group has its number, its value on the zero on which the commands leave it, and its levels. README.md works an example byte by
 * byte.
 * Refused: 2 fit, the text has more than `room` bytes. With TM_TEXT_BYTES it is never refused.
 * Unchanged: `sheet`, always, and the bytes of `text` after the text; refused, all of `text`. */
tm_printed tm_bench(const uint8_t *sheet, size_t length, uint8_t *text, size_t room);

/* Writes a bench sheet from groups and commands into the first bytes of `out`, which has `room` bytes. Gives the sheet's length: TM_SHEET_BYTES are always
 * enough. What is written is read by tm_bench as these groups and commands, and a sheet without fault that has these groups and commands has just these bytes.
 *
 * The groups and commands stand in seven lists, one for each field, each followed by its length. Each group and each command has a row in a list, one after the
 * other:
 * - sizes: n of each group, so that its length is the number of groups;
 * - levels: 20 places to a group, its levels by cell name; places past n are not looked at;
 * - zeros: of each group, 0 old, 1 new (enum tm_zero), before the first command; where one is new, the sheet ends with a section that names those that are;
 * - kinds: of each command, 1 count up, 2 rewrite, 3 store, 4 change to the new zero, so that its length is the number of commands;
 * - groups: the group number of each command, from 0;
 * - numbers: 2 places to a command: k of a count up, n of a rewrite's target (and in both a place that is not looked at), m and s of a store; those of a change are
 *   not looked at;
 * - names: 20 places to a command, the row of a rewrite's target; those of other kinds are not looked at.
 * What stands in a list past these rows is not looked at. Document 01's sheet, of 39 bytes:
 *
 *   size_t sizes[1] = {3};
 *   uint16_t levels[1][TM_CELLS] = {{3, 1, 2}};
 *   uint8_t zeros[1] = {TM_OLD_ZERO};
 *   uint8_t kinds[3] = {1, 2, 3}, groups[3] = {0, 0, 0};
 *   uint64_t numbers[3][2] = {{4}, {3}, {3, 3}};
 *   uint8_t names[3][TM_CELLS] = {{0}, {3, 1, 2}};
 *   uint8_t out[TM_SHEET_BYTES];
 *   tm_written sheet = tm_write_sheet(sizes, 1, levels[0], TM_CELLS, zeros, 1, kinds, 3, groups, 3, numbers[0], 6, names[0], 3 * TM_CELLS, out, sizeof out);
 *
 * Refused: 2 fit, a list is too short for the numbers of groups and of commands; then 5 value, the zero of a group is neither 0 nor 1. Then the first met in the
 * sheet's sequence: 8 sheet, there are not 1 to 64 groups; for each group, 1 size, n is not 2 to 20, then 4 tie, two of its levels are equal; 8 sheet, there are
 * more than 1,000 commands; for each command, 8 sheet, its kind is not 1 to 4, its k is above 4,294,967,295 or there is no such group, and for a rewrite, 2 fit,
 * its n is not its group's, then 3 muddle, a name past n is not 0. The names inside n are not judged: tm_bench does so. After all these 9 paper, the sheet has more
 * than `room` bytes.
 * Unchanged: the seven lists, always, and the bytes of `out` after the sheet; refused, all of `out`. */
tm_written tm_write_sheet(const size_t *sizes, size_t sizes_length, const uint16_t *levels, size_t levels_length, const uint8_t *zeros, size_t zeros_length,
                          const uint8_t *kinds, size_t kinds_length, const uint8_t *groups, size_t groups_length, const uint64_t *numbers, size_t numbers_length,
                          const uint8_t *names, size_t names_length, uint8_t *out, size_t room);

#ifdef __cplusplus
}
#endif

#endif
