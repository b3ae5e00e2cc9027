/*
 * Trailing stops: the calls of the static library libyubtomiq.a, in C99.
 *
 * What the calls do is said in the specification ("document 01"); what is proved of them stands as their contracts in
 * crates/yubtomiq/src/lib.rt, for every value of every word that is passed or lent.
 *
 * A call returns 0 where it is accepted, else the number of the refusal (enum yubtomiq_refusal). The first question that is answered no
 * gives the number, and a refused call alters nothing that it was lent. A few calls return a word instead, as their comments say.
 *
 * The caller sees to this, as in all C:
 * - every pointer points to as many words as the call reads or writes: a structure, or the count that is passed with it; a pointer that
 *   comes with a count of 0 is not null either;
 * - what a call is lent to write (every pointer that is not const) overlaps nothing else that the same call is passed;
 * - no other thread uses what a call is lent to write while the call runs, or writes what it reads.
 * The words themselves may be any: a damaged store is refused.
 *
 * The stack: no call allocates, and none needs more than YUBTOMIQ_STACK_BYTES of stack, at its worst a pass over YUBTOMIQ_MOST_RECORDS stops whose
 * children's identities are searched in a full store; but for yubtomiq_ask_segment and yubtomiq_commit_segment, which hold a copy of the largest store, and
 * committing the longest lists too: these need up to YUBTOMIQ_COMMIT_STACK_BYTES. The proofs do not speak of the stack; tests/test.c runs these worst cases
 * on threads that have no more.
 */
#ifndef YUBTOMIQ_H
#define YUBTOMIQ_H

#include <stddef.h>
#include <stdint.h>

#ifdef __cplusplus
extern "C" {
#endif

enum yubtomiq_refusal {
    YUBTOMIQ_ACCEPTED = 0,
    YUBTOMIQ_STORE_NOT_WELL_FORMED = 1,
    YUBTOMIQ_LAYOUT_OUT_OF_RANGE = 2,      /* records not from 1 to YUBTOMIQ_MOST_RECORDS, or too few words */
    YUBTOMIQ_KILL_SWITCH_ACTIVE = 3,
    YUBTOMIQ_ZERO_QUANTITY = 4,
    YUBTOMIQ_ZERO_TRAIL = 5,
    YUBTOMIQ_STOP_BEYOND_WATERMARK = 6,    /* a sell stop above its watermark, a buy stop below it */
    YUBTOMIQ_STOP_WOULD_TRIGGER = 7,       /* the last trade elects it */
    YUBTOMIQ_DUPLICATE_ORDER_ID = 8,
    YUBTOMIQ_TRAIL_OFF_TICK = 9,
    YUBTOMIQ_NO_FREE_RECORD = 10,
    YUBTOMIQ_SEQUENCE_EXHAUSTED = 11,
    YUBTOMIQ_ORDER_NOT_FOUND = 12,
    YUBTOMIQ_SAME_PRICE = 13,              /* a change of the price alone, to the price that it is */
    YUBTOMIQ_LIST_TOO_SHORT = 14,          /* elected, collected, of a ladder and moved, of a step: the pending count; moved, of a segment: twice that; turning points: the number of prices */
    YUBTOMIQ_INVALID_SCRIPT = 15,          /* no whole entries, or a flag that is not 0 or 1 */
    YUBTOMIQ_PRICE_COUNT_OUT_OF_RANGE = 16, /* prices of a run: 1 to 4,096 */
    YUBTOMIQ_ZERO_COLLAR = 17,
    YUBTOMIQ_COLLAR_OFF_TICK = 18,
    YUBTOMIQ_TRIAL_PRICE_COUNT_OUT_OF_RANGE = 19, /* prices of a ladder: 1 to 64 */
    YUBTOMIQ_LISTS_DIFFER = 20,            /* the lists of a commit are not those that the store gives now */
    YUBTOMIQ_UNKNOWN_VALUE = 255           /* asked first: a kind, a side, a change, a selector or a path's flag that is none of those below */
};

enum yubtomiq_kind { YUBTOMIQ_UUID = 0, YUBTOMIQ_ULID = 1, YUBTOMIQ_SEQUENTIAL = 2 };
enum yubtomiq_side { YUBTOMIQ_BUY = 0, YUBTOMIQ_SELL = 1 };
enum yubtomiq_change {
    YUBTOMIQ_CHANGE_QUANTITY = 0, /* a quantity of zero cancels */
    YUBTOMIQ_CHANGE_PRICE = 1,
    YUBTOMIQ_CHANGE_PRICE_AND_QUANTITY = 2,
    YUBTOMIQ_REPLACE = 3
};

/* How a selector names stops: by what the words behind its kind are. */
enum yubtomiq_selector_kind {
    YUBTOMIQ_BY_HOLDER = 0,     /* the four words of the holder */
    YUBTOMIQ_BY_SIDE = 1,       /* the side, and three words that are not looked at */
    YUBTOMIQ_BY_PRICE_RANGE = 2 /* the lowest and the highest stop price, both included, and two words that are not looked at */
};

/* A store of n records is YUBTOMIQ_STORE_WORDS(n) words, or more; those beyond are not touched. */
#define YUBTOMIQ_HEADER_WORDS 9
#define YUBTOMIQ_RECORD_WORDS 15
#define YUBTOMIQ_MOST_RECORDS 545
#define YUBTOMIQ_STORE_WORDS(n) (YUBTOMIQ_HEADER_WORDS + YUBTOMIQ_RECORD_WORDS * (size_t)(n))

/* The words of a holder, of a selector, and of a stop: a record without its two next indices, which is an entry of a list of collected stops too. */
#define YUBTOMIQ_HOLDER_WORDS 4
#define YUBTOMIQ_SELECTOR_WORDS (1 + YUBTOMIQ_HOLDER_WORDS)
#define YUBTOMIQ_COLLECTED_WORDS (YUBTOMIQ_RECORD_WORDS - 2)

/* The most prices of a run. */
#define YUBTOMIQ_MOST_PRICES 4096

/* The most trial prices of a ladder, and the place of the first where none elects a stop. */
#define YUBTOMIQ_MOST_TRIAL_PRICES 64
#define YUBTOMIQ_NO_PLACE 64

/* Stack that is enough for any other call, and for one that asks or commits. */
#define YUBTOMIQ_STACK_BYTES (64 * 1024)
#define YUBTOMIQ_COMMIT_STACK_BYTES (256 * 1024)

/*
 * The structures are words, in the order of the fields. Of a flag in an argument any value but 0 is "yes", but for those of a path
 * (open, has_prev) and of a script entry (printed, has_prev), which are 0 or 1. Flags in an answer are 0 or 1, and the words that a
 * flag of 0 leaves without a meaning are 0.
 */

/* The sixteen bytes of an identity as two words, high first, big-endian. */
typedef struct yubtomiq_id {
    uint64_t kind, high, low;
} yubtomiq_id;

/* The 32 bytes of a stop's holder as four words, big-endian. */
typedef struct yubtomiq_holder {
    uint64_t words[YUBTOMIQ_HOLDER_WORDS];
} yubtomiq_holder;

typedef struct yubtomiq_namespace {
    uint64_t high, low;
} yubtomiq_namespace;

typedef struct yubtomiq_terms {
    uint64_t side, stop, watermark, trail;
} yubtomiq_terms;

/* A price that may be absent. */
typedef struct yubtomiq_price {
    uint64_t present, price;
} yubtomiq_price;

/* The limit of an elected stop's order, that may be absent: high * 2^64 + low. A buy's goes on above the highest price. */
typedef struct yubtomiq_limit {
    uint64_t present, high, low;
} yubtomiq_limit;

/* Side, price and quantity are read only where the change has them. */
typedef struct yubtomiq_update {
    uint64_t change, side, price, quantity;
} yubtomiq_update;

/* All zero is a closed path. */
typedef struct yubtomiq_path {
    uint64_t open, has_prev, prev, first;
} yubtomiq_path;

typedef struct yubtomiq_prints {
    uint64_t has_prev, prev, first, last;
} yubtomiq_prints;

/* One entry of a script; words that a flag of 0 leaves unused are not read. */
typedef struct yubtomiq_script_entry {
    uint64_t printed, has_prev, prev, first, last;
} yubtomiq_script_entry;

/* A collar of 0 is none. */
typedef struct yubtomiq_settings {
    uint64_t kill, collar, namespace_high, namespace_low;
} yubtomiq_settings;

typedef struct yubtomiq_stop {
    uint64_t kind, high, low, side, stop, watermark, trail, quantity, seq;
    yubtomiq_holder holder;
} yubtomiq_stop;

/* Which pending stops to collect (enum yubtomiq_selector_kind). A lowest price above the highest collects none. */
typedef struct yubtomiq_selector {
    uint64_t kind, words[YUBTOMIQ_SELECTOR_WORDS - 1];
} yubtomiq_selector;

static inline yubtomiq_selector yubtomiq_by_holder(yubtomiq_holder holder) {
    yubtomiq_selector s = {YUBTOMIQ_BY_HOLDER, {holder.words[0], holder.words[1], holder.words[2], holder.words[3]}};
    return s;
}

static inline yubtomiq_selector yubtomiq_by_side(uint64_t side) {
    yubtomiq_selector s = {YUBTOMIQ_BY_SIDE, {side, 0, 0, 0}};
    return s;
}

static inline yubtomiq_selector yubtomiq_by_price_range(uint64_t lowest, uint64_t highest) {
    yubtomiq_selector s = {YUBTOMIQ_BY_PRICE_RANGE, {lowest, highest, 0, 0}};
    return s;
}

/* An entry of a ladder: bit j of `word` says that price j elects the stop; how many do; the place of the first, counted from 0, or YUBTOMIQ_NO_PLACE. */
typedef struct yubtomiq_ladder_entry {
    uint64_t word, count, first;
} yubtomiq_ladder_entry;

typedef struct yubtomiq_found {
    uint64_t found;
    yubtomiq_stop stop;
} yubtomiq_found;

/* Two words of each sum, the high one first. */
typedef struct yubtomiq_totals {
    uint64_t sell_high, sell_low, buy_high, buy_low;
} yubtomiq_totals;

typedef struct yubtomiq_counts {
    uint64_t moves, elected;
} yubtomiq_counts;

/* What a run of prices gives both ways: of each the number, and the counts, which are 0 where it was refused. */
typedef struct yubtomiq_both_ways {
    uint64_t ends_number;
    yubtomiq_counts ends;
    uint64_t run_number;
    yubtomiq_counts run;
} yubtomiq_both_ways;

/* What a run of prices and its turning points give: of each walk the number, and the counts, which are 0 where it was refused. */
typedef struct yubtomiq_both_runs {
    uint64_t turns_number;
    yubtomiq_counts turns;
    uint64_t run_number;
    yubtomiq_counts run;
} yubtomiq_both_runs;

typedef struct yubtomiq_pass_counts {
    uint64_t moves, elected, used;
} yubtomiq_pass_counts;

/* An entry of an elected list. The limit is limit_high * 2^64 + limit_low. The child identity is of kind 0; child_pending says whether it is
 * pending after the call. */
typedef struct yubtomiq_elected {
    uint64_t kind, high, low, side, stop, quantity, seq, trigger;
    uint64_t has_limit, limit_high, limit_low, child_high, child_low, child_pending;
} yubtomiq_elected;

/* An entry of the moved list of a segment or a step, with the new stop. */
typedef struct yubtomiq_moved {
    uint64_t kind, high, low, stop;
} yubtomiq_moved;

typedef struct yubtomiq_adjustment {
    uint64_t adjusted, stop, reference;
} yubtomiq_adjustment;

/* ---- The store. `words` and `count` are the store and how many words it is lent with. */

/* Lays out an empty store. Refused: 2. */
uint64_t yubtomiq_layout_store(uint64_t *words, size_t count, uint64_t n, uint64_t tick);

/* Returns 1 if the words are a well-formed store, else 0. */
uint64_t yubtomiq_well_formed(const uint64_t *words, size_t count);

/* Admits a stop for its holder, of whom nothing is asked, and writes its sequence. Into an empty store it closes the path.
 * Refused: 255, 1, 3 to 11. */
uint64_t yubtomiq_admit_trailing_stop(uint64_t *words, size_t count, yubtomiq_path *path, uint64_t kill,
                                      const yubtomiq_price *last_trade, const yubtomiq_id *id, const yubtomiq_terms *terms,
                                      uint64_t quantity, const yubtomiq_holder *holder, uint64_t *sequence);

/* Changes a pending stop and writes it as it is after the change; a quantity of zero cancels, and writes it as it was. Its holder stays.
 * Refused: 255, 1, 12, 13, 4, 6, 7, 11. */
uint64_t yubtomiq_update_pending_stop(uint64_t *words, size_t count, const yubtomiq_id *id, const yubtomiq_update *update,
                                      const yubtomiq_price *last_trade, yubtomiq_stop *answer);

/* Takes a pending stop out and writes it as it was. Refused: 255, 1, 12. */
uint64_t yubtomiq_cancel_pending_stop(uint64_t *words, size_t count, const yubtomiq_id *id, yubtomiq_stop *answer);

/* Writes the pending stop of an identity, if there is one. Refused: 255, 1. */
uint64_t yubtomiq_pending_stop_order(const uint64_t *words, size_t count, const yubtomiq_id *id, yubtomiq_found *answer);

/* Writes the pending quantity of each side. Refused: 1. */
uint64_t yubtomiq_pending_stop_quantity(const uint64_t *words, size_t count, yubtomiq_totals *answer);

/* Lists the selected stops by rising sequence, from the start of a list that has an entry for every pending stop, and writes how many they are.
 * Later entries stay, and so does the store. Refused: 255, 1, 14. */
uint64_t yubtomiq_collect(const uint64_t *words, size_t count, const yubtomiq_selector *selector, yubtomiq_stop *list, size_t list_count,
                          uint64_t *listed);

/* The same, and then a cancel of each listed stop, in that order. The path is not touched. Refused: 255, 1, 14. */
uint64_t yubtomiq_mass_cancel(uint64_t *words, size_t count, const yubtomiq_selector *selector, yubtomiq_stop *list, size_t list_count,
                              uint64_t *listed);

/* Lists which of 1 to YUBTOMIQ_MOST_TRIAL_PRICES prices elect each pending stop, by rising sequence, from the start of a list that has an entry for every
 * pending stop, and writes how many they are. The stops are taken as they stand and do not trail. Proved: bit j of a stop's word is set exactly if a walk over price j
 * alone, with the kill switch off, elects that stop. Later entries stay, and so does the store. Refused: 1, 19, 14. */
uint64_t yubtomiq_ladder(const uint64_t *words, size_t count, const uint64_t *prices, size_t price_count, yubtomiq_ladder_entry *list,
                         size_t list_count, uint64_t *listed);

/* Empties the store, with the same n and tick, and closes the path. Refused: 255, 1. */
uint64_t yubtomiq_clear(uint64_t *words, size_t count, yubtomiq_path *path);

/* ---- The print path. Refused: 255. */

/* Records a print, given how many stops are pending (word 1 of the store): a sweep's first print opens the path, if there are any. */
uint64_t yubtomiq_record_print(yubtomiq_path *path, uint64_t pending, const yubtomiq_price *prev, uint64_t price);

/* Writes the path's segment, up to the last trade, as a script entry (printed 0: the path was closed), and closes the path. */
uint64_t yubtomiq_take_path(yubtomiq_path *path, const yubtomiq_price *last_trade, yubtomiq_script_entry *answer);

/* Closes the path. */
uint64_t yubtomiq_reset_path(yubtomiq_path *path);

/* ---- Evaluation. Lists are written from their start; later entries stay. Each list comes with how many entries it has. */

/* A segment: a point at the first print and one at the last. The moved list has `moves` entries. Refused: 1, 14. */
uint64_t yubtomiq_segment(uint64_t *words, size_t count, const yubtomiq_settings *settings, const yubtomiq_prints *prints,
                          yubtomiq_elected *elected, size_t elected_count, yubtomiq_moved *moved, size_t moved_count,
                          yubtomiq_counts *answer);

/* Asks what a segment would do: both lists and the answer as it would write them, while the store is only read. Refused: 1, 14. */
uint64_t yubtomiq_ask_segment(const uint64_t *words, size_t count, const yubtomiq_settings *settings, const yubtomiq_prints *prints,
                              yubtomiq_elected *elected, size_t elected_count, yubtomiq_moved *moved, size_t moved_count,
                              yubtomiq_counts *answer);

/* Commits what was asked: does the segment, if the store of this moment gives exactly the lists that are handed in, in length and every word; else it
 * alters nothing. The counts are those of the entries that asking wrote (`elected` and `moves` of its answer), not the room of its lists, which are only
 * read. Settings and prints are this call's own, and may differ from those that were asked with, as long as they give the same lists. Proved: asking and
 * then committing, with no call between, is yubtomiq_segment, in answer, lists and every word of the store. Refused: 1, 20. */
uint64_t yubtomiq_commit_segment(uint64_t *words, size_t count, const yubtomiq_settings *settings, const yubtomiq_prints *prints,
                                 const yubtomiq_elected *elected, size_t elected_count, const yubtomiq_moved *moved,
                                 size_t moved_count, yubtomiq_counts *answer);

/* A step of a walk: a point at one price, arrived from another (`from`), of a run that falls as a whole or does not. `falls` is yes where the run's
 * last price is its first or below it; one price does not show it, and it decides which side goes first where the run has come from nowhere or stays.
 * Proved: along a run, each step arrived from the price before it, the steps list in turn what the walk over the run lists, but that child_pending is
 * decided after each step; the moves and the elected add up to the walk's; and the last step leaves the walk's store. Each list has an entry for
 * every pending stop. Refused: 1, 14. */
uint64_t yubtomiq_step(uint64_t *words, size_t count, const yubtomiq_settings *settings, uint64_t falls, const yubtomiq_price *from,
                       uint64_t price, yubtomiq_elected *elected, size_t elected_count, yubtomiq_moved *moved, size_t moved_count,
                       yubtomiq_counts *answer);

/* A walk: a point at each price in turn. Refused: 1, 14, 16. */
uint64_t yubtomiq_walk(uint64_t *words, size_t count, const yubtomiq_settings *settings, const yubtomiq_price *prev,
                       const uint64_t *prices, size_t price_count, yubtomiq_elected *elected, size_t elected_count,
                       yubtomiq_counts *answer);

/* A run of prices on two stores: on `ends` by a segment from its first price to its last, on `run` by a walk. Each may be refused by itself
 * (16 where there is no price), and then leaves its store and lists. Proved: where the stores are equal and well formed, the prices are 1 to 4,096
 * and never rise or never fall, and the lists are as long as the calls ask, neither is refused, both list the same stops in the same order, alike but
 * for their trigger prices, and the stores are equal again in every word. */
void yubtomiq_evaluate_both_ways(uint64_t *ends, size_t ends_count, uint64_t *run, size_t run_count,
                                 const yubtomiq_settings *settings, const yubtomiq_price *prev, const uint64_t *prices,
                                 size_t price_count, yubtomiq_elected *elected, size_t elected_count, yubtomiq_moved *moved,
                                 size_t moved_count, yubtomiq_elected *listed, size_t listed_count, yubtomiq_both_ways *answer);

/* Writes the turning points of a run: its first price, each high and low at which its direction changes, one for a level stretch, and its last; of a
 * run of one price, that price. They are never more than the prices, so that a list as long as the run is enough, and asked for; later places of the
 * list stay. `listed` is how many there are. A walk over them does to a store what the walk over the run does: see yubtomiq_evaluate_both_runs.
 * Refused: 16, 14. */
uint64_t yubtomiq_turning_points(const uint64_t *prices, size_t price_count, uint64_t *list, size_t list_count, uint64_t *listed);

/* A run of prices on two stores: on `turned` by a walk over its turning points, which are written to `turns` (yubtomiq_turning_points says how many
 * they are), on `run` by a walk over the run. Each may be refused by itself, the first as turning points are too, and then leaves its store and list.
 * Proved: where the stores are equal and well formed, the prices are 1 to 4,096, and the lists are as long as the calls ask, neither is refused, both
 * list the same stops in the same order, alike but for their trigger prices, and the stores are equal again in every word. How often stops move may
 * differ. */
void yubtomiq_evaluate_both_runs(uint64_t *turned, size_t turned_count, uint64_t *run, size_t run_count,
                                 const yubtomiq_settings *settings, const yubtomiq_price *prev, const uint64_t *prices,
                                 size_t price_count, uint64_t *turns, size_t turns_count, yubtomiq_elected *elected,
                                 size_t elected_count, yubtomiq_elected *listed, size_t listed_count, yubtomiq_both_runs *answer);

/* A pass: segments from a queue, at first this one. The script is lent as its words, five to an entry. Refused: 1, 14, 15. */
uint64_t yubtomiq_evaluate_pending_stops(uint64_t *words, size_t count, const yubtomiq_settings *settings, const uint64_t *script,
                                         size_t script_words, const yubtomiq_prints *prints, yubtomiq_elected *elected,
                                         size_t elected_count, yubtomiq_pass_counts *answer);

/* A run: a pass over the path's segment, up to the last trade, and the path closed; nothing where no stop is pending or the path is
 * closed. Refused: 255, 1, 14, 15. */
uint64_t yubtomiq_run_stop_triggers(uint64_t *words, size_t count, yubtomiq_path *path, const yubtomiq_settings *settings,
                                    const uint64_t *script, size_t script_words, const yubtomiq_price *last_trade,
                                    yubtomiq_elected *elected, size_t elected_count, yubtomiq_pass_counts *answer);

/* ---- Terms, limit and child */

/* Writes the terms after a trade at a price. Refused: 255. */
uint64_t yubtomiq_trailed(const yubtomiq_terms *terms, uint64_t price, yubtomiq_terms *answer);

/* Returns 1 if a trade at the price elects the stop, else 0; or 255. */
uint64_t yubtomiq_elected_by(const yubtomiq_terms *terms, uint64_t price);

/* Returns 0 for consistent terms, 5 for a trail of zero, 6 for a stop beyond its watermark; or 255. */
uint64_t yubtomiq_inconsistency(const yubtomiq_terms *terms);

/* Writes the preview: new stop and reference, if the price is past the reference and the stop improves. Refused: 255.
   A panel that starts from a stop's terms, takes both over where they are present and keeps its own where they are not has
   after each price the stop that yubtomiq_trailed gives, and that a store evaluated at these prices has; its reference may
   lag behind their watermark. */
uint64_t yubtomiq_calculate_trailing_stop_price(uint64_t side, uint64_t current_stop_price, uint64_t trail_amount,
                                                uint64_t last_reference_price, uint64_t current_market_price,
                                                yubtomiq_adjustment *answer);

/* Writes the limit of a stop's order under a collar; a collar of 0 gives none. Refused: 255. */
uint64_t yubtomiq_limit_price(uint64_t collar, uint64_t side, uint64_t stop_price, yubtomiq_limit *answer);

/* Refused: 17. */
uint64_t yubtomiq_check_collar(uint64_t collar);

/* A tick of 0 is none. Refused: 17, 18. */
uint64_t yubtomiq_check_tick_size(uint64_t collar, uint64_t tick_size);

/* Writes the identity of the order that an elected stop executes as. Refused: 255. */
uint64_t yubtomiq_stop_trigger_order_id(const yubtomiq_namespace *name_space, const yubtomiq_id *id, yubtomiq_id *answer);

#ifdef __cplusplus
}
#endif

#endif
