/*
 * Tests of the static library from C: the layout of what is passed, each number that only C can get (14, 255), and that a refused call and
 * the words and entries beyond what is written stay. Each check prints what differs; the exit status is 1 if any did.
 */
#include "../yubtomiq.h"

#include <inttypes.h>
#include <pthread.h>
#include <stdio.h>
#include <stdlib.h>
#include <string.h>

static int made, failed;

static void same(const char *what, uint64_t got, uint64_t expected) {
    made++;
    if (got != expected) {
        failed++;
        printf("%s: got %" PRIu64 ", expected %" PRIu64 "\n", what, got, expected);
    }
}

static void same_words(const char *what, const void *got, const void *expected, size_t words) {
    const uint64_t *g = got, *e = expected;
    for (size_t i = 0; i < words; i++) {
        char place[80];
        snprintf(place, sizeof place, "%s, word %zu", what, i);
        same(place, g[i], e[i]);
    }
}

enum { RECORDS = 4, WORDS = YUBTOMIQ_STORE_WORDS(RECORDS), LENT = WORDS + 2, STOP_WORDS = YUBTOMIQ_COLLECTED_WORDS };

#define WORDS_OF(type) (sizeof(type) / sizeof(uint64_t))

static const yubtomiq_price NONE = {0, 0};
static const yubtomiq_settings PLAIN = {0, 0, 0, 0};
static const yubtomiq_holder NOBODY = {{0, 0, 0, 0}};

/* Of these the last two differ in one word. */
static const yubtomiq_holder HOLDERS[3] = {{{1, 2, 3, 4}}, {{5, 6, 7, 8}}, {{5, 6, 7, 9}}};

static yubtomiq_id sequential(uint64_t number) {
    return (yubtomiq_id){YUBTOMIQ_SEQUENTIAL, 0, number};
}

/* A store of four records and two words behind it, with two sells and a buy: identities 1, 2, 3, quantities 10, 20, 30, each with its holder. */
static void lay_out(uint64_t words[LENT]) {
    static const yubtomiq_terms terms[3] = {
        {YUBTOMIQ_SELL, 95, 100, 5}, {YUBTOMIQ_SELL, 90, 100, 10}, {YUBTOMIQ_BUY, 110, 100, 10}};
    words[WORDS] = 77;
    words[WORDS + 1] = 78;
    same("layout", yubtomiq_layout_store(words, LENT, RECORDS, 5), 0);
    for (uint64_t i = 0; i < 3; i++) {
        yubtomiq_path path = {0, 0, 0, 0};
        yubtomiq_id id = sequential(i + 1);
        uint64_t sequence = 99;
        same("admission", yubtomiq_admit_trailing_stop(words, LENT, &path, 0, &NONE, &id, &terms[i], 10 * (i + 1), &HOLDERS[i], &sequence),
             0);
        same("sequence", sequence, i);
    }
    same("well formed", yubtomiq_well_formed(words, LENT), 1);
    same("beyond", words[WORDS], 77);
}

static void refused_values(void) {
    uint64_t words[LENT], before[LENT], sequence = 99;
    lay_out(words);
    memcpy(before, words, sizeof words);
    const yubtomiq_id id = sequential(1), unknown = {3, 0, 1};
    const yubtomiq_terms terms = {YUBTOMIQ_SELL, 90, 100, 10}, no_side = {2, 90, 100, 10};
    const yubtomiq_update change = {4, 0, 0, 0}, side = {YUBTOMIQ_REPLACE, 2, 90, 1};
    yubtomiq_path path = {1, 1, 7, 8}, open = {2, 1, 7, 8}, prev = {1, 2, 7, 8};
    yubtomiq_stop stop, kept = {1, 2, 3, 4, 5, 6, 7, 8, 9, {{10, 11, 12, 13}}};
    yubtomiq_found found = {11, kept};
    const yubtomiq_selector selector = {3, {1, 1, 1, 1}}, selected_side = {YUBTOMIQ_BY_SIDE, {2, 0, 0, 0}};
    yubtomiq_stop list[3] = {kept, kept, kept};
    uint64_t listed = 99;
    yubtomiq_script_entry entry = {6, 6, 6, 6, 6};
    yubtomiq_pass_counts counts = {5, 5, 5};
    yubtomiq_elected elected[3];
    yubtomiq_terms after = {9, 9, 9, 9};
    yubtomiq_adjustment adjustment = {9, 9, 9};
    yubtomiq_limit limit = {9, 9, 9};
    yubtomiq_id child = {9, 9, 9};
    stop = kept;
    same("kind", yubtomiq_admit_trailing_stop(words, LENT, &path, 1, &NONE, &unknown, &terms, 0, &NOBODY, &sequence), 255);
    same("side", yubtomiq_admit_trailing_stop(words, LENT, &path, 1, &NONE, &id, &no_side, 0, &NOBODY, &sequence), 255);
    same("open", yubtomiq_admit_trailing_stop(words, LENT, &open, 1, &NONE, &id, &terms, 0, &NOBODY, &sequence), 255);
    same("prev", yubtomiq_admit_trailing_stop(words, LENT, &prev, 1, &NONE, &id, &terms, 0, &NOBODY, &sequence), 255);
    same("then the store", yubtomiq_admit_trailing_stop(words, 8, &path, 1, &NONE, &id, &terms, 0, &NOBODY, &sequence), 1);
    same("then the kill switch", yubtomiq_admit_trailing_stop(words, LENT, &path, 2, &NONE, &id, &terms, 0, &NOBODY, &sequence), 3);
    same("change", yubtomiq_update_pending_stop(words, LENT, &id, &change, &NONE, &stop), 255);
    same("new side", yubtomiq_update_pending_stop(words, LENT, &id, &side, &NONE, &stop), 255);
    same("kind of a change", yubtomiq_update_pending_stop(words, LENT, &unknown, &side, &NONE, &stop), 255);
    same("kind of a cancel", yubtomiq_cancel_pending_stop(words, LENT, &unknown, &stop), 255);
    same("kind of a search", yubtomiq_pending_stop_order(words, LENT, &unknown, &found), 255);
    same("selector of a collect", yubtomiq_collect(words, LENT, &selector, list, 0, &listed), 255);
    same("side of a collect", yubtomiq_collect(words, LENT, &selected_side, list, 0, &listed), 255);
    same("selector of a mass cancel", yubtomiq_mass_cancel(words, LENT, &selector, list, 3, &listed), 255);
    same("side of a mass cancel", yubtomiq_mass_cancel(words, LENT, &selected_side, list, 3, &listed), 255);
    same("before the store", yubtomiq_mass_cancel(words, 8, &selector, list, 0, &listed), 255);
    same("path of a clear", yubtomiq_clear(words, LENT, &open), 255);
    same("path of a print", yubtomiq_record_print(&open, 1, &NONE, 1), 255);
    same("path taken", yubtomiq_take_path(&prev, &NONE, &entry), 255);
    same("path reset", yubtomiq_reset_path(&prev), 255);
    same("path of a run", yubtomiq_run_stop_triggers(words, LENT, &open, &PLAIN, words, 0, &NONE, elected, 3, &counts), 255);
    same("terms", yubtomiq_trailed(&no_side, 1, &after), 255);
    same("elected by", yubtomiq_elected_by(&no_side, 1), 255);
    same("inconsistency", yubtomiq_inconsistency(&no_side), 255);
    same("preview", yubtomiq_calculate_trailing_stop_price(2, 1, 1, 1, 1, &adjustment), 255);
    same("limit", yubtomiq_limit_price(1, 2, 1, &limit), 255);
    same("child", yubtomiq_stop_trigger_order_id(&(yubtomiq_namespace){0, 0}, &unknown, &child), 255);
    same_words("the store stays", words, before, LENT);
    same_words("the path stays", &open, &(yubtomiq_path){2, 1, 7, 8}, 4);
    same_words("the other path stays", &prev, &(yubtomiq_path){1, 2, 7, 8}, 4);
    same_words("the known path stays", &path, &(yubtomiq_path){1, 1, 7, 8}, 4);
    same_words("the stop stays", &stop, &kept, STOP_WORDS);
    same_words("the list stays", &list[0], &kept, STOP_WORDS);
    same("the number listed stays", listed, 99);
    same("the sequence stays", sequence, 99);
    same("the found flag stays", found.found, 11);
    same("the entry stays", entry.printed, 6);
    same("the counts stay", counts.used, 5);
    same("the rest stays", after.side + adjustment.adjusted + limit.present + child.kind, 36);
}

static void lists(void) {
    uint64_t words[LENT];
    lay_out(words);
    const yubtomiq_prints prints = {1, 96, 94, 92};
    const uint64_t prices[2] = {94, 92};
    const yubtomiq_price prev = {1, 96};
    const yubtomiq_settings settings = {0, 3, 0, 0};
    yubtomiq_elected elected[4];
    yubtomiq_moved moved[7];
    yubtomiq_counts counts = {5, 5};
    yubtomiq_pass_counts pass = {5, 5, 5};
    memset(elected, 1, sizeof elected);
    memset(moved, 1, sizeof moved);
    const yubtomiq_elected entry = elected[0];
    same("elected short", yubtomiq_segment(words, LENT, &settings, &prints, elected, 2, moved, 6, &counts), 14);
    same("moved short", yubtomiq_segment(words, LENT, &settings, &prints, elected, 3, moved, 5, &counts), 14);
    same("walk short", yubtomiq_walk(words, LENT, &settings, &prev, prices, 2, elected, 2, &counts), 14);
    same("pass short", yubtomiq_evaluate_pending_stops(words, LENT, &settings, prices, 0, &prints, elected, 2, &pass), 14);
    same("counts stay", counts.moves + counts.elected + pass.moves + pass.elected + pass.used, 25);
    same("segment", yubtomiq_segment(words, LENT, &settings, &prints, elected, 4, moved, 7, &counts), 0);
    same("moves", counts.moves, 2);
    same("elected", counts.elected, 1);
    const yubtomiq_elected first = {2, 0, 1, YUBTOMIQ_SELL, 95, 10, 0, 94, 1, 0, 92, elected[0].child_high, elected[0].child_low, 0};
    same_words("the elected entry", &elected[0], &first, WORDS_OF(yubtomiq_elected));
    same_words("the next entry stays", &elected[1], &entry, WORDS_OF(yubtomiq_elected));
    same_words("the first move", &moved[0], &(yubtomiq_moved){2, 0, 3, 104}, 4);
    same_words("the second move", &moved[1], &(yubtomiq_moved){2, 0, 3, 102}, 4);
    same_words("the next move stays", &moved[2], &entry, 4);
    yubtomiq_id child = {9, 9, 9};
    same("child", yubtomiq_stop_trigger_order_id(&(yubtomiq_namespace){0, 0}, &(yubtomiq_id){2, 0, 1}, &child), 0);
    same_words("the child identity", &child, &(yubtomiq_id){0, elected[0].child_high, elected[0].child_low}, 3);
    same("beyond", words[WORDS], 77);
    same("beyond", words[WORDS + 1], 78);
}

/* Asking and committing: refusals in their order, what they leave, and a commit with lists that differ in one word, in each, or in length. */
static void asked(void) {
    uint64_t words[LENT], before[LENT];
    lay_out(words);
    memcpy(before, words, sizeof words);
    const yubtomiq_prints prints = {1, 96, 94, 92};
    const yubtomiq_settings settings = {0, 3, 0, 0};
    yubtomiq_elected elected[4], lent;
    yubtomiq_moved moved[7];
    yubtomiq_counts counts = {5, 5}, answer = {5, 5};
    memset(elected, 1, sizeof elected);
    memset(moved, 1, sizeof moved);
    lent = elected[0];
    same("ask, no store", yubtomiq_ask_segment(words, 8, &settings, &prints, elected, 0, moved, 0, &counts), 1);
    same("ask, elected short", yubtomiq_ask_segment(words, LENT, &settings, &prints, elected, 2, moved, 6, &counts), 14);
    same("ask, moved short", yubtomiq_ask_segment(words, LENT, &settings, &prints, elected, 3, moved, 5, &counts), 14);
    same_words("ask, refused: the counts", &counts, &answer, 2);
    same_words("ask, refused: the elected", elected, &lent, WORDS_OF(yubtomiq_elected));
    same("ask", yubtomiq_ask_segment(words, LENT, &settings, &prints, elected, 3, moved, 6, &counts), 0);
    same_words("ask, counts", &counts, &(yubtomiq_counts){2, 1}, 2);
    same_words("ask, the store stays", words, before, LENT);
    const yubtomiq_elected first = {2, 0, 1, YUBTOMIQ_SELL, 95, 10, 0, 94, 1, 0, 92, elected[0].child_high, elected[0].child_low, 0};
    same_words("ask, the elected entry", &elected[0], &first, WORDS_OF(yubtomiq_elected));
    same_words("ask, the next entry stays", &elected[1], &lent, WORDS_OF(yubtomiq_elected));
    same_words("ask, the moves", moved, (uint64_t[]){2, 0, 3, 104, 2, 0, 3, 102}, 8);
    same_words("ask, the next move stays", &moved[2], &lent, 4);

    same("commit, no store", yubtomiq_commit_segment(words, 8, &settings, &prints, elected, 0, moved, 0, &answer), 1);
    for (size_t k = 0; k < WORDS_OF(yubtomiq_elected); k++) {
        ((uint64_t *)elected)[k] ^= 1;
        same("commit, a word of the elected", yubtomiq_commit_segment(words, LENT, &settings, &prints, elected, 1, moved, 2, &answer), 20);
        ((uint64_t *)elected)[k] ^= 1;
    }
    for (size_t k = 0; k < 2 * WORDS_OF(yubtomiq_moved); k++) {
        ((uint64_t *)moved)[k] ^= 1;
        same("commit, a word of the moved", yubtomiq_commit_segment(words, LENT, &settings, &prints, elected, 1, moved, 2, &answer), 20);
        ((uint64_t *)moved)[k] ^= 1;
    }
    for (size_t e = 0; e < 4; e++)
        for (size_t m = 0; m < 7; m++)
            if (e != 1 || m != 2)
                same("commit, a length", yubtomiq_commit_segment(words, LENT, &settings, &prints, elected, e, moved, m, &answer), 20);
    same("commit, kill switch", yubtomiq_commit_segment(words, LENT, &(yubtomiq_settings){1, 3, 0, 0}, &prints, elected, 1, moved, 2, &answer), 20);
    same_words("commit, refused: the store", words, before, LENT);
    same_words("commit, refused: the answer", &answer, &(yubtomiq_counts){5, 5}, 2);
    same("commit", yubtomiq_commit_segment(words, LENT, &settings, &prints, elected, 1, moved, 2, &answer), 0);
    same_words("commit, counts", &answer, &counts, 2);
    same("segment, beside", yubtomiq_segment(before, LENT, &settings, &prints, &elected[1], 3, &moved[1], 6, &counts), 0);
    same_words("commit, the segment's store", words, before, LENT);
    same_words("commit, the segment's elected", &elected[1], &first, WORDS_OF(yubtomiq_elected));
    same("commit, twice", yubtomiq_commit_segment(words, LENT, &settings, &prints, elected, 1, moved, 2, &answer), 20);
}

/* The step: refusals in their order, what it leaves, a tie told both ways, and the steps along runs against their walks. */
static void steps(void) {
    uint64_t words[LENT], before[LENT];
    lay_out(words);
    memcpy(before, words, sizeof words);
    yubtomiq_elected elected[4], walked[4], lent;
    yubtomiq_moved moved[4];
    yubtomiq_counts counts = {5, 5}, walk;
    memset(elected, 1, sizeof elected);
    memset(moved, 1, sizeof moved);
    lent = elected[0];
    same("step, no store", yubtomiq_step(words, 8, &PLAIN, 1, &NONE, 94, elected, 0, moved, 0, &counts), 1);
    same("step, elected short", yubtomiq_step(words, LENT, &PLAIN, 1, &NONE, 94, elected, 2, moved, 3, &counts), 14);
    same("step, moved short", yubtomiq_step(words, LENT, &PLAIN, 1, &NONE, 94, elected, 3, moved, 2, &counts), 14);
    same_words("step, refused: the store", words, before, LENT);
    same_words("step, refused: the elected", elected, &lent, WORDS_OF(yubtomiq_elected));
    same_words("step, refused: the moved", moved, &lent, 4);
    same("step, refused: the counts", counts.moves + counts.elected, 10);
    same("step", yubtomiq_step(words, LENT, &(yubtomiq_settings){0, 3, 0, 0}, 1, &(yubtomiq_price){1, 96}, 94, elected, 3, moved, 3, &counts), 0);
    same_words("step, counts", &counts, &(yubtomiq_counts){1, 1}, 2);
    const yubtomiq_elected first = {2, 0, 1, YUBTOMIQ_SELL, 95, 10, 0, 94, 1, 0, 92, elected[0].child_high, elected[0].child_low, 0};
    same_words("step, the elected entry", &elected[0], &first, WORDS_OF(yubtomiq_elected));
    same_words("step, the next entry stays", &elected[1], &lent, WORDS_OF(yubtomiq_elected));
    same_words("step, the move", &moved[0], &(yubtomiq_moved){2, 0, 3, 104}, 4);
    same_words("step, the next move stays", &moved[1], &lent, 4);
    same("step, beyond", words[WORDS], 77);

    static const uint64_t tied[39] = {2, 2, 2, 0, 1, 1, 2, 2, 0, 2, 0, 7, 1, 100, 100, 5, 1, 0, 0, 0, 0, 0, 0, 0, 2, 0, 9, 0, 100, 100, 5, 1, 1};
    uint64_t store[39];
    for (uint64_t falls = 0; falls < 3; falls++) {
        memcpy(store, tied, sizeof tied);
        same("step, tied", yubtomiq_step(store, 39, &PLAIN, falls, &NONE, 100, elected, 2, moved, 2, &counts), 0);
        same("step, tied: the first", elected[0].low, falls ? 7 : 9);
        same("step, tied: the second", elected[1].low, falls ? 9 : 7);
    }

    static const uint64_t runs[4][4] = {{100, 101, 104, 110}, {100, 96, 95, 90}, {100, 0, UINT64_MAX, 100}, {99, 104, 104, 98}};
    for (size_t r = 0; r < 4; r++) {
        uint64_t n = 0, moves = 0, falls = runs[r][3] <= runs[r][0];
        yubtomiq_price from = NONE;
        lay_out(words);
        memcpy(before, words, sizeof words);
        same("the walk of the steps", yubtomiq_walk(words, LENT, &PLAIN, &NONE, runs[r], 4, walked, 3, &walk), 0);
        for (size_t i = 0; i < 4; i++) {
            same("step of a run", yubtomiq_step(before, LENT, &PLAIN, falls, &from, runs[r][i], elected, 3, moved, 3, &counts), 0);
            for (size_t k = 0; k < counts.elected; k++, n++)
                same_words("elected by step and by walk", &elected[k], &walked[n], WORDS_OF(yubtomiq_elected));
            moves += counts.moves;
            from = (yubtomiq_price){1, runs[r][i]};
        }
        same("elected by the steps", n, walk.elected);
        same("moves of the steps", moves, walk.moves);
        same_words("the store of the steps", before, words, LENT);
    }
}

static void limit_above_the_top(void) {
    uint64_t words[LENT];
    lay_out(words);
    const yubtomiq_settings settings = {0, UINT64_MAX, 0, 0};
    const uint64_t price = 110;
    yubtomiq_elected elected[3];
    yubtomiq_counts counts = {5, 5};
    same("walk", yubtomiq_walk(words, LENT, &settings, &NONE, &price, 1, elected, 3, &counts), 0);
    same("elected", counts.elected, 1);
    const yubtomiq_elected buy = {2, 0, 3, YUBTOMIQ_BUY, 110, 30, 2, 110, 1, 1, 109, elected[0].child_high, elected[0].child_low, 0};
    same_words("the elected entry above the top", &elected[0], &buy, WORDS_OF(yubtomiq_elected));
}

static void answers(void) {
    uint64_t words[LENT];
    lay_out(words);
    yubtomiq_stop stop;
    yubtomiq_found found;
    yubtomiq_totals totals;
    yubtomiq_id id = sequential(2), none = sequential(9);
    yubtomiq_update update = {YUBTOMIQ_REPLACE, YUBTOMIQ_BUY, 105, 7};
    same("find", yubtomiq_pending_stop_order(words, LENT, &id, &found), 0);
    same_words("found", &found, &(yubtomiq_found){1, {2, 0, 2, YUBTOMIQ_SELL, 90, 100, 10, 20, 1, HOLDERS[1]}}, 1 + STOP_WORDS);
    same("find none", yubtomiq_pending_stop_order(words, LENT, &none, &found), 0);
    same_words("not found", &found, &(yubtomiq_found){0, {0, 0, 0, 0, 0, 0, 0, 0, 0, NOBODY}}, 1 + STOP_WORDS);
    same("change", yubtomiq_update_pending_stop(words, LENT, &id, &update, &NONE, &stop), 0);
    same_words("changed", &stop, &(yubtomiq_stop){2, 0, 2, YUBTOMIQ_BUY, 105, 100, 10, 7, 3, HOLDERS[1]}, STOP_WORDS);
    same("totals", yubtomiq_pending_stop_quantity(words, LENT, &totals), 0);
    same_words("sums", &totals, &(yubtomiq_totals){0, 10, 0, 37}, 4);
    same("cancel", yubtomiq_cancel_pending_stop(words, LENT, &id, &stop), 0);
    same_words("cancelled", &stop, &(yubtomiq_stop){2, 0, 2, YUBTOMIQ_BUY, 105, 100, 10, 7, 3, HOLDERS[1]}, STOP_WORDS);
    same("cancel again", yubtomiq_cancel_pending_stop(words, LENT, &id, &stop), 12);
    yubtomiq_path path = {1, 0, 7, 8};
    same("clear", yubtomiq_clear(words, LENT, &path), 0);
    same_words("path", &path, &(yubtomiq_path){0, 0, 7, 8}, 4);
    same("pending", words[1], 0);
}

/* The ladder: words, counts and places of both sides, refusals in their order, and a list with an entry left over. */
static void tried(void) {
    uint64_t words[LENT], before[LENT], listed = 99, prices[YUBTOMIQ_MOST_TRIAL_PRICES + 1];
    lay_out(words);
    memcpy(before, words, sizeof words);
    for (size_t j = 0; j <= YUBTOMIQ_MOST_TRIAL_PRICES; j++)
        prices[j] = 100;
    yubtomiq_ladder_entry list[4], lent;
    memset(list, 1, sizeof list);
    lent = list[0];
    same("words of a ladder's entry", WORDS_OF(yubtomiq_ladder_entry), 3);
    same("ladder, no store", yubtomiq_ladder(words, 8, prices, 0, list, 0, &listed), 1);
    same("ladder, no price", yubtomiq_ladder(words, LENT, prices, 0, list, 0, &listed), 19);
    same("ladder, too many prices", yubtomiq_ladder(words, LENT, prices, YUBTOMIQ_MOST_TRIAL_PRICES + 1, list, 0, &listed), 19);
    same("ladder, short", yubtomiq_ladder(words, LENT, prices, 1, list, 2, &listed), 14);
    same("the number listed stays", listed, 99);
    same_words("the list stays", list, &lent, 3);
    same("ladder, none", yubtomiq_ladder(words, LENT, prices, YUBTOMIQ_MOST_TRIAL_PRICES, list, 4, &listed), 0);
    same("ladder, how many", listed, 3);
    for (size_t i = 0; i < 3; i++)
        same_words("ladder, none elects", &list[i], &(yubtomiq_ladder_entry){0, 0, YUBTOMIQ_NO_PLACE}, 3);
    same_words("ladder, the next entry stays", &list[3], &lent, 3);
    prices[0] = 96, prices[1] = 95, prices[2] = 110, prices[3] = 90, prices[63] = 0;
    same("ladder, some", yubtomiq_ladder(words, LENT, prices, YUBTOMIQ_MOST_TRIAL_PRICES, list, 3, &listed), 0);
    same_words("ladder, sell at 95", &list[0], &(yubtomiq_ladder_entry){UINT64_C(1) << 63 | 10, 3, 1}, 3);
    same_words("ladder, sell at 90", &list[1], &(yubtomiq_ladder_entry){UINT64_C(1) << 63 | 8, 2, 3}, 3);
    same_words("ladder, buy at 110", &list[2], &(yubtomiq_ladder_entry){4, 1, 2}, 3);
    same_words("the store stays", words, before, LENT);
}

/* Turning points: level stretches, both ends of the price range, refusals in their order, and places that stay. */
static void turned(void) {
    enum { LONG = YUBTOMIQ_MOST_PRICES + 1 };
    static uint64_t prices[LONG], list[LONG];
    const uint64_t run[9] = {3, 3, 1, 1, 1, 4, 4, 2, 2}, points[4] = {3, 1, 4, 2}, level[3] = {5, 5, 5};
    uint64_t listed = 99;
    list[0] = 7;
    same("turning points, no price", yubtomiq_turning_points(run, 0, list, 0, &listed), 16);
    same("turning points, too many prices", yubtomiq_turning_points(prices, LONG, list, LONG, &listed), 16);
    same("turning points, short", yubtomiq_turning_points(run, 9, list, 8, &listed), 14);
    same("the number of turning points stays", listed, 99);
    same("the list of turning points stays", list[0], 7);
    list[4] = 8;
    same("turning points", yubtomiq_turning_points(run, 9, list, 9, &listed), 0);
    same("turning points, how many", listed, 4);
    same_words("turning points, which", list, points, 4);
    same("turning points, the next place stays", list[4], 8);
    same("turning points, level", yubtomiq_turning_points(level, 3, list, 3, &listed), 0);
    same("turning points, level: how many", listed, 2);
    same_words("turning points, level: which", list, level, 2);
    same("turning points, one price", yubtomiq_turning_points(level, 1, list, 1, &listed), 0);
    same("turning points, one price: how many", listed, 1);
    for (size_t i = 0; i < LONG; i++)
        prices[i] = i % 2 ? UINT64_MAX : 0;
    same("turning points, the most", yubtomiq_turning_points(prices, LONG - 1, list, LONG, &listed), 0);
    same("turning points, the most: how many", listed, LONG - 1);
    same_words("turning points, the most: which", list, prices, LONG - 1);
    for (size_t i = 0; i < LONG; i++)
        prices[i] = i;
    same("turning points, rising", yubtomiq_turning_points(prices, LONG - 1, list, LONG - 1, &listed), 0);
    same("turning points, rising: how many", listed, 2);
    same("turning points, rising: the last", list[1], LONG - 2);
}

/* Collect and mass cancel: by each selector, the lists, and what is left. */
static void collected(void) {
    uint64_t words[LENT], before[LENT], listed = 99;
    lay_out(words);
    memcpy(before, words, sizeof words);
    const yubtomiq_stop all[3] = {{2, 0, 1, YUBTOMIQ_SELL, 95, 100, 5, 10, 0, HOLDERS[0]},
                                  {2, 0, 2, YUBTOMIQ_SELL, 90, 100, 10, 20, 1, HOLDERS[1]},
                                  {2, 0, 3, YUBTOMIQ_BUY, 110, 100, 10, 30, 2, HOLDERS[2]}};
    yubtomiq_selector holder = yubtomiq_by_holder(HOLDERS[1]), side = yubtomiq_by_side(YUBTOMIQ_SELL);
    yubtomiq_selector range = yubtomiq_by_price_range(95, 110), none = yubtomiq_by_price_range(96, 95);
    yubtomiq_stop list[4], lent;
    memset(list, 1, sizeof list);
    lent = list[0];
    same("words of a selector", WORDS_OF(yubtomiq_selector), YUBTOMIQ_SELECTOR_WORDS);
    same("words of a stop", WORDS_OF(yubtomiq_stop), YUBTOMIQ_COLLECTED_WORDS);
    same("collect, short", yubtomiq_collect(words, LENT, &holder, list, 2, &listed), 14);
    same("mass cancel, short", yubtomiq_mass_cancel(words, LENT, &none, list, 2, &listed), 14);
    same("collect, no store", yubtomiq_collect(words, 8, &holder, list, 2, &listed), 1);
    same("the number listed stays", listed, 99);
    same_words("the list stays", list, &lent, STOP_WORDS);
    same("by holder", yubtomiq_collect(words, LENT, &holder, list, 3, &listed), 0);
    same("by holder, how many", listed, 1);
    same_words("by holder, the stop", list, &all[1], STOP_WORDS);
    same_words("by holder, the next entry stays", &list[1], &lent, STOP_WORDS);
    side.words[1] = side.words[3] = 7;
    same("by side", yubtomiq_collect(words, LENT, &side, list, 4, &listed), 0);
    same("by side, how many", listed, 2);
    same_words("by side, the stops", list, all, 2 * STOP_WORDS);
    same_words("by side, the next entry stays", &list[2], &lent, STOP_WORDS);
    same("by range", yubtomiq_collect(words, LENT, &range, list, 3, &listed), 0);
    same("by range, how many", listed, 2);
    same_words("by range, the first", &list[0], &all[0], STOP_WORDS);
    same_words("by range, the second", &list[1], &all[2], STOP_WORDS);
    same("by no range", yubtomiq_mass_cancel(words, LENT, &none, list, 3, &listed), 0);
    same("by no range, how many", listed, 0);
    same_words("the store stays", words, before, LENT);
    memset(list, 1, sizeof list);
    same("mass cancel", yubtomiq_mass_cancel(words, LENT, &side, list, 4, &listed), 0);
    same("mass cancel, how many", listed, 2);
    same_words("mass cancel, the stops", list, all, 2 * STOP_WORDS);
    same_words("mass cancel, the next entry stays", &list[2], &lent, STOP_WORDS);
    yubtomiq_stop stop;
    same("the same by cancels", yubtomiq_cancel_pending_stop(before, LENT, &(yubtomiq_id){2, 0, 1}, &stop), 0);
    same("one after the other", yubtomiq_cancel_pending_stop(before, LENT, &(yubtomiq_id){2, 0, 2}, &stop), 0);
    same_words("the store of the cancels", words, before, LENT);
    same("well formed", yubtomiq_well_formed(words, LENT), 1);
    same("the free chain begins with the last cancelled", words[8], 2);
}

static void path_and_run(void) {
    uint64_t words[LENT];
    lay_out(words);
    const yubtomiq_price prev = {9, 96}, trade = {1, 92};
    const yubtomiq_script_entry script[2] = {{1, 1, 92, 90, 90}, {0, 1, 5, 5, 5}};
    yubtomiq_path path = {0, 0, 0, 0}, other;
    yubtomiq_script_entry entry;
    yubtomiq_elected elected[3];
    yubtomiq_pass_counts counts;
    same("record", yubtomiq_record_print(&path, words[1], &prev, 94), 0);
    same_words("recorded", &path, &(yubtomiq_path){1, 1, 96, 94}, 4);
    other = path;
    same("take", yubtomiq_take_path(&other, &trade, &entry), 0);
    same_words("taken", &entry, &(yubtomiq_script_entry){1, 1, 96, 94, 92}, 5);
    same("take again", yubtomiq_take_path(&other, &trade, &entry), 0);
    same_words("closed", &entry, &(yubtomiq_script_entry){0, 0, 0, 0, 0}, 5);
    same("half an entry", yubtomiq_run_stop_triggers(words, LENT, &path, &PLAIN, &script[0].printed, 4, &trade, elected, 3, &counts), 15);
    same("run", yubtomiq_run_stop_triggers(words, LENT, &path, &PLAIN, &script[0].printed, 10, &trade, elected, 3, &counts), 0);
    same_words("counts", &counts, &(yubtomiq_pass_counts){3, 2, 2}, 3);
    same("first", elected[0].low, 1);
    same("second", elected[1].low, 2);
    same("second's trigger", elected[1].trigger, 90);
    same_words("reset", &path, &(yubtomiq_path){0, 1, 96, 94}, 4);
    same("left", words[1], 1);
    same("reset", yubtomiq_reset_path(&path), 0);
}

enum { MOST = YUBTOMIQ_MOST_RECORDS, FULL = YUBTOMIQ_STORE_WORDS(MOST) };

static uint64_t full[FULL], other[FULL + YUBTOMIQ_RECORD_WORDS];
static yubtomiq_elected elected_list[MOST], other_list[MOST];
static yubtomiq_moved moved_list[2 * MOST];
static yubtomiq_stop stop_list[MOST];
static yubtomiq_ladder_entry ladder_list[MOST];
static uint64_t falling_ladder[YUBTOMIQ_MOST_TRIAL_PRICES], zigzag[YUBTOMIQ_MOST_PRICES], turn_list[YUBTOMIQ_MOST_PRICES];
static yubtomiq_script_entry script[MOST];

static void values(void) {
    yubtomiq_terms after;
    yubtomiq_adjustment adjustment;
    yubtomiq_limit limit;
    same("trailed", yubtomiq_trailed(&(yubtomiq_terms){YUBTOMIQ_SELL, 90, 100, 10}, 105, &after), 0);
    same_words("terms", &after, &(yubtomiq_terms){YUBTOMIQ_SELL, 95, 105, 10}, 4);
    same("elected", yubtomiq_elected_by(&(yubtomiq_terms){YUBTOMIQ_BUY, 105, 100, 5}, 105), 1);
    same("not elected", yubtomiq_elected_by(&(yubtomiq_terms){YUBTOMIQ_BUY, 105, 100, 5}, 104), 0);
    same("inconsistent", yubtomiq_inconsistency(&(yubtomiq_terms){YUBTOMIQ_SELL, 101, 100, 5}), 6);
    same("preview", yubtomiq_calculate_trailing_stop_price(YUBTOMIQ_SELL, 90, 10, 100, 105, &adjustment), 0);
    same_words("adjustment", &adjustment, &(yubtomiq_adjustment){1, 95, 105}, 3);
    same("limit", yubtomiq_limit_price(5, YUBTOMIQ_SELL, 95, &limit), 0);
    same_words("limit price", &limit, &(yubtomiq_limit){1, 0, 90}, 3);
    same("limit at the top", yubtomiq_limit_price(1, YUBTOMIQ_BUY, UINT64_MAX, &limit), 0);
    same_words("limit above the top", &limit, &(yubtomiq_limit){1, 1, 0}, 3);
    same("highest limit", yubtomiq_limit_price(UINT64_MAX, YUBTOMIQ_BUY, UINT64_MAX, &limit), 0);
    same_words("highest limit's words", &limit, &(yubtomiq_limit){1, 1, UINT64_MAX - 1}, 3);
    same("lowest limit", yubtomiq_limit_price(UINT64_MAX, YUBTOMIQ_SELL, UINT64_MAX - 1, &limit), 0);
    same_words("lowest limit's words", &limit, &(yubtomiq_limit){1, 0, 0}, 3);
    same("no collar", yubtomiq_limit_price(0, YUBTOMIQ_SELL, 95, &limit), 0);
    same_words("no limit", &limit, &(yubtomiq_limit){0, 0, 0}, 3);
    same("zero collar", yubtomiq_check_collar(0), 17);
    same("zero collar on a tick", yubtomiq_check_tick_size(0, 5), 17);
    same("off the tick", yubtomiq_check_tick_size(7, 5), 18);
    same("on the tick", yubtomiq_check_tick_size(10, 5), 0);
    same("too many records", yubtomiq_layout_store(other, FULL + YUBTOMIQ_RECORD_WORDS, MOST + 1, 0), 2);
}

/* A full store: sells one below the other, so that each print elects one. */
static void fill(uint64_t words[FULL]) {
    yubtomiq_path path = {0, 0, 0, 0};
    same("full layout", yubtomiq_layout_store(words, FULL, MOST, 0), 0);
    for (uint64_t i = 0; i < MOST; i++) {
        yubtomiq_id id = sequential(i + 1);
        yubtomiq_terms terms = {YUBTOMIQ_SELL, 10000 - i, 20000, 5};
        uint64_t sequence;
        if (yubtomiq_admit_trailing_stop(words, FULL, &path, 0, &NONE, &id, &terms, 1, &HOLDERS[i % 3], &sequence) != 0)
            same("full store", i, MOST);
    }
}

/* The calls at their worst, on a full store: searches to the end of a chain, all elected at one print, a pass of as many segments, all collected, a ladder of all, a run that turns at each price. */
static void *worst(void *unused) {
    yubtomiq_path path = {0, 0, 0, 0};
    yubtomiq_id last = sequential(MOST), absent = sequential(MOST + 1);
    yubtomiq_terms terms = {YUBTOMIQ_SELL, 1, 20000, 5};
    yubtomiq_update update = {YUBTOMIQ_CHANGE_PRICE, 0, 2, 0};
    yubtomiq_prints one = {0, 0, 10000, 10000}, all = {0, 0, 10000, 1};
    yubtomiq_pass_counts pass;
    yubtomiq_counts counts;
    yubtomiq_found found;
    yubtomiq_stop stop;
    yubtomiq_both_ways both;
    yubtomiq_both_runs runs;
    yubtomiq_selector selector = yubtomiq_by_price_range(0, UINT64_MAX);
    uint64_t sequence, listed, falling[2] = {10000, 1};
    (void)unused;
    fill(full);
    same("admission, full", yubtomiq_admit_trailing_stop(full, FULL, &path, 0, &NONE, &absent, &terms, 1, &NOBODY, &sequence), 10);
    same("search, last", yubtomiq_pending_stop_order(full, FULL, &last, &found), 0);
    same("change, last", yubtomiq_update_pending_stop(full, FULL, &last, &update, &NONE, &stop), 0);
    same("cancel, last", yubtomiq_cancel_pending_stop(full, FULL, &last, &stop), 0);
    fill(full);
    for (size_t i = 0; i < MOST; i++)
        script[i] = (yubtomiq_script_entry){1, 0, 0, 9999 - i, 9999 - i};
    same("longest pass", yubtomiq_evaluate_pending_stops(full, FULL, &PLAIN, (const uint64_t *)script, 5 * MOST, &one, elected_list, MOST, &pass), 0);
    same("longest pass, elected", pass.elected, MOST);
    fill(full);
    path = (yubtomiq_path){1, 0, 0, 10000};
    same("longest run", yubtomiq_run_stop_triggers(full, FULL, &path, &PLAIN, (const uint64_t *)script, 5 * MOST, &NONE, elected_list, MOST, &pass), 0);
    same("longest run, elected", pass.elected, MOST);
    fill(full);
    same("segment, all", yubtomiq_segment(full, FULL, &PLAIN, &all, elected_list, MOST, moved_list, 2 * MOST, &counts), 0);
    same("segment, all elected", counts.elected, MOST);
    fill(full);
    same("step, all", yubtomiq_step(full, FULL, &PLAIN, 1, &NONE, 1, elected_list, MOST, moved_list, MOST, &counts), 0);
    same("step, all elected", counts.elected, MOST);
    fill(full);
    fill(other);
    yubtomiq_evaluate_both_ways(full, FULL, other, FULL, &PLAIN, &NONE, falling, 2, elected_list, MOST, moved_list, 2 * MOST, other_list, MOST, &both);
    same("both ways, by the ends", both.ends_number, 0);
    same("both ways, by the run", both.run_number, 0);
    same("both ways, elected by the ends", both.ends.elected, MOST);
    same("both ways, elected by the run", both.run.elected, MOST);
    same_words("both ways, stores", full, other, FULL);
    fill(full);
    fill(other);
    for (size_t i = 0; i < YUBTOMIQ_MOST_PRICES; i++)
        zigzag[i] = i % 2 ? 10001 : 10000 - i / 2;
    yubtomiq_evaluate_both_runs(full, FULL, other, FULL, &PLAIN, &NONE, zigzag, YUBTOMIQ_MOST_PRICES, turn_list, YUBTOMIQ_MOST_PRICES,
                                elected_list, MOST, other_list, MOST, &runs);
    same("both runs, by the turns", runs.turns_number, 0);
    same("both runs, by the run", runs.run_number, 0);
    same("both runs, elected by the turns", runs.turns.elected, MOST);
    same("both runs, elected by the run", runs.run.elected, MOST);
    same_words("both runs, stores", full, other, FULL);
    same_words("both runs, all turns", turn_list, zigzag, YUBTOMIQ_MOST_PRICES);
    fill(full);
    same("collect, all", yubtomiq_collect(full, FULL, &selector, stop_list, MOST, &listed), 0);
    same("collect, how many", listed, MOST);
    same("collect, the last", stop_list[MOST - 1].low, MOST);
    same("mass cancel, all", yubtomiq_mass_cancel(full, FULL, &selector, stop_list, MOST, &listed), 0);
    same("mass cancel, how many", listed, MOST);
    same("mass cancel, pending", full[1], 0);
    same("mass cancel, the head of the free chain", full[8], MOST);
    fill(full);
    for (size_t j = 0; j < YUBTOMIQ_MOST_TRIAL_PRICES; j++)
        falling_ladder[j] = 10000 - j;
    same("ladder, full", yubtomiq_ladder(full, FULL, falling_ladder, YUBTOMIQ_MOST_TRIAL_PRICES, ladder_list, MOST, &listed), 0);
    same("ladder, how many", listed, MOST);
    same("ladder, the second", ladder_list[1].first, 1);
    same("ladder, the last", ladder_list[MOST - 1].first, YUBTOMIQ_NO_PLACE);
    return NULL;
}

/* The calls that hold a copy of the store, on a full one that elects all. */
static void *worst_commit(void *nothing) {
    (void)nothing;
    const yubtomiq_prints prints = {0, 0, 20000, 1};
    yubtomiq_counts counts;
    fill(full);
    fill(other);
    same("ask, all", yubtomiq_ask_segment(full, FULL, &PLAIN, &prints, elected_list, MOST, moved_list, 2 * MOST, &counts), 0);
    same("ask, all elected", counts.elected, MOST);
    same_words("ask, the store stays", full, other, FULL);
    same("commit, one short", yubtomiq_commit_segment(full, FULL, &PLAIN, &prints, elected_list, MOST - 1, moved_list, counts.moves, &counts), 20);
    same_words("commit, refused: the store stays", full, other, FULL);
    same("commit, all", yubtomiq_commit_segment(full, FULL, &PLAIN, &prints, elected_list, MOST, moved_list, counts.moves, &counts), 0);
    same("commit, all elected", counts.elected, MOST);
    same("segment, beside", yubtomiq_segment(other, FULL, &PLAIN, &prints, elected_list, MOST, moved_list, 2 * MOST, &counts), 0);
    same_words("commit, the segment's store", full, other, FULL);
    return NULL;
}

/* These run on threads that have no more stack than the header says; what of it was touched is printed. */
static void on_stack(const char *what, void *(*calls)(void *), size_t bytes) {
    char *lent;
    pthread_attr_t attributes;
    pthread_t thread;
    size_t untouched = 0;
    if (posix_memalign((void **)&lent, 65536, bytes) != 0)
        exit(2);
    memset(lent, 0x5a, bytes);
    pthread_attr_init(&attributes);
    same("stack", (uint64_t)pthread_attr_setstack(&attributes, lent, bytes), 0);
    same("thread", (uint64_t)pthread_create(&thread, &attributes, calls, NULL), 0);
    pthread_join(thread, NULL);
    while (untouched < bytes && lent[untouched] == 0x5a)
        untouched++;
    same("stack left over", untouched > 0, 1);
    printf("test.c: %zu of %zu bytes of stack touched by %s\n", bytes - untouched, bytes, what);
    free(lent);
}

int main(void) {
    refused_values();
    on_stack("the other calls", worst, YUBTOMIQ_STACK_BYTES);
    on_stack("asking and committing", worst_commit, YUBTOMIQ_COMMIT_STACK_BYTES);
    lists();
    asked();
    steps();
    limit_above_the_top();
    answers();
    collected();
    tried();
    turned();
    path_and_run();
    values();
    printf("test.c: %d checks, %d failed\n", made, failed);
    return failed != 0;
}
