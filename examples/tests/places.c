// Named places: what is kept under a name comes back word for word and is alone touched; what keeping
// and restoring refuse, and in which order; what comes back of words that no call wrote; and a reel
// that is run again from a mark.
#include "unit.h"

#include <string.h>

enum {
    TAIL = 3,
    // Where a state keeps what is spoilt here (crates/engine_layout/specs/Layout.antt).
    HOP = 6,
    FRAMES = 7,
    PENDING = 10,
    LAST_SNAPSHOT = 30
};

#define NOT_A_NUMBER 0xfff0000000000001u

// Longer than needed, as a caller's may be.
static uint64_t store[KISTOVAB_STORE_WORDS + TAIL];

static uint64_t *place(size_t name)
{
    return store + (name - 1) * KISTOVAB_STATE_WORDS;
}

static void fill_store(uint64_t first, uint64_t step)
{
    for (size_t i = 0; i < COUNT(store); i++) {
        store[i] = first + i * step;
    }
}

static void fill_state(uint64_t word)
{
    for (size_t i = 0; i < COUNT(state); i++) {
        state[i] = word;
    }
}

// A state that is locked.
static void lock(void)
{
    CHECK_CODE(KISTOVAB_OK, open_with(right_opening(film)));
    CHECK_CODE(KISTOVAB_OK, submit(3000, 0, heard, 1.0));
    CHECK_CODE(KISTOVAB_OK, submit(4000, 0, heard, 2.0));
    CHECK(snapshot[KISTOVAB_WORD_STATE] == KISTOVAB_STATE_LOCKED);
}

// ---- kept and given back

// A state that the library wrote: the place has its words, and nothing else is changed.
static void keep(size_t name)
{
    uint64_t right[COUNT(store)], before[COUNT(state)];
    memcpy(right, store, sizeof store);
    memcpy(before, state, sizeof state);
    memcpy(right + (place(name) - store), state, sizeof state);
    CHECK_CODE(KISTOVAB_OK, kistovab_keep(state, COUNT(state), name, store, COUNT(store)));
    CHECK(memcmp(store, right, sizeof store) == 0);
    CHECK(memcmp(state, before, sizeof state) == 0);
}

// What is kept there comes back, whatever the state held; the store stays.
static void restore(size_t name, const uint64_t *kept)
{
    uint64_t before[COUNT(store)];
    memcpy(before, store, sizeof store);
    fill_state(name % 2 ? 0 : UINT64_MAX);
    CHECK_CODE(KISTOVAB_OK, kistovab_restore(state, COUNT(state), name, store, COUNT(store)));
    CHECK(memcmp(state, kept, sizeof state) == 0);
    CHECK(memcmp(store, before, sizeof store) == 0);
}

// Another state under each name: Locking, Locked, coasting and lost. Then one is replaced.
static void all_places(void)
{
    static uint64_t kept[KISTOVAB_PLACES][KISTOVAB_STATE_WORDS];
    fill_store(UINT64_MAX, 0);
    CHECK_CODE(KISTOVAB_OK, open_with(right_opening(film)));
    for (size_t i = 0; i < KISTOVAB_PLACES; i++) {
        memcpy(kept[i], state, sizeof state);
        keep(i + 1);
        uint32_t until_ms = 3000 + 500 * (uint32_t)i;
        CHECK_CODE(KISTOVAB_OK, submit(until_ms, 0, i < 4 ? heard : unlike, 1.0));
        CHECK(memcmp(kept[i], state, sizeof state) != 0);
    }
    memcpy(kept[2], state, sizeof state);
    keep(3);
    for (size_t i = KISTOVAB_PLACES; i > 0; i--) {
        restore(i, kept[i - 1]);
    }
}

// A store is all that is needed: a copy of it elsewhere, as one read from disk, serves as well.
static void copied_store(void)
{
    static uint64_t copy[KISTOVAB_STORE_WORDS];
    uint64_t kept[COUNT(state)];
    lock();
    memcpy(kept, state, sizeof state);
    keep(5);
    memcpy(copy, store, sizeof copy);
    fill_store(0, 0);
    CHECK_CODE(KISTOVAB_OK, submit(4500, 0, unlike, 3.0));
    CHECK_CODE(KISTOVAB_OK, kistovab_restore(state, COUNT(state), 5, copy, COUNT(copy)));
    CHECK(memcmp(state, kept, sizeof state) == 0);
}

// A longer state keeps its tail, and of a kept one the tail is not read.
static void longer_state(void)
{
    uint64_t longer[COUNT(state) + TAIL], right[COUNT(longer)];
    lock();
    memset(longer, 0xa5, sizeof longer);
    memcpy(longer, state, sizeof state);
    memcpy(right, longer, sizeof longer);
    fill_store(0, 0);
    CHECK_CODE(KISTOVAB_OK, kistovab_keep(longer, COUNT(longer), 1, store, COUNT(store)));
    CHECK(memcmp(place(1), state, sizeof state) == 0);
    CHECK(place(2)[0] == 0);
    memset(longer, 0, sizeof state);
    CHECK_CODE(KISTOVAB_OK, kistovab_restore(longer, COUNT(longer), 1, store, COUNT(store)));
    CHECK(memcmp(longer, right, sizeof longer) == 0);
}

// ---- refusals

// What a call is handed, beside the words themselves.
struct handed {
    uint64_t *state;
    size_t state_len;
    size_t name;
    uint64_t *store;
    size_t store_len;
};

static struct handed right_handed(size_t name)
{
    struct handed handed = {state, COUNT(state), name, store, COUNT(store)};
    return handed;
}

// Both calls refuse it, and write nothing. Of an empty place only restoring speaks.
static void refused(uint32_t code, struct handed h)
{
    uint64_t words[COUNT(store)], before[COUNT(state)];
    memcpy(words, store, sizeof store);
    memcpy(before, state, sizeof state);
    CHECK_CODE(code, kistovab_restore(h.state, h.state_len, h.name, h.store, h.store_len));
    CHECK(memcmp(state, before, sizeof state) == 0);
    if (code != KISTOVAB_NOTHING_KEPT) {
        CHECK_CODE(code, kistovab_keep(h.state, h.state_len, h.name, h.store, h.store_len));
        CHECK(memcmp(state, before, sizeof state) == 0);
    }
    CHECK(memcmp(store, words, sizeof store) == 0);
}

// Zeros keep nothing, and neither does another layout's number in a place.
static void nothing_kept(void)
{
    static const uint64_t first[] = {0, KISTOVAB_LAYOUT + 1, ((uint64_t)1 << 32) + KISTOVAB_LAYOUT,
                                     UINT64_MAX};
    lock();
    for (size_t name = 1; name <= KISTOVAB_PLACES; name++) {
        fill_store(0, 0);
        refused(KISTOVAB_NOTHING_KEPT, right_handed(name));
        for (size_t other = 1; other <= KISTOVAB_PLACES; other++) {
            keep(other);
        }
        for (size_t i = 0; i < COUNT(first); i++) {
            place(name)[0] = first[i];
            refused(KISTOVAB_NOTHING_KEPT, right_handed(name));
        }
    }
}

// Among them such as are names where 32 bits are looked at, or where their place is counted round.
static void names(void)
{
    static const size_t wrong[] = {
        0, 9, (size_t)1 << 32, ((size_t)1 << 32) + 1, ((size_t)1 << 61) + 1, SIZE_MAX,
    };
    for (size_t i = 0; i < COUNT(wrong); i++) {
        refused(KISTOVAB_NAME_OUT_OF_RANGE, right_handed(wrong[i]));
    }
}

// The last word is asked for, whichever place is meant.
static void stores(void)
{
    struct handed handed = right_handed(1);
    handed.store_len = 847;
    refused(KISTOVAB_STORE_TOO_SHORT, handed);
    handed.name = 8;
    refused(KISTOVAB_STORE_TOO_SHORT, handed);
    handed.store_len = 0;
    refused(KISTOVAB_STORE_TOO_SHORT, handed);
    handed.store = NULL;
    refused(KISTOVAB_STORE_TOO_SHORT, handed);
    for (size_t words = 848; words <= 849; words++) {
        CHECK_CODE(KISTOVAB_OK, kistovab_keep(state, COUNT(state), 8, store, words));
        CHECK_CODE(KISTOVAB_OK, kistovab_restore(state, COUNT(state), 8, store, words));
    }
}

static void states(void)
{
    struct handed handed = right_handed(1);
    handed.state_len = 105;
    refused(KISTOVAB_WORDS_TOO_SHORT, handed);
    handed.state_len = 0;
    refused(KISTOVAB_WORDS_TOO_SHORT, handed);
    handed.state = NULL;
    refused(KISTOVAB_WORDS_TOO_SHORT, handed);
}

// Every choice of faults: the first in this order is told. An empty place is none for keeping.
static void order(void)
{
    enum { SHORT_STATE = 1, NO_NAME = 2, SHORT_STORE = 4, EMPTY = 8, CHOICES = 16 };
    for (int faults = 1; faults < CHOICES; faults++) {
        struct handed handed = right_handed(faults & NO_NAME ? 9 : 2);
        lock();
        fill_store(0, 0);
        keep(faults & EMPTY ? 1 : 2);
        handed.state_len -= faults & SHORT_STATE ? 1 : 0;
        handed.store_len -= faults & SHORT_STORE ? TAIL + 1 : 0;
        refused(faults & SHORT_STATE   ? KISTOVAB_WORDS_TOO_SHORT
                : faults & NO_NAME     ? KISTOVAB_NAME_OUT_OF_RANGE
                : faults & SHORT_STORE ? KISTOVAB_STORE_TOO_SHORT
                                       : KISTOVAB_NOTHING_KEPT,
                handed);
    }
    fill_store(0, 0);
    keep(2);
}

// ---- words that no call wrote

// The state is none, and the calls that read one say so.
static void is_none(void)
{
    double age = -1.0;
    CHECK_CODE(KISTOVAB_STATE_OUT_OF_RANGE, submit(4500, 0, heard, 3.0));
    CHECK_CODE(KISTOVAB_STATE_OUT_OF_RANGE, kistovab_support_age(state, COUNT(state), &age));
    CHECK(age == -1.0);
}

// Keeping does not judge: what was none before is none when it comes back.
static void spoilt_state(size_t word, uint64_t spoilt)
{
    lock();
    fill_store(0, 0);
    state[word] = spoilt;
    is_none();
    CHECK_CODE(KISTOVAB_OK, kistovab_keep(state, COUNT(state), 4, store, COUNT(store)));
    lock();
    CHECK_CODE(KISTOVAB_OK, kistovab_restore(state, COUNT(state), 4, store, COUNT(store)));
    is_none();
}

static void spoilt_states(void)
{
    spoilt_state(LAST_SNAPSHOT + KISTOVAB_WORD_CANDIDATE_COUNT - 1, KISTOVAB_CANDIDATES_MOST + 1);
    CHECK(state[LAST_SNAPSHOT + KISTOVAB_WORD_CANDIDATE_COUNT - 1] == KISTOVAB_CANDIDATES_MOST + 1);
    spoilt_state(HOP, 0);
    CHECK(state[HOP] == 0);
    spoilt_state(HOP, NOT_A_NUMBER);
    spoilt_state(KISTOVAB_WORD_LAYOUT, KISTOVAB_LAYOUT + 1);
    spoilt_state(KISTOVAB_WORD_LAYOUT, 0);
}

// What a submission answers to the state as it stands.
struct answer {
    uint32_t code;
    uint64_t shown[KISTOVAB_SNAPSHOT_WORDS];
    uint64_t next[KISTOVAB_STATE_WORDS];
};

static struct answer answer_to(uint32_t until_ms)
{
    struct answer answer;
    memset(snapshot, 0, sizeof snapshot);
    answer.code = submit(until_ms, 0, heard, 5.0);
    memcpy(answer.shown, snapshot, sizeof snapshot);
    memcpy(answer.next, state, sizeof state);
    return answer;
}

// From a place with these words comes the state as which a submission reads them; kept and restored
// once more it has the same words.
static void read_alike(const uint64_t *words, uint32_t until_ms)
{
    uint64_t restored[COUNT(state)];
    memcpy(state, words, sizeof state);
    struct answer read = answer_to(until_ms);
    fill_store(0, 0);
    memcpy(place(6), words, sizeof state);
    CHECK_CODE(KISTOVAB_OK, kistovab_restore(state, COUNT(state), 6, store, COUNT(store)));
    memcpy(restored, state, sizeof state);
    keep(7);
    restore(7, restored);
    struct answer given = answer_to(until_ms);
    CHECK_CODE(read.code, given.code);
    CHECK(memcmp(read.shown, given.shown, sizeof read.shown) == 0);
    CHECK(read.code != KISTOVAB_OK || memcmp(read.next, given.next, sizeof read.next) == 0);
}

// A tag that is none, an enum out of range, one of many NaNs, a count with bits above its 16.
static void altered_words(void)
{
    static const struct {
        size_t word;
        uint64_t altered;
    } words[] = {
        {PENDING, 7},
        {LAST_SNAPSHOT + KISTOVAB_WORD_STATE - 1, 99},
        {LAST_SNAPSHOT + KISTOVAB_WORD_HAS_ESTIMATE - 1, 2},
        {LAST_SNAPSHOT + KISTOVAB_WORD_GLOBAL_SEARCH - 1, UINT64_MAX},
        {LAST_SNAPSHOT + KISTOVAB_WORD_CORRELATION - 1, NOT_A_NUMBER},
        {FRAMES, FILM_FRAMES + 65536},
    };
    uint64_t altered[COUNT(state)];
    for (size_t i = 0; i < COUNT(words); i++) {
        lock();
        memcpy(altered, state, sizeof state);
        altered[words[i].word] = words[i].altered;
        read_alike(altered, 4060);
        read_alike(altered, 4500);
    }
}

// A whole store of them: the first word of a place decides whether there is a state. The first place
// of words counted up from 1 begins with the layout number.
static void foreign_store(uint64_t first, uint64_t step)
{
    for (size_t name = 1; name <= KISTOVAB_PLACES; name++) {
        lock();
        fill_store(first, step);
        if (place(name)[0] != KISTOVAB_LAYOUT) {
            refused(KISTOVAB_NOTHING_KEPT, right_handed(name));
            CHECK_CODE(KISTOVAB_OK, submit(4500, 0, heard, 3.0));
        }
        place(name)[0] = KISTOVAB_LAYOUT;
        CHECK_CODE(KISTOVAB_OK, kistovab_restore(state, COUNT(state), name, store, COUNT(store)));
        is_none();
    }
}

// ---- a rerun

enum { WINDOWS = 4 };

// What is heard after a mark: the film, then nothing like it.
static void hear_on(struct answer answers[WINDOWS])
{
    static const uint32_t until_ms[WINDOWS] = {3560, 4000, 4500, 5500};
    for (size_t i = 0; i < WINDOWS; i++) {
        answers[i].code = submit(until_ms[i], 0, i < 3 ? heard : unlike, 100.0 + (double)i);
        memcpy(answers[i].shown, snapshot, sizeof snapshot);
        memcpy(answers[i].next, state, sizeof state);
    }
}

static void same_answers(const struct answer *first, const struct answer *again)
{
    for (size_t i = 0; i < WINDOWS; i++) {
        CHECK_CODE(first[i].code, again[i].code);
        CHECK(memcmp(first[i].shown, again[i].shown, sizeof first[i].shown) == 0);
        CHECK(memcmp(first[i].next, again[i].next, sizeof first[i].next) == 0);
    }
}

// A mark before the lock: a re-reading, the lock, and a coast come as they came.
static void rerun(void)
{
    static struct answer first[WINDOWS], again[WINDOWS];
    double age = -1.0;
    fill_store(0, 0);
    CHECK_CODE(KISTOVAB_OK, open_with(right_opening(film)));
    CHECK_CODE(KISTOVAB_OK, submit(3000, 0, heard, 1.0));
    CHECK_CODE(KISTOVAB_OK, submit(3500, 0, heard, 2.0));
    keep(1);
    hear_on(first);
    CHECK_CODE(KISTOVAB_REREAD, first[0].code);
    CHECK(first[0].shown[KISTOVAB_WORD_STATE] == KISTOVAB_STATE_LOCKING);
    CHECK(first[1].shown[KISTOVAB_WORD_STATE] == KISTOVAB_STATE_LOCKED);
    CHECK(first[3].shown[KISTOVAB_WORD_STATE] == KISTOVAB_STATE_LOCKED);
    CHECK_CODE(KISTOVAB_OK, kistovab_support_age(state, COUNT(state), &age));
    CHECK(age == 1000.0);
    CHECK_CODE(KISTOVAB_OK, kistovab_restore(state, COUNT(state), 1, store, COUNT(store)));
    CHECK_CODE(KISTOVAB_NO_AGE, kistovab_support_age(state, COUNT(state), &age));
    hear_on(again);
    same_answers(first, again);
}

// A mark in a lock: it is back after a loss.
static void rerun_locked(void)
{
    double age = -1.0;
    lock();
    keep(8);
    CHECK_CODE(KISTOVAB_OK, submit(8000, WINDOW_FRAMES, heard, 3.0));
    CHECK(snapshot[KISTOVAB_WORD_STATE] == KISTOVAB_STATE_LOST);
    CHECK_CODE(KISTOVAB_OK, kistovab_restore(state, COUNT(state), 8, store, COUNT(store)));
    CHECK_CODE(KISTOVAB_OK, kistovab_support_age(state, COUNT(state), &age));
    CHECK(age == 0.0);
    CHECK_CODE(KISTOVAB_OK, submit(4500, 0, heard, 4.0));
    CHECK(snapshot[KISTOVAB_WORD_STATE] == KISTOVAB_STATE_LOCKED);
}

int main(void)
{
    all_places();
    copied_store();
    longer_state();
    nothing_kept();
    order();
    names();
    stores();
    states();
    spoilt_states();
    altered_words();
    foreign_store(0, 0);
    foreign_store(UINT64_MAX, 0);
    foreign_store(1, 1);
    rerun();
    rerun_locked();
    return checked();
}
