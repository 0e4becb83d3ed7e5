// Each call is made twice, over copies that lie differently and hold something else where that must
// not matter. Asked of every answer: a documented code, nothing written that the code forbids, and
// the same words from both.
#include "fuzz.h"

#include <stdio.h>
#include <stdlib.h>

// ---- what must not matter

// What the two runs of a call differ in.
struct run {
    bool second;
    enum side side[BUFFERS];
    uint64_t filling;
};

static uint64_t any_filling(void)
{
    static const uint64_t fillings[] = {0, UINT64_MAX, 0x7ff8000000000000u, 0x7ff0000000000000u,
                                        0x3ff0000000000000u, 0x7f8000007f800000u};
    return one_in(3) ? any_word() : fillings[below(sizeof fillings / sizeof *fillings)];
}

static void begin_runs(struct run runs[2])
{
    runs[0].second = false;
    runs[1].second = true;
    for (int i = 0; i < BUFFERS; i++) {
        runs[0].side[i] = one_in(2) ? AT_START : AT_END;
        runs[1].side[i] = runs[0].side[i] == AT_START ? AT_END : AT_START;
    }
    runs[0].filling = any_filling();
    // Another in each half, so that a number written over an equal one shows in one of the runs.
    runs[1].filling = runs[0].filling ^ (any_word() | 0x0000000100000001u);
}

static void lend_to_read(const struct run *run, enum buffer_name name, const void *content,
                         size_t have, size_t count)
{
    lend(name, run->side[name], count);
    put(name, content, have, run->filling);
    hand_over(name, false);
    forget(name, have);
}

static void lend_to_write(const struct run *run, enum buffer_name name, const void *content,
                          size_t have, size_t count)
{
    lend(name, run->side[name], count);
    put(name, content, have, run->filling);
    hand_over(name, true);
    forget(name, have);
}

// ---- codes

static bool is_documented(enum call call, uint32_t code)
{
    switch (call) {
    case OPEN:
        return code <= 6 || code == 255;
    case SUBMIT:
        return code == 0 || (code >= 6 && code <= 13) || code == 100 || code == 255;
    case FILL_LOAD:
        return code == 0 || (code >= 2 && code <= 4) || code == 16;
    case KEEP:
        return code == 0 || code == 6 || code == 14 || code == 255;
    case RESTORE:
        return code == 0 || code == 6 || code == 14 || code == 15 || code == 255;
    default:
        return code == 0 || code == 7 || code == 101 || code == 255;
    }
}

static void begin_call(const char *name)
{
    now.call = name;
    now.calls++;
    begin_lending();
}

// Both runs' codes are given.
static void end_call(enum call call, const uint32_t codes[2])
{
    if (now.told) {
        printf("%s, call %u (%s): %u\n", now.call, now.calls, now.kind, codes[0]);
        describe_buffers();
    }
    if (!is_documented(call, codes[0])) {
        fail("code %u, which this call does not have", codes[0]);
    }
    if (codes[1] != codes[0]) {
        fail("code %u, but %u of the same call over other memory", codes[0], codes[1]);
    }
    must_be_silent();
    count_answer(call, codes[0]);
    now.call = NULL;
}

static void must_match(enum buffer_name name, const void *first, size_t count)
{
    must_be_defined(name, count);
    if (count > 0 && memcmp(lent(name), first, count * element_size(name)) != 0) {
        fail("%s holds something else than after the same call over other memory",
             buffer_words(name));
    }
}

// ---- the index

size_t state_frames(const struct engine *engine)
{
    return engine->state[WORD_FRAMES] % 65536;
}

size_t state_bands(const struct engine *engine)
{
    return engine->state[WORD_BANDS] % 65536;
}

void index_lengths(size_t frames, size_t bands, size_t lengths[INDEX_BUFFERS])
{
    lengths[0] = kistovab_fine_length(frames, bands);
    lengths[1] = kistovab_coarse_length(frames, bands);
    lengths[2] = kistovab_fine_energy_length(frames, bands);
    lengths[3] = kistovab_coarse_energy_length(frames, bands);
}

void set_index(struct engine *engine, const size_t lengths[INDEX_BUFFERS])
{
    for (int i = 0; i < INDEX_BUFFERS; i++) {
        free(engine->index[i].at);
        engine->index[i].count = lengths[i];
        // One byte more, so that no length makes a NULL.
        engine->index[i].at = malloc(lengths[i] * element_size(FINE + i) + 1);
    }
}

void copy_engine(struct engine *to, const struct engine *from)
{
    size_t lengths[INDEX_BUFFERS];
    for (int i = 0; i < INDEX_BUFFERS; i++) {
        lengths[i] = from->index[i].count;
    }
    memcpy(to->state, from->state, sizeof to->state);
    set_index(to, lengths);
    for (int i = 0; i < INDEX_BUFFERS; i++) {
        memcpy(to->index[i].at, from->index[i].at, lengths[i] * element_size(FINE + i));
    }
    to->made = from->made;
}

// ---- opening

static uint32_t call_open(const struct run *run, const struct opening *o)
{
    const double *c = o->configuration;
    begin_lending();
    lend_to_read(run, TIMES, o->times, o->times_len, o->times_len);
    lend_to_read(run, VALUES, o->values, o->values_len, o->values_len);
    for (int i = 0; i < INDEX_BUFFERS; i++) {
        lend_to_write(run, FINE + i, NULL, 0, o->index_len[i]);
    }
    lend_to_write(run, STATE, NULL, 0, o->state_len);
    return kistovab_open(c[0], c[1], c[2], c[3], c[4], o->hop, o->bands, lent(TIMES), o->times_len,
                         lent(VALUES), o->values_len, lent(FINE), o->index_len[0], lent(COARSE),
                         o->index_len[1], lent(FINE_ENERGY), o->index_len[2], lent(COARSE_ENERGY),
                         o->index_len[3], lent(STATE), o->state_len);
}

static void take_back_opening(uint32_t code)
{
    take_back(TIMES);
    take_back(VALUES);
    for (int i = 0; i < INDEX_BUFFERS; i++) {
        take_back(FINE + i);
    }
    take_back(STATE);
    if (code == KISTOVAB_OK) {
        must_be_defined(STATE, KISTOVAB_STATE_WORDS);
    }
}

// How far opening may write into the index.
static void written_lengths(uint32_t code, size_t lengths[INDEX_BUFFERS])
{
    memset(lengths, 0, INDEX_BUFFERS * sizeof *lengths);
    if (code == KISTOVAB_OK) {
        const uint64_t *state = lent(STATE);
        index_lengths((size_t)state[WORD_FRAMES], (size_t)state[WORD_BANDS], lengths);
    }
}

static void check_opened(uint32_t code, const size_t written[INDEX_BUFFERS])
{
    for (int i = 0; i < INDEX_BUFFERS; i++) {
        must_keep(FINE + i, written[i],
                  code != KISTOVAB_OK ? "opening is refused"
                  : written[i] > 0    ? "this is the tail"
                                      : "the reference has no index");
    }
    must_keep(STATE, code == KISTOVAB_OK ? KISTOVAB_STATE_WORDS : 0,
              code == KISTOVAB_OK ? "this is the tail" : "opening is refused");
}

static void keep_opened(struct engine *engine, const size_t written[INDEX_BUFFERS])
{
    memcpy(engine->state, lent(STATE), sizeof engine->state);
    set_index(engine, written);
    for (int i = 0; i < INDEX_BUFFERS; i++) {
        must_be_defined(FINE + i, written[i]);
        if (written[i] > 0) {
            memcpy(engine->index[i].at, lent(FINE + i), written[i] * element_size(FINE + i));
        }
    }
    engine->made = false;
}

static void match_opened(const struct engine *engine)
{
    must_match(STATE, engine->state, KISTOVAB_STATE_WORDS);
    for (int i = 0; i < INDEX_BUFFERS; i++) {
        must_match(FINE + i, engine->index[i].at, engine->index[i].count);
    }
}

static void count_opened(const struct opening *o)
{
    bool frames = o->times_len == KISTOVAB_FRAMES_MOST, bands = o->bands == KISTOVAB_BANDS_MOST;
    count_limit(REFERENCE_OF_MOST_FRAMES, frames);
    count_limit(REFERENCE_OF_MOST_BANDS, bands);
    count_limit(LARGEST_REFERENCE, frames && bands);
    count_limit(LEAST_HOP, o->hop == KISTOVAB_HOP_LEAST);
    count_limit(MOST_HOP, o->hop == KISTOVAB_HOP_MOST);
}

uint32_t open_twice(const struct opening *opening, struct engine *engine)
{
    struct run runs[2];
    uint32_t codes[2];
    begin_runs(runs);
    begin_call("kistovab_open");
    for (int i = 0; i < 2; i++) {
        size_t written[INDEX_BUFFERS];
        codes[i] = call_open(&runs[i], opening);
        take_back_opening(codes[i]);
        written_lengths(codes[i], written);
        check_opened(codes[i], written);
        if (codes[i] == KISTOVAB_OK && !runs[i].second) {
            keep_opened(engine, written);
        } else if (codes[i] == KISTOVAB_OK && codes[0] == KISTOVAB_OK) {
            match_opened(engine);
        }
    }
    end_call(OPEN, codes);
    if (codes[0] == KISTOVAB_OK) {
        count_opened(opening);
    }
    return codes[0];
}

// ---- submission

static uint32_t call_submit(const struct run *run, const struct engine *engine,
                            const struct submission *s)
{
    begin_lending();
    lend_to_write(run, STATE, engine->state, KISTOVAB_STATE_WORDS, s->state_len);
    for (int i = 0; i < INDEX_BUFFERS; i++) {
        lend_to_read(run, FINE + i, engine->index[i].at, engine->index[i].count, s->index_len[i]);
    }
    lend_to_read(run, TIMES, s->times, s->times_len, s->times_len);
    lend_to_read(run, ENERGIES, s->energies, s->energies_len, s->energies_len);
    lend_to_read(run, VALUES, s->values, s->values_len, s->values_len);
    lend_to_write(run, WORK32, NULL, 0, s->work_len[0]);
    lend_to_write(run, WORK64, NULL, 0, s->work_len[1]);
    lend_to_write(run, SNAPSHOT, NULL, 0, s->snapshot_len);
    return kistovab_submit(
        lent(STATE), s->state_len, lent(FINE), s->index_len[0], lent(COARSE), s->index_len[1],
        lent(FINE_ENERGY), s->index_len[2], lent(COARSE_ENERGY), s->index_len[3], s->bands,
        lent(TIMES), s->times_len, lent(ENERGIES), s->energies_len, lent(VALUES), s->values_len,
        s->clock, lent(WORK32), s->work_len[0], lent(WORK64), s->work_len[1], lent(SNAPSHOT),
        s->snapshot_len);
}

static void check_submitted(uint32_t code)
{
    bool computed = code == KISTOVAB_OK;
    bool answered = computed || code == KISTOVAB_REREAD;
    for (int i = TIMES; i <= WORK64; i++) {
        take_back(i);
    }
    must_keep(STATE, computed ? KISTOVAB_STATE_WORDS : 0,
              computed   ? "this is the tail"
              : answered ? "this is a re-reading"
                         : "the window is refused");
    must_keep(SNAPSHOT, answered ? KISTOVAB_SNAPSHOT_WORDS : 0,
              answered ? "this is the tail" : "the window is refused");
    if (!answered) {
        must_keep(WORK32, 0, "the window is refused");
        must_keep(WORK64, 0, "the window is refused");
    }
}

static void count_submitted(const struct submission *s)
{
    count_limit(WINDOW_OF_ONE_FRAME, s->times_len == 1);
    count_limit(WINDOW_OF_MOST_FRAMES, s->times_len == KISTOVAB_WINDOW_MOST);
    count_limit(WINDOW_OF_MOST_BANDS, s->bands == KISTOVAB_BANDS_MOST);
}

uint32_t submit_twice(struct engine *engine, const struct submission *submission,
                      uint64_t snapshot[KISTOVAB_SNAPSHOT_WORDS])
{
    struct run runs[2];
    uint32_t codes[2];
    uint64_t next[KISTOVAB_STATE_WORDS];
    begin_runs(runs);
    begin_call("kistovab_submit");
    for (int i = 0; i < 2; i++) {
        codes[i] = call_submit(&runs[i], engine, submission);
        check_submitted(codes[i]);
        bool computed = codes[i] == KISTOVAB_OK && codes[0] == KISTOVAB_OK;
        bool answered = computed || (codes[i] == KISTOVAB_REREAD && codes[0] == KISTOVAB_REREAD);
        if (!runs[i].second) {
            memcpy(next, computed ? lent(STATE) : engine->state, sizeof next);
        }
        if (!runs[i].second && answered) {
            memcpy(snapshot, lent(SNAPSHOT), 8 * KISTOVAB_SNAPSHOT_WORDS);
        }
        must_match(STATE, next, computed ? KISTOVAB_STATE_WORDS : 0);
        must_match(SNAPSHOT, snapshot, answered ? KISTOVAB_SNAPSHOT_WORDS : 0);
        if (answered) {
            check_snapshot(snapshot, computed, engine->made);
        }
    }
    end_call(SUBMIT, codes);
    if (codes[0] == KISTOVAB_OK) {
        count_submitted(submission);
    }
    memcpy(engine->state, next, sizeof next);
    return codes[0];
}

// ---- support age

uint32_t age_twice(const struct engine *engine, size_t state_len, double *age)
{
    struct run runs[2];
    uint32_t codes[2];
    begin_runs(runs);
    begin_call("kistovab_support_age");
    for (int i = 0; i < 2; i++) {
        begin_lending();
        lend_to_read(&runs[i], STATE, engine->state, KISTOVAB_STATE_WORDS, state_len);
        lend_to_write(&runs[i], AGE, NULL, 0, 1);
        codes[i] = kistovab_support_age(lent(STATE), state_len, lent(AGE));
        take_back(STATE);
        take_back(AGE);
        if (codes[i] != KISTOVAB_OK) {
            must_keep(AGE, 0, "there is no age");
        } else if (!runs[i].second) {
            must_be_defined(AGE, 1);
            memcpy(age, lent(AGE), sizeof *age);
        } else if (codes[0] == KISTOVAB_OK) {
            must_match(AGE, age, 1);
        }
    }
    end_call(SUPPORT_AGE, codes);
    return codes[0];
}

// ---- named places

static void must_answer(uint32_t code, uint32_t right)
{
    if (code != right) {
        fail("%s: code %u, not %u", now.kind, code, right);
    }
}

size_t place_of(size_t name)
{
    return (name - 1) * KISTOVAB_STATE_WORDS;
}

// One of the runs finds another store, since what it held does not matter.
static uint32_t call_keep(const struct run *run, const uint64_t *state, const struct naming *n,
                          const uint64_t *store)
{
    begin_lending();
    lend_to_read(run, STATE, state, KISTOVAB_STATE_WORDS, n->state_len);
    lend_to_write(run, STORE, store, run->second ? 0 : KISTOVAB_STORE_WORDS, n->store_len);
    return kistovab_keep(lent(STATE), n->state_len, n->name, lent(STORE), n->store_len);
}

static void check_kept(uint32_t code, const struct naming *n)
{
    take_back(STATE);
    take_back(STORE);
    if (code != KISTOVAB_OK) {
        must_keep(STORE, 0, "keeping is refused");
        return;
    }
    must_keep_between(STORE, 0, place_of(n->name), "this is another place");
    must_keep_between(STORE, place_of(n->name) + KISTOVAB_STATE_WORDS, KISTOVAB_STORE_WORDS,
                      "this is another place");
    must_keep(STORE, KISTOVAB_STORE_WORDS, "this is the tail");
    must_be_defined(STORE, KISTOVAB_STORE_WORDS);
}

uint32_t keep_twice(const uint64_t *state, const struct naming *naming, uint64_t *store,
                    uint32_t right)
{
    struct run runs[2];
    uint32_t codes[2];
    begin_runs(runs);
    begin_call("kistovab_keep");
    for (int i = 0; i < 2; i++) {
        codes[i] = call_keep(&runs[i], state, naming, store);
        must_answer(codes[i], right);
        check_kept(codes[i], naming);
        if (codes[i] != KISTOVAB_OK) {
            continue;
        }
        uint64_t *place = store + place_of(naming->name);
        const uint64_t *kept = (const uint64_t *)lent(STORE) + place_of(naming->name);
        if (!runs[i].second) {
            memcpy(place, kept, 8 * KISTOVAB_STATE_WORDS);
        } else if (memcmp(place, kept, 8 * KISTOVAB_STATE_WORDS) != 0) {
            fail("store holds something else than after the same call over other memory");
        }
    }
    end_call(KEEP, codes);
    return codes[0];
}

// One of the runs finds other words in the other places, and in the state.
static uint32_t call_restore(const struct run *run, const uint64_t *state, const struct naming *n,
                             const uint64_t *store)
{
    uint64_t words[KISTOVAB_STORE_WORDS];
    bool is_name = n->name >= 1 && n->name <= KISTOVAB_PLACES;
    for (size_t i = 0; i < KISTOVAB_STORE_WORDS; i++) {
        bool asked = is_name && i / KISTOVAB_STATE_WORDS == n->name - 1;
        words[i] = asked || !run->second ? store[i] : run->filling;
    }
    begin_lending();
    lend_to_write(run, STATE, state, run->second ? 0 : KISTOVAB_STATE_WORDS, n->state_len);
    lend_to_read(run, STORE, words, KISTOVAB_STORE_WORDS, n->store_len);
    return kistovab_restore(lent(STATE), n->state_len, n->name, lent(STORE), n->store_len);
}

uint32_t restore_twice(uint64_t *state, const struct naming *naming, const uint64_t *store,
                       uint32_t right)
{
    struct run runs[2];
    uint32_t codes[2];
    uint64_t next[KISTOVAB_STATE_WORDS];
    begin_runs(runs);
    begin_call("kistovab_restore");
    for (int i = 0; i < 2; i++) {
        codes[i] = call_restore(&runs[i], state, naming, store);
        must_answer(codes[i], right);
        bool restored = codes[i] == KISTOVAB_OK;
        take_back(STATE);
        take_back(STORE);
        must_keep(STATE, restored ? KISTOVAB_STATE_WORDS : 0,
                  restored ? "this is the tail" : "restoring is refused");
        if (!runs[i].second) {
            memcpy(next, restored ? lent(STATE) : state, sizeof next);
        }
        must_match(STATE, next, restored ? KISTOVAB_STATE_WORDS : 0);
    }
    end_call(RESTORE, codes);
    memcpy(state, next, sizeof next);
    return codes[0];
}

// ---- a load

static uint32_t call_fill(const struct run *run, const struct load *l)
{
    begin_lending();
    lend_to_write(run, TIMES, NULL, 0, l->times_len);
    lend_to_write(run, ENERGIES, NULL, 0, l->energies_len);
    lend_to_write(run, VALUES, NULL, 0, l->values_len);
    return kistovab_fill_load(l->seed, l->hop, l->bands, lent(TIMES), l->times_len, lent(ENERGIES),
                              l->energies_len, lent(VALUES), l->values_len);
}

static void check_filled(uint32_t code)
{
    for (int i = TIMES; i <= VALUES; i++) {
        take_back(i);
        if (code != KISTOVAB_OK) {
            must_keep(i, 0, "the load is refused");
        }
    }
}

static void keep_row(enum buffer_name name, void *to)
{
    must_be_defined(name, lent_count(name));
    if (lent_count(name) > 0) {
        memcpy(to, lent(name), lent_count(name) * element_size(name));
    }
}

static void count_filled(const struct load *l)
{
    bool frames = l->times_len == KISTOVAB_FRAMES_MOST, bands = l->bands == KISTOVAB_BANDS_MOST;
    count_limit(LOAD_OF_NO_FRAMES, l->times_len == 0);
    count_limit(LOAD_OF_NO_BANDS, l->bands == 0);
    count_limit(LOAD_OF_MOST_FRAMES, frames);
    count_limit(LOAD_OF_MOST_BANDS, bands);
    count_limit(LARGEST_LOAD, frames && bands);
    count_limit(LOAD_AT_LEAST_HOP, l->hop == KISTOVAB_HOP_LEAST);
    count_limit(LOAD_AT_MOST_HOP, l->hop == KISTOVAB_HOP_MOST);
}

// What is not written differs, since the two runs begin with other fillings.
uint32_t fill_twice(const struct load *load, const struct filled *filled)
{
    struct run runs[2];
    uint32_t codes[2];
    begin_runs(runs);
    begin_call("kistovab_fill_load");
    for (int i = 0; i < 2; i++) {
        codes[i] = call_fill(&runs[i], load);
        check_filled(codes[i]);
        if (codes[i] == KISTOVAB_OK && !runs[i].second) {
            keep_row(TIMES, filled->times);
            keep_row(ENERGIES, filled->energies);
            keep_row(VALUES, filled->values);
        } else if (codes[i] == KISTOVAB_OK && codes[0] == KISTOVAB_OK) {
            must_match(TIMES, filled->times, load->times_len);
            must_match(ENERGIES, filled->energies, load->energies_len);
            must_match(VALUES, filled->values, load->values_len);
        }
    }
    end_call(FILL_LOAD, codes);
    if (codes[0] == KISTOVAB_OK) {
        count_filled(load);
    }
    return codes[0];
}

// ---- lengths

static void must_tell(const char *call, size_t told, bool within, size_t length)
{
    size_t right = within ? length : 0;
    if (told != right) {
        fail("%s tells %zu, not %zu", call, told, right);
    }
}

void check_lengths(void)
{
    size_t n = odd_count(), b = one_in(2) ? below(66) : odd_count(), r = odd_count();
    bool index = n <= KISTOVAB_FRAMES_MOST && b <= KISTOVAB_BANDS_MOST;
    bool window = n <= KISTOVAB_WINDOW_MOST && b <= KISTOVAB_BANDS_MOST;
    now.kind = "lengths";
    must_tell("state_words", kistovab_state_words(), true, KISTOVAB_STATE_WORDS);
    must_tell("snapshot_words", kistovab_snapshot_words(), true, KISTOVAB_SNAPSHOT_WORDS);
    must_tell("store_words", kistovab_store_words(), true, KISTOVAB_STORE_WORDS);
    must_tell("fine_length", kistovab_fine_length(n, b), index, KISTOVAB_FINE_LENGTH(n, b));
    must_tell("coarse_length", kistovab_coarse_length(n, b), index, KISTOVAB_COARSE_LENGTH(n, b));
    must_tell("fine_energy_length", kistovab_fine_energy_length(n, b), index,
              KISTOVAB_FINE_ENERGY_LENGTH(n, b));
    must_tell("coarse_energy_length", kistovab_coarse_energy_length(n, b), index,
              KISTOVAB_COARSE_ENERGY_LENGTH(n, b));
    must_tell("work32_length", kistovab_work32_length(n, b), window, KISTOVAB_WORK32_LENGTH(n, b));
    must_tell("work64_length", kistovab_work64_length(n, b, r),
              window && r <= KISTOVAB_FRAMES_MOST, KISTOVAB_WORK64_LENGTH(n, b, r));
}
