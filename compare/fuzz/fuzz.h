// Fuzzing of the C calls: what the files here share. ../README.md says what is tried and what is
// seen.
#ifndef FUZZ_H
#define FUZZ_H

#include "kistovab.h"

#include <stdbool.h>

// Of a window and a reference that are one over the limits.
#define TIMES_MOST (KISTOVAB_FRAMES_MOST + 1)
#define BANDS_TRIED (KISTOVAB_BANDS_MOST + 1)
#define VALUES_MOST (KISTOVAB_BANDS_MOST * KISTOVAB_FRAMES_MOST)
// How much longer than needed a buffer gets at most: over more than a page.
#define TAIL_MOST 600

// ---- chance.c: numbers by chance, which depend on the seed and the case alone

void chance_begin(uint64_t seed, uint64_t number);
uint64_t any_word(void);
// From 0 to n - 1; 0 below 0.
size_t below(size_t n);
bool one_in(size_t n);
double between(double low, double high);
double odd_double(void);
float odd_float(void);
uint64_t odd_word(void);
size_t odd_count(void);
// A length that is enough: often exact, else longer.
size_t enough(size_t exact);
// A length made shorter: often by one, or to 0.
size_t shorter(size_t exact);

// ---- buffers.c: what is lent, between pages that nobody may touch

enum buffer_name {
    TIMES,
    ENERGIES,
    VALUES,
    FINE,
    COARSE,
    FINE_ENERGY,
    COARSE_ENERGY,
    STATE,
    SNAPSHOT,
    WORK32,
    WORK64,
    AGE,
    STORE,
    BUFFERS
};

enum { INDEX_BUFFERS = 4 }; // FINE to COARSE_ENERGY

// Where a buffer lies: against the forbidden page before it, or against the one behind it.
enum side { AT_START, AT_END };

void buffers_begin(void);
const char *buffer_words(enum buffer_name name);
size_t element_size(enum buffer_name name);
void begin_lending(void);
// Lending: room for so many elements, of which the first come from `content`, and the rest holds
// `filling`.
void lend(enum buffer_name name, enum side side, size_t count);
void put(enum buffer_name name, const void *content, size_t have, uint64_t filling);
// From here on the library may touch it. What is only read is also protected from writing.
void hand_over(enum buffer_name name, bool to_write);
// For memcheck: what it holds beyond the content must not matter.
void forget(enum buffer_name name, size_t from);
void *lent(enum buffer_name name);
size_t lent_count(enum buffer_name name);
// After the call. Fails if something was written around the buffer.
void take_back(enum buffer_name name);
void must_keep(enum buffer_name name, size_t from, const char *why);
void must_keep_between(enum buffer_name name, size_t from, size_t to, const char *why);
void must_be_defined(enum buffer_name name, size_t count);
void must_be_silent(void);
// Says which buffer an address belongs to, for a fault; false where to none.
bool describe_address(const void *address, char *text, size_t room);
void describe_buffers(void);

// ---- failing.c: how a run stops

struct now {
    const char *part; // which build this is
    uint64_t seed, number;
    const char *call; // NULL between calls
    const char *kind; // what the case tries
    unsigned calls;
    bool told; // each call is printed
};

extern struct now now;

void failing_begin(void);
void fail(const char *format, ...) __attribute__((format(printf, 1, 2), noreturn));

// ---- calls.c: each call made twice, over copies, and what is asked of every answer

enum call { OPEN, SUBMIT, SUPPORT_AGE, FILL_LOAD, KEEP, RESTORE, CALLS };

struct opening {
    double configuration[5];
    double hop;
    size_t bands;
    const double *times;
    size_t times_len;
    const float *values;
    size_t values_len;
    size_t index_len[INDEX_BUFFERS];
    size_t state_len;
};

struct row {
    void *at;
    size_t count;
};

// What is kept between calls.
struct engine {
    uint64_t state[KISTOVAB_STATE_WORDS];
    struct row index[INDEX_BUFFERS];
    bool made; // state or index are not as the library left them
};

struct submission {
    size_t bands;
    const double *times;
    size_t times_len;
    const double *energies;
    size_t energies_len;
    const float *values;
    size_t values_len;
    double clock;
    size_t index_len[INDEX_BUFFERS];
    size_t work_len[2];
    size_t state_len, snapshot_len;
    size_t reference_frames; // by the state; not handed in
};

// What keeping and restoring are handed beside the words.
struct naming {
    size_t name;
    size_t state_len, store_len;
};

struct load {
    uint64_t seed;
    double hop;
    size_t bands;
    size_t times_len, energies_len, values_len;
};

// Where what was filled is kept.
struct filled {
    double *times, *energies;
    float *values;
};

// Where a state keeps what the cases need.
enum {
    WORD_HOP = 6,
    WORD_FRAMES = 7,
    WORD_BANDS = 8,
    WORD_FINAL = 25,
    WORD_ENDPOINT = 28,
    WORD_LAST_SNAPSHOT = 30
};

// The first word of a name's place in a store.
size_t place_of(size_t name);
size_t state_frames(const struct engine *engine);
size_t state_bands(const struct engine *engine);
void index_lengths(size_t frames, size_t bands, size_t lengths[INDEX_BUFFERS]);
void set_index(struct engine *engine, const size_t lengths[INDEX_BUFFERS]);
void copy_engine(struct engine *to, const struct engine *from);

uint32_t open_twice(const struct opening *opening, struct engine *engine);
uint32_t submit_twice(struct engine *engine, const struct submission *submission,
                      uint64_t snapshot[KISTOVAB_SNAPSHOT_WORDS]);
uint32_t age_twice(const struct engine *engine, size_t state_len, double *age);
// These two are told the right code, since a place is looked at only where there is one.
uint32_t keep_twice(const uint64_t *state, const struct naming *naming, uint64_t *store,
                    uint32_t right);
uint32_t restore_twice(uint64_t *state, const struct naming *naming, const uint64_t *store,
                       uint32_t right);
uint32_t fill_twice(const struct load *load, const struct filled *filled);
void check_lengths(void);

// ---- snapshots.c

void check_snapshot(const uint64_t *snapshot, bool computed, bool made);

// ---- counts.c: what occurred

// Sizes at a limit that were answered with 0.
enum limit {
    REFERENCE_OF_MOST_FRAMES,
    REFERENCE_OF_MOST_BANDS,
    LARGEST_REFERENCE,
    LEAST_HOP,
    MOST_HOP,
    WINDOW_OF_ONE_FRAME,
    WINDOW_OF_MOST_FRAMES,
    WINDOW_OF_MOST_BANDS,
    LOAD_OF_NO_FRAMES,
    LOAD_OF_NO_BANDS,
    LOAD_OF_MOST_FRAMES,
    LOAD_OF_MOST_BANDS,
    LARGEST_LOAD,
    LOAD_AT_LEAST_HOP,
    LOAD_AT_MOST_HOP,
    LIMITS
};

void count_answer(enum call call, uint32_t code);
void count_snapshot(uint64_t state, bool made);
void count_limit(enum limit limit, bool occurred);
// A window after a restore, answered as it was after the mark.
void count_rerun(uint32_t code);
void print_counts(void);
// Fails where something that can occur never did.
void must_have_occurred(void);

// ---- material.c: a film, and what is heard of it

enum mood { FILM, NOISE, SILENCE, PATCHES, SHORT, UNEVEN, OTHER_BANDS, MOODS };

struct film {
    double hop, start;
    size_t bands, frames;
    double *times;
    float *values;
};

struct window {
    size_t bands, frames;
    double *times;
    double *energies;
    float *values;
};

void make_film(struct film *film, size_t frames, size_t bands, double hop);
size_t frames_searched(double hop);
// A window that ends `tick` frames after `base`; the film's frame of tick 0 is `lead`.
void make_window(struct window *window, const struct film *film, enum mood mood, size_t frames,
                 double base, long tick, long lead);

// ---- openings.c

double any_hop(void);
double wrong_hop(void);
// For windows that last so many ms.
void sound_opening(struct opening *opening, const struct film *film, double duration);
void spoil_reference(struct opening *opening, struct film *film);
// One fault, with its code; or several, or anything.
void opening_with_fault(struct engine *engine);
void opening_with_faults(struct engine *engine);

// ---- submissions.c

void sound_submission(struct submission *submission, const struct engine *engine,
                      const struct window *window, double clock);
void submission_with_fault(struct engine *engine, const struct submission *sound,
                           const struct window *window);
void submission_with_faults(const struct engine *engine, const struct submission *sound,
                            const struct window *window);

// ---- loads.c

void load_of_any_size(bool largest);
// One fault, with its code; or several, or anything, with the code of the first.
void load_with_fault(void);
void load_with_faults(void);
// Puts a load in the place of what a film holds.
void load_film(struct film *film);
void opening_of_load(struct engine *engine);
// Fails if that film was opened without an index.
void must_have_index(const struct engine *engine, const struct film *film);
// A load as a window for that film; it holds until the next load.
void load_window(struct window *window, const struct film *film);

// ---- places.c: named places

// What is known of a state that is kept: its words, and how the window right after it was answered.
struct mark {
    bool is_set, is_answered;
    uint64_t state[KISTOVAB_STATE_WORDS];
    struct window window;
    double clock;
    uint32_t code;
    uint64_t snapshot[KISTOVAB_SNAPSHOT_WORDS];
    uint64_t next[KISTOVAB_STATE_WORDS];
};

struct places {
    uint64_t store[KISTOVAB_STORE_WORDS];
    struct mark marks[KISTOVAB_PLACES];
};

size_t any_name(void);
void begin_places(struct places *places);
// The library's own state. Restoring tells whether something was kept.
void keep_own(struct places *places, size_t name, const struct engine *engine);
bool restore_own(const struct places *places, size_t name, struct engine *engine);
void note_answer(struct mark *mark, const struct window *window, double clock, uint32_t code,
                 const uint64_t *snapshot, const struct engine *engine);
// The same window once more, to the restored state.
void must_answer_again(const struct mark *mark, struct engine *engine);
// Both calls with anything wrong, and with any store; with the code of the first fault.
void places_with_faults(const struct places *places, const struct engine *engine);
// A made state kept and restored, or its words put into a store and restored: what comes back has to
// be answered as the state itself.
void made_through_store(const struct engine *made, const struct submission *submission);

// ---- states.c: states made by a caller

void make_state(struct engine *engine);

// ---- cases.c

void run_case(uint64_t number);

#endif
