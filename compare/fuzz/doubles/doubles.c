// Wrong doubles of the library, linked between the fuzzer and the library (ld's --wrap). Each does
// as the library does, but for one mistake, and the fuzzer has to see it. KISTOVAB_DOUBLE names the
// mistake; the list in ../run has what the fuzzer then says.
#include "kistovab.h"

#include <math.h>
#include <stdbool.h>
#include <stdlib.h>

#define OPEN_PARAMETERS                                                                            \
    double a, double b, double c, double d, double e, double hop_ms, size_t bands,                 \
        const double *times, size_t times_len, const float *values, size_t values_len,             \
        float *fine, size_t fine_len, float *coarse, size_t coarse_len, double *fine_energy,       \
        size_t fine_energy_len, double *coarse_energy, size_t coarse_energy_len, uint64_t *state,  \
        size_t state_len

#define SUBMIT_PARAMETERS                                                                          \
    uint64_t *state, size_t state_len, const float *fine, size_t fine_len, const float *coarse,    \
        size_t coarse_len, const double *fine_energy, size_t fine_energy_len,                      \
        const double *coarse_energy, size_t coarse_energy_len, size_t bands, const double *times,  \
        size_t times_len, const double *energies, size_t energies_len, const float *values,        \
        size_t values_len, double clock_ms, float *work32, size_t work32_len, double *work64,      \
        size_t work64_len, uint64_t *snapshot, size_t snapshot_len

#define SUBMIT_ARGUMENTS                                                                           \
    state, words_told(state_len), fine, fine_len, coarse, coarse_len, fine_energy,                 \
        fine_energy_len, coarse_energy, coarse_energy_len, bands, times_told(times, times_len),    \
        times_len, energies, energies_len, values, values_len, clock_ms, work32, work32_len,       \
        work64, work64_len, snapshot, snapshot_len

#define KEEP_PARAMETERS                                                                            \
    const uint64_t *state, size_t state_len, size_t name, uint64_t *store, size_t store_len

#define RESTORE_PARAMETERS                                                                         \
    uint64_t *state, size_t state_len, size_t name, const uint64_t *store, size_t store_len

#define LOAD_PARAMETERS                                                                            \
    uint64_t seed, double hop_ms, size_t bands, double *times, size_t times_len,                   \
        double *energies, size_t energies_len, float *values, size_t values_len

uint32_t __real_kistovab_open(OPEN_PARAMETERS);
uint32_t __wrap_kistovab_open(OPEN_PARAMETERS);
uint32_t __real_kistovab_submit(SUBMIT_PARAMETERS);
uint32_t __wrap_kistovab_submit(SUBMIT_PARAMETERS);
uint32_t __real_kistovab_support_age(const uint64_t *state, size_t state_len, double *age);
uint32_t __wrap_kistovab_support_age(const uint64_t *state, size_t state_len, double *age);
uint32_t __real_kistovab_keep(KEEP_PARAMETERS);
uint32_t __wrap_kistovab_keep(KEEP_PARAMETERS);
uint32_t __real_kistovab_restore(RESTORE_PARAMETERS);
uint32_t __wrap_kistovab_restore(RESTORE_PARAMETERS);
uint32_t __real_kistovab_fill_load(LOAD_PARAMETERS);
uint32_t __wrap_kistovab_fill_load(LOAD_PARAMETERS);

static bool is(const char *mistake)
{
    const char *wanted = getenv("KISTOVAB_DOUBLE");
    return wanted && strcmp(wanted, mistake) == 0;
}

// What is only read must not be optimised away.
static volatile double seen;

// Since the last opening.
static bool was_locked;

// ---- opening

uint32_t __wrap_kistovab_open(OPEN_PARAMETERS)
{
    was_locked = false;
    if (is("reads behind times") && times_len > 0) {
        seen = times[times_len];
    }
    uint32_t code = __real_kistovab_open(a, b, c, d, e, hop_ms, bands, times, times_len, values,
                                         values_len, fine, fine_len, coarse, coarse_len,
                                         fine_energy, fine_energy_len, coarse_energy,
                                         coarse_energy_len, state, state_len);
    if (is("writes the index of a refused opening") && code > 1 && coarse_len > 0) {
        coarse[0] += 1.0f;
    }
    if (is("fills the index beyond its end") && code == 0 && state[7] > 0 &&
        fine_energy_len > state[8] * (state[7] + 1)) {
        fine_energy[state[8] * (state[7] + 1)] = 0.0;
    }
    return code;
}

// ---- submission: before the library

static const double *earlier_times;

static bool shows_nan(const double *work64, size_t work64_len)
{
    return is("shows what a working buffer held") && work64_len > 0 && isnan(work64[0]);
}

static void spoil_before(const double *times, size_t times_len, const float *fine, size_t fine_len,
                         const float *values, size_t values_len, const double *work64,
                         size_t work64_len)
{
    if (is("reads before values") && values_len > 0) {
        seen = (double)values[-1];
    }
    if (is("writes the index") && fine_len > 0) {
        *(volatile float *)(uintptr_t)fine = *fine;
    }
    if (is("keeps a pointer") && earlier_times) {
        seen = earlier_times[0];
    }
    if (is("decides by a working buffer") && work64_len > 0 && work64[0] > 1.0) {
        seen = 1.0;
    }
    earlier_times = times_len > 0 ? times : NULL;
}

// ---- submission: after the library

// Both runs of a call are spoilt alike, and so only a rerun can tell.
static void remember_lock(uint64_t *snapshot)
{
    bool is_locked = snapshot[KISTOVAB_WORD_STATE] == KISTOVAB_STATE_LOCKED;
    if (was_locked && !is_locked) {
        snapshot[KISTOVAB_WORD_QUERY_DURATION_MS] ^= 1;
    }
    was_locked |= is_locked;
}

static void spoil_snapshot(uint64_t *snapshot, bool showing_nan)
{
    if (is("remembers a lock beyond its state")) {
        remember_lock(snapshot);
    }
    if (showing_nan) {
        snapshot[KISTOVAB_WORD_QUERY_DURATION_MS] ^= 1;
    }
    if (is("lists nine candidates") && snapshot[KISTOVAB_WORD_CANDIDATE_COUNT] > 0) {
        snapshot[KISTOVAB_WORD_CANDIDATE_COUNT] = 9;
    }
    if (is("shows a state that is none")) {
        snapshot[KISTOVAB_WORD_STATE] += 9;
    }
}

static void spoil_written(uint32_t code, uint64_t *state, size_t state_len, uint64_t *snapshot,
                          size_t snapshot_len)
{
    bool answered = code == KISTOVAB_OK || code == KISTOVAB_REREAD;
    if (is("writes the state's tail") && answered && state_len > KISTOVAB_STATE_WORDS) {
        state[KISTOVAB_STATE_WORDS] = 0;
    }
    if (is("writes before the state") && code == KISTOVAB_OK) {
        state[-1] = 0;
    }
    if (is("writes on a refusal") && !answered && snapshot_len > 0) {
        snapshot[0] = KISTOVAB_LAYOUT;
    }
    if (is("moves the state on a re-reading") && code == KISTOVAB_REREAD) {
        state[KISTOVAB_STATE_WORDS - 1] ^= 1;
    }
}

// ---- submission: the library itself goes astray, since it is told wrong

static size_t words_told(size_t state_len)
{
    bool one_more = is("believes in one word more") && state_len == KISTOVAB_STATE_WORDS - 1;
    return one_more ? state_len + 1 : state_len;
}

// Only where the page goes on before them, so that no forbidden page is touched.
static const double *times_told(const double *times, size_t times_len)
{
    bool one_before = is("begins one time too early") && times_len > 0 && (uintptr_t)times % 4096;
    return one_before ? times - 1 : times;
}

uint32_t __wrap_kistovab_submit(SUBMIT_PARAMETERS)
{
    bool showing_nan = shows_nan(work64, work64_len);
    spoil_before(times, times_len, fine, fine_len, values, values_len, work64, work64_len);
    uint32_t code = __real_kistovab_submit(SUBMIT_ARGUMENTS);
    if (code == KISTOVAB_OK || code == KISTOVAB_REREAD) {
        spoil_snapshot(snapshot, showing_nan);
    }
    spoil_written(code, state, state_len, snapshot, snapshot_len);
    if (is("answers an unknown code") && code == KISTOVAB_WORK_TOO_SHORT) {
        return 14;
    }
    return is("mistakes a code") && code == KISTOVAB_WORK_TOO_SHORT ? 12 : code;
}

// ---- support age

uint32_t __wrap_kistovab_support_age(const uint64_t *state, size_t state_len, double *age)
{
    uint32_t code = __real_kistovab_support_age(state, state_len, age);
    if (is("writes an age where there is none") && code == KISTOVAB_NO_AGE) {
        *age = 0.0;
    }
    return code;
}

// ---- named places

static size_t place_of(size_t name)
{
    return (name - 1) * KISTOVAB_STATE_WORDS;
}

static bool is_sound(size_t state_len, size_t name, size_t store_len)
{
    return state_len >= KISTOVAB_STATE_WORDS && name >= 1 && name <= KISTOVAB_PLACES &&
           store_len >= KISTOVAB_STORE_WORDS;
}

static size_t store_told(size_t store_len)
{
    bool one_more = is("takes a store of 847 words") && store_len == KISTOVAB_STORE_WORDS - 1;
    return one_more ? store_len + 1 : store_len;
}

static size_t name_told(size_t name)
{
    return is("looks at half of a name") ? (uint32_t)name : name;
}

static bool tells_of_store(size_t state_len, size_t store_len)
{
    return is("tells of a store before a name") && state_len >= KISTOVAB_STATE_WORDS &&
           store_len < KISTOVAB_STORE_WORDS;
}

static void spoil_kept(size_t name, uint64_t *store, size_t store_len, uint64_t last_word)
{
    if (is("writes another place")) {
        store[place_of(name % KISTOVAB_PLACES + 1)] ^= 1;
    }
    if (is("writes a store's tail") && store_len > KISTOVAB_STORE_WORDS) {
        store[KISTOVAB_STORE_WORDS] = 0;
    }
    if (is("drops a word of a kept state")) {
        store[place_of(name + 1) - 1] = last_word;
    }
}

uint32_t __wrap_kistovab_keep(KEEP_PARAMETERS)
{
    bool sound = is_sound(state_len, name, store_len);
    uint64_t last_word = sound ? store[place_of(name + 1) - 1] : 0;
    double age;
    if (is("reads a word before the store") && store_len > 0) {
        seen = (double)store[-1];
    }
    if (tells_of_store(state_len, store_len)) {
        return KISTOVAB_STORE_TOO_SHORT;
    }
    if (is("keeps one place too far") && sound) {
        memcpy(store + place_of(name + 1), state, 8 * KISTOVAB_STATE_WORDS);
        return KISTOVAB_OK;
    }
    if (is("judges a state that is kept") && sound &&
        __real_kistovab_support_age(state, state_len, &age) == KISTOVAB_STATE_OUT_OF_RANGE) {
        return KISTOVAB_STATE_OUT_OF_RANGE;
    }
    uint32_t code = __real_kistovab_keep(state, state_len, name_told(name), store,
                                         store_told(store_len));
    if (code == KISTOVAB_OK && sound) {
        spoil_kept(name, store, store_len, last_word);
    }
    if (is("writes the store of a refused keep") && code != KISTOVAB_OK && store_len > 0) {
        store[0] ^= 1;
    }
    return code;
}

static void spoil_restored(uint64_t *state, size_t state_len, const uint64_t *store)
{
    if (is("writes the store that it restores from")) {
        *(volatile uint64_t *)(uintptr_t)store = *store;
    }
    if (is("changes a word of a restored state")) {
        state[20] ^= 1;
    }
    if (is("writes behind a restored state") && state_len > KISTOVAB_STATE_WORDS) {
        state[KISTOVAB_STATE_WORDS] = 0;
    }
}

uint32_t __wrap_kistovab_restore(RESTORE_PARAMETERS)
{
    bool sound = is_sound(state_len, name, store_len);
    if (tells_of_store(state_len, store_len)) {
        return KISTOVAB_STORE_TOO_SHORT;
    }
    if (is("restores a place of another layout") && sound && store[place_of(name)] == 2) {
        memcpy(state, store + place_of(name), 8 * KISTOVAB_STATE_WORDS);
        return KISTOVAB_OK;
    }
    bool before = is("restores the place before") && sound && name > 1;
    uint32_t code = __real_kistovab_restore(state, state_len, name_told(before ? name - 1 : name),
                                            store, store_told(store_len));
    if (code == KISTOVAB_OK && sound) {
        spoil_restored(state, state_len, store);
    }
    if (is("writes the state of a refused restore") && code != KISTOVAB_OK && state_len > 0) {
        state[0] ^= 1;
    }
    return code;
}

// ---- a load

static void spoil_refused_load(double *times, size_t times_len)
{
    if (is("writes the times of a refused load") && times_len > 0) {
        times[0] += 1.0;
    }
}

static void spoil_load(uint64_t seed, double hop_ms, double *times, size_t times_len, float *values,
                       size_t values_len)
{
    if (is("writes a value behind a load") && values_len > 0) {
        values[values_len] = 0.0f;
    }
    if (is("draws the seed first") && values_len > 0) {
        memmove(values + 1, values, (values_len - 1) * sizeof *values);
        values[0] = (float)(seed % 4096) / 256.0f;
    }
    if (is("adds up the hops of a load")) {
        for (size_t i = 1; i < times_len; i++) {
            times[i] = times[i - 1] + hop_ms;
        }
    }
}

// How many values the library is told of; the rest becomes zeros.
static size_t values_told(size_t bands, size_t times_len, size_t values_len)
{
    bool longer = bands <= KISTOVAB_BANDS_MOST && values_len > bands * times_len;
    return longer && is("fills more values than a load has") ? bands * times_len : values_len;
}

uint32_t __wrap_kistovab_fill_load(LOAD_PARAMETERS)
{
    double last_energy = energies_len > 0 ? energies[energies_len - 1] : 0.0;
    bool hop_fits = hop_ms >= KISTOVAB_HOP_LEAST && hop_ms <= KISTOVAB_HOP_MOST;
    if (is("tells of a load's hop before its seed") && !hop_fits) {
        return KISTOVAB_HOP_OUT_OF_RANGE;
    }
    size_t told = values_told(bands, times_len, values_len);
    uint32_t code = __real_kistovab_fill_load(seed, hop_ms, bands, times, times_len, energies,
                                              energies_len, values, told);
    if (code != KISTOVAB_OK) {
        spoil_refused_load(times, times_len);
        return code;
    }
    for (size_t k = told; k < values_len; k++) {
        values[k] = 0.0f;
    }
    spoil_load(seed, hop_ms, times, times_len, values, values_len);
    if (is("leaves a load's last energy") && energies_len > 0) {
        energies[energies_len - 1] = last_energy;
    }
    return code;
}
