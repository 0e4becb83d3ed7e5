// Every code of kistovab.h by a real call, at each place that the header names; that a refusal writes
// nothing; and that a length of 0 goes with NULL. The same of named places is asked in places.c.
#include "unit.h"

#include <math.h>
#include <string.h>

// ---- calls that may not write

static uint32_t unchanged(uint32_t code, const uint64_t *before, const uint64_t *shown)
{
    CHECK(memcmp(state, before, sizeof state) == 0);
    CHECK(memcmp(snapshot, shown, sizeof snapshot) == 0);
    return code;
}

static uint32_t open_refused(struct opening opening)
{
    uint64_t before[KISTOVAB_STATE_WORDS], shown[KISTOVAB_SNAPSHOT_WORDS];
    memcpy(before, state, sizeof state);
    memcpy(shown, snapshot, sizeof snapshot);
    return unchanged(open_with(opening), before, shown);
}

static uint32_t submit_refused(struct submission submission)
{
    uint64_t before[KISTOVAB_STATE_WORDS], shown[KISTOVAB_SNAPSHOT_WORDS];
    memcpy(before, state, sizeof state);
    memcpy(shown, snapshot, sizeof snapshot);
    return unchanged(submit_with(submission), before, shown);
}

static uint32_t fill_unwritten(struct load load)
{
    static double times_before[COUNT(times)], energies_before[COUNT(energies)];
    static float values_before[COUNT(values)];
    memcpy(times_before, times, sizeof times);
    memcpy(energies_before, energies, sizeof energies);
    memcpy(values_before, values, sizeof values);
    uint32_t code = fill_with(load);
    CHECK(memcmp(times, times_before, sizeof times) == 0);
    CHECK(memcmp(energies, energies_before, sizeof energies) == 0);
    CHECK(memcmp(values, values_before, sizeof values) == 0);
    return code;
}

// ---- opening: 1 to 6, 255

static void configurations(void)
{
    static const double wrong[5] = {0.0, 0.0, -INFINITY, INFINITY, 1.5};
    for (size_t i = 0; i < 5; i++) {
        struct opening opening = right_opening(film);
        opening.configuration[i] = wrong[i];
        CHECK_CODE(KISTOVAB_INVALID_CONFIGURATION, open_refused(opening));
    }
}

static void openings(void)
{
    struct opening opening = right_opening(film);
    opening.hop_ms = NAN;
    CHECK_CODE(KISTOVAB_HOP_OUT_OF_RANGE, open_refused(opening));
    opening = right_opening(film);
    opening.bands = KISTOVAB_BANDS_MOST + 1;
    CHECK_CODE(KISTOVAB_REFERENCE_TOO_LARGE, open_refused(opening));
    opening = right_opening(film);
    opening.values_len--;
    CHECK_CODE(KISTOVAB_REFERENCE_MISCOUNTED, open_refused(opening));
    opening = right_opening(film);
    film_times[FILM_FRAMES - 1] = -2.0 * KISTOVAB_FARTHEST_MS;
    CHECK_CODE(KISTOVAB_REFERENCE_TIME_TOO_FAR, open_refused(opening));
    opening = right_opening(film);
    opening.state_len--;
    CHECK_CODE(KISTOVAB_WORDS_TOO_SHORT, open_refused(opening));
}

static void opening_indexes(void)
{
    struct opening opening = right_opening(film);
    opening.fine_len--;
    CHECK_CODE(KISTOVAB_INDEX_TOO_SHORT, open_refused(opening));
    opening = right_opening(film);
    opening.coarse_len--;
    CHECK_CODE(KISTOVAB_INDEX_TOO_SHORT, open_refused(opening));
    opening = right_opening(film);
    opening.fine_energy_len--;
    CHECK_CODE(KISTOVAB_INDEX_TOO_SHORT, open_refused(opening));
    opening = right_opening(film);
    opening.coarse_energy_len--;
    CHECK_CODE(KISTOVAB_INDEX_TOO_SHORT, open_refused(opening));
}

// ---- submission: 6 to 13, 255

static struct submission window(void)
{
    return right_submission(3000, WINDOW_FRAMES, 0, heard);
}

static void submission_indexes(void)
{
    struct submission submission = window();
    submission.fine_len--;
    CHECK_CODE(KISTOVAB_INDEX_TOO_SHORT, submit_refused(submission));
    submission = window();
    submission.coarse_len--;
    CHECK_CODE(KISTOVAB_INDEX_TOO_SHORT, submit_refused(submission));
    submission = window();
    submission.fine_energy_len--;
    CHECK_CODE(KISTOVAB_INDEX_TOO_SHORT, submit_refused(submission));
    submission = window();
    submission.coarse_energy_len--;
    CHECK_CODE(KISTOVAB_INDEX_TOO_SHORT, submit_refused(submission));
}

static void windows(void)
{
    struct submission submission = window();
    submission.clock_ms = NAN;
    CHECK_CODE(KISTOVAB_CLOCK_NOT_FINITE, submit_refused(submission));
    submission = window();
    submission.times_len = 0;
    CHECK_CODE(KISTOVAB_NO_FRAMES, submit_refused(submission));
    submission = window();
    submission.bands = KISTOVAB_BANDS_MOST + 1;
    CHECK_CODE(KISTOVAB_WINDOW_TOO_LARGE, submit_refused(submission));
    submission = window();
    submission.bands = 0;
    CHECK_CODE(KISTOVAB_WINDOW_INVALID, submit_refused(submission));
    submission = window();
    submission.energies_len--;
    CHECK_CODE(KISTOVAB_WINDOW_INVALID, submit_refused(submission));
    submission = window();
    values[1] = -1.0f;
    CHECK_CODE(KISTOVAB_WINDOW_INVALID, submit_refused(submission));
    submission = window();
    times[1] = NAN;
    CHECK_CODE(KISTOVAB_WINDOW_TIME_OUT_OF_RANGE, submit_refused(submission));
    submission = window();
    energies[1] = INFINITY;
    CHECK_CODE(KISTOVAB_WINDOW_TIME_OUT_OF_RANGE, submit_refused(submission));
}

static void lent(void)
{
    struct submission submission = window();
    submission.work32_len = KISTOVAB_WORK32_LENGTH(WINDOW_FRAMES, BANDS) - 1;
    CHECK_CODE(KISTOVAB_WORK_TOO_SHORT, submit_refused(submission));
    submission = window();
    submission.work64_len = KISTOVAB_WORK64_LENGTH(WINDOW_FRAMES, BANDS, FILM_FRAMES) - 1;
    CHECK_CODE(KISTOVAB_WORK_TOO_SHORT, submit_refused(submission));
    submission = window();
    submission.state_len--;
    CHECK_CODE(KISTOVAB_WORDS_TOO_SHORT, submit_refused(submission));
    submission = window();
    submission.snapshot_len--;
    CHECK_CODE(KISTOVAB_WORDS_TOO_SHORT, submit_refused(submission));
}

// 7, of words that no call wrote, before 6.
static void no_state(void)
{
    double age = -1.0;
    struct submission submission = window();
    memset(state, 0, sizeof state);
    submission.fine_len = 0;
    CHECK_CODE(KISTOVAB_STATE_OUT_OF_RANGE, submit_refused(submission));
    CHECK_CODE(KISTOVAB_STATE_OUT_OF_RANGE, kistovab_support_age(state, COUNT(state), &age));
    CHECK(age == -1.0);
}

// ---- a load: 16, 2 to 4

// Buffers that hold something else than a load would.
static struct load load(void)
{
    window();
    return right_load(1);
}

static void loads(void)
{
    struct load spoilt = load();
    spoilt.seed = 0;
    CHECK_CODE(KISTOVAB_SEED_ZERO, fill_unwritten(spoilt));
    spoilt = load();
    spoilt.hop_ms = NAN;
    CHECK_CODE(KISTOVAB_HOP_OUT_OF_RANGE, fill_unwritten(spoilt));
    spoilt = load();
    spoilt.bands = KISTOVAB_BANDS_MOST + 1;
    CHECK_CODE(KISTOVAB_REFERENCE_TOO_LARGE, fill_unwritten(spoilt));
    // So many bands that 8 frames of them come to 0 values, in 64 bits.
    spoilt.bands = (size_t)1 << 61;
    spoilt.times_len = spoilt.energies_len = 8;
    spoilt.values_len = 0;
    CHECK_CODE(KISTOVAB_REFERENCE_TOO_LARGE, fill_unwritten(spoilt));
    CHECK_CODE(KISTOVAB_OK, fill_with(load()));
}

// One too few, and one too many: a load asks for exact lengths.
static void miscounted_loads(void)
{
    struct load spoilt = load();
    spoilt.energies_len--;
    CHECK_CODE(KISTOVAB_REFERENCE_MISCOUNTED, fill_unwritten(spoilt));
    spoilt = load();
    spoilt.values_len--;
    CHECK_CODE(KISTOVAB_REFERENCE_MISCOUNTED, fill_unwritten(spoilt));
    spoilt = load();
    spoilt.times_len--;
    CHECK_CODE(KISTOVAB_REFERENCE_MISCOUNTED, fill_unwritten(spoilt));
    spoilt.energies_len--;
    CHECK_CODE(KISTOVAB_REFERENCE_MISCOUNTED, fill_unwritten(spoilt));
    spoilt.values_len = BANDS * spoilt.times_len;
    spoilt.energies_len++;
    CHECK_CODE(KISTOVAB_REFERENCE_MISCOUNTED, fill_unwritten(spoilt));
    spoilt.energies_len--;
    spoilt.values_len++;
    CHECK_CODE(KISTOVAB_REFERENCE_MISCOUNTED, fill_unwritten(spoilt));
    spoilt.values_len--;
    CHECK_CODE(KISTOVAB_OK, fill_with(spoilt));
}

// With all faults at once, mended one after the other in the order in which they are told.
static void load_order(void)
{
    struct load spoilt = load();
    spoilt.seed = 0;
    spoilt.hop_ms = 0.5;
    spoilt.bands = KISTOVAB_BANDS_MOST + 1;
    spoilt.energies_len--;
    CHECK_CODE(KISTOVAB_SEED_ZERO, fill_unwritten(spoilt));
    spoilt.seed = UINT64_MAX;
    CHECK_CODE(KISTOVAB_HOP_OUT_OF_RANGE, fill_unwritten(spoilt));
    spoilt.hop_ms = HOP_MS;
    CHECK_CODE(KISTOVAB_REFERENCE_TOO_LARGE, fill_unwritten(spoilt));
    spoilt.bands = BANDS;
    CHECK_CODE(KISTOVAB_REFERENCE_MISCOUNTED, fill_unwritten(spoilt));
    spoilt.energies_len++;
    CHECK_CODE(KISTOVAB_OK, fill_with(spoilt));
}

// ---- answers: 0, 100, 101

static void answers(void)
{
    double age = -1.0;
    CHECK_CODE(KISTOVAB_OK, open_with(right_opening(film)));
    CHECK_CODE(KISTOVAB_NO_AGE, kistovab_support_age(state, COUNT(state), &age));
    CHECK_CODE(KISTOVAB_OK, submit(3000, 0, heard, 1.0));
    CHECK_CODE(KISTOVAB_NO_AGE, kistovab_support_age(state, COUNT(state), &age));
    CHECK(age == -1.0);
    CHECK_CODE(KISTOVAB_REREAD, submit(3080, 0, heard, 2.0));
    CHECK_CODE(KISTOVAB_OK, submit(4000, 0, heard, 3.0));
    CHECK_CODE(KISTOVAB_OK, kistovab_support_age(state, COUNT(state), &age));
    CHECK(age == 0.0);
    CHECK_CODE(KISTOVAB_OK, submit(5400, 0, unlike, 4.0));
    CHECK_CODE(KISTOVAB_OK, kistovab_support_age(state, COUNT(state), &age));
    CHECK(age == 1400.0);
    CHECK_CODE(KISTOVAB_WORDS_TOO_SHORT, kistovab_support_age(state, COUNT(state) - 1, &age));
    CHECK(age == 1400.0);
}

// ---- NULL with length 0

static void empty_windows(void)
{
    struct submission submission = window();
    submission.fine = submission.coarse = NULL;
    submission.fine_energy = submission.coarse_energy = NULL;
    submission.fine_len = submission.coarse_len = 0;
    submission.fine_energy_len = submission.coarse_energy_len = 0;
    CHECK_CODE(KISTOVAB_INDEX_TOO_SHORT, submit_refused(submission));
    submission = window();
    submission.energies = NULL, submission.energies_len = 0;
    CHECK_CODE(KISTOVAB_WINDOW_INVALID, submit_refused(submission));
    submission.values = NULL, submission.values_len = 0;
    CHECK_CODE(KISTOVAB_WINDOW_INVALID, submit_refused(submission));
    submission.times = NULL, submission.times_len = 0;
    CHECK_CODE(KISTOVAB_NO_FRAMES, submit_refused(submission));
    submission = window();
    submission.work32 = NULL, submission.work32_len = 0;
    CHECK_CODE(KISTOVAB_WORK_TOO_SHORT, submit_refused(submission));
    submission.work64 = NULL, submission.work64_len = 0;
    CHECK_CODE(KISTOVAB_WORK_TOO_SHORT, submit_refused(submission));
    submission.snapshot = NULL, submission.snapshot_len = 0;
    CHECK_CODE(KISTOVAB_WORDS_TOO_SHORT, submit_refused(submission));
    submission.state = NULL, submission.state_len = 0;
    CHECK_CODE(KISTOVAB_WORDS_TOO_SHORT, submit_refused(submission));
}

// Nothing at all is opened without an index, and windows are answered without one.
static void empty_reference(void)
{
    double age = -1.0;
    struct opening opening = right_opening(film);
    struct opening nothing;
    memset(&nothing, 0, sizeof nothing);
    memcpy(nothing.configuration, opening.configuration, sizeof opening.configuration);
    nothing.hop_ms = HOP_MS;
    CHECK_CODE(KISTOVAB_WORDS_TOO_SHORT, open_refused(nothing));
    nothing.state = state, nothing.state_len = COUNT(state);
    CHECK_CODE(KISTOVAB_OK, open_with(nothing));
    struct submission submission = window();
    submission.fine = submission.coarse = NULL;
    submission.fine_energy = submission.coarse_energy = NULL;
    submission.fine_len = submission.coarse_len = 0;
    submission.fine_energy_len = submission.coarse_energy_len = 0;
    CHECK_CODE(KISTOVAB_OK, submit_with(submission));
    CHECK(snapshot[KISTOVAB_WORD_STATE] == KISTOVAB_STATE_FAILED);
    CHECK_CODE(KISTOVAB_WORDS_TOO_SHORT, kistovab_support_age(NULL, 0, &age));
    CHECK(age == -1.0);
}

// No frames have no values; without bands there are only times and energies.
static void empty_loads(void)
{
    struct load empty = load();
    empty.values = NULL, empty.values_len = 0;
    CHECK_CODE(KISTOVAB_REFERENCE_MISCOUNTED, fill_unwritten(empty));
    empty.times = empty.energies = NULL;
    empty.times_len = empty.energies_len = 0;
    CHECK_CODE(KISTOVAB_OK, fill_unwritten(empty));
    empty.bands = 0;
    CHECK_CODE(KISTOVAB_OK, fill_unwritten(empty));
    empty.seed = 0;
    CHECK_CODE(KISTOVAB_SEED_ZERO, fill_unwritten(empty));
    empty = load();
    empty.energies = NULL, empty.energies_len = 0;
    CHECK_CODE(KISTOVAB_REFERENCE_MISCOUNTED, fill_unwritten(empty));
    empty = load();
    empty.bands = 0;
    empty.values = NULL, empty.values_len = 0;
    CHECK_CODE(KISTOVAB_OK, fill_with(empty));
    CHECK(times[WINDOW_FRAMES - 1] == (WINDOW_FRAMES - 1) * HOP_MS);
    CHECK(energies[WINDOW_FRAMES - 1] == -20.0);
    CHECK(values[0] == heard(0, 0));
}

int main(void)
{
    configurations();
    openings();
    opening_indexes();
    CHECK_CODE(KISTOVAB_OK, open_with(right_opening(film)));
    submission_indexes();
    windows();
    lent();
    empty_windows();
    no_state();
    answers();
    empty_reference();
    loads();
    miscounted_loads();
    load_order();
    empty_loads();
    return checked();
}
