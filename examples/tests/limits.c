// The limits and lengths of kistovab.h, held to what the calls tell and refuse: at a limit, and one
// beyond it.
#include "unit.h"

static double many_times[KISTOVAB_FRAMES_MOST + 1];
static double many_energies[KISTOVAB_FRAMES_MOST + 1];
static float many_values[KISTOVAB_BANDS_MOST * KISTOVAB_FRAMES_MOST];

// ---- lengths

static void words(void)
{
    CHECK(kistovab_state_words() == KISTOVAB_STATE_WORDS);
    CHECK(kistovab_snapshot_words() == KISTOVAB_SNAPSHOT_WORDS);
    CHECK(kistovab_store_words() == KISTOVAB_STORE_WORDS);
    CHECK(KISTOVAB_STORE_WORDS == KISTOVAB_PLACES * KISTOVAB_STATE_WORDS);
}

// The macros, where the calls answer.
static void same_lengths(size_t frames, size_t bands)
{
    CHECK(kistovab_fine_length(frames, bands) == KISTOVAB_FINE_LENGTH(frames, bands));
    CHECK(kistovab_coarse_length(frames, bands) == KISTOVAB_COARSE_LENGTH(frames, bands));
    CHECK(kistovab_fine_energy_length(frames, bands) == KISTOVAB_FINE_ENERGY_LENGTH(frames, bands));
    CHECK(kistovab_coarse_energy_length(frames, bands) ==
          KISTOVAB_COARSE_ENERGY_LENGTH(frames, bands));
}

static void same_work_lengths(size_t frames, size_t bands, size_t of)
{
    CHECK(kistovab_work32_length(frames, bands) == KISTOVAB_WORK32_LENGTH(frames, bands));
    CHECK(kistovab_work64_length(frames, bands, of) == KISTOVAB_WORK64_LENGTH(frames, bands, of));
}

static void lengths(void)
{
    static const size_t frames[] = {1, 3, 4, 7, 1000, KISTOVAB_FRAMES_MOST};
    static const size_t bands[] = {1, 2, 32, KISTOVAB_BANDS_MOST};
    for (size_t i = 0; i < COUNT(frames); i++) {
        for (size_t j = 0; j < COUNT(bands); j++) {
            same_lengths(frames[i], bands[j]);
            same_work_lengths(1 + i, bands[j], frames[i]);
            same_work_lengths(KISTOVAB_WINDOW_MOST, bands[j], frames[i]);
        }
    }
}

// Beyond a limit there is no length.
static void no_lengths(size_t frames, size_t bands)
{
    CHECK(kistovab_fine_length(frames, bands) == 0);
    CHECK(kistovab_coarse_length(frames, bands) == 0);
    CHECK(kistovab_fine_energy_length(frames, bands) == 0);
    CHECK(kistovab_coarse_energy_length(frames, bands) == 0);
    CHECK(kistovab_work32_length(frames, bands) == 0);
    CHECK(kistovab_work64_length(frames, bands, 1) == 0);
}

static void length_limits(void)
{
    no_lengths(KISTOVAB_FRAMES_MOST + 1, 1);
    no_lengths(1, KISTOVAB_BANDS_MOST + 1);
    CHECK(kistovab_work32_length(KISTOVAB_WINDOW_MOST + 1, 1) == 0);
    CHECK(kistovab_work64_length(KISTOVAB_WINDOW_MOST + 1, 1, 1) == 0);
    CHECK(kistovab_work64_length(1, 1, KISTOVAB_FRAMES_MOST + 1) == 0);
}

// ---- refusals

static void hop_limits(void)
{
    // Next to the limits, as floats go.
    static const double beyond[] = {KISTOVAB_HOP_LEAST - 0x1p-53, KISTOVAB_HOP_MOST + 0x1p-43};
    static const double within[] = {KISTOVAB_HOP_LEAST, KISTOVAB_HOP_MOST};
    struct opening opening = right_opening(film);
    for (size_t i = 0; i < COUNT(within); i++) {
        opening.hop_ms = within[i];
        CHECK_CODE(KISTOVAB_OK, open_with(opening));
        opening.hop_ms = beyond[i];
        CHECK_CODE(KISTOVAB_HOP_OUT_OF_RANGE, open_with(opening));
    }
}

// Too large is told before miscounted.
static void reference_limits(void)
{
    struct opening opening = right_opening(film);
    opening.times = many_times;
    opening.times_len = KISTOVAB_FRAMES_MOST;
    CHECK_CODE(KISTOVAB_REFERENCE_MISCOUNTED, open_with(opening));
    opening.times_len++;
    CHECK_CODE(KISTOVAB_REFERENCE_TOO_LARGE, open_with(opening));
    opening = right_opening(film);
    opening.bands = KISTOVAB_BANDS_MOST;
    CHECK_CODE(KISTOVAB_REFERENCE_MISCOUNTED, open_with(opening));
    opening.bands++;
    CHECK_CODE(KISTOVAB_REFERENCE_TOO_LARGE, open_with(opening));
}

// Too large is told before invalid.
static void window_limits(void)
{
    struct submission submission = right_submission(3000, WINDOW_FRAMES, 0, heard);
    submission.times = submission.energies = many_times;
    submission.times_len = KISTOVAB_WINDOW_MOST;
    CHECK_CODE(KISTOVAB_WINDOW_INVALID, submit_with(submission));
    submission.times_len++;
    CHECK_CODE(KISTOVAB_WINDOW_TOO_LARGE, submit_with(submission));
    submission = right_submission(3000, WINDOW_FRAMES, 0, heard);
    submission.bands = KISTOVAB_BANDS_MOST;
    CHECK_CODE(KISTOVAB_WINDOW_INVALID, submit_with(submission));
    submission.bands++;
    CHECK_CODE(KISTOVAB_WINDOW_TOO_LARGE, submit_with(submission));
}

static void farthest(double sign)
{
    const double beyond = KISTOVAB_FARTHEST_MS + 0x1p-13; // the next float
    struct opening opening = right_opening(film);
    film_times[0] = sign * KISTOVAB_FARTHEST_MS;
    CHECK_CODE(KISTOVAB_OK, open_with(opening));
    film_times[0] = sign * beyond;
    CHECK_CODE(KISTOVAB_REFERENCE_TIME_TOO_FAR, open_with(opening));
    CHECK_CODE(KISTOVAB_OK, open_with(right_opening(film)));
    struct submission submission = right_submission(3000, WINDOW_FRAMES, 0, heard);
    times[0] = sign * beyond;
    CHECK_CODE(KISTOVAB_WINDOW_TIME_OUT_OF_RANGE, submit_with(submission));
    times[0] = sign * KISTOVAB_FARTHEST_MS;
    CHECK_CODE(KISTOVAB_OK, submit_with(submission));
}

static void load_hop_limits(void)
{
    static const double beyond[] = {KISTOVAB_HOP_LEAST - 0x1p-53, KISTOVAB_HOP_MOST + 0x1p-43};
    static const double within[] = {KISTOVAB_HOP_LEAST, KISTOVAB_HOP_MOST};
    struct load load = right_load(1);
    for (size_t i = 0; i < COUNT(within); i++) {
        load.hop_ms = within[i];
        CHECK_CODE(KISTOVAB_OK, fill_with(load));
        load.hop_ms = beyond[i];
        CHECK_CODE(KISTOVAB_HOP_OUT_OF_RANGE, fill_with(load));
    }
}

// What a load of that size answers, with lengths that are right.
static uint32_t fill_many(size_t frames, size_t bands)
{
    struct load load = {
        1, HOP_MS, bands, many_times, frames, many_energies, frames, many_values, bands * frames,
    };
    return fill_with(load);
}

static void load_limits(void)
{
    CHECK_CODE(KISTOVAB_OK, fill_many(KISTOVAB_FRAMES_MOST, KISTOVAB_BANDS_MOST));
    CHECK(many_times[KISTOVAB_FRAMES_MOST - 1] == (KISTOVAB_FRAMES_MOST - 1.0) * HOP_MS);
    CHECK(many_energies[KISTOVAB_FRAMES_MOST - 1] == -20.0);
    CHECK_CODE(KISTOVAB_REFERENCE_TOO_LARGE, fill_many(KISTOVAB_FRAMES_MOST + 1, 1));
    CHECK_CODE(KISTOVAB_REFERENCE_TOO_LARGE, fill_many(KISTOVAB_FRAMES_MOST + 1, 0));
    CHECK_CODE(KISTOVAB_OK, fill_many(2, KISTOVAB_BANDS_MOST));
    CHECK_CODE(KISTOVAB_REFERENCE_TOO_LARGE, fill_many(2, KISTOVAB_BANDS_MOST + 1));
    CHECK_CODE(KISTOVAB_REFERENCE_TOO_LARGE, fill_many(0, KISTOVAB_BANDS_MOST + 1));
}

static void place_limits(void)
{
    static uint64_t store[KISTOVAB_STORE_WORDS];
    size_t words = COUNT(state), least = COUNT(store);
    CHECK_CODE(KISTOVAB_OK, kistovab_keep(state, words, KISTOVAB_PLACES, store, least));
    CHECK_CODE(KISTOVAB_OK, kistovab_restore(state, words, KISTOVAB_PLACES, store, least));
    CHECK_CODE(KISTOVAB_NAME_OUT_OF_RANGE,
               kistovab_keep(state, words, KISTOVAB_PLACES + 1, store, least));
    CHECK_CODE(KISTOVAB_NAME_OUT_OF_RANGE,
               kistovab_restore(state, words, KISTOVAB_PLACES + 1, store, least));
    CHECK_CODE(KISTOVAB_STORE_TOO_SHORT, kistovab_keep(state, words, 1, store, least - 1));
    CHECK_CODE(KISTOVAB_STORE_TOO_SHORT, kistovab_restore(state, words, 1, store, least - 1));
}

// A film that repeats is found in more places than are listed.
static void candidates(void)
{
    CHECK_CODE(KISTOVAB_OK, open_with(right_opening(repeating)));
    CHECK_CODE(KISTOVAB_OK, submit(3000, 0, repeating, 0.0));
    CHECK(snapshot[KISTOVAB_WORD_CANDIDATE_COUNT] == KISTOVAB_CANDIDATES_MOST);
}

int main(void)
{
    words();
    lengths();
    length_limits();
    hop_limits();
    reference_limits();
    CHECK_CODE(KISTOVAB_OK, open_with(right_opening(film)));
    window_limits();
    farthest(1.0);
    farthest(-1.0);
    place_limits();
    load_hop_limits();
    load_limits();
    candidates();
    return checked();
}
