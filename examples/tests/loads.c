// What a load holds, by the words of kistovab.h: its figures, every number of some loads, and that it
// opens and is submitted.
#include "unit.h"

#include <string.h>

// ---- the draws

// A draw, by the header's words.
static uint64_t draw(uint64_t *x)
{
    *x ^= *x << 13;
    *x ^= *x >> 7;
    *x ^= *x << 17;
    return *x;
}

static float value_of(uint64_t drawn)
{
    return (float)(drawn % 4096) / 256.0f;
}

// The numbers that are drawn from a seed, and the first values of its load.
static void draws(uint64_t seed, const uint64_t *numbers, const float *shown, size_t count)
{
    uint64_t x = seed;
    CHECK_CODE(KISTOVAB_OK, fill_with(right_load(seed)));
    for (size_t i = 0; i < count; i++) {
        CHECK(draw(&x) == numbers[i]);
        CHECK(value_of(numbers[i]) == shown[i]);
        CHECK(values[i] == shown[i]);
    }
}

// The table of the header.
static void figures(void)
{
    static const uint64_t one[] = {1082269761u, 1152992998833853505u, 11177516664432764457u,
                                   17678023832001937445u};
    static const float of_one[] = {0.25390625f, 4.25390625f, 6.16015625f, 0.14453125f};
    static const uint64_t other[] = {8748534153485358512u, 3040900993826735515u,
                                     3453997556048239312u};
    static const float of_other[] = {5.6875f, 5.60546875f, 10.8125f};
    draws(1, one, of_one, COUNT(one));
    draws(88172645463325252u, other, of_other, COUNT(other));
}

// ---- whole loads

static double film_energies[FILM_FRAMES];

// A load for a film. Every bit is set before, so that no number can be there by chance.
static struct load film_load(uint64_t seed, double hop_ms)
{
    struct load load = {
        seed, hop_ms, BANDS, film_times, FILM_FRAMES, film_energies, FILM_FRAMES, film_values,
        BANDS * FILM_FRAMES,
    };
    memset(film_times, 0xff, sizeof film_times);
    memset(film_energies, 0xff, sizeof film_energies);
    memset(film_values, 0xff, sizeof film_values);
    return load;
}

// As the header says, in every number.
static void holds(uint64_t seed, double hop_ms)
{
    uint64_t x = seed;
    size_t wrong = 0;
    float most = 0.0f;
    CHECK_CODE(KISTOVAB_OK, fill_with(film_load(seed, hop_ms)));
    for (size_t i = 0; i < FILM_FRAMES; i++) {
        wrong += film_times[i] != (double)i * hop_ms;
        wrong += film_energies[i] != -20.0;
    }
    for (size_t band = 0; band < BANDS; band++) {
        for (size_t i = 0; i < FILM_FRAMES; i++) {
            float value = film_values[band * FILM_FRAMES + i];
            wrong += value != value_of(draw(&x));
            most = value > most ? value : most;
        }
    }
    CHECK(wrong == 0);
    CHECK(most > 15.0f && most <= 15.99609375f);
}

static void all_numbers(void)
{
    holds(1, HOP_MS);
    holds(88172645463325252u, 23.22);
    holds(UINT64_MAX, KISTOVAB_HOP_MOST);
    holds((uint64_t)1 << 63, KISTOVAB_HOP_LEAST);
}

// ---- opened and submitted

// What a seat hears of a load that is the film.
static float of_load(uint32_t frame, uint32_t band)
{
    return film_values[band * FILM_FRAMES + frame + MISSED_FRAMES];
}

// It is found where it was heard: the film's times begin at 0, the seat's with the first hop.
static void reference(void)
{
    struct opening opening = right_opening(film);
    CHECK_CODE(KISTOVAB_OK, fill_with(film_load(1, HOP_MS)));
    CHECK_CODE(KISTOVAB_OK, open_with(opening));
    CHECK_CODE(KISTOVAB_OK, submit(3000, 0, of_load, 0.0));
    CHECK(snapshot[KISTOVAB_WORD_STATE] == KISTOVAB_STATE_LOCKING);
    CHECK(kistovab_has_place(snapshot));
    CHECK(number(KISTOVAB_WORD_OFFSET_MS) > 4975.0 && number(KISTOVAB_WORD_OFFSET_MS) < 4985.0);
}

// The fewest frames that make an index; with one less there is none.
static void small_reference(size_t frames, size_t bands, int failed)
{
    struct opening opening = right_opening(film);
    struct load load = film_load(1, HOP_MS);
    load.bands = opening.bands = bands;
    load.times_len = load.energies_len = opening.times_len = frames;
    load.values_len = opening.values_len = bands * frames;
    CHECK_CODE(KISTOVAB_OK, fill_with(load));
    CHECK_CODE(KISTOVAB_OK, open_with(opening));
    CHECK_CODE(KISTOVAB_OK, submit(3000, 0, heard, 0.0));
    CHECK((snapshot[KISTOVAB_WORD_STATE] == KISTOVAB_STATE_FAILED) == failed);
}

// No submission refuses a load that is its window.
static void windows(size_t frames, size_t bands)
{
    static double long_times[KISTOVAB_WINDOW_MOST], long_energies[KISTOVAB_WINDOW_MOST];
    static float long_values[KISTOVAB_BANDS_MOST * KISTOVAB_WINDOW_MOST];
    static float work32[KISTOVAB_WORK32_LENGTH(KISTOVAB_WINDOW_MOST, KISTOVAB_BANDS_MOST)];
    static double
        work64[KISTOVAB_WORK64_LENGTH(KISTOVAB_WINDOW_MOST, KISTOVAB_BANDS_MOST, FILM_FRAMES)];
    struct load load = {
        1, HOP_MS, bands, long_times, frames, long_energies, frames, long_values, bands * frames,
    };
    struct submission submission = right_submission(3000, WINDOW_FRAMES, 0, heard);
    submission.bands = bands;
    submission.times = long_times, submission.times_len = frames;
    submission.energies = long_energies, submission.energies_len = frames;
    submission.values = long_values, submission.values_len = bands * frames;
    submission.work32 = work32, submission.work32_len = COUNT(work32);
    submission.work64 = work64, submission.work64_len = COUNT(work64);
    CHECK_CODE(KISTOVAB_OK, open_with(right_opening(film)));
    CHECK_CODE(KISTOVAB_OK, fill_with(load));
    CHECK_CODE(KISTOVAB_OK, submit_with(submission));
}

int main(void)
{
    figures();
    all_numbers();
    reference();
    small_reference(2, 1, 0);
    small_reference(1, 1, 1);
    small_reference(2, 0, 1);
    windows(1, 1);
    windows(WINDOW_FRAMES, BANDS);
    windows(KISTOVAB_WINDOW_MOST, KISTOVAB_BANDS_MOST);
    return checked();
}
