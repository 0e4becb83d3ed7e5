#include "unit.h"

#include <stdio.h>

// ---- checks

static int done, failed;

void check(int right, const char *file, int line, const char *what)
{
    done++;
    if (!right) {
        failed++;
        printf("%s:%d: not so: %s\n", file, line, what);
    }
}

void check_code(uint32_t wanted, uint32_t code, const char *file, int line, const char *what)
{
    check(code == wanted, file, line, what);
    if (code != wanted) {
        printf("    (the call answers %u, not %u)\n", code, wanted);
    }
}

int checked(void)
{
    printf("%d checks, %d failed\n", done, failed);
    return failed != 0 || done == 0;
}

// ---- calls

uint32_t open_with(struct opening o)
{
    const double *c = o.configuration;
    return kistovab_open(c[0], c[1], c[2], c[3], c[4], o.hop_ms, o.bands, o.times, o.times_len,
                         o.values, o.values_len, o.fine, o.fine_len, o.coarse, o.coarse_len,
                         o.fine_energy, o.fine_energy_len, o.coarse_energy, o.coarse_energy_len,
                         o.state, o.state_len);
}

uint32_t submit_with(struct submission s)
{
    return kistovab_submit(s.state, s.state_len, s.fine, s.fine_len, s.coarse, s.coarse_len,
                           s.fine_energy, s.fine_energy_len, s.coarse_energy, s.coarse_energy_len,
                           s.bands, s.times, s.times_len, s.energies, s.energies_len, s.values,
                           s.values_len, s.clock_ms, s.work32, s.work32_len, s.work64,
                           s.work64_len, s.snapshot, s.snapshot_len);
}

uint32_t fill_with(struct load l)
{
    return kistovab_fill_load(l.seed, l.hop_ms, l.bands, l.times, l.times_len, l.energies,
                              l.energies_len, l.values, l.values_len);
}

// ---- sound

uint32_t loudness(uint32_t source, uint32_t frame, uint32_t band)
{
    uint32_t x = source * 7919u + frame / 4 * 104729u + band * 1299709u;
    for (int round = 0; round < 3; round++) {
        x = (x ^ (x >> 15)) * 2654435769u;
    }
    return x >> 16;
}

float film(uint32_t frame, uint32_t band)
{
    return (float)loudness(1, frame, band) / 16384.0f;
}

float repeating(uint32_t frame, uint32_t band)
{
    return film(frame % (1000 / HOP_MS), band);
}

float heard(uint32_t frame, uint32_t band)
{
    return film(frame + MISSED_FRAMES, band);
}

float unlike(uint32_t frame, uint32_t band)
{
    return (float)loudness(2, frame, band) / 16384.0f;
}

// ---- the unit

uint64_t state[KISTOVAB_STATE_WORDS];
uint64_t snapshot[KISTOVAB_SNAPSHOT_WORDS];
double film_times[FILM_FRAMES];
float film_values[BANDS * FILM_FRAMES];
double times[WINDOW_FRAMES];
double energies[WINDOW_FRAMES];
float values[BANDS * WINDOW_FRAMES];

static float fine[KISTOVAB_FINE_LENGTH(FILM_FRAMES, BANDS)];
static float coarse[KISTOVAB_COARSE_LENGTH(FILM_FRAMES, BANDS)];
static double fine_energy[KISTOVAB_FINE_ENERGY_LENGTH(FILM_FRAMES, BANDS)];
static double coarse_energy[KISTOVAB_COARSE_ENERGY_LENGTH(FILM_FRAMES, BANDS)];
static float work32[KISTOVAB_WORK32_LENGTH(WINDOW_FRAMES, BANDS)];
static double work64[KISTOVAB_WORK64_LENGTH(WINDOW_FRAMES, BANDS, FILM_FRAMES)];

struct opening right_opening(sound *of)
{
    for (uint32_t frame = 0; frame < FILM_FRAMES; frame++) {
        film_times[frame] = (frame + 1) * HOP_MS;
        for (uint32_t band = 0; band < BANDS; band++) {
            film_values[band * FILM_FRAMES + frame] = of(frame, band);
        }
    }
    struct opening opening = {
        {KISTOVAB_DEFAULT_MINIMUM_READINESS_DURATION_MS, KISTOVAB_DEFAULT_TRACKING_QUERY_DURATION_MS,
         KISTOVAB_DEFAULT_MINIMUM_ACTIVE_FRAME_ENERGY_DBFS,
         KISTOVAB_DEFAULT_MINIMUM_AVERAGE_ENERGY_DBFS,
         KISTOVAB_DEFAULT_MINIMUM_ACTIVE_FRAME_FRACTION},
        HOP_MS, BANDS, film_times, COUNT(film_times), film_values, COUNT(film_values),
        fine, COUNT(fine), coarse, COUNT(coarse), fine_energy, COUNT(fine_energy),
        coarse_energy, COUNT(coarse_energy), state, COUNT(state),
    };
    return opening;
}

struct submission right_submission(uint32_t until_ms, uint32_t frames, uint32_t quiet, sound *of)
{
    for (uint32_t i = 0; i < frames; i++) {
        uint32_t frame = until_ms / HOP_MS - frames + i;
        times[i] = (frame + 1) * HOP_MS;
        energies[i] = i < quiet ? -90.0 : -30.0;
        for (uint32_t band = 0; band < BANDS; band++) {
            values[band * frames + i] = of(frame, band);
        }
    }
    struct submission submission = {
        state, COUNT(state), fine, COUNT(fine), coarse, COUNT(coarse),
        fine_energy, COUNT(fine_energy), coarse_energy, COUNT(coarse_energy),
        BANDS, times, frames, energies, frames, values, BANDS * frames, until_ms,
        work32, COUNT(work32), work64, COUNT(work64), snapshot, COUNT(snapshot),
    };
    return submission;
}

uint32_t submit(uint32_t until_ms, uint32_t quiet, sound *of, double clock_ms)
{
    struct submission submission = right_submission(until_ms, WINDOW_FRAMES, quiet, of);
    submission.clock_ms = clock_ms;
    return submit_with(submission);
}

struct load right_load(uint64_t seed)
{
    struct load load = {
        seed, HOP_MS, BANDS, times, COUNT(times), energies, COUNT(energies), values, COUNT(values),
    };
    return load;
}

double number(size_t word)
{
    return kistovab_number(snapshot[word]);
}
