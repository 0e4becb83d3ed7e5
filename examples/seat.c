// A seat unit in small. It makes up the sound of a film, opens it as the reference, submits what the
// seat hears, and prints a line for each window: until when it was heard, in ms of the seat's own
// recording, and what came of it. All memory is static; the output is the same on every machine.
// examples/check builds and runs it.
#include "kistovab.h"

#include <stdio.h>
#include <stdlib.h>

enum {
    HOP_MS = 20,
    BANDS = 8,
    FILM_FRAMES = 1200,
    WINDOW_FRAMES = 150, // 3 s
    MISSED_FRAMES = 250  // the seat listens from second 5 of the film on
};

static float fine[KISTOVAB_FINE_LENGTH(FILM_FRAMES, BANDS)];
static float coarse[KISTOVAB_COARSE_LENGTH(FILM_FRAMES, BANDS)];
static double fine_energy[KISTOVAB_FINE_ENERGY_LENGTH(FILM_FRAMES, BANDS)];
static double coarse_energy[KISTOVAB_COARSE_ENERGY_LENGTH(FILM_FRAMES, BANDS)];
static uint64_t state[KISTOVAB_STATE_WORDS];
static uint64_t snapshot[KISTOVAB_SNAPSHOT_WORDS];
static float work32[KISTOVAB_WORK32_LENGTH(WINDOW_FRAMES, BANDS)];
static double work64[KISTOVAB_WORK64_LENGTH(WINDOW_FRAMES, BANDS, FILM_FRAMES)];

// A buffer and its length.
#define LENT(array) array, sizeof(array) / sizeof(array)[0]

// ---- sound

enum source { FILM = 1, HALL = 2, APPLAUSE = 3 };

// From 0 to 65,535, as if by chance; a sound lasts 4 frames.
static uint32_t loudness(enum source source, uint32_t frame, uint32_t band)
{
    uint32_t x = (uint32_t)source * 7919u + frame / 4 * 104729u + band * 1299709u;
    for (int round = 0; round < 3; round++) {
        x = (x ^ (x >> 15)) * 2654435769u;
    }
    return x >> 16;
}

// What the seat hears: the film over some noise of the hall; applause from second 6 to 7 and from
// second 16 on; silence from second 9 to 11.5.
static int is_silent(uint32_t ms)
{
    return ms >= 9000 && ms < 11500;
}

static float heard(uint32_t frame, uint32_t band)
{
    uint32_t ms = frame * HOP_MS;
    int applause = (ms >= 6000 && ms < 7000) || ms >= 16000;
    uint32_t sound = applause ? loudness(APPLAUSE, frame, band)
                              : loudness(FILM, frame + MISSED_FRAMES, band);
    return is_silent(ms) ? 0.0f : (float)(4 * sound + loudness(HALL, frame, band)) / 65536.0f;
}

// ---- the unit

static uint32_t open_film(void)
{
    static double times[FILM_FRAMES];
    static float values[BANDS * FILM_FRAMES];
    for (uint32_t frame = 0; frame < FILM_FRAMES; frame++) {
        times[frame] = (frame + 1) * HOP_MS; // when it ends
        for (uint32_t band = 0; band < BANDS; band++) {
            values[band * FILM_FRAMES + frame] = (float)loudness(FILM, frame, band) / 16384.0f;
        }
    }
    return kistovab_open(
        KISTOVAB_DEFAULT_MINIMUM_READINESS_DURATION_MS, KISTOVAB_DEFAULT_TRACKING_QUERY_DURATION_MS,
        KISTOVAB_DEFAULT_MINIMUM_ACTIVE_FRAME_ENERGY_DBFS,
        KISTOVAB_DEFAULT_MINIMUM_AVERAGE_ENERGY_DBFS, KISTOVAB_DEFAULT_MINIMUM_ACTIVE_FRAME_FRACTION,
        HOP_MS, BANDS, LENT(times), LENT(values), LENT(fine), LENT(coarse), LENT(fine_energy),
        LENT(coarse_energy), LENT(state));
}

// Submits the newest frames of those that were heard until now.
static uint32_t submit(uint32_t until_ms)
{
    static double times[WINDOW_FRAMES], energies[WINDOW_FRAMES];
    static float values[BANDS * WINDOW_FRAMES];
    uint32_t all = until_ms / HOP_MS;
    uint32_t frames = all < WINDOW_FRAMES ? all : WINDOW_FRAMES;
    for (uint32_t i = 0; i < frames; i++) {
        uint32_t frame = all - frames + i;
        times[i] = (frame + 1) * HOP_MS;
        energies[i] = is_silent(frame * HOP_MS) ? -90.0 : -30.0;
        for (uint32_t band = 0; band < BANDS; band++) {
            values[band * frames + i] = heard(frame, band);
        }
    }
    double clock_ms = until_ms + 5;
    return kistovab_submit(LENT(state), LENT(fine), LENT(coarse), LENT(fine_energy),
                           LENT(coarse_energy), BANDS, times, frames, energies, frames, values,
                           BANDS * frames, clock_ms, LENT(work32), LENT(work64), LENT(snapshot));
}

static void require(int right, const char *call, uint32_t code)
{
    if (!right) {
        printf("%s answers %u: enum kistovab_code in kistovab.h says what to do\n", call, code);
        exit(1);
    }
}

static void report(uint32_t code)
{
    static const char *const states[] = {"Ready",    "Listening", "Locking", "Confirmed", "Locked",
                                         "Drifting", "Relocking", "Lost",    "Failed"};
    static const char *const reasons[] = {
        "None", "InsufficientDuration", "InsufficientEnergy", "InsufficientActiveFrames",
        "InsufficientLandmarkEvidence", "WeakAlignmentPeak", "AmbiguousOffset",
        "UnstableTrackingResidual", "LostSignal", "DecodeFailed", "IndexUnavailable"};
    if (code == KISTOVAB_NO_FRAMES) {
        printf("refused   (nothing was heard yet)\n");
        return;
    }
    require(code == KISTOVAB_OK || code == KISTOVAB_REREAD, "kistovab_submit", code);
    printf("%-9s %-9s", code == KISTOVAB_OK ? "computed" : "re-read",
           states[snapshot[KISTOVAB_WORD_STATE]]);
    if (kistovab_has_place(snapshot)) {
        printf(" %8.1f %6.1f", kistovab_place_ms(snapshot),
               kistovab_number(snapshot[KISTOVAB_WORD_COAST_MS]));
    } else {
        printf(" %8s %6s", "-", "-");
    }
    printf("  %s\n", reasons[snapshot[KISTOVAB_WORD_WITHHOLD_REASON]]);
}

int main(void)
{
    static const uint32_t until_ms[] = {0,    1000, 3000,  3060,  3500,  4000,  6500,
                                        7300, 7900, 11000, 13500, 14500, 16000, 17300};
    uint32_t code = open_film();
    require(code == KISTOVAB_OK, "kistovab_open", code);
    printf("until  answer    state        place  coast  reason\n");
    for (size_t i = 0; i < sizeof until_ms / sizeof until_ms[0]; i++) {
        printf("%5u  ", until_ms[i]);
        report(submit(until_ms[i]));
    }
    double age_ms;
    code = kistovab_support_age(LENT(state), &age_ms);
    require(code == KISTOVAB_OK, "kistovab_support_age", code);
    printf("support age %.1f\n", age_ms);
    return 0;
}
