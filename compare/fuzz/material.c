// A film, and what is heard of it.
#include "fuzz.h"

#include <float.h>
#include <math.h>

static double film_times[TIMES_MOST];
static float film_values[VALUES_MOST + TAIL_MOST];

// ---- a film

static float any_value(void)
{
    double loudness = between(0.0, 1.0);
    return (float)(1000.0 * loudness * loudness);
}

static float extreme_value(void)
{
    static const float extremes[] = {0.0f, -0.0f, 1e-45f, FLT_MIN, 0.375f, 1e30f, FLT_MAX};
    return extremes[below(sizeof extremes / sizeof *extremes)];
}

// Mostly different everywhere; or the same over and over, so that a window fits in several places;
// or without change; or of extreme numbers.
static void make_values(const struct film *film)
{
    size_t frames = film->frames;
    size_t style = below(8);
    size_t period = style == 0 ? frames / 4 + 2 : frames;
    for (size_t b = 0; b < film->bands; b++) {
        float *row = film->values + b * frames;
        for (size_t i = 0; i < frames; i++) {
            row[i] = i >= period ? row[i - period]
                     : style == 1 ? 3.0f
                     : style == 2 ? extreme_value()
                                  : any_value();
        }
    }
}

// Each time is off by less than 5 % of a hop, and so is each step.
void make_film(struct film *film, size_t frames, size_t bands, double hop)
{
    static const double starts[] = {0.0, -5.0, 3600000.0, -1e12, 9e11};
    double shaken = one_in(3) ? hop * 0.02 : 0.0;
    *film = (struct film){.hop = hop,
                          .start = starts[below(sizeof starts / sizeof *starts)],
                          .bands = bands,
                          .frames = frames,
                          .times = film_times,
                          .values = film_values};
    for (size_t i = 0; i < frames; i++) {
        film->times[i] = film->start + (double)i * hop + (i > 0 ? between(0.0, shaken) : 0.0);
    }
    make_values(film);
}

// The fewest frames of a window that are searched: one more than 2R + 16.
size_t frames_searched(double hop)
{
    double radius = floor(250.0 / hop + 0.5);
    return 2 * (size_t)(radius < 1.0 ? 1.0 : radius) + 17;
}

// ---- a window

static float heard(const struct film *film, enum mood mood, size_t band, long frame)
{
    bool is_film = frame >= 0 && (size_t)frame < film->frames && band < film->bands;
    if (mood == SILENCE) {
        return 0.0f;
    }
    return mood == NOISE || !is_film ? any_value()
                                     : film->values[band * film->frames + (size_t)frame];
}

static double energy_of(enum mood mood, size_t frame)
{
    switch (mood) {
    case SILENCE:
        return one_in(4) ? -(double)INFINITY : -120.0;
    case PATCHES:
        return frame % 8 == 0 ? -10.0 : -100.0;
    default:
        return between(-40.0, 3.0);
    }
}

static void make_times(struct window *window, const struct film *film, enum mood mood, double base,
                       long tick)
{
    for (size_t i = 0; i < window->frames; i++) {
        window->times[i] = base + (double)(tick - (long)window->frames + 1 + (long)i) * film->hop;
    }
    if (mood == UNEVEN) {
        window->times[below(window->frames)] += film->hop * between(-3.0, 3.0);
    }
}

void make_window(struct window *window, const struct film *film, enum mood mood, size_t frames,
                 double base, long tick, long lead)
{
    static double times[KISTOVAB_WINDOW_MOST + 1];
    static double energies[KISTOVAB_WINDOW_MOST + 1];
    static float values[BANDS_TRIED * (KISTOVAB_WINDOW_MOST + 1)];
    size_t heard_frames = mood != SHORT ? frames : one_in(4) ? 1 : 1 + below(frames / 2 + 1);
    size_t other_bands = one_in(4) ? KISTOVAB_BANDS_MOST : 1 + below(8);
    *window = (struct window){.bands = mood == OTHER_BANDS ? other_bands : film->bands,
                              .frames = heard_frames,
                              .times = times,
                              .energies = energies,
                              .values = values};
    make_times(window, film, mood, base, tick);
    long first = tick - (long)heard_frames + 1 + lead;
    for (size_t i = 0; i < heard_frames; i++) {
        energies[i] = energy_of(mood, i);
    }
    for (size_t b = 0; b < window->bands; b++) {
        for (size_t i = 0; i < heard_frames; i++) {
            values[b * heard_frames + i] = heard(film, mood, b, first + (long)i);
        }
    }
}
