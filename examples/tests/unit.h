// A unit for the tests: an opening, a submission and a load that are right, for a test to spoil in
// one place, and windows of a made-up film.
#ifndef UNIT_H
#define UNIT_H

#include "kistovab.h"

enum { HOP_MS = 20, BANDS = 8, FILM_FRAMES = 1200, WINDOW_FRAMES = 150, MISSED_FRAMES = 250 };

// How many elements an array has.
#define COUNT(array) (sizeof(array) / sizeof(array)[0])

// ---- checks

// Says which check failed, and goes on.
#define CHECK(right) check(right, __FILE__, __LINE__, #right)
#define CHECK_CODE(wanted, code) check_code(wanted, code, __FILE__, __LINE__, #wanted)

void check(int right, const char *file, int line, const char *what);
void check_code(uint32_t wanted, uint32_t code, const char *file, int line, const char *what);

// Says how many there were; 0 if all were right.
int checked(void);

// ---- calls

struct opening {
    double configuration[5];
    double hop_ms;
    size_t bands;
    const double *times;
    size_t times_len;
    const float *values;
    size_t values_len;
    float *fine;
    size_t fine_len;
    float *coarse;
    size_t coarse_len;
    double *fine_energy;
    size_t fine_energy_len;
    double *coarse_energy;
    size_t coarse_energy_len;
    uint64_t *state;
    size_t state_len;
};

struct submission {
    uint64_t *state;
    size_t state_len;
    const float *fine;
    size_t fine_len;
    const float *coarse;
    size_t coarse_len;
    const double *fine_energy;
    size_t fine_energy_len;
    const double *coarse_energy;
    size_t coarse_energy_len;
    size_t bands;
    const double *times;
    size_t times_len;
    const double *energies;
    size_t energies_len;
    const float *values;
    size_t values_len;
    double clock_ms;
    float *work32;
    size_t work32_len;
    double *work64;
    size_t work64_len;
    uint64_t *snapshot;
    size_t snapshot_len;
};

struct load {
    uint64_t seed;
    double hop_ms;
    size_t bands;
    double *times;
    size_t times_len;
    double *energies;
    size_t energies_len;
    float *values;
    size_t values_len;
};

uint32_t open_with(struct opening opening);
uint32_t submit_with(struct submission submission);
uint32_t fill_with(struct load load);

// ---- sound

// The value of a frame and a band.
typedef float sound(uint32_t frame, uint32_t band);

// From 0 to 65,535, as if by chance: of the film (1), or of something unlike it.
uint32_t loudness(uint32_t source, uint32_t frame, uint32_t band);

// The film, and one that repeats every second.
sound film, repeating;
// What the seat hears: the film from second 5 on; or nothing like it.
sound heard, unlike;

// ---- the unit

// The buffers that the calls below lend. A test may write them.
extern uint64_t state[KISTOVAB_STATE_WORDS];
extern uint64_t snapshot[KISTOVAB_SNAPSHOT_WORDS];
extern double film_times[FILM_FRAMES];
extern float film_values[BANDS * FILM_FRAMES];
extern double times[WINDOW_FRAMES];
extern double energies[WINDOW_FRAMES];
extern float values[BANDS * WINDOW_FRAMES];

// An opening of a film that is right in everything.
struct opening right_opening(sound *of);

// The frames heard until then, the first `quiet` of them too quiet, in a submission that is right in
// everything. `frames` are WINDOW_FRAMES at most.
struct submission right_submission(uint32_t until_ms, uint32_t frames, uint32_t quiet, sound *of);

// The same, submitted.
uint32_t submit(uint32_t until_ms, uint32_t quiet, sound *of, double clock_ms);

// A load that is right in everything, into the window's buffers.
struct load right_load(uint64_t seed);

// A number of the snapshot.
double number(size_t word);

#endif
