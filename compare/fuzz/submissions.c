// Submissions: sound ones, and ones with a fault that has a code.
#include "fuzz.h"

#include <float.h>
#include <math.h>

#define PICK(array) (array)[below(sizeof(array) / sizeof *(array))]

// ---- sound

void sound_submission(struct submission *s, const struct engine *engine,
                      const struct window *window, double clock)
{
    size_t frames = state_frames(engine);
    *s = (struct submission){
        .bands = window->bands,
        .times = window->times,
        .times_len = window->frames,
        .energies = window->energies,
        .energies_len = window->frames,
        .values = window->values,
        .values_len = window->bands * window->frames,
        .clock = clock,
        .work_len = {enough(kistovab_work32_length(window->frames, window->bands)),
                     enough(kistovab_work64_length(window->frames, window->bands, frames))},
        .state_len = enough(KISTOVAB_STATE_WORDS),
        .snapshot_len = enough(KISTOVAB_SNAPSHOT_WORDS),
        .reference_frames = frames};
    size_t needed[INDEX_BUFFERS];
    index_lengths(frames, state_bands(engine), needed);
    for (int i = 0; i < INDEX_BUFFERS; i++) {
        size_t count = engine->index[i].count;
        size_t longer = enough(count);
        // A made state may take for the index what is only a tail.
        s->index_len[i] = needed[i] > count ? count : longer;
    }
}

// ---- faults; the window is a copy of its own

static void fault_state_short(struct submission *s, struct window *window)
{
    (void)window;
    s->state_len = shorter(KISTOVAB_STATE_WORDS);
}

static void fault_snapshot_short(struct submission *s, struct window *window)
{
    (void)window;
    s->snapshot_len = shorter(KISTOVAB_SNAPSHOT_WORDS);
}

static void fault_clock(struct submission *s, struct window *window)
{
    static const double clocks[] = {NAN, INFINITY, -INFINITY};
    (void)window;
    s->clock = PICK(clocks);
}

static void fault_no_frames(struct submission *s, struct window *window)
{
    (void)window;
    s->times_len = 0;
    s->energies_len = one_in(2) ? 0 : s->energies_len;
    s->values_len = one_in(2) ? 0 : s->values_len;
}

static void fault_too_large(struct submission *s, struct window *window)
{
    (void)window;
    if (one_in(2)) {
        s->times_len = KISTOVAB_WINDOW_MOST + 1;
        s->energies_len = s->times_len;
    } else {
        s->bands = one_in(2) ? BANDS_TRIED : odd_count() | 128;
    }
    size_t values = s->bands > BANDS_TRIED ? 0 : s->bands * s->times_len;
    s->values_len = one_in(4) ? 0 : values;
}

static void fault_no_bands(struct submission *s, struct window *window)
{
    (void)window;
    s->bands = 0;
    s->values_len = 0;
}

static void fault_miscounted(struct submission *s, struct window *window)
{
    size_t *length = one_in(2) ? &s->energies_len : &s->values_len;
    (void)window;
    *length = one_in(2) ? *length + 1 : shorter(*length);
}

static void fault_value(struct submission *s, struct window *window)
{
    static const float values[] = {-1e-45f, -1.0f, NAN, INFINITY, -INFINITY};
    window->values[below(s->values_len)] = PICK(values);
}

static void fault_time(struct submission *s, struct window *window)
{
    static const double times[] = {1000000000000.0001, -1000000000000.0001, NAN,
                                   INFINITY,           -INFINITY,           DBL_MAX};
    window->times[below(s->times_len)] = PICK(times);
}

static void fault_energy(struct submission *s, struct window *window)
{
    window->energies[below(s->energies_len)] = one_in(2) ? (double)NAN : (double)INFINITY;
}

static void fault_work_short(struct submission *s, struct window *window)
{
    (void)window;
    if (one_in(2)) {
        s->work_len[0] = shorter(kistovab_work32_length(s->times_len, s->bands));
    } else {
        s->work_len[1] =
            shorter(kistovab_work64_length(s->times_len, s->bands, s->reference_frames));
    }
}

static void fault_anything(struct submission *s, struct window *window)
{
    for (size_t left = one_in(4) ? 100 : below(4); left > 0; left--) {
        window->times[below(s->times_len)] = odd_double();
        window->energies[below(s->energies_len)] = odd_double();
        window->values[below(s->values_len)] = odd_float();
    }
    s->clock = one_in(4) ? odd_double() : s->clock;
    s->bands = one_in(8) ? odd_count() : s->bands;
    for (int i = 0; i < INDEX_BUFFERS; i++) {
        s->index_len[i] = one_in(12) ? shorter(s->index_len[i] + 1) : s->index_len[i];
    }
    for (int i = 0; i < 2; i++) {
        s->work_len[i] = one_in(12) ? shorter(s->work_len[i] + 1) : s->work_len[i];
    }
}

// ---- a submission with a fault

static const struct fault {
    const char *kind;
    uint32_t code;
    void (*spoil)(struct submission *, struct window *);
} faults[] = {
    {"a window with a short state", 255, fault_state_short},
    {"a window with a short snapshot", 255, fault_snapshot_short},
    {"a window with a clock that is not finite", 8, fault_clock},
    {"a window without frames", 9, fault_no_frames},
    {"a window that is too large", 10, fault_too_large},
    {"a window without bands", 11, fault_no_bands},
    {"a window with lengths that disagree", 11, fault_miscounted},
    {"a window with a value that is none", 11, fault_value},
    {"a window with a time out of range", 12, fault_time},
    {"a window with an energy that is none", 12, fault_energy},
    {"a window with a short working buffer", 13, fault_work_short},
};

enum { FAULTS = sizeof faults / sizeof *faults };

static void copy_window(struct window *to, const struct window *from)
{
    static double times[KISTOVAB_WINDOW_MOST + 1];
    static double energies[KISTOVAB_WINDOW_MOST + 2];
    static float values[BANDS_TRIED * (KISTOVAB_WINDOW_MOST + 1) + 1];
    *to = *from;
    to->times = times;
    to->energies = energies;
    to->values = values;
    memcpy(times, from->times, from->frames * sizeof *times);
    memcpy(energies, from->energies, from->frames * sizeof *energies);
    memcpy(values, from->values, from->bands * from->frames * sizeof *values);
}

static void point_to(struct submission *s, const struct window *window)
{
    s->times = window->times;
    s->energies = window->energies;
    s->values = window->values;
}

// One index buffer too short; where there is no index, nothing is.
static uint32_t fault_index_short(struct submission *s, const struct engine *engine)
{
    size_t which = below(INDEX_BUFFERS);
    which = engine->index[which].count > 0 ? which : 2;
    if (engine->index[which].count == 0) {
        return KISTOVAB_OK;
    }
    s->index_len[which] = shorter(engine->index[which].count);
    return KISTOVAB_INDEX_TOO_SHORT;
}

static void must_be(const char *kind, uint32_t code, uint32_t right)
{
    bool answered = right == KISTOVAB_OK && code == KISTOVAB_REREAD;
    if (code != right && !answered) {
        fail("%s: code %u, not %u", kind, code, right);
    }
}

// The state is the library's own.
void submission_with_fault(struct engine *engine, const struct submission *sound,
                           const struct window *window)
{
    struct submission s = *sound;
    struct window copy;
    uint64_t snapshot[KISTOVAB_SNAPSHOT_WORDS];
    size_t which = below(FAULTS + 1);
    uint32_t right = which < FAULTS ? faults[which].code : KISTOVAB_INDEX_TOO_SHORT;
    struct engine kept = *engine; // a sound one is answered, and not followed
    copy_window(&copy, window);
    point_to(&s, &copy);
    if (which < FAULTS) {
        faults[which].spoil(&s, &copy);
        now.kind = faults[which].kind;
    } else {
        right = fault_index_short(&s, engine);
        now.kind = "a window with a short index buffer";
    }
    must_be(now.kind, submit_twice(&kept, &s, snapshot), right);
}

// Any state: the answer is only asked to be one that the header knows.
void submission_with_faults(const struct engine *engine, const struct submission *sound,
                            const struct window *window)
{
    struct submission s = *sound;
    struct window copy;
    struct engine kept = *engine;
    uint64_t snapshot[KISTOVAB_SNAPSHOT_WORDS];
    copy_window(&copy, window);
    point_to(&s, &copy);
    if (one_in(2)) {
        fault_anything(&s, &copy);
    } else {
        faults[below(FAULTS)].spoil(&s, &copy);
        faults[below(FAULTS)].spoil(&s, &copy);
    }
    now.kind = "a window with anything";
    submit_twice(&kept, &s, snapshot);
}
