// Openings: sound ones, and ones with a fault that has a code.
#include "fuzz.h"

#include <float.h>
#include <math.h>

#define PICK(array) (array)[below(sizeof(array) / sizeof *(array))]

// ---- sound

double any_hop(void)
{
    static const double hops[] = {20.0, 20.0,  20.0,  23.22, 50.0,   100.0,
                                  1.0,  250.0, 500.0, 501.0, 1000.0, 500.00000000000006};
    return one_in(4) ? between(1.0, 1000.0) : PICK(hops);
}

// Durations that a window of so many ms has; now and then those that a unit starts with.
void sound_opening(struct opening *o, const struct film *film, double duration)
{
    bool usual = one_in(8);
    double ready = duration * between(0.5, 0.999);
    *o = (struct opening){
        .configuration = {usual ? KISTOVAB_DEFAULT_MINIMUM_READINESS_DURATION_MS : ready,
                          usual ? KISTOVAB_DEFAULT_TRACKING_QUERY_DURATION_MS
                                : ready * between(0.5, 1.5),
                          KISTOVAB_DEFAULT_MINIMUM_ACTIVE_FRAME_ENERGY_DBFS,
                          KISTOVAB_DEFAULT_MINIMUM_AVERAGE_ENERGY_DBFS,
                          KISTOVAB_DEFAULT_MINIMUM_ACTIVE_FRAME_FRACTION},
        .hop = film->hop,
        .bands = film->bands,
        .times = film->times,
        .times_len = film->frames,
        .values = film->values,
        .values_len = film->bands * film->frames,
        .state_len = enough(KISTOVAB_STATE_WORDS)};
    index_lengths(film->frames, film->bands, o->index_len);
    for (int i = 0; i < INDEX_BUFFERS; i++) {
        o->index_len[i] = enough(o->index_len[i]);
    }
}

// ---- references that are opened without an index

void spoil_reference(struct opening *o, struct film *film)
{
    static const float values[] = {-1e-45f, -1.0f, NAN, INFINITY, -INFINITY};
    static const double times[] = {NAN, INFINITY, -INFINITY};
    size_t frame = below(film->frames);
    switch (below(6)) {
    case 0:
        film->times[frame] = PICK(times);
        break;
    case 1:
        film->times[frame] += film->hop * 0.06;
        break;
    case 2: // no frames, or one
        o->times_len = below(2);
        o->values_len = film->bands * o->times_len;
        break;
    case 3:
        o->bands = 0;
        o->values_len = 0;
        break;
    default:
        film->values[below(o->values_len)] = PICK(values);
    }
}

// ---- faults

static void fault_configuration(struct opening *o, struct film *film)
{
    static const double durations[] = {0.0, -0.0, -1.0, -4.9e-324, NAN, INFINITY, -INFINITY};
    static const double energies[] = {NAN, INFINITY, -INFINITY};
    static const double fractions[] = {-4.9e-324, 1.0000000000000002, -1.0, NAN, INFINITY};
    size_t which = below(5);
    (void)film;
    o->configuration[which] = which < 2   ? PICK(durations)
                              : which < 4 ? PICK(energies)
                                          : PICK(fractions);
}

double wrong_hop(void)
{
    static const double hops[] = {0.9999999999999999, 1000.0000000000001, 0.0, -0.0, -20.0,
                                  4.9e-324,           NAN,                INFINITY, -INFINITY};
    return PICK(hops);
}

static void fault_hop(struct opening *o, struct film *film)
{
    (void)film;
    o->hop = wrong_hop();
}

static void fault_too_large(struct opening *o, struct film *film)
{
    (void)film;
    if (one_in(2)) {
        o->times_len = TIMES_MOST;
        o->bands = below(2);
        o->values_len = o->bands * o->times_len;
    } else {
        o->bands = one_in(2) ? BANDS_TRIED : odd_count() | 128;
        o->values_len = one_in(2) ? 0 : o->values_len;
    }
}

static void fault_miscounted(struct opening *o, struct film *film)
{
    size_t right = film->bands * film->frames;
    o->values_len = one_in(2) ? right + 1 : shorter(right);
}

static void fault_time_too_far(struct opening *o, struct film *film)
{
    static const double times[] = {1000000000000.0001, -1000000000000.0001, 1e13, DBL_MAX,
                                   -DBL_MAX};
    (void)o;
    film->times[below(film->frames)] = PICK(times);
}

static void fault_index_short(struct opening *o, struct film *film)
{
    size_t needed[INDEX_BUFFERS];
    size_t which = below(INDEX_BUFFERS);
    index_lengths(film->frames, film->bands, needed);
    // A film of fewer than 4 frames has no averages.
    which = needed[which] > 0 ? which : 2;
    o->index_len[which] = shorter(needed[which]);
}

static void fault_state_short(struct opening *o, struct film *film)
{
    (void)film;
    o->state_len = shorter(KISTOVAB_STATE_WORDS);
}

static void fault_anything(struct opening *o, struct film *film)
{
    for (int i = 0; i < 5; i++) {
        o->configuration[i] = one_in(6) ? odd_double() : o->configuration[i];
    }
    o->hop = one_in(4) ? odd_double() : o->hop;
    o->bands = one_in(8) ? odd_count() : o->bands;
    for (size_t left = one_in(4) ? 100 : below(4); left > 0; left--) {
        film->times[below(film->frames)] = odd_double();
    }
    for (size_t left = one_in(4) ? 100 : below(4); left > 0; left--) {
        film->values[below(film->bands * film->frames)] = odd_float();
    }
    for (int i = 0; i < INDEX_BUFFERS; i++) {
        o->index_len[i] = one_in(12) ? shorter(o->index_len[i] + 1) : o->index_len[i];
    }
}

// ---- an opening with a fault

static const struct fault {
    const char *kind;
    uint32_t code;
    void (*spoil)(struct opening *, struct film *);
} faults[] = {
    {"an opening with a configuration that is none", 1, fault_configuration},
    {"an opening with a hop out of range", 2, fault_hop},
    {"an opening of a reference that is too large", 3, fault_too_large},
    {"an opening with a wrong number of values", 4, fault_miscounted},
    {"an opening with a time too far", 5, fault_time_too_far},
    {"an opening with a short index buffer", 6, fault_index_short},
    {"an opening with a short state", 255, fault_state_short},
    {"an opening of a reference that can't be searched", 0, spoil_reference},
};

enum { FAULTS = sizeof faults / sizeof *faults };

void opening_with_fault(struct engine *engine)
{
    struct film film;
    struct opening o;
    const struct fault *fault = &faults[below(FAULTS)];
    make_film(&film, 1 + below(60), 1 + below(5), any_hop());
    sound_opening(&o, &film, 1000.0);
    fault->spoil(&o, &film);
    now.kind = fault->kind;
    uint32_t code = open_twice(&o, engine);
    if (code != fault->code) {
        fail("%s: code %u, not %u", fault->kind, code, fault->code);
    }
}

void opening_with_faults(struct engine *engine)
{
    struct film film;
    struct opening o;
    make_film(&film, 1 + below(60), 1 + below(5), any_hop());
    sound_opening(&o, &film, 1000.0);
    now.kind = "an opening with anything";
    if (one_in(2)) {
        fault_anything(&o, &film);
    } else {
        faults[below(FAULTS)].spoil(&o, &film);
        faults[below(FAULTS)].spoil(&o, &film);
    }
    open_twice(&o, engine);
}
