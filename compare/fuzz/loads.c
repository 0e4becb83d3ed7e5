// Loads: sound ones, held to the header's words, ones with a fault that has a code, and loads in the
// place of a film and of a window.
#include "fuzz.h"

#define PICK(array) (array)[below(sizeof(array) / sizeof *(array))]

// Room for all that is lent, since a wrong library may fill what it should refuse.
static double own_times[TIMES_MOST];
static double own_energies[TIMES_MOST + TAIL_MOST];
static float own_values[VALUES_MOST + TAIL_MOST];

static const struct filled own = {own_times, own_energies, own_values};

// ---- what the header says

// The first fault, in the order that is told.
static uint32_t right_code(const struct load *l)
{
    bool hop = l->hop >= KISTOVAB_HOP_LEAST && l->hop <= KISTOVAB_HOP_MOST;
    bool size = l->times_len <= KISTOVAB_FRAMES_MOST && l->bands <= KISTOVAB_BANDS_MOST;
    bool counts = l->energies_len == l->times_len && l->values_len == l->bands * l->times_len;
    return l->seed == 0 ? KISTOVAB_SEED_ZERO
           : !hop       ? KISTOVAB_HOP_OUT_OF_RANGE
           : !size      ? KISTOVAB_REFERENCE_TOO_LARGE
           : !counts    ? KISTOVAB_REFERENCE_MISCOUNTED
                        : KISTOVAB_OK;
}

// By its bits.
static void must_hold(const char *name, size_t place, double number, double right)
{
    if (memcmp(&number, &right, sizeof number) != 0) {
        fail("the load's %s[%zu] is %.17g, not %.17g", name, place, number, right);
    }
}

static void check_load(const struct load *load, const struct filled *filled)
{
    uint64_t x = load->seed;
    for (size_t i = 0; i < load->times_len; i++) {
        must_hold("times", i, filled->times[i], (double)i * load->hop);
        must_hold("energies", i, filled->energies[i], -20.0);
    }
    for (size_t k = 0; k < load->values_len; k++) {
        x ^= x << 13;
        x ^= x >> 7;
        x ^= x << 17;
        must_hold("values", k, (double)filled->values[k], (double)(x % 4096) / 256.0);
    }
}

static void fill(const struct load *load, const struct filled *filled, uint32_t right)
{
    uint32_t code = fill_twice(load, filled);
    if (code != right) {
        fail("%s: code %u, not %u", now.kind, code, right);
    }
    if (code == KISTOVAB_OK) {
        check_load(load, filled);
    }
}

// ---- sound

static uint64_t any_seed(void)
{
    static const uint64_t seeds[] = {1, 2, (uint64_t)1 << 63, UINT64_MAX, 88172645463325252u};
    uint64_t seed = one_in(2) ? any_word() : PICK(seeds);
    return seed == 0 ? 1 : seed;
}

static void sound_load(struct load *load, size_t frames, size_t bands, double hop)
{
    *load = (struct load){.seed = any_seed(),
                          .hop = hop,
                          .bands = bands,
                          .times_len = frames,
                          .energies_len = frames,
                          .values_len = bands * frames};
}

// The most frames get at most 2 bands: more of them take long, and come up as the largest load.
static void any_load(struct load *load)
{
    size_t bands = one_in(8) ? 0 : one_in(8) ? KISTOVAB_BANDS_MOST : 1 + below(5);
    if (one_in(16)) {
        sound_load(load, KISTOVAB_FRAMES_MOST, bands % 3, any_hop());
    } else {
        sound_load(load, one_in(4) ? below(4) : below(300), bands, any_hop());
    }
}

void load_of_any_size(bool largest)
{
    struct load load;
    any_load(&load);
    if (largest) {
        sound_load(&load, KISTOVAB_FRAMES_MOST, KISTOVAB_BANDS_MOST, load.hop);
    }
    now.kind = "a sound load";
    fill(&load, &own, KISTOVAB_OK);
}

// ---- in the place of a film and of a window

void load_film(struct film *film)
{
    struct load load;
    struct filled filled = {film->times, own_energies, film->values};
    sound_load(&load, film->frames, film->bands, film->hop);
    now.kind = "a load for a film";
    fill(&load, &filled, KISTOVAB_OK);
    film->start = 0.0;
}

void must_have_index(const struct engine *engine, const struct film *film)
{
    if (state_frames(engine) != film->frames || state_bands(engine) != film->bands) {
        fail("%s: opened without an index", now.kind);
    }
}

// With fewer than 2 frames, or without bands, there is none.
void opening_of_load(struct engine *engine)
{
    struct opening o;
    struct film film = {.hop = any_hop(),
                        .bands = one_in(8) ? 0 : 1 + below(5),
                        .frames = one_in(2) ? below(4) : below(60),
                        .times = own_times,
                        .values = own_values};
    load_film(&film);
    sound_opening(&o, &film, 1000.0);
    now.kind = "an opening of a load";
    if (open_twice(&o, engine) != KISTOVAB_OK) {
        fail("a load is refused as a reference");
    }
    if (film.frames < 2 || film.bands == 0) {
        film.frames = film.bands = 0;
    }
    must_have_index(engine, &film);
}

void load_window(struct window *window, const struct film *film)
{
    struct load load;
    size_t frames = one_in(4) ? 1 : one_in(4) ? KISTOVAB_WINDOW_MOST : 1 + below(300);
    size_t bands = one_in(2) ? film->bands : one_in(4) ? KISTOVAB_BANDS_MOST : 1 + below(8);
    sound_load(&load, frames, bands, film->hop);
    now.kind = "a load for a window";
    fill(&load, &own, KISTOVAB_OK);
    *window = (struct window){.bands = bands,
                              .frames = frames,
                              .times = own_times,
                              .energies = own_energies,
                              .values = own_values};
}

// ---- faults

// Longer, by one or many, or shorter.
static size_t wrong_length(size_t right)
{
    size_t longer = right + 1 + (one_in(2) ? 0 : below(TAIL_MOST));
    return right == 0 || one_in(2) ? longer : shorter(right);
}

static void fault_seed(struct load *load)
{
    load->seed = 0;
}

static void fault_hop(struct load *load)
{
    load->hop = wrong_hop();
}

// The lengths are right as far as there is room; a product may wrap around to 0.
static void fault_too_large(struct load *load)
{
    static const size_t many[] = {BANDS_TRIED, BANDS_TRIED, 128, (size_t)1 << 63, SIZE_MAX};
    if (one_in(2)) {
        load->times_len = TIMES_MOST;
        load->bands = below(3);
    } else {
        load->bands = PICK(many);
    }
    size_t product = load->bands * load->times_len;
    load->energies_len = load->times_len;
    load->values_len = product > VALUES_MOST ? 0 : product;
}

// It stays within the limit.
static void fault_times(struct load *load)
{
    load->times_len = load->times_len < KISTOVAB_FRAMES_MOST ? wrong_length(load->times_len)
                                                             : shorter(load->times_len);
}

static void fault_energies(struct load *load)
{
    load->energies_len = wrong_length(load->times_len);
}

static void fault_values(struct load *load)
{
    size_t right = load->bands * load->times_len;
    load->values_len = wrong_length(right > VALUES_MOST ? 0 : right);
}

static void fault_anything(struct load *load)
{
    load->seed = one_in(4) ? odd_word() : load->seed;
    load->hop = one_in(4) ? odd_double() : load->hop;
    load->bands = one_in(4) ? odd_count() : load->bands;
    load->times_len = one_in(4) ? below(TIMES_MOST + 1) : load->times_len;
    load->energies_len = one_in(4) ? below(TIMES_MOST + 1) : load->times_len;
    load->values_len = one_in(4) ? below(VALUES_MOST / 64) : load->values_len;
}

// ---- a load with a fault

static const struct fault {
    const char *kind;
    uint32_t code;
    void (*spoil)(struct load *);
} faults[] = {
    {"a load from seed 0", 16, fault_seed},
    {"a load with a hop out of range", 2, fault_hop},
    {"a load that is too large", 3, fault_too_large},
    {"a load with a wrong number of times", 4, fault_times},
    {"a load with a wrong number of energies", 4, fault_energies},
    {"a load with a wrong number of values", 4, fault_values},
};

enum { FAULTS = sizeof faults / sizeof *faults };

void load_with_fault(void)
{
    struct load load;
    const struct fault *fault = &faults[below(FAULTS)];
    any_load(&load);
    fault->spoil(&load);
    now.kind = fault->kind;
    fill(&load, &own, fault->code);
}

// Of several faults the first is told.
void load_with_faults(void)
{
    struct load load;
    any_load(&load);
    now.kind = "a load with anything";
    if (one_in(2)) {
        fault_anything(&load);
    } else {
        faults[below(FAULTS)].spoil(&load);
        faults[below(FAULTS)].spoil(&load);
    }
    fill(&load, &own, right_code(&load));
}
