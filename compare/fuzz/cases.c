// A case: loads and openings with faults, then a story: a film is opened, and what is heard of it
// submitted window after window, with faults, made states and altered indexes in between. Now and
// then a load is the film, or a window; and the state is kept, or one that was kept is restored.
#include "fuzz.h"

#include <math.h>

// From where a window is heard.
struct moment {
    long tick, lead;
    enum mood mood;
    double clock;
};

struct story {
    struct film film;
    bool is_load; // whether the film is a load
    struct engine engine;
    struct window window;
    size_t frames; // of a window
    double base;   // recorded time of tick 0
    struct moment at;
    struct places places;
    struct moment marked[KISTOVAB_PLACES];
    size_t kept; // the name under which the state was just kept, or 0
};

// ---- beginning

static size_t clamp(double x, size_t least, size_t most)
{
    return x < (double)least ? least : x > (double)most ? most : (size_t)x;
}

enum size { SMALL, LONG, LARGEST };

// Some 8 s more than a window; now and then less than one.
static size_t small_film_frames(size_t window_frames, double hop)
{
    return one_in(16) ? 2 + below(window_frames)
                      : window_frames + clamp(between(2000.0, 8000.0) / hop, 12, 2000);
}

static void choose_film(struct story *story, enum size size)
{
    double hop = any_hop();
    size_t needed = frames_searched(hop);
    story->frames = needed + below(needed / 2 + 4);
    if (one_in(8)) {
        story->frames = one_in(2) ? KISTOVAB_WINDOW_MOST : needed - below(4);
    }
    size_t frames =
        size == SMALL ? small_film_frames(story->frames, hop) : KISTOVAB_FRAMES_MOST;
    size_t bands = size == LARGEST ? KISTOVAB_BANDS_MOST
                   : size == LONG  ? 1
                   : one_in(16)    ? KISTOVAB_BANDS_MOST
                                   : 1 + below(4);
    make_film(&story->film, frames, bands, hop);
    story->is_load = one_in(8);
    if (story->is_load) {
        load_film(&story->film);
    }
}

// From some place of the film on.
static void seek(struct story *story)
{
    size_t spare = story->film.frames > story->frames ? story->film.frames - story->frames : 1;
    story->at.lead = (long)below(spare / 2 + 1) - (story->at.tick - (long)story->frames + 1);
}

static void begin_story(struct story *story, enum size size)
{
    static const double bases[] = {0.0, 0.0, 1000.0, -7e11, 9.99e11};
    struct opening o;
    choose_film(story, size);
    story->base = bases[below(sizeof bases / sizeof *bases)];
    story->at.tick = (long)story->frames;
    story->at.mood = one_in(4) ? (enum mood)below(MOODS) : FILM;
    story->at.clock = 0.0;
    story->kept = 0;
    begin_places(&story->places);
    seek(story);
    sound_opening(&o, &story->film, (double)(story->frames - 1) * story->film.hop);
    if (size == SMALL && one_in(8)) {
        spoil_reference(&o, &story->film);
        story->film.frames = 0; // what is heard is noise
    }
    now.kind = "a sound opening";
    if (open_twice(&o, &story->engine) != KISTOVAB_OK) {
        fail("a sound opening is refused");
    }
    if (story->is_load && story->film.frames > 0) {
        must_have_index(&story->engine, &story->film);
    }
}

// ---- going on

// Mostly by 90 to 600 ms; sometimes less, back, or past what was heard, and more often so right after
// a mark.
static void move_on(struct story *story)
{
    double hop = story->film.hop;
    long stride = (long)clamp(ceil(between(90.0, 600.0) / hop), 1, 600);
    switch (below(story->kept > 0 ? 6 : 24)) {
    case 0:
        stride = (long)below((size_t)(90.0 / hop) + 1);
        break;
    case 1:
        stride = 0;
        break;
    case 2:
        stride = one_in(2) ? -stride : (long)story->frames + 2 + (long)below(3);
        break;
    }
    story->at.tick += stride;
    story->at.clock += (double)stride * hop;
    if (one_in(5)) {
        story->at.mood = one_in(2) ? FILM : (enum mood)below(MOODS);
    }
    if (one_in(16) || story->at.tick + story->at.lead >= (long)story->film.frames) {
        seek(story);
    }
}

static void hear(struct story *story, struct submission *s)
{
    make_window(&story->window, &story->film, story->at.mood, story->frames, story->base,
                story->at.tick, story->at.lead);
    sound_submission(s, &story->engine, &story->window, story->at.clock);
}

static void submit_sound(struct story *story, const struct submission *s)
{
    uint64_t snapshot[KISTOVAB_SNAPSHOT_WORDS];
    now.kind = "a sound window";
    uint32_t code = submit_twice(&story->engine, s, snapshot);
    if (code != KISTOVAB_OK && code != KISTOVAB_REREAD) {
        fail("a sound window is refused with %u", code);
    }
    if (story->kept > 0) {
        note_answer(&story->places.marks[story->kept - 1], &story->window, story->at.clock, code,
                    snapshot, &story->engine);
        story->marked[story->kept - 1] = story->at;
        story->kept = 0;
    }
}

// A load as the window: it is answered, and not followed.
static void submit_load(const struct story *story)
{
    struct window window;
    struct submission s;
    uint64_t snapshot[KISTOVAB_SNAPSHOT_WORDS];
    struct engine kept = story->engine;
    load_window(&window, &story->film);
    sound_submission(&s, &kept, &window, story->at.clock);
    now.kind = "a load as a window";
    uint32_t code = submit_twice(&kept, &s, snapshot);
    if (code != KISTOVAB_OK && code != KISTOVAB_REREAD) {
        fail("a load is refused as a window with %u", code);
    }
}

// The age is the last computed snapshot's coast.
static void ask_age(const struct engine *engine)
{
    double age = 0.0;
    size_t words = one_in(6) ? shorter(KISTOVAB_STATE_WORDS) : enough(KISTOVAB_STATE_WORDS);
    now.kind = engine->made ? "the age of a made state" : "the age of the library's own state";
    uint32_t code = age_twice(engine, words, &age);
    const uint64_t *last = engine->state + WORD_LAST_SNAPSHOT - 1;
    if (words < KISTOVAB_STATE_WORDS && code != KISTOVAB_WORDS_TOO_SHORT) {
        fail("a state of %zu words is answered with %u", words, code);
    }
    if (engine->made || words < KISTOVAB_STATE_WORDS) {
        return;
    }
    bool locked = last[KISTOVAB_WORD_STATE] == KISTOVAB_STATE_LOCKED;
    if (code != (locked ? KISTOVAB_OK : KISTOVAB_NO_AGE)) {
        fail("the age is answered with %u", code);
    }
    if (locked && age != kistovab_number(last[KISTOVAB_WORD_COAST_MS])) {
        fail("the age is %g, not the coast that the snapshot shows", age);
    }
}

// ---- marks and reruns

static void set_mark(struct story *story)
{
    story->kept = any_name();
    keep_own(&story->places, story->kept, &story->engine);
    story->marked[story->kept - 1] = story->at;
}

// Mostly one under which something is kept.
static size_t name_to_restore(const struct story *story)
{
    size_t name = any_name();
    for (int left = 8; left > 0 && !story->places.marks[name - 1].is_set; left--) {
        name = any_name();
    }
    return name;
}

// The story goes on from the mark.
static void rerun(struct story *story)
{
    size_t name = name_to_restore(story);
    const struct mark *mark = &story->places.marks[name - 1];
    if (!restore_own(&story->places, name, &story->engine)) {
        return;
    }
    story->at = story->marked[name - 1];
    if (mark->is_answered) {
        must_answer_again(mark, &story->engine);
    }
}

// ---- what a caller made

static void put_number(const struct engine *engine, int buffer, size_t place, bool odd)
{
    double wide = odd ? odd_double() : between(0.0, 2.0);
    float narrow = odd ? odd_float() : (float)wide;
    size_t size = element_size(FINE + buffer);
    char *at = (char *)engine->index[buffer].at + place * size;
    memcpy(at, size == sizeof narrow ? (void *)&narrow : (void *)&wide, size);
}

// An index that fits the state's counts, of any numbers.
static void fit_index(struct engine *engine)
{
    size_t lengths[INDEX_BUFFERS];
    size_t frames = state_frames(engine), bands = state_bands(engine);
    bool odd = one_in(2);
    if (frames * bands > 100000) {
        return;
    }
    index_lengths(frames, bands, lengths);
    set_index(engine, lengths);
    for (int i = 0; i < INDEX_BUFFERS; i++) {
        for (size_t place = 0; place < lengths[i]; place++) {
            put_number(engine, i, place, odd);
        }
    }
}

static void alter_index(struct engine *engine)
{
    engine->made = true;
    for (size_t left = 1 + below(40); left > 0; left--) {
        int i = (int)below(INDEX_BUFFERS);
        if (engine->index[i].count > 0) {
            put_number(engine, i, below(engine->index[i].count), true);
        }
    }
}

// A window that the state can search: by its hop and bands, after its last endpoint.
static void hear_for(struct window *window, const struct story *story, const struct engine *made,
                     size_t turn)
{
    struct film film = story->film;
    size_t bands = state_bands(made);
    double hop = kistovab_number(made->state[WORD_HOP]);
    double last = kistovab_number(made->state[WORD_ENDPOINT]);
    bool heard = fabs(last) < 9e11 && one_in(2);
    film.frames = film.bands == bands && film.hop == hop ? film.frames : 0; // else noise
    film.bands = bands >= 1 && bands <= KISTOVAB_BANDS_MOST ? bands : film.bands;
    film.hop = hop >= 1.0 && hop <= 1000.0 ? hop : film.hop;
    size_t frames = film.hop == story->film.hop ? story->frames : frames_searched(film.hop);
    long stride = (long)turn * (long)clamp(ceil(200.0 / film.hop), 1, 600);
    make_window(window, &film, one_in(4) ? NOISE : FILM, frames,
                heard ? last - (double)story->at.tick * film.hop : story->base,
                story->at.tick + stride, story->at.lead);
}

// The story itself goes on from where it was.
static void try_made(const struct story *story)
{
    static struct engine made;
    uint64_t snapshot[KISTOVAB_SNAPSHOT_WORDS];
    bool state = !one_in(4);
    copy_engine(&made, &story->engine);
    if (state) {
        make_state(&made);
    } else {
        alter_index(&made);
    }
    if (one_in(4)) {
        fit_index(&made);
    }
    ask_age(&made);
    for (size_t turn = 0; turn < 3; turn++) {
        struct window window;
        struct submission s;
        hear_for(&window, story, &made, turn);
        sound_submission(&s, &made, &window, story->at.clock);
        if (one_in(4)) {
            made_through_store(&made, &s);
        }
        now.kind = state ? "a window for a made state" : "a window for an altered index";
        submit_twice(&made, &s, snapshot);
        if (one_in(4)) {
            submission_with_faults(&made, &s, &window);
        }
    }
}

// ---- a case

static void step(struct story *story)
{
    struct submission s;
    move_on(story);
    hear(story, &s);
    if (one_in(2)) {
        submission_with_fault(&story->engine, &s, &story->window);
    }
    if (one_in(4)) {
        submission_with_faults(&story->engine, &s, &story->window);
    }
    submit_sound(story, &s);
    ask_age(&story->engine);
    if (one_in(2)) {
        places_with_faults(&story->places, &story->engine);
    }
    if (one_in(4)) {
        rerun(story);
    }
    if (one_in(4)) {
        set_mark(story);
    }
    if (one_in(16) && story->film.frames < 10000) {
        submit_load(story);
    }
    if (one_in(4) && story->film.frames < 10000) {
        try_made(story);
    }
}

// A long film comes up in one of 64 cases, the largest in one of 512.
void run_case(uint64_t number)
{
    static struct story story;
    static struct engine other;
    enum size size = number % 512 == 511 ? LARGEST : number % 64 == 63 ? LONG : SMALL;
    chance_begin(now.seed, number);
    for (int i = 0; i < 4; i++) {
        check_lengths();
    }
    load_of_any_size(size == LARGEST);
    load_with_fault();
    load_with_faults();
    opening_of_load(&other);
    opening_with_fault(&other);
    opening_with_faults(&other);
    begin_story(&story, size);
    for (size_t left = size == LARGEST ? 3 : 8 + below(16); left > 0; left--) {
        step(&story);
    }
}
