// Named places: states kept and restored in a story, keeping and restoring with faults, and states
// and stores that a caller made.
#include "fuzz.h"

#include <stdlib.h>

#define PICK(array) (array)[below(sizeof(array) / sizeof *(array))]

// ---- what the header says

// The first fault, in the order that is told. An empty place is none for keeping.
static uint32_t right_code(const struct naming *n)
{
    return n->state_len < KISTOVAB_STATE_WORDS        ? KISTOVAB_WORDS_TOO_SHORT
           : n->name < 1 || n->name > KISTOVAB_PLACES ? KISTOVAB_NAME_OUT_OF_RANGE
           : n->store_len < KISTOVAB_STORE_WORDS      ? KISTOVAB_STORE_TOO_SHORT
                                                      : KISTOVAB_OK;
}

static uint32_t keep(const uint64_t *state, const struct naming *naming, uint64_t *store)
{
    return keep_twice(state, naming, store, right_code(naming));
}

static uint32_t restore(uint64_t *state, const struct naming *naming, const uint64_t *store)
{
    uint32_t right = right_code(naming);
    if (right == KISTOVAB_OK && store[place_of(naming->name)] != KISTOVAB_LAYOUT) {
        right = KISTOVAB_NOTHING_KEPT;
    }
    return restore_twice(state, naming, store, right);
}

static bool same_state(const uint64_t *a, const uint64_t *b)
{
    return memcmp(a, b, 8 * KISTOVAB_STATE_WORDS) == 0;
}

// ---- in a story

size_t any_name(void)
{
    return 1 + below(KISTOVAB_PLACES);
}

static struct naming sound_naming(size_t name)
{
    struct naming naming = {.name = name,
                            .state_len = enough(KISTOVAB_STATE_WORDS),
                            .store_len = enough(KISTOVAB_STORE_WORDS)};
    return naming;
}

void begin_places(struct places *places)
{
    memset(places->store, 0, sizeof places->store);
    for (int i = 0; i < KISTOVAB_PLACES; i++) {
        places->marks[i].is_set = places->marks[i].is_answered = false;
    }
}

void keep_own(struct places *places, size_t name, const struct engine *engine)
{
    struct naming naming = sound_naming(name);
    struct mark *mark = &places->marks[name - 1];
    now.kind = "an own state to keep";
    keep(engine->state, &naming, places->store);
    if (!same_state(places->store + place_of(name), engine->state)) {
        fail("the place of name %zu does not hold the words of the state", name);
    }
    memcpy(mark->state, engine->state, sizeof mark->state);
    mark->is_set = true;
    mark->is_answered = false;
}

bool restore_own(const struct places *places, size_t name, struct engine *engine)
{
    struct naming naming = sound_naming(name);
    const struct mark *mark = &places->marks[name - 1];
    now.kind = mark->is_set ? "an own state to restore" : "nothing to restore";
    restore(engine->state, &naming, places->store);
    if (mark->is_set && !same_state(engine->state, mark->state)) {
        fail("under name %zu another state comes back than was kept", name);
    }
    return mark->is_set;
}

static void *copy_row(void *old, const void *from, size_t bytes)
{
    void *row = realloc(old, bytes);
    memcpy(row, from, bytes);
    return row;
}

void note_answer(struct mark *mark, const struct window *window, double clock, uint32_t code,
                 const uint64_t *snapshot, const struct engine *engine)
{
    struct window *own = &mark->window;
    size_t frames = window->frames;
    own->bands = window->bands;
    own->frames = frames;
    own->times = copy_row(own->times, window->times, frames * sizeof *own->times);
    own->energies = copy_row(own->energies, window->energies, frames * sizeof *own->energies);
    own->values =
        copy_row(own->values, window->values, window->bands * frames * sizeof *own->values);
    mark->clock = clock;
    mark->code = code;
    memcpy(mark->snapshot, snapshot, sizeof mark->snapshot);
    memcpy(mark->next, engine->state, sizeof mark->next);
    mark->is_answered = true;
}

void must_answer_again(const struct mark *mark, struct engine *engine)
{
    struct submission s;
    uint64_t snapshot[KISTOVAB_SNAPSHOT_WORDS];
    sound_submission(&s, engine, &mark->window, mark->clock);
    now.kind = "the window after the mark, after a restore";
    uint32_t code = submit_twice(engine, &s, snapshot);
    if (code != mark->code || memcmp(snapshot, mark->snapshot, sizeof snapshot) != 0 ||
        !same_state(engine->state, mark->next)) {
        fail("after a restore the window is answered otherwise than after the mark (%u, %u)", code,
             mark->code);
    }
    count_rerun(code);
}

// ---- faults

// Such as are names where 32 bits are looked at, or where their place is counted round.
static size_t wrong_name(void)
{
    static const size_t names[] = {0,
                                   KISTOVAB_PLACES + 1,
                                   KISTOVAB_PLACES + 2,
                                   (size_t)1 << 32,
                                   ((size_t)1 << 32) + 1,
                                   ((size_t)1 << 61) + 1,
                                   SIZE_MAX - 1,
                                   SIZE_MAX};
    return one_in(4) ? (size_t)any_word() | 16 : PICK(names);
}

static struct naming any_naming(void)
{
    struct naming naming = sound_naming(one_in(4) ? wrong_name() : any_name());
    if (one_in(4)) {
        naming.state_len = shorter(KISTOVAB_STATE_WORDS);
    }
    if (one_in(4)) {
        naming.store_len = shorter(KISTOVAB_STORE_WORDS);
    }
    return naming;
}

// Zeros, ones, or anything; in some places the layout number, the next, or one that is the same in
// its lower half.
static void any_store(uint64_t *store)
{
    static const uint64_t layouts[] = {KISTOVAB_LAYOUT, KISTOVAB_LAYOUT, KISTOVAB_LAYOUT + 1,
                                       KISTOVAB_LAYOUT + ((uint64_t)1 << 32)};
    size_t style = below(4);
    for (size_t i = 0; i < KISTOVAB_STORE_WORDS; i++) {
        store[i] = style == 0 ? 0 : style == 1 ? UINT64_MAX : style == 2 ? any_word() : odd_word();
    }
    for (size_t name = 1; name <= KISTOVAB_PLACES; name++) {
        if (one_in(2)) {
            store[place_of(name)] = PICK(layouts);
        }
    }
}

void places_with_faults(const struct places *places, const struct engine *engine)
{
    uint64_t store[KISTOVAB_STORE_WORDS], state[KISTOVAB_STATE_WORDS];
    struct naming naming = any_naming();
    memcpy(store, places->store, sizeof store);
    memcpy(state, engine->state, sizeof state);
    if (one_in(2)) {
        any_store(store);
    }
    now.kind = "keeping with anything";
    uint32_t code = keep(state, &naming, store);
    if (code == KISTOVAB_OK && !same_state(store + place_of(naming.name), state)) {
        fail("the place of name %zu does not hold the words of the state", naming.name);
    }
    naming = any_naming();
    now.kind = "restoring with anything";
    restore(state, &naming, store);
}

// ---- made states

// What comes back is as the library writes it: kept once more it has the same words.
static bool through_store(uint64_t *state)
{
    uint64_t store[KISTOVAB_STORE_WORDS];
    struct naming naming = sound_naming(any_name());
    uint64_t *place = store + place_of(naming.name);
    any_store(store);
    if (one_in(2)) {
        now.kind = "a made state to keep";
        keep(state, &naming, store);
        if (place[0] != KISTOVAB_LAYOUT) {
            fail("a made state is kept, but its place does not begin with the layout number");
        }
    } else {
        memcpy(place, state, 8 * KISTOVAB_STATE_WORDS);
    }
    now.kind = "a made state to restore";
    if (restore(state, &naming, store) != KISTOVAB_OK) {
        return false;
    }
    now.kind = "a restored state to keep";
    keep(state, &naming, store);
    if (!same_state(place, state)) {
        fail("a state that was restored is kept with other words");
    }
    return true;
}

void made_through_store(const struct engine *made, const struct submission *submission)
{
    struct engine itself = *made, restored = *made;
    uint64_t shown[2][KISTOVAB_SNAPSHOT_WORDS] = {{0}, {0}};
    if (!through_store(restored.state)) {
        return;
    }
    now.kind = "a window for a made state";
    uint32_t code = submit_twice(&itself, submission, shown[0]);
    now.kind = "a window for a made state that was restored";
    uint32_t again = submit_twice(&restored, submission, shown[1]);
    bool same = code != KISTOVAB_OK || same_state(itself.state, restored.state);
    if (again != code || memcmp(shown[0], shown[1], sizeof shown[0]) != 0 || !same) {
        fail("a made state is answered otherwise after a restore (%u, %u)", again, code);
    }
}
