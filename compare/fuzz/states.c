// States that a caller made: words by chance, or the library's own with some words changed.
#include "fuzz.h"

// Tags: 1 is there, anything else is absent.
static const int tags[] = {10, 15, 21, 23, 25, 27, 29, 33, 43, 45, 93, 100, 102, 104};
// Enums of the last snapshot.
static const int enums[] = {30, 31, 32, 37};

static uint64_t word_of(double number)
{
    uint64_t word;
    memcpy(&word, &number, sizeof word);
    return word;
}

static void any_words(uint64_t *state)
{
    for (int i = 0; i < KISTOVAB_STATE_WORDS; i++) {
        state[i] = one_in(2) ? any_word() : odd_word();
    }
    state[0] = one_in(4) ? state[0] : KISTOVAB_LAYOUT;
}

static void change_words(uint64_t *state)
{
    for (size_t left = 1 + below(4); left > 0; left--) {
        state[below(KISTOVAB_STATE_WORDS)] = odd_word();
    }
}

static void change_tags(uint64_t *state)
{
    for (size_t left = 1 + below(3); left > 0; left--) {
        state[tags[below(sizeof tags / sizeof *tags)]] = one_in(6) ? any_word() : below(3);
    }
}

static void change_enums(uint64_t *state)
{
    for (size_t i = 0; i < sizeof enums / sizeof *enums; i++) {
        state[enums[i]] = one_in(8) ? any_word() : below(12);
    }
}

// A lock that was not the first: from a fresh engine both milestones come together.
static void take_back_final(uint64_t *state)
{
    state[WORD_FINAL] = 0;
}

// Counts and a hop in range, so that another index is read than the one that was opened.
static void change_settings(uint64_t *state)
{
    static const double hops[] = {1.0, 1.5, 20.0, 250.0, 1000.0};
    if (one_in(2)) {
        state[WORD_HOP] = word_of(hops[below(sizeof hops / sizeof *hops)]);
    }
    state[WORD_FRAMES] = one_in(8) ? odd_word() : 1 + below(600);
    state[WORD_BANDS] = one_in(8) ? odd_word() : 1 + below(6);
}

// Track, pending and last search where a number decides: near what was heard, or anywhere in range.
static void change_lock(uint64_t *state)
{
    double last = kistovab_number(state[WORD_ENDPOINT]);
    for (int track = 10; track <= 15; track += 5) {
        state[track] = 1;
        state[track + 1] = word_of(one_in(3) ? odd_double() : between(-9000.0, 9000.0));
        state[track + 2] = word_of(last - between(0.0, 3000.0));
        state[track + 3] = word_of(last - between(0.0, 3000.0));
        state[track + 4] = word_of(one_in(4) ? odd_double() : between(-1.0, 1.0));
    }
    state[20] = word_of(last - between(0.0, 3000.0));
}

void make_state(struct engine *engine)
{
    static void (*const changes[])(uint64_t *) = {
        any_words,    change_words, change_words,    change_tags,     change_enums,
        change_enums, change_enums, take_back_final, change_settings, change_lock};
    engine->made = true;
    changes[below(sizeof changes / sizeof *changes)](engine->state);
    if (one_in(4)) {
        changes[1 + below(sizeof changes / sizeof *changes - 1)](engine->state);
    }
}
