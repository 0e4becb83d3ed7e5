// What occurred, and what has to.
#include "fuzz.h"

#include <stdio.h>

enum { CODES = 256, STATES = KISTOVAB_STATE_FAILED + 1 };

static uint64_t answers[CALLS][CODES];
static uint64_t states[2][STATES]; // of the library's own states, and of made ones
static uint64_t limits[LIMITS];
static uint64_t computed_again, reread_again;

static const char *const call_names[CALLS] = {"open",      "submit", "support_age",
                                              "fill_load", "keep",   "restore"};
static const char *const state_names[STATES] = {"Ready",    "Listening", "Locking",
                                                "Confirmed", "Locked",    "Drifting",
                                                "Relocking", "Lost",      "Failed"};

static const char *const limit_names[LIMITS] = {
    [REFERENCE_OF_MOST_FRAMES] = "reference of 65,535 frames",
    [REFERENCE_OF_MOST_BANDS] = "reference of 64 bands",
    [LARGEST_REFERENCE] = "of both",
    [LEAST_HOP] = "hop 1",
    [MOST_HOP] = "hop 1,000",
    [WINDOW_OF_ONE_FRAME] = "window of 1 frame",
    [WINDOW_OF_MOST_FRAMES] = "window of 1,024 frames",
    [WINDOW_OF_MOST_BANDS] = "window of 64 bands",
    [LOAD_OF_NO_FRAMES] = "load of 0 frames",
    [LOAD_OF_NO_BANDS] = "load of 0 bands",
    [LOAD_OF_MOST_FRAMES] = "load of 65,535 frames",
    [LOAD_OF_MOST_BANDS] = "load of 64 bands",
    [LARGEST_LOAD] = "load of both",
    [LOAD_AT_LEAST_HOP] = "load at hop 1",
    [LOAD_AT_MOST_HOP] = "load at hop 1,000"};

void count_answer(enum call call, uint32_t code)
{
    answers[call][code]++;
}

// It is looked at after both runs of a call.
void count_snapshot(uint64_t state, bool made)
{
    states[made][state]++;
}

void count_limit(enum limit limit, bool occurred)
{
    limits[limit] += occurred;
}

void count_rerun(uint32_t code)
{
    computed_again += code == KISTOVAB_OK;
    reread_again += code == KISTOVAB_REREAD;
}

static void print_limits(enum limit first, enum limit end)
{
    printf("  at a limit  ");
    for (enum limit i = first; i < end; i++) {
        printf("%s %s: %llu", i > first ? "," : "", limit_names[i], (unsigned long long)limits[i]);
    }
    printf("\n");
}

static void print_states(bool made)
{
    printf("  %-12s", made ? "made states" : "own states");
    for (int i = 0; i < STATES; i++) {
        if (states[made][i] > 0) {
            printf(" %s %llu", state_names[i], (unsigned long long)states[made][i] / 2);
        }
    }
    printf("\n");
}

void print_counts(void)
{
    for (int call = 0; call < CALLS; call++) {
        printf("  %-12s", call_names[call]);
        for (int code = 0; code < CODES; code++) {
            if (answers[call][code] > 0) {
                printf(" %d: %llu", code, (unsigned long long)answers[call][code]);
            }
        }
        printf("\n");
    }
    print_states(false);
    print_states(true);
    printf("  %-12s computed: %llu, re-read: %llu\n", "reruns", (unsigned long long)computed_again,
           (unsigned long long)reread_again);
    print_limits(0, LOAD_OF_NO_FRAMES);
    print_limits(LOAD_OF_NO_FRAMES, LIMITS);
}

// ---- what has to occur

static void must_have_answered(enum call call, uint32_t first, uint32_t last)
{
    for (uint32_t code = first; code <= last; code++) {
        if (answers[call][code] == 0) {
            fail("%s never answered %u: try more cases, or mend cases.c", call_names[call], code);
        }
    }
}

static void must_have_shown(bool made, uint64_t state)
{
    if (states[made][state] == 0) {
        fail("no snapshot of %s was %s: try more cases, or mend cases.c",
             made ? "a made state" : "an own state", state_names[state]);
    }
}

// The largest reference and load take long under memcheck, and come up in longer runs only.
static void must_have_met_limits(void)
{
    for (int i = 0; i < LIMITS; i++) {
        if (limits[i] == 0 && i != LARGEST_REFERENCE && i != LARGEST_LOAD) {
            fail("no %s was answered: try more cases, or mend cases.c", limit_names[i]);
        }
    }
}

void must_have_occurred(void)
{
    static const uint64_t own[] = {KISTOVAB_STATE_LISTENING, KISTOVAB_STATE_LOCKING,
                                   KISTOVAB_STATE_LOCKED,    KISTOVAB_STATE_RELOCKING,
                                   KISTOVAB_STATE_LOST,      KISTOVAB_STATE_FAILED};
    must_have_answered(OPEN, 0, 6);
    must_have_answered(OPEN, 255, 255);
    must_have_answered(SUBMIT, 0, 0);
    must_have_answered(SUBMIT, 6, 13);
    must_have_answered(SUBMIT, 100, 100);
    must_have_answered(SUBMIT, 255, 255);
    must_have_answered(SUPPORT_AGE, 0, 0);
    must_have_answered(SUPPORT_AGE, 7, 7);
    must_have_answered(SUPPORT_AGE, 101, 101);
    must_have_answered(SUPPORT_AGE, 255, 255);
    must_have_answered(FILL_LOAD, 0, 0);
    must_have_answered(FILL_LOAD, 2, 4);
    must_have_answered(FILL_LOAD, 16, 16);
    for (enum call call = KEEP; call <= RESTORE; call++) {
        must_have_answered(call, 0, 0);
        must_have_answered(call, 6, 6);
        must_have_answered(call, 14, call == RESTORE ? 15 : 14);
        must_have_answered(call, 255, 255);
    }
    if (computed_again == 0 || reread_again == 0) {
        fail("no window was computed, or re-read, again after a restore: try more cases, or mend "
             "cases.c");
    }
    for (size_t i = 0; i < sizeof own / sizeof *own; i++) {
        must_have_shown(false, own[i]);
    }
    for (uint64_t state = 0; state < STATES; state++) {
        must_have_shown(true, state);
    }
    must_have_met_limits();
}
