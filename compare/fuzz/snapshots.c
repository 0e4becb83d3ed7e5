// What the header says of every snapshot's words.
#include "fuzz.h"

#include <math.h>

// Words that are 1 or 0, and how many numbers stand behind each, zeros where it is 0.
static const struct {
    int word, numbers;
} flags[] = {
    {KISTOVAB_WORD_HAS_ESTIMATE, 3},
    {KISTOVAB_WORD_COARSE_AMBIGUOUS, 0},
    {KISTOVAB_WORD_HAS_OFFSET_STABILITY, 1},
    {KISTOVAB_WORD_HAS_TRACK_INNOVATION, 1},
    {KISTOVAB_WORD_OFFSET_TRACKER_CONFIRMED, 0},
    {KISTOVAB_WORD_OFFSET_TRACKER_STABLE, 0},
    {KISTOVAB_WORD_GLOBAL_SEARCH, 0},
    {KISTOVAB_WORD_HAS_COMPETING_PEAK_MARGIN, 1},
    {KISTOVAB_WORD_HAS_FIRST_PROVISIONAL_LOCK, 1},
    {KISTOVAB_WORD_HAS_CONFIRMED_LOCK, 1},
    {KISTOVAB_WORD_HAS_FINAL_LOCK, 1},
};

enum { FLAGS = sizeof flags / sizeof *flags };

static void must_be_most(const uint64_t *snapshot, int word, uint64_t most)
{
    if (snapshot[word] > most) {
        fail("the snapshot's word %d is %llu, at most %llu is told", word,
             (unsigned long long)snapshot[word], (unsigned long long)most);
    }
}

static void must_be_zeros(const uint64_t *snapshot, int from, int to)
{
    for (int word = from; word < to; word++) {
        if (snapshot[word] != 0) {
            fail("the snapshot's word %d is not 0, and stands behind what is absent", word);
        }
    }
}

static void check_flags(const uint64_t *snapshot)
{
    for (int i = 0; i < FLAGS; i++) {
        int word = flags[i].word;
        must_be_most(snapshot, word, 1);
        if (snapshot[word] == 0) {
            must_be_zeros(snapshot, word + 1, word + 1 + flags[i].numbers);
        }
    }
}

// ---- a computed one

static bool is_whole(int word)
{
    for (int i = 0; i < FLAGS; i++) {
        if (word == flags[i].word) {
            return true;
        }
    }
    int in_candidate = (word - KISTOVAB_WORD_CANDIDATES) % KISTOVAB_CANDIDATE_WORDS;
    bool in_candidates =
        word >= KISTOVAB_WORD_CANDIDATES && word < KISTOVAB_WORD_GLOBAL_SEARCH;
    return word <= KISTOVAB_WORD_STAGE || word == KISTOVAB_WORD_WITHHOLD_REASON ||
           word == KISTOVAB_WORD_TRACK_COUNT || word == KISTOVAB_WORD_CANDIDATE_COUNT ||
           (in_candidates && in_candidate == KISTOVAB_CANDIDATE_COMPARABLE_FRAME_COUNT);
}

static void must_be_within(const uint64_t *snapshot, int word, double low, double high)
{
    double number = kistovab_number(snapshot[word]);
    if (!(number >= low && number <= high)) {
        fail("the snapshot's word %d is the number %g, not from %g to %g", word, number, low, high);
    }
}

// Only where state and index are the library's own.
static void check_sound(const uint64_t *snapshot)
{
    for (int word = 0; word < KISTOVAB_SNAPSHOT_WORDS; word++) {
        if (!is_whole(word) && !isfinite(kistovab_number(snapshot[word]))) {
            fail("the snapshot's word %d is not finite", word);
        }
    }
    must_be_within(snapshot, KISTOVAB_WORD_CONFIDENCE, 0.0, 1.0);
    must_be_within(snapshot, KISTOVAB_WORD_COAST_MS, 0.0, 1500.0);
    must_be_within(snapshot, KISTOVAB_WORD_ACTIVE_FRAME_FRACTION, 0.0, 1.0);
}

void check_snapshot(const uint64_t *snapshot, bool computed, bool made)
{
    if (snapshot[KISTOVAB_WORD_LAYOUT] != KISTOVAB_LAYOUT) {
        fail("the snapshot's layout is not %d", KISTOVAB_LAYOUT);
    }
    must_be_most(snapshot, KISTOVAB_WORD_STATE, KISTOVAB_STATE_FAILED);
    must_be_most(snapshot, KISTOVAB_WORD_PHASE, KISTOVAB_PHASE_FINAL);
    must_be_most(snapshot, KISTOVAB_WORD_STAGE, KISTOVAB_STAGE_RELOCK);
    must_be_most(snapshot, KISTOVAB_WORD_WITHHOLD_REASON, KISTOVAB_REASON_INDEX_UNAVAILABLE);
    must_be_most(snapshot, KISTOVAB_WORD_CANDIDATE_COUNT, KISTOVAB_CANDIDATES_MOST);
    check_flags(snapshot);
    if (computed) {
        int count = (int)snapshot[KISTOVAB_WORD_CANDIDATE_COUNT];
        must_be_most(snapshot, KISTOVAB_WORD_TRACK_COUNT, 1);
        must_be_zeros(snapshot, KISTOVAB_WORD_CANDIDATES + count * KISTOVAB_CANDIDATE_WORDS,
                      KISTOVAB_WORD_GLOBAL_SEARCH);
    }
    if (computed && !made) {
        check_sound(snapshot);
    }
    count_snapshot(snapshot[KISTOVAB_WORD_STATE], made);
}
