// The snapshot's words by name, held to what a session has to show: every word means what kistovab.h
// says of it, and so do the states, phases, stages and reasons that are given.
#include "unit.h"

#include <string.h>

static int is_near(double a, double b, double distance)
{
    return a - b <= distance && b - a <= distance;
}

// Zeros everywhere but at these words.
static void only(const size_t *words, size_t count)
{
    for (size_t word = 0; word < KISTOVAB_SNAPSHOT_WORDS; word++) {
        int named = 0;
        for (size_t i = 0; i < count; i++) {
            named |= words[i] == word;
        }
        CHECK(named || snapshot[word] == 0);
    }
}

// What is said in words, and whether there is a place.
static void says(uint64_t says_state, uint64_t phase, uint64_t stage, uint64_t reason, uint64_t place)
{
    CHECK(snapshot[KISTOVAB_WORD_LAYOUT] == KISTOVAB_LAYOUT);
    CHECK(snapshot[KISTOVAB_WORD_STATE] == says_state);
    CHECK(snapshot[KISTOVAB_WORD_PHASE] == phase);
    CHECK(snapshot[KISTOVAB_WORD_STAGE] == stage);
    CHECK(snapshot[KISTOVAB_WORD_WITHHOLD_REASON] == reason);
    CHECK(snapshot[KISTOVAB_WORD_HAS_ESTIMATE] == place);
    CHECK(kistovab_has_place(snapshot) == (place == 1));
}

// A place this far from the seat's own count.
static void shows(double endpoint, double offset, double distance)
{
    double shown = number(KISTOVAB_WORD_OFFSET_MS);
    CHECK(is_near(shown, offset, distance));
    CHECK(number(KISTOVAB_WORD_QUERY_ENDPOINT_RECORDED_TIME_MS) == endpoint);
    CHECK(number(KISTOVAB_WORD_REFERENCE_TIME_MS) == endpoint + shown);
    CHECK(kistovab_place_ms(snapshot) == endpoint + shown);
}

// The clock's readings; confirmed and final come together.
static void reached(uint64_t has_first, double first, uint64_t has_final, double final)
{
    CHECK(snapshot[KISTOVAB_WORD_HAS_FIRST_PROVISIONAL_LOCK] == has_first);
    CHECK(number(KISTOVAB_WORD_FIRST_PROVISIONAL_LOCK_ELAPSED_MS) == first);
    CHECK(snapshot[KISTOVAB_WORD_HAS_CONFIRMED_LOCK] == has_final);
    CHECK(number(KISTOVAB_WORD_CONFIRMED_LOCK_ELAPSED_MS) == final);
    CHECK(snapshot[KISTOVAB_WORD_HAS_FINAL_LOCK] == has_final);
    CHECK(number(KISTOVAB_WORD_FINAL_LOCK_ELAPSED_MS) == final);
}

static void tracks(uint64_t count, uint64_t confirmed, uint64_t stable)
{
    CHECK(snapshot[KISTOVAB_WORD_TRACK_COUNT] == count);
    CHECK(snapshot[KISTOVAB_WORD_OFFSET_TRACKER_CONFIRMED] == confirmed);
    CHECK(snapshot[KISTOVAB_WORD_OFFSET_TRACKER_STABLE] == stable);
}

// ---- a session

// The film over noise that fades: the later, the clearer.
static float clearing(uint32_t frame, uint32_t band)
{
    float noise = frame < 120 ? (float)(120 - frame) / 40.0f : 0.0f;
    return heard(frame, band) + noise * unlike(frame, band);
}

// The film, a frame later than before.
static float late(uint32_t frame, uint32_t band)
{
    return heard(frame - 1, band);
}

static void too_short(void)
{
    static const size_t words[] = {KISTOVAB_WORD_LAYOUT, KISTOVAB_WORD_STATE,
                                   KISTOVAB_WORD_WITHHOLD_REASON, KISTOVAB_WORD_QUERY_DURATION_MS,
                                   KISTOVAB_WORD_ACTIVE_FRAME_FRACTION};
    CHECK_CODE(KISTOVAB_OK, submit_with(right_submission(1000, 50, 10, heard)));
    says(KISTOVAB_STATE_LISTENING, KISTOVAB_PHASE_NONE, KISTOVAB_STAGE_READINESS,
         KISTOVAB_REASON_INSUFFICIENT_DURATION, 0);
    CHECK(number(KISTOVAB_WORD_QUERY_DURATION_MS) == 980.0);
    CHECK(number(KISTOVAB_WORD_ACTIVE_FRAME_FRACTION) == 0.8);
    only(words, COUNT(words));
}

// A first search, which passes: the parts of the window the better the later.
static void first_search(void)
{
    CHECK_CODE(KISTOVAB_OK, submit(3000, 30, clearing, 101.5));
    says(KISTOVAB_STATE_LOCKING, KISTOVAB_PHASE_PROVISIONAL, KISTOVAB_STAGE_ROBUST_VERIFY,
         KISTOVAB_REASON_WEAK_ALIGNMENT_PEAK, 1);
    shows(3000.0, 5000.0, 5.0);
    reached(1, 101.5, 0, 0.0);
    tracks(0, 0, 0);
    CHECK(number(KISTOVAB_WORD_QUERY_DURATION_MS) == 2980.0);
    CHECK(number(KISTOVAB_WORD_ACTIVE_FRAME_FRACTION) == 0.8);
    CHECK(snapshot[KISTOVAB_WORD_GLOBAL_SEARCH] == 1);
    CHECK(number(KISTOVAB_WORD_CORRELATION) > number(KISTOVAB_WORD_FIRST_HALF_CORRELATION));
    CHECK(number(KISTOVAB_WORD_SECOND_HALF_CORRELATION) > number(KISTOVAB_WORD_CORRELATION));
    CHECK(number(KISTOVAB_WORD_RECENT_CORRELATION) > number(KISTOVAB_WORD_SECOND_HALF_CORRELATION));
    CHECK(number(KISTOVAB_WORD_RECENT_CORRELATION) <= 1.0);
    CHECK(number(KISTOVAB_WORD_FIRST_HALF_CORRELATION) > 0.1);
    CHECK(number(KISTOVAB_WORD_CONFIDENCE) == number(KISTOVAB_WORD_CORRELATION));
    CHECK(number(KISTOVAB_WORD_FRESH_EVIDENCE_MS) == 0.0);
    CHECK(number(KISTOVAB_WORD_COAST_MS) == 0.0);
}

// What it lists: the best first, 750 ms apart.
static void listed(void)
{
    const uint64_t *best = kistovab_candidate_words(snapshot, 0);
    const uint64_t *next = kistovab_candidate_words(snapshot, 1);
    double score = kistovab_number(best[KISTOVAB_CANDIDATE_COMBINED_DENSE_SCORE]);
    double margin = score - kistovab_number(next[KISTOVAB_CANDIDATE_COMBINED_DENSE_SCORE]);
    CHECK(snapshot[KISTOVAB_WORD_CANDIDATE_COUNT] >= 2);
    CHECK(score == number(KISTOVAB_WORD_CORRELATION));
    CHECK(best[KISTOVAB_CANDIDATE_OFFSET_MS] == snapshot[KISTOVAB_WORD_OFFSET_MS]);
    CHECK(best[KISTOVAB_CANDIDATE_COARSE_OFFSET_MS] == snapshot[KISTOVAB_WORD_OFFSET_MS]);
    CHECK(!is_near(kistovab_number(next[KISTOVAB_CANDIDATE_OFFSET_MS]), 5000.0, 740.0));
    CHECK(best[KISTOVAB_CANDIDATE_COMPARABLE_FRAME_COUNT] == WINDOW_FRAMES - 2 * 13);
    CHECK(kistovab_number(best[KISTOVAB_CANDIDATE_COVERAGE_RATIO]) == (2980.0 - 500.0) / 2980.0);
    CHECK(margin > 0.06);
    CHECK(number(KISTOVAB_WORD_DENSE_MARGIN) == margin);
    CHECK(snapshot[KISTOVAB_WORD_HAS_COMPETING_PEAK_MARGIN] == 1);
    CHECK(number(KISTOVAB_WORD_COMPETING_PEAK_MARGIN) == margin);
    CHECK(snapshot[KISTOVAB_WORD_COARSE_AMBIGUOUS] == 0);
}

// Behind the last candidate stand zeros.
static void lone(void)
{
    const uint64_t *behind = kistovab_candidate_words(snapshot, 1);
    const uint64_t *end = kistovab_candidate_words(snapshot, KISTOVAB_CANDIDATES_MOST);
    CHECK(snapshot[KISTOVAB_WORD_CANDIDATE_COUNT] == 1);
    CHECK(behind[-1] == snapshot[KISTOVAB_WORD_CORRELATION]);
    CHECK(end == snapshot + KISTOVAB_WORD_GLOBAL_SEARCH);
    for (; behind < end; behind++) {
        CHECK(*behind == 0);
    }
}

// The same once more, but at a new endpoint.
static void again(void)
{
    uint64_t before[KISTOVAB_SNAPSHOT_WORDS];
    memcpy(before, snapshot, sizeof snapshot);
    CHECK_CODE(KISTOVAB_REREAD, submit(3060, 0, heard, 150.0));
    shows(3060.0, kistovab_number(before[KISTOVAB_WORD_OFFSET_MS]), 0.0);
    for (size_t word = 0; word < KISTOVAB_SNAPSHOT_WORDS; word++) {
        CHECK(word == KISTOVAB_WORD_QUERY_ENDPOINT_RECORDED_TIME_MS ||
              word == KISTOVAB_WORD_REFERENCE_TIME_MS || snapshot[word] == before[word]);
    }
}

static void lock(void)
{
    CHECK_CODE(KISTOVAB_OK, submit(3500, 0, heard, 202.5));
    says(KISTOVAB_STATE_LOCKING, KISTOVAB_PHASE_PROVISIONAL, KISTOVAB_STAGE_ROBUST_VERIFY,
         KISTOVAB_REASON_WEAK_ALIGNMENT_PEAK, 1);
    CHECK(number(KISTOVAB_WORD_FRESH_EVIDENCE_MS) == 500.0);
    CHECK_CODE(KISTOVAB_OK, submit(3600, 0, heard, 203.5));
    says(KISTOVAB_STATE_LOCKING, KISTOVAB_PHASE_PROVISIONAL, KISTOVAB_STAGE_READINESS,
         KISTOVAB_REASON_WEAK_ALIGNMENT_PEAK, 1);
    CHECK(snapshot[KISTOVAB_WORD_GLOBAL_SEARCH] == 0);
    CHECK_CODE(KISTOVAB_OK, submit(4000, 0, heard, 303.5));
    says(KISTOVAB_STATE_LOCKED, KISTOVAB_PHASE_FINAL, KISTOVAB_STAGE_TRACKING, KISTOVAB_REASON_NONE,
         1);
    shows(4000.0, 5000.0, 5.0);
    reached(1, 101.5, 1, 303.5);
    tracks(1, 1, 1);
    CHECK(number(KISTOVAB_WORD_FRESH_EVIDENCE_MS) == 1000.0);
    CHECK(snapshot[KISTOVAB_WORD_HAS_TRACK_INNOVATION] == 0);
}

// A local search alone, which finds the place a frame earlier: the innovation is below 0.
static void follow(void)
{
    CHECK_CODE(KISTOVAB_OK, submit(4500, 0, late, 404.5));
    says(KISTOVAB_STATE_LOCKED, KISTOVAB_PHASE_FINAL, KISTOVAB_STAGE_TRACKING, KISTOVAB_REASON_NONE,
         1);
    shows(4500.0, 4984.0, 5.0);
    tracks(1, 1, 1);
    CHECK(snapshot[KISTOVAB_WORD_GLOBAL_SEARCH] == 0);
    CHECK(snapshot[KISTOVAB_WORD_HAS_COMPETING_PEAK_MARGIN] == 0);
    CHECK(number(KISTOVAB_WORD_DENSE_MARGIN) == 0.0);
    CHECK(snapshot[KISTOVAB_WORD_HAS_TRACK_INNOVATION] == 1);
    CHECK(is_near(number(KISTOVAB_WORD_TRACK_INNOVATION_MS), -20.0, 5.0));
    CHECK(snapshot[KISTOVAB_WORD_HAS_OFFSET_STABILITY] == 1);
    CHECK(number(KISTOVAB_WORD_OFFSET_STABILITY_MS) == -number(KISTOVAB_WORD_TRACK_INNOVATION_MS));
}

// Without support: the place stays, and the confidence goes down with the coast.
static void coast(void)
{
    double supported = number(KISTOVAB_WORD_CORRELATION);
    double offset = number(KISTOVAB_WORD_OFFSET_MS);
    CHECK_CODE(KISTOVAB_OK, submit(5500, 0, unlike, 505.5));
    says(KISTOVAB_STATE_LOCKED, KISTOVAB_PHASE_FINAL, KISTOVAB_STAGE_TRACKING,
         KISTOVAB_REASON_WEAK_ALIGNMENT_PEAK, 1);
    shows(5500.0, offset, 0.0);
    tracks(1, 1, 0);
    reached(1, 101.5, 1, 303.5);
    CHECK(number(KISTOVAB_WORD_COAST_MS) == 1000.0);
    CHECK(is_near(number(KISTOVAB_WORD_CONFIDENCE), supported / 3.0, 1e-9));
}

static void lose(void)
{
    CHECK_CODE(KISTOVAB_OK, submit(8400, WINDOW_FRAMES, heard, 606.5));
    says(KISTOVAB_STATE_LOST, KISTOVAB_PHASE_FINAL, KISTOVAB_STAGE_READINESS,
         KISTOVAB_REASON_INSUFFICIENT_ENERGY, 0);
    tracks(0, 0, 0);
    CHECK_CODE(KISTOVAB_OK, submit(8500, WINDOW_FRAMES * 2 / 3, heard, 607.5));
    says(KISTOVAB_STATE_LOST, KISTOVAB_PHASE_FINAL, KISTOVAB_STAGE_READINESS,
         KISTOVAB_REASON_INSUFFICIENT_ACTIVE_FRAMES, 0);
    struct submission submission = right_submission(8600, WINDOW_FRAMES, 0, heard);
    times[1] += 2.0;
    CHECK_CODE(KISTOVAB_OK, submit_with(submission));
    says(KISTOVAB_STATE_LOST, KISTOVAB_PHASE_FINAL, KISTOVAB_STAGE_READINESS,
         KISTOVAB_REASON_LOST_SIGNAL, 0);
    CHECK_CODE(KISTOVAB_OK, submit(9000, 0, heard, 608.5));
    says(KISTOVAB_STATE_RELOCKING, KISTOVAB_PHASE_FINAL, KISTOVAB_STAGE_ROBUST_VERIFY,
         KISTOVAB_REASON_WEAK_ALIGNMENT_PEAK, 0);
    reached(1, 101.5, 1, 303.5);
}

// ---- other films

static void ambiguous(void)
{
    CHECK_CODE(KISTOVAB_OK, open_with(right_opening(repeating)));
    CHECK_CODE(KISTOVAB_OK, submit(3000, 0, repeating, 0.0));
    says(KISTOVAB_STATE_LOCKING, KISTOVAB_PHASE_NONE, KISTOVAB_STAGE_ROBUST_VERIFY,
         KISTOVAB_REASON_AMBIGUOUS_OFFSET, 0);
    CHECK(snapshot[KISTOVAB_WORD_COARSE_AMBIGUOUS] == 1);
    CHECK(number(KISTOVAB_WORD_CONFIDENCE) == 0.0);
}

// A value below 0 makes a film unfit for search.
static void unfit(void)
{
    struct opening opening = right_opening(film);
    film_values[0] = -1.0f;
    CHECK_CODE(KISTOVAB_OK, open_with(opening));
    CHECK_CODE(KISTOVAB_OK, submit(3000, 0, heard, 0.0));
    says(KISTOVAB_STATE_FAILED, KISTOVAB_PHASE_NONE, KISTOVAB_STAGE_READINESS,
         KISTOVAB_REASON_INDEX_UNAVAILABLE, 0);
}

int main(void)
{
    CHECK_CODE(KISTOVAB_OK, open_with(right_opening(film)));
    too_short();
    first_search();
    listed();
    again();
    lock();
    follow();
    lone();
    coast();
    lose();
    ambiguous();
    unfit();
    return checked();
}
