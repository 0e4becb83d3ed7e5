// Of what kind each word of the snapshot is: a number, a whole number, yes or no, one of an enum; and
// what no session shows. A re-reading shows the last snapshot that the state holds; so the words are
// written into a state, as only a test may do, and read back.
#include "unit.h"

#include <string.h>

// Where a state keeps what is shown again (crates/engine_layout/specs/Layout.antt).
enum {
    FINAL = 25,         // the final milestone: whether it is there, and its reading
    MILESTONES = 21,    // all three
    LAST_SNAPSHOT = 30, // a snapshot's words without the layout's number
};

static uint64_t locked[KISTOVAB_STATE_WORDS];
static int tried[KISTOVAB_SNAPSHOT_WORDS];

// A locked state, to be altered.
static void lock(void)
{
    CHECK_CODE(KISTOVAB_OK, open_with(right_opening(film)));
    CHECK_CODE(KISTOVAB_OK, submit(3000, 0, heard, 1.0));
    CHECK_CODE(KISTOVAB_OK, submit(4000, 0, heard, 2.0));
    CHECK(snapshot[KISTOVAB_WORD_STATE] == KISTOVAB_STATE_LOCKED);
    memcpy(locked, state, sizeof state);
}

// What a word of the last snapshot reads as.
static uint64_t read_back(size_t word, uint64_t written)
{
    memcpy(state, locked, sizeof state);
    state[LAST_SNAPSHOT + word - 1] = written;
    tried[word] = 1;
    CHECK_CODE(KISTOVAB_REREAD, submit(4060, 0, heard, 3.0));
    return snapshot[word];
}

// ---- kinds

// Keeps its bits, and all NaNs are one.
static void is_number(size_t word)
{
    CHECK(read_back(word, 0x4012345678abcdefu) == 0x4012345678abcdefu);
    CHECK(read_back(word, 0xfff0000000000001u) == 0x7ff8000000000000u);
}

// Keeps its bits, whatever they are.
static void is_whole(size_t word)
{
    CHECK(read_back(word, 7) == 7);
    CHECK(read_back(word, 0xfff0000000000001u) == 0xfff0000000000001u);
}

// Anything but 1 is no.
static void is_yes_or_no(size_t word)
{
    CHECK(read_back(word, 1) == 1);
    CHECK(read_back(word, 0) == 0);
    CHECK(read_back(word, 7) == 0);
}

// A number, if there is one.
static void is_optional(size_t has, size_t word)
{
    is_yes_or_no(has);
    CHECK(word == has + 1);
    state[LAST_SNAPSHOT + has - 1] = 1;
    state[LAST_SNAPSHOT + word - 1] = 0x4012345678abcdefu;
    CHECK_CODE(KISTOVAB_REREAD, submit(4060, 0, heard, 3.0));
    CHECK(snapshot[word] == 0x4012345678abcdefu);
    state[LAST_SNAPSHOT + has - 1] = 0;
    CHECK_CODE(KISTOVAB_REREAD, submit(4060, 0, heard, 3.0));
    CHECK(snapshot[word] == 0);
    tried[word] = 1;
}

// What lies behind the last of an enum is the last.
static void is_enum(size_t word, uint64_t last)
{
    CHECK(read_back(word, last - 1) == last - 1);
    CHECK(read_back(word, last) == last);
    CHECK(read_back(word, last + 1) == last);
}

static void enums(void)
{
    is_enum(KISTOVAB_WORD_STATE, KISTOVAB_STATE_FAILED);
    is_enum(KISTOVAB_WORD_PHASE, KISTOVAB_PHASE_FINAL);
    is_enum(KISTOVAB_WORD_STAGE, KISTOVAB_STAGE_RELOCK);
    is_enum(KISTOVAB_WORD_WITHHOLD_REASON, KISTOVAB_REASON_INDEX_UNAVAILABLE);
}

static void scalars(void)
{
    static const size_t numbers[] = {
        KISTOVAB_WORD_CONFIDENCE,
        KISTOVAB_WORD_QUERY_DURATION_MS,
        KISTOVAB_WORD_ACTIVE_FRAME_FRACTION,
        KISTOVAB_WORD_DENSE_MARGIN,
        KISTOVAB_WORD_CORRELATION,
        KISTOVAB_WORD_FIRST_HALF_CORRELATION,
        KISTOVAB_WORD_SECOND_HALF_CORRELATION,
        KISTOVAB_WORD_RECENT_CORRELATION,
        KISTOVAB_WORD_FRESH_EVIDENCE_MS,
        KISTOVAB_WORD_COAST_MS,
    };
    static const size_t flags[] = {
        KISTOVAB_WORD_COARSE_AMBIGUOUS,
        KISTOVAB_WORD_OFFSET_TRACKER_CONFIRMED,
        KISTOVAB_WORD_OFFSET_TRACKER_STABLE,
        KISTOVAB_WORD_GLOBAL_SEARCH,
    };
    for (size_t i = 0; i < COUNT(numbers); i++) {
        is_number(numbers[i]);
    }
    for (size_t i = 0; i < COUNT(flags); i++) {
        is_yes_or_no(flags[i]);
    }
    is_whole(KISTOVAB_WORD_TRACK_COUNT);
    is_optional(KISTOVAB_WORD_HAS_OFFSET_STABILITY, KISTOVAB_WORD_OFFSET_STABILITY_MS);
    is_optional(KISTOVAB_WORD_HAS_TRACK_INNOVATION, KISTOVAB_WORD_TRACK_INNOVATION_MS);
    is_optional(KISTOVAB_WORD_HAS_COMPETING_PEAK_MARGIN, KISTOVAB_WORD_COMPETING_PEAK_MARGIN);
}

static void candidates(void)
{
    for (size_t place = 0; place < KISTOVAB_CANDIDATES_MOST; place++) {
        size_t first = KISTOVAB_WORD_CANDIDATES + place * KISTOVAB_CANDIDATE_WORDS;
        is_number(first + KISTOVAB_CANDIDATE_OFFSET_MS);
        is_number(first + KISTOVAB_CANDIDATE_COARSE_OFFSET_MS);
        is_whole(first + KISTOVAB_CANDIDATE_COMPARABLE_FRAME_COUNT);
        is_number(first + KISTOVAB_CANDIDATE_COVERAGE_RATIO);
        is_number(first + KISTOVAB_CANDIDATE_COMBINED_DENSE_SCORE);
    }
    CHECK(kistovab_candidate_words(snapshot, 0) == snapshot + KISTOVAB_WORD_CANDIDATES);
    CHECK(read_back(KISTOVAB_WORD_CANDIDATE_COUNT, KISTOVAB_CANDIDATES_MOST) ==
          KISTOVAB_CANDIDATES_MOST);
    // One more than there is room for is no state.
    state[LAST_SNAPSHOT + KISTOVAB_WORD_CANDIDATE_COUNT - 1] = KISTOVAB_CANDIDATES_MOST + 1;
    CHECK_CODE(KISTOVAB_STATE_OUT_OF_RANGE, submit(4060, 0, heard, 3.0));
}

// No word is left out. A re-reading moves the place, and takes the milestones from elsewhere.
static void all(void)
{
    for (size_t word = 1; word < KISTOVAB_WORD_HAS_FIRST_PROVISIONAL_LOCK; word++) {
        int place = word >= KISTOVAB_WORD_HAS_ESTIMATE && word <= KISTOVAB_WORD_OFFSET_MS;
        CHECK(place || tried[word]);
    }
}

// ---- what no session shows

// Three readings that differ.
static void milestones(void)
{
    static const double readings[] = {11.5, 12.5, 13.5};
    memcpy(state, locked, sizeof state);
    for (size_t i = 0; i < COUNT(readings); i++) {
        state[MILESTONES + 2 * i] = 1;
        memcpy(&state[MILESTONES + 2 * i + 1], &readings[i], sizeof readings[i]);
    }
    CHECK_CODE(KISTOVAB_REREAD, submit(4060, 0, heard, 3.0));
    CHECK(number(KISTOVAB_WORD_FIRST_PROVISIONAL_LOCK_ELAPSED_MS) == readings[0]);
    CHECK(number(KISTOVAB_WORD_CONFIRMED_LOCK_ELAPSED_MS) == readings[1]);
    CHECK(number(KISTOVAB_WORD_FINAL_LOCK_ELAPSED_MS) == readings[2]);
}

// Confirmed, but not final.
static void confirmed(void)
{
    memcpy(state, locked, sizeof state);
    state[FINAL] = 0;
    CHECK_CODE(KISTOVAB_OK, submit(4500, 0, heard, 3.0));
    CHECK(snapshot[KISTOVAB_WORD_STATE] == KISTOVAB_STATE_CONFIRMED);
    CHECK(snapshot[KISTOVAB_WORD_PHASE] == KISTOVAB_PHASE_CONFIRMED);
    CHECK(snapshot[KISTOVAB_WORD_HAS_FIRST_PROVISIONAL_LOCK] == 1);
    CHECK(snapshot[KISTOVAB_WORD_HAS_CONFIRMED_LOCK] == 1);
    CHECK(snapshot[KISTOVAB_WORD_HAS_FINAL_LOCK] == 0);
}

// Another layout is no state.
static void layout(void)
{
    memcpy(state, locked, sizeof state);
    CHECK(state[KISTOVAB_WORD_LAYOUT] == KISTOVAB_LAYOUT);
    state[KISTOVAB_WORD_LAYOUT] = KISTOVAB_LAYOUT + 1;
    CHECK_CODE(KISTOVAB_STATE_OUT_OF_RANGE, submit(4060, 0, heard, 3.0));
}

int main(void)
{
    lock();
    enums();
    scalars();
    candidates();
    all();
    milestones();
    confirmed();
    layout();
    return checked();
}
