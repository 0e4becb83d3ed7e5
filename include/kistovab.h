// Kistovab, the caption lock, as the firmware of a seat unit calls it. C99, and usable from C++.
// Links with libkistovab.a (`tools/staticlib kistovab`): x86-64, the calling convention of Linux;
// of a C library it needs memcpy and memset alone.
//
// A reference is a film's sound as frames, one every hop: a time, and a value in each of some bands.
// A window is what the seat heard last, as frames of the same kind. Window after window is
// submitted, and each answer, a snapshot, says where in the film the seat is and whether that place
// is locked. docs/GUARANTEE.md says what is proved of the answers; examples/seat.c is a small unit.
//
// In the order of use
//   1. Make the buffers. A call tells the length of each, and a macro the same for static arrays.
//   2. kistovab_open fills the index from the reference, and the state. Then the reference is needed
//      no more.
//   3. kistovab_submit for each window, in the order heard. Then read the snapshot.
//   4. kistovab_support_age, at any time, for how long the lock has been without support.
//   5. kistovab_keep at a mark, and kistovab_restore where a reel is run again from there: the state
//      under one of 8 names, in a store.
// A bench makes up references and windows with kistovab_fill_load: the same numbers in any language.
//
// What is kept
//   - All that lasts from call to call lies in the caller's buffers: the index, the state, and a
//     store where there is one. Nothing is allocated, and there are no globals. A call takes some
//     16 kB of stack (docs/BENCHMARKS.md).
//   - A state's words are for the calls alone: not to be looked at, nor changed. As a whole it may be
//     copied and put back. So seats can share an index: open once, and give each a copy of the state
//     as opening left it.
//   - A store begins as zeros, and keeping copies a state's words into it, under a name. Its words
//     too are for the calls alone. As a whole it may be copied, or written to disk and read back; a
//     library with another KISTOVAB_LAYOUT finds nothing kept in it.
//   - Calls on different states may run at the same time over one index, each with a snapshot and
//     working buffers of its own. Calls on one state come one after the other.
//   - A call that is cut off, as by a loss of power, may leave what it writes half written: open
//     again. A store that is cut off while it is written, here or to disk, may hold a half-written
//     place, which no call can tell from a whole one: keep there anew, or begin with zeros again.
//
// What the caller owes, since no call can test it
//   - Each pointer comes with the number of its elements: memory that may be read (and, without a
//     const, written), aligned for its type. With a length of 0 the pointer is not used and may be
//     NULL. `age` has no length, and is never NULL.
//   - What a call writes overlaps nothing else that it is lent. What it only reads may overlap.
//   - Nobody else writes lent memory during a call, nor the index between calls.
//   - Floats are computed as usual: rounded to nearest, subnormal numbers kept (no FTZ, no DAZ).
// All else is tested: whatever the buffers hold, a call ends, and its code says what it can't use.
#ifndef KISTOVAB_H
#define KISTOVAB_H

#include <stddef.h>
#include <stdint.h>
#include <string.h>

#ifdef __cplusplus
extern "C" {
#endif

// The library counts in 64 bits.
typedef char kistovab_size_t_has_8_bytes[sizeof(size_t) == 8 ? 1 : -1];

// ---- limits

#define KISTOVAB_HOP_LEAST 1.0     // ms
#define KISTOVAB_HOP_MOST 1000.0   // ms
#define KISTOVAB_FRAMES_MOST 65535 // of a reference, or a load
#define KISTOVAB_WINDOW_MOST 1024  // frames of a window
#define KISTOVAB_BANDS_MOST 64     // of any of them
#define KISTOVAB_FARTHEST_MS 1e12  // no time lies further from 0
#define KISTOVAB_CANDIDATES_MOST 8 // of a snapshot
#define KISTOVAB_PLACES 8          // of a store: names are 1 to 8

// How long a film fits into 65,535 frames:
//   hop, ms     20       50       100      110      165      200
//   h:mm:ss     0:21:50  0:54:36  1:49:13  2:00:08  3:00:13  3:38:27
// A longer one takes a larger hop, or is opened in parts, each with an index and a state of its own;
// the times of a part may begin anywhere.

// ---- lengths, in elements

// Of a state, a snapshot and a store, in words of 8 bytes.
#define KISTOVAB_STATE_WORDS 106
#define KISTOVAB_SNAPSHOT_WORDS 77
#define KISTOVAB_STORE_WORDS 848

size_t kistovab_state_words(void);
size_t kistovab_snapshot_words(void);
size_t kistovab_store_words(void);

// Of the index, by the reference's frames and bands. The calls answer 0 beyond a limit, where opening
// refuses too. The macros are the same within the limits.
#define KISTOVAB_FINE_LENGTH(frames, bands) ((bands) * (frames))
#define KISTOVAB_COARSE_LENGTH(frames, bands) ((bands) * ((frames) / 4))
#define KISTOVAB_FINE_ENERGY_LENGTH(frames, bands) ((bands) * ((frames) + 1))
#define KISTOVAB_COARSE_ENERGY_LENGTH(frames, bands) ((bands) * ((frames) / 4 + 1))

size_t kistovab_fine_length(size_t frames, size_t bands);
size_t kistovab_coarse_length(size_t frames, size_t bands);
size_t kistovab_fine_energy_length(size_t frames, size_t bands);
size_t kistovab_coarse_energy_length(size_t frames, size_t bands);

// Of the working buffers, by the frames and bands of the longest window, and the reference's frames.
// Without an index the latter are 0.
#define KISTOVAB_WORK32_LENGTH(frames, bands) (2 * (bands) * (frames))
#define KISTOVAB_WORK64_LENGTH(frames, bands, reference_frames) \
    (3 * (bands) * ((frames) + 1) + (reference_frames))

size_t kistovab_work32_length(size_t frames, size_t bands);
size_t kistovab_work64_length(size_t frames, size_t bands, size_t reference_frames);

// For example, in bytes, with windows of 5 s:
//   film     hop  bands  fine        coarse     fine_energy  coarse_energy  work32   work64
//   0:10:00  20   32     3,840,000   960,000    7,680,256    1,920,256      64,256   433,536
//   0:21:50  20   64     16,776,960  4,194,048  33,554,432   8,388,608      128,512  911,352
//   2:00:00  110  64     16,756,480  4,188,928  33,513,472   8,378,368      23,552   595,832
// A state takes 848, a snapshot 616, a store 6,784.

// ---- codes

// What every call but the lengths answers. A refusal writes nothing: all buffers are as they were,
// and the next call goes on from there. Of several faults the first tested is told: 255, then in the
// order of their numbers, but that a submission tests 7 before 6, keeping and restoring 14 before 6,
// and a load 16 before all else.
enum kistovab_code {
    // Opened; a snapshot was computed; there is an age; a state was kept or restored; a load was
    // filled.
    KISTOVAB_OK = 0,

    // -- refusals of opening, 2 to 4 of a load too: mend what was handed in, and call again
    // A duration that is not above 0, an energy that is not finite, a fraction not from 0 to 1.
    KISTOVAB_INVALID_CONFIGURATION = 1,
    // The hop is not from 1 to 1,000 ms.
    KISTOVAB_HOP_OUT_OF_RANGE = 2,
    // More than 65,535 frames or 64 bands. Of a film take a larger hop, fewer bands, or parts; of a
    // load ask for less.
    KISTOVAB_REFERENCE_TOO_LARGE = 3,
    // There are not bands * times_len values; of a load also: not times_len energies.
    KISTOVAB_REFERENCE_MISCOUNTED = 4,
    // A finite time beyond 10^12 ms from 0: count from nearer.
    KISTOVAB_REFERENCE_TIME_TOO_FAR = 5,
    // A buffer of the index is shorter than its length call says. A submission refuses it too: lend
    // it all that opening filled.
    KISTOVAB_INDEX_TOO_SHORT = 6,

    // -- refusals of submission; 7 of support age too
    // These words are not what opening or submission wrote: open again, or restore a state.
    KISTOVAB_STATE_OUT_OF_RANGE = 7,
    // The clock reading is a NaN or infinite: mend it, and submit again.
    KISTOVAB_CLOCK_NOT_FINITE = 8,
    // The window is empty: wait for sound.
    KISTOVAB_NO_FRAMES = 9,
    // More than 1,024 frames or 64 bands: submit the newest frames alone.
    KISTOVAB_WINDOW_TOO_LARGE = 10,
    // No bands, lengths that disagree, a value below 0 or not finite: leave the window out, and see
    // what makes the frames.
    KISTOVAB_WINDOW_INVALID = 11,
    // A time that is not finite or beyond 10^12 ms from 0, an energy that is a NaN or plus infinity:
    // leave the window out, and see what makes the frames.
    KISTOVAB_WINDOW_TIME_OUT_OF_RANGE = 12,
    // A working buffer is shorter than its length call says: lend more.
    KISTOVAB_WORK_TOO_SHORT = 13,

    // -- refusals of keeping and restoring
    // The name is not from 1 to 8.
    KISTOVAB_NAME_OUT_OF_RANGE = 14,
    // The store has too few words, whatever the name: lend as many as its length call says.
    KISTOVAB_STORE_TOO_SHORT = 6,
    // Nothing is kept under this name, by this layout: restore another, or go on as it is.
    KISTOVAB_NOTHING_KEPT = 15,

    // -- refusal of a load
    // The seed is 0, from which nothing but 0 would be drawn: take any other.
    KISTOVAB_SEED_ZERO = 16,

    // -- no fault
    // A submission with less than 90 ms of new sound: the snapshot is the last one, with its place
    // moved on, and the state is as it was.
    KISTOVAB_REREAD = 100,
    // There is no age: the last computed snapshot was not Locked, or there is none.
    KISTOVAB_NO_AGE = 101,

    // -- any call but a load: a state or a snapshot has too few words; lend as many as the length
    // calls say
    KISTOVAB_WORDS_TOO_SHORT = 255
};

// ---- opening

// The configuration that a unit starts with.
#define KISTOVAB_DEFAULT_MINIMUM_READINESS_DURATION_MS 2500.0
#define KISTOVAB_DEFAULT_TRACKING_QUERY_DURATION_MS 2000.0
#define KISTOVAB_DEFAULT_MINIMUM_ACTIVE_FRAME_ENERGY_DBFS (-70.0)
#define KISTOVAB_DEFAULT_MINIMUM_AVERAGE_ENERGY_DBFS (-62.0)
#define KISTOVAB_DEFAULT_MINIMUM_ACTIVE_FRAME_FRACTION 0.35

// Opens a reference. Answers 0, 1 to 6, or 255.
//
// It can be searched if it has two frames or more and a band or more, if its times go by the hop
// (each step, and each distance from the first time, off by less than 5 % of a hop), and if its
// values are finite and not below 0. Any other is opened without an index, and with 0 too: then
// nothing but the state is written, and every window is answered with Failed and IndexUnavailable.
uint32_t kistovab_open(
    // The configuration. A window is searched if it lasts for the readiness duration (once there was
    // a lock, for the tracking duration less a hop, if that is shorter), if its average energy is not
    // below the minimum, and if at least the fraction of its frames has the energy of an active one.
    double minimum_readiness_duration_ms,
    double tracking_query_duration_ms,
    double minimum_active_frame_energy_dbfs,
    double minimum_average_energy_dbfs,
    double minimum_active_frame_fraction,
    // From frame to frame, of the reference and of every window.
    double hop_ms,
    // The reference: for each frame its time in the film, in ms, and bands * times_len values, band
    // after band: values[band * times_len + frame].
    size_t bands,
    const double *times, size_t times_len,
    const float *values, size_t values_len,
    // The index, written; longer buffers keep what stands behind it.
    float *fine, size_t fine_len,
    float *coarse, size_t coarse_len,
    double *fine_energy, size_t fine_energy_len,
    double *coarse_energy, size_t coarse_energy_len,
    // The state, written; a longer buffer keeps what stands behind it.
    uint64_t *state, size_t state_len);

// ---- submission

// Submits a window. Answers 0, 100, 6 to 13, or 255.
//
// Windows overlap: for example the last 3 to 5 s, every 100 to 500 ms. One that begins more than
// 2 hops after the end of the last computed one, or ends before that, is a jump, and the lock starts
// from nothing. A search needs the reference's number of bands, times that go by the hop, and more
// than 2R + 16 frames, where R is 250 / hop rounded, at least 1 (at a hop of 20 ms more than 42
// frames). While no place is locked the whole film is searched every 500 ms, and a lock takes a
// second of sound that is found at one place.
uint32_t kistovab_submit(
    // What opening, the submission before or a restore left; written where the answer is 0.
    uint64_t *state, size_t state_len,
    // The index as opening filled it. Without an index nothing of it is needed.
    const float *fine, size_t fine_len,
    const float *coarse, size_t coarse_len,
    const double *fine_energy, size_t fine_energy_len,
    const double *coarse_energy, size_t coarse_energy_len,
    // The window: for each frame the time at which its sound ends, in ms of the unit's own
    // recording, and its energy in dBFS, where minus infinity is silence; and bands * times_len
    // values, band after band.
    size_t bands,
    const double *times, size_t times_len,
    const double *energies, size_t energies_len,
    const float *values, size_t values_len,
    // The unit's clock, in ms: milestones keep its reading, and no decision depends on it.
    double clock_ms,
    // For work: what they held does not matter, and after 0 or 100 they hold anything.
    float *work32, size_t work32_len,
    double *work64, size_t work64_len,
    // Written where the answer is 0 or 100; a longer buffer keeps what stands behind it.
    uint64_t *snapshot, size_t snapshot_len);

// ---- support age

// The coast of the last computed snapshot, in ms, from 0 to 1,500: answers 0 and writes `age`, or
// answers 101, 7 or 255 and does not. Only windows age it: while a unit submits none, it stays.
uint32_t kistovab_support_age(const uint64_t *state, size_t state_len, double *age);

// ---- named places

// A reel may be run again from a mark. At the mark a unit keeps its state under a name, and for the
// rerun it restores it. Over the same index, the same windows are then answered as they were after
// the mark, by the same clock in every word; a re-reading straight after the restore shows what it
// showed after the mark. A lock that was reached after the mark is not there until it is reached
// again. The unit sets its recorded times back to the mark too; else the next window may be a jump.
//
// A state is kept as it is handed in, and neither call judges it: 7 does, when it is next submitted
// or asked for its age. Two things do no harm, and nothing more is promised of them:
//   - a state submitted with the index of another film is answered, or refused with 6;
//   - from a place with words that no call wrote some state comes back, or 15.

// Keeps a state under a name, in the place of what was kept there before. Answers 0, or one of 255,
// 14, 6, tested in this order.
uint32_t kistovab_keep(
    const uint64_t *state, size_t state_len,
    // From 1 to 8.
    size_t name,
    // Written where the answer is 0: the place of this name, and nothing else. A longer buffer keeps
    // what stands behind it.
    uint64_t *store, size_t store_len);

// Gives back the state that is kept under a name, and it stays kept. Answers 0, or one of 255, 14,
// 6, 15, tested in this order.
uint32_t kistovab_restore(
    // Written where the answer is 0, whatever it held; a longer buffer keeps what stands behind it.
    uint64_t *state, size_t state_len,
    // From 1 to 8.
    size_t name,
    const uint64_t *store, size_t store_len);

// ---- a load for a bench

// Fills a reference or a window with sound made up from a seed, so that benches in any language hold
// the same numbers: the call is proved to fill what is told here, and a bench that does not call it
// can make the same from this. Answers 0, 16, 2, 3 or 4.
//
//   - There are times_len frames. The time of frame i, from 0 on, is i * hop_ms: one product of
//     doubles, rounded once, and no sum of hops. Every energy is -20.
//   - The values are drawn from x, an unsigned number of 64 bits that begins as the seed (Marsaglia's
//     xorshift). Each draw is three steps, of which each loses the bits that it shifts out:
//         x ^= x << 13;  x ^= x >> 7;  x ^= x << 17;
//     The number drawn is x after them: the first is not the seed itself. It gives one value,
//     (x mod 4096) / 256, from 0 to 15.99609375, which a float holds without rounding. The first draw
//     gives values[0], the next values[1]: band after band, in each its frames in order.
//
//   seed               numbers drawn                               values
//   1                  1082269761, 1152992998833853505,            0.25390625, 4.25390625,
//                      11177516664432764457, 17678023832001937445  6.16015625, 0.14453125
//   88172645463325252  8748534153485358512, 3040900993826735515,   5.6875, 5.60546875,
//                      3453997556048239312                         10.8125
//
// A load of 2 frames or more and a band or more is a reference that opens with an index, at the same
// hop. One of 1 to 1,024 frames and 1 to 64 bands is a window that a submission does not refuse for
// itself (9 to 12); its times begin at 0, so add to them for windows to follow.
uint32_t kistovab_fill_load(
    // Any but 0.
    uint64_t seed,
    // From frame to frame, from 1 to 1,000 ms.
    double hop_ms,
    // At most 64, and at most 65,535 frames; either may be 0.
    size_t bands,
    // The load, written as a whole: as many energies as times, and bands * times_len values. A longer
    // buffer is refused as a shorter one is.
    double *times, size_t times_len,
    double *energies, size_t energies_len,
    float *values, size_t values_len);

// ---- the snapshot

// The number of the layout below, which a snapshot has in its first word.
#define KISTOVAB_LAYOUT 1

// What each word is: n a number, as the bits of a double (kistovab_number); w a whole number; y yes
// or no, 1 or 0; e one of an enum. Where a HAS_ is 0, the numbers after it are 0. In a computed
// snapshot every number is finite.
enum kistovab_word {
    KISTOVAB_WORD_LAYOUT = 0,          // w
    KISTOVAB_WORD_STATE = 1,           // e kistovab_state
    KISTOVAB_WORD_PHASE = 2,           // e kistovab_phase
    KISTOVAB_WORD_STAGE = 3,           // e kistovab_stage

    // The place, if one is shown: the time of the window's last frame, where in the film that is, and
    // the second less the first.
    KISTOVAB_WORD_HAS_ESTIMATE = 4,                    // y
    KISTOVAB_WORD_QUERY_ENDPOINT_RECORDED_TIME_MS = 5, // n
    KISTOVAB_WORD_REFERENCE_TIME_MS = 6,               // n
    KISTOVAB_WORD_OFFSET_MS = 7,                       // n

    KISTOVAB_WORD_WITHHOLD_REASON = 8, // e kistovab_reason
    KISTOVAB_WORD_CONFIDENCE = 9,      // n from 0 to 1; 0 without a place

    // The window: how long it is, and what part of its frames is active.
    KISTOVAB_WORD_QUERY_DURATION_MS = 10,     // n
    KISTOVAB_WORD_ACTIVE_FRAME_FRACTION = 11, // n

    // A whole search: whether it found something with a margin below 0.06; the margin, or 0.
    KISTOVAB_WORD_COARSE_AMBIGUOUS = 12, // y
    KISTOVAB_WORD_DENSE_MARGIN = 13,     // n

    // A local search that supports the track: how far from the track it found the place, without a
    // sign and with it.
    KISTOVAB_WORD_HAS_OFFSET_STABILITY = 14, // y
    KISTOVAB_WORD_OFFSET_STABILITY_MS = 15,  // n
    KISTOVAB_WORD_HAS_TRACK_INNOVATION = 16, // y
    KISTOVAB_WORD_TRACK_INNOVATION_MS = 17,  // n

    // The track: how many there are, 0 or 1; whether its place is shown; whether without coast.
    KISTOVAB_WORD_TRACK_COUNT = 18,              // w
    KISTOVAB_WORD_OFFSET_TRACKER_CONFIRMED = 19, // y
    KISTOVAB_WORD_OFFSET_TRACKER_STABLE = 20,    // y

    // What the search found, the best first: 8 candidates of 5 words each (enum kistovab_candidate),
    // with zeros behind the last.
    KISTOVAB_WORD_CANDIDATE_COUNT = 21, // w from 0 to 8
    KISTOVAB_WORD_CANDIDATES = 22,

    // Whether the whole film was searched; of the best candidate, the correlation; of a whole search,
    // its margin: that correlation less the second candidate's, if there is a second; and the
    // correlation of the window's halves, and of its last 1,000 ms.
    KISTOVAB_WORD_GLOBAL_SEARCH = 62,             // y
    KISTOVAB_WORD_CORRELATION = 63,               // n
    KISTOVAB_WORD_HAS_COMPETING_PEAK_MARGIN = 64, // y
    KISTOVAB_WORD_COMPETING_PEAK_MARGIN = 65,     // n
    KISTOVAB_WORD_FIRST_HALF_CORRELATION = 66,    // n
    KISTOVAB_WORD_SECOND_HALF_CORRELATION = 67,   // n
    KISTOVAB_WORD_RECENT_CORRELATION = 68,        // n

    // How much sound speaks for the place that is sought; how long the locked one has been without
    // support, from 0 to 1,500.
    KISTOVAB_WORD_FRESH_EVIDENCE_MS = 69, // n
    KISTOVAB_WORD_COAST_MS = 70,          // n

    // Milestones: the clock's reading when a search passed for the first time, and at the first lock.
    // The second and the third come together.
    KISTOVAB_WORD_HAS_FIRST_PROVISIONAL_LOCK = 71,        // y
    KISTOVAB_WORD_FIRST_PROVISIONAL_LOCK_ELAPSED_MS = 72, // n
    KISTOVAB_WORD_HAS_CONFIRMED_LOCK = 73,                // y
    KISTOVAB_WORD_CONFIRMED_LOCK_ELAPSED_MS = 74,         // n
    KISTOVAB_WORD_HAS_FINAL_LOCK = 75,                    // y
    KISTOVAB_WORD_FINAL_LOCK_ELAPSED_MS = 76              // n
};

// The words of a candidate.
enum kistovab_candidate {
    KISTOVAB_CANDIDATE_OFFSET_MS = 0,              // n
    KISTOVAB_CANDIDATE_COARSE_OFFSET_MS = 1,       // n, the same
    KISTOVAB_CANDIDATE_COMPARABLE_FRAME_COUNT = 2, // w, frames of the window that were compared
    KISTOVAB_CANDIDATE_COVERAGE_RATIO = 3,         // n, what part of the window that is
    KISTOVAB_CANDIDATE_COMBINED_DENSE_SCORE = 4,   // n, the correlation
    KISTOVAB_CANDIDATE_WORDS = 5
};

// Show lines by the place of a Locked snapshot. (x): given by no state that kistovab_open began.
enum kistovab_state {
    KISTOVAB_STATE_READY = 0,     // (x)
    KISTOVAB_STATE_LISTENING = 1, // no lock yet, and this window can't be searched
    KISTOVAB_STATE_LOCKING = 2,   // no lock yet; a place that is shown is a guess
    KISTOVAB_STATE_CONFIRMED = 3, // (x)
    KISTOVAB_STATE_LOCKED = 4,    // the place is locked; with a reason it coasts
    KISTOVAB_STATE_DRIFTING = 5,  // (x)
    KISTOVAB_STATE_RELOCKING = 6, // the lock was lost, and is sought; no place
    KISTOVAB_STATE_LOST = 7,      // the lock was lost, and this window can't be searched; no place
    KISTOVAB_STATE_FAILED = 8     // opened without an index: open a reference that can be searched
};

// What was reached since opening, and is kept.
enum kistovab_phase {
    KISTOVAB_PHASE_NONE = 0,
    KISTOVAB_PHASE_PROVISIONAL = 1, // a search passed
    KISTOVAB_PHASE_CONFIRMED = 2,   // (x)
    KISTOVAB_PHASE_FINAL = 3        // there was a lock
};

// What was done with this window.
enum kistovab_stage {
    KISTOVAB_STAGE_READINESS = 0,          // no place is locked, and the whole film was not searched
    KISTOVAB_STAGE_LANDMARK_COARSE = 1,    // (x)
    KISTOVAB_STAGE_FAST_TIMING_VERIFY = 2, // (x)
    KISTOVAB_STAGE_ROBUST_VERIFY = 3,      // no place is locked, and the whole film was searched
    KISTOVAB_STAGE_TRACKING = 4,           // a place is locked
    KISTOVAB_STAGE_RELOCK = 5              // (x)
};

// Why this window supports no place that is shown.
enum kistovab_reason {
    KISTOVAB_REASON_NONE = 0,                           // it does
    KISTOVAB_REASON_INSUFFICIENT_DURATION = 1,          // too short: submit more frames
    KISTOVAB_REASON_INSUFFICIENT_ENERGY = 2,            // too quiet
    KISTOVAB_REASON_INSUFFICIENT_ACTIVE_FRAMES = 3,     // too many frames are quiet
    KISTOVAB_REASON_INSUFFICIENT_LANDMARK_EVIDENCE = 4, // (x)
    KISTOVAB_REASON_WEAK_ALIGNMENT_PEAK = 5,            // no place is good enough, or for long enough
    KISTOVAB_REASON_AMBIGUOUS_OFFSET = 6,               // two places are about as good
    KISTOVAB_REASON_UNSTABLE_TRACKING_RESIDUAL = 7,     // (x)
    KISTOVAB_REASON_LOST_SIGNAL = 8,                    // times not by the hop, or other bands
    KISTOVAB_REASON_DECODE_FAILED = 9,                  // (x)
    KISTOVAB_REASON_INDEX_UNAVAILABLE = 10              // there is no index
};

// The number whose bits a word has.
static inline double kistovab_number(uint64_t word)
{
    double number;
    memcpy(&number, &word, sizeof number);
    return number;
}

// Whether a snapshot shows a place.
static inline int kistovab_has_place(const uint64_t *snapshot)
{
    return snapshot[KISTOVAB_WORD_HAS_ESTIMATE] == 1;
}

// Where in the film the seat is, in ms, if it shows a place.
static inline double kistovab_place_ms(const uint64_t *snapshot)
{
    return kistovab_number(snapshot[KISTOVAB_WORD_REFERENCE_TIME_MS]);
}

// The words of a candidate, by its place in the list, from 0 on.
static inline const uint64_t *kistovab_candidate_words(const uint64_t *snapshot, size_t place)
{
    return snapshot + KISTOVAB_WORD_CANDIDATES + place * KISTOVAB_CANDIDATE_WORDS;
}

#ifdef __cplusplus
}
#endif

#endif
