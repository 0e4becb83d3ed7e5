// Runs cases by their numbers until the time is over, and prints what occurred.
//   fuzz PART [--seed S] [--seconds N | --cases N | --case N]
// PART is the word by which compare/fuzz/run finds this build again.
#include "fuzz.h"

#include <stdio.h>
#include <stdlib.h>
#include <time.h>
#include <unistd.h>

// A case that takes longer does not end. However short the time, so many cases are run that all
// that has to occur does.
enum { SECONDS_A_CASE = 300, CASES_LEAST = 256 };

static double seconds_since(const struct timespec *start)
{
    struct timespec end;
    clock_gettime(CLOCK_MONOTONIC, &end);
    return (double)(end.tv_sec - start->tv_sec) + 1e-9 * (double)(end.tv_nsec - start->tv_nsec);
}

static uint64_t number_in(const char *word)
{
    char *end;
    uint64_t number = strtoull(word, &end, 10);
    if (*word == '\0' || *end != '\0') {
        printf("fuzz: %s is not a whole number\n", word);
        exit(2);
    }
    return number;
}

struct limits {
    uint64_t first, cases;
    double seconds;
};

static bool is_over(const struct limits *limits, uint64_t done, const struct timespec *start)
{
    return done >= limits->cases ||
           (done >= CASES_LEAST && seconds_since(start) >= limits->seconds);
}

static void read_options(int count, char **words, struct limits *limits)
{
    now.part = count > 1 ? words[1] : "shipped";
    for (int i = 2; i < count; i += 2) {
        uint64_t number = i + 1 < count ? number_in(words[i + 1]) : 0;
        if (i + 1 == count) {
            printf("fuzz: %s wants a number\n", words[i]);
            exit(2);
        } else if (strcmp(words[i], "--seed") == 0) {
            now.seed = number;
        } else if (strcmp(words[i], "--seconds") == 0) {
            limits->seconds = (double)number;
        } else if (strcmp(words[i], "--cases") == 0) {
            limits->cases = number;
        } else if (strcmp(words[i], "--case") == 0) {
            limits->first = number;
            limits->cases = 1;
            now.told = true;
        } else {
            printf("fuzz: %s is no option\n", words[i]);
            exit(2);
        }
    }
}

int main(int count, char **words)
{
    struct limits limits = {.first = 0, .cases = UINT64_MAX, .seconds = 1e9};
    struct timespec start;
    uint64_t done = 0, calls = 0;
    read_options(count, words, &limits);
    clock_gettime(CLOCK_MONOTONIC, &start);
    failing_begin();
    buffers_begin();
    for (; !is_over(&limits, done, &start); done++) {
        now.number = limits.first + done;
        now.calls = 0;
        alarm(SECONDS_A_CASE);
        run_case(now.number);
        calls += now.calls;
    }
    printf("fuzz: %s, seed %llu: %llu cases, %llu calls, each made twice\n", now.part,
           (unsigned long long)now.seed, (unsigned long long)done, (unsigned long long)calls);
    print_counts();
    if (!now.told) {
        must_have_occurred();
    }
    return 0;
}
