// What is lent. Each buffer has a range of addresses of its own, of which only the pages that it
// lies in may be touched. It fills them up to their first or their last byte, so that the byte
// before or behind it is forbidden; the rest of its pages is marked, and looked at after the call.
//
// So the shipped library, which no sanitizer instruments, is stopped at a stray access near a
// buffer. A stray access that hits other memory in use is not seen that way, nor is a read from the
// rest of a buffer's pages but in the other run of the call. ../README.md has what each part sees.
#include "fuzz.h"

#include <stdio.h>
#include <stdlib.h>
#include <sys/mman.h>

#ifdef __SANITIZE_ADDRESS__
#include <sanitizer/asan_interface.h>
#else
#define ASAN_POISON_MEMORY_REGION(at, bytes) ((void)(at), (void)(bytes))
#define ASAN_UNPOISON_MEMORY_REGION(at, bytes) ((void)(at), (void)(bytes))
#endif

#ifdef MEMCHECK
#include <valgrind/memcheck.h>
#else
#define VALGRIND_MAKE_MEM_NOACCESS(at, bytes) ((void)(at), (void)(bytes))
#define VALGRIND_MAKE_MEM_UNDEFINED(at, bytes) ((void)(at), (void)(bytes))
#define VALGRIND_MAKE_MEM_DEFINED(at, bytes) ((void)(at), (void)(bytes))
#define VALGRIND_CHECK_MEM_IS_DEFINED(at, bytes) ((void)(at), (void)(bytes), 0)
#define VALGRIND_COUNT_ERRORS 0
#endif

enum { PAGE = 4096, GUARD = 256 * PAGE, MARK = 0xc5 };

struct buffer {
    const char *name;
    size_t size; // of an element
    size_t most; // elements
    unsigned char *room;
    size_t room_bytes;
    unsigned char *pages; // those that may be touched
    size_t page_bytes;
    unsigned char *at;
    size_t count;
    bool is_lent, to_write;
    unsigned char *before; // what it held when it was handed over
    size_t before_room;
};

#define ROOM(frames) (KISTOVAB_BANDS_MOST * ((size_t)(frames) + 1) + TAIL_MOST)

static struct buffer buffers[BUFFERS] = {
    [TIMES] = {.name = "times", .size = 8, .most = TIMES_MOST},
    [ENERGIES] = {.name = "energies", .size = 8, .most = TIMES_MOST + TAIL_MOST},
    [VALUES] = {.name = "values", .size = 4, .most = VALUES_MOST + TAIL_MOST},
    [FINE] = {.name = "fine", .size = 4, .most = ROOM(KISTOVAB_FRAMES_MOST)},
    [COARSE] = {.name = "coarse", .size = 4, .most = ROOM(KISTOVAB_FRAMES_MOST / 4)},
    [FINE_ENERGY] = {.name = "fine_energy", .size = 8, .most = ROOM(KISTOVAB_FRAMES_MOST)},
    [COARSE_ENERGY] = {.name = "coarse_energy", .size = 8, .most = ROOM(KISTOVAB_FRAMES_MOST / 4)},
    [STATE] = {.name = "state", .size = 8, .most = KISTOVAB_STATE_WORDS + TAIL_MOST},
    [SNAPSHOT] = {.name = "snapshot", .size = 8, .most = KISTOVAB_SNAPSHOT_WORDS + TAIL_MOST},
    [WORK32] = {.name = "work32", .size = 4, .most = 2 * ROOM(KISTOVAB_WINDOW_MOST)},
    [WORK64] = {.name = "work64",
                .size = 8,
                .most = 3 * ROOM(KISTOVAB_WINDOW_MOST) + KISTOVAB_FRAMES_MOST},
    [AGE] = {.name = "age", .size = 8, .most = 1},
    [STORE] = {.name = "store", .size = 8, .most = KISTOVAB_STORE_WORDS + TAIL_MOST},
};

static size_t whole_pages(size_t bytes)
{
    return (bytes + PAGE - 1) / PAGE * PAGE;
}

void buffers_begin(void)
{
    for (int i = 0; i < BUFFERS; i++) {
        struct buffer *b = &buffers[i];
        b->room_bytes = whole_pages(b->size * b->most);
        unsigned char *range = mmap(NULL, b->room_bytes + 2 * (size_t)GUARD, PROT_NONE,
                                    MAP_PRIVATE | MAP_ANONYMOUS | MAP_NORESERVE, -1, 0);
        if (range == MAP_FAILED) {
            fail("no memory for %s", b->name);
        }
        b->room = range + GUARD;
        b->pages = b->room;
    }
}

static void protect(struct buffer *b, int how)
{
    if (b->page_bytes > 0 && mprotect(b->pages, b->page_bytes, how) != 0) {
        fail("mprotect of %s failed", b->name);
    }
}

// ---- what lies in a buffer's pages beside it

struct stretch {
    unsigned char *at;
    size_t bytes;
};

static struct stretch beside(const struct buffer *b)
{
    size_t bytes = b->page_bytes - b->count * b->size;
    struct stretch rest = {b->pages, bytes};
    if (b->at == b->pages) {
        rest.at = b->pages + b->count * b->size;
    }
    return rest;
}

static bool is_marked(struct stretch rest)
{
    return rest.bytes == 0 ||
           (rest.at[0] == MARK && memcmp(rest.at, rest.at + 1, rest.bytes - 1) == 0);
}

// ---- lending

// Also what an earlier call was lent is forbidden now.
void begin_lending(void)
{
    for (int i = 0; i < BUFFERS; i++) {
        protect(&buffers[i], PROT_NONE);
        buffers[i].page_bytes = 0;
        buffers[i].is_lent = false;
    }
}

const char *buffer_words(enum buffer_name name)
{
    return buffers[name].name;
}

size_t element_size(enum buffer_name name)
{
    return buffers[name].size;
}

void lend(enum buffer_name name, enum side side, size_t count)
{
    struct buffer *b = &buffers[name];
    size_t bytes = count * b->size;
    if (count > b->most) {
        fail("the fuzzer lends %zu elements of %s, at most %zu", count, b->name, b->most);
    }
    b->is_lent = true;
    b->count = count;
    b->page_bytes = whole_pages(bytes);
    b->pages = side == AT_START ? b->room : b->room + b->room_bytes - b->page_bytes;
    b->at = side == AT_START ? b->pages : b->pages + b->page_bytes - bytes;
    protect(b, PROT_READ | PROT_WRITE);
    VALGRIND_MAKE_MEM_DEFINED(b->pages, b->page_bytes);
    struct stretch rest = beside(b);
    memset(rest.at, MARK, rest.bytes);
    // Where nothing is lent the address must not matter.
    if (count == 0 && one_in(2)) {
        b->at = NULL;
    }
}

void put(enum buffer_name name, const void *content, size_t have, uint64_t filling)
{
    struct buffer *b = &buffers[name];
    size_t content_bytes = (have < b->count ? have : b->count) * b->size;
    size_t left = b->count * b->size - content_bytes;
    if (content_bytes > 0) {
        memcpy(b->at, content, content_bytes);
    }
    if (left == 0) {
        return;
    }
    unsigned char *from = b->at + content_bytes;
    memcpy(from, &filling, b->size);
    // Each round copies all that is there.
    for (size_t there = b->size; there < left; there *= 2) {
        memcpy(from + there, from, there < left - there ? there : left - there);
    }
}

void hand_over(enum buffer_name name, bool to_write)
{
    struct buffer *b = &buffers[name];
    size_t bytes = b->count * b->size;
    struct stretch rest = beside(b);
    b->to_write = to_write;
    if (to_write && bytes > 0) {
        if (b->before_room < bytes) {
            free(b->before);
            b->before = malloc(bytes);
            b->before_room = bytes;
        }
        memcpy(b->before, b->at, bytes);
    }
    if (!to_write) {
        protect(b, PROT_READ);
    }
    // For an instrumented library. AddressSanitizer can't forbid the half of a word before a float
    // that begins in its middle; the other run of the call does.
    ASAN_POISON_MEMORY_REGION(rest.at, rest.bytes);
    VALGRIND_MAKE_MEM_NOACCESS(rest.at, rest.bytes);
}

void forget(enum buffer_name name, size_t from)
{
    struct buffer *b = &buffers[name];
    if (from < b->count) {
        VALGRIND_MAKE_MEM_UNDEFINED(b->at + from * b->size, (b->count - from) * b->size);
    }
}

void *lent(enum buffer_name name)
{
    return buffers[name].at;
}

size_t lent_count(enum buffer_name name)
{
    return buffers[name].count;
}

// ---- after the call

void take_back(enum buffer_name name)
{
    struct buffer *b = &buffers[name];
    struct stretch rest = beside(b);
    ASAN_UNPOISON_MEMORY_REGION(rest.at, rest.bytes);
    VALGRIND_MAKE_MEM_DEFINED(rest.at, rest.bytes);
    if (!is_marked(rest)) {
        fail("the library wrote beside %s, which lies at the %s of its pages", b->name,
             b->at == b->pages ? "start" : "end");
    }
}

void must_be_defined(enum buffer_name name, size_t count)
{
    struct buffer *b = &buffers[name];
    if (count > 0 && VALGRIND_CHECK_MEM_IS_DEFINED(b->at, count * b->size) != 0) {
        fail("what the library wrote into %s depends on what a buffer held before", b->name);
    }
}

// Memcheck has printed what it found.
void must_be_silent(void)
{
    if (VALGRIND_COUNT_ERRORS > 0) {
        fail("memcheck reports it");
    }
}

void must_keep(enum buffer_name name, size_t from, const char *why)
{
    must_keep_between(name, from, buffers[name].count, why);
}

void must_keep_between(enum buffer_name name, size_t from, size_t to, const char *why)
{
    struct buffer *b = &buffers[name];
    if (from >= to) {
        return;
    }
    size_t start = from * b->size, end = to * b->size;
    VALGRIND_MAKE_MEM_DEFINED(b->at + start, end - start);
    if (memcmp(b->at + start, b->before + start, end - start) == 0) {
        return;
    }
    while (b->at[start] == b->before[start]) {
        start++;
    }
    fail("%s, but the library changed %s[%zu] of %zu", why, b->name, start / b->size, b->count);
}

// ---- in words

bool describe_address(const void *address, char *text, size_t room)
{
    const unsigned char *at = address;
    for (int i = 0; i < BUFFERS; i++) {
        const struct buffer *b = &buffers[i];
        if (at < b->room - GUARD || at >= b->room + b->room_bytes + GUARD) {
            continue;
        }
        // Where the NULL pointer was lent, the address is no element's.
        long bytes = b->at ? (long)(at - b->at) : 0;
        long size = (long)b->size;
        long element = bytes < 0 ? (bytes - size + 1) / size : bytes / size;
        snprintf(text, room, "%s[%ld], of %zu elements%s", b->name, element, b->count,
                 !b->is_lent   ? " in an earlier call"
                 : b->to_write ? ""
                               : " lent only to be read");
        return true;
    }
    return false;
}

void describe_buffers(void)
{
    for (int i = 0; i < BUFFERS; i++) {
        const struct buffer *b = &buffers[i];
        if (!b->is_lent) {
            continue;
        }
        printf("    %-13s %8zu elements, %s\n", b->name, b->count,
               !b->at ? "NULL" : b->at == b->pages ? "at the start" : "at the end");
    }
}
