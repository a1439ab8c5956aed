/* Calls the library at random: caller CALLS SEED FILE.. Each call takes bytes that are random, or those of a file that were changed, and a room of
 * any length; each list of bytes ends where memory does that may not be touched, and so does the room, of which the rest and the bytes in front
 * must stay. A malloc that refuses stands before the C library's: of some calls it gives 1 KB, of others more, or all. Status 1 at the first call
 * that answers otherwise than rombixela.h says. */
#define _DEFAULT_SOURCE
#include <stdint.h>
#include <stdio.h>
#include <stdlib.h>
#include <string.h>
#include <sys/mman.h>
#include <unistd.h>

#include "rombixela.h"

#define LONGEST (1 << 12)   /* of a list of bytes */
#define SIDES 8             /* bytes in front of the room that must stay */
#define MARK 0xA5

static uint64_t state;

static uint64_t next_number(void)
{
    state ^= state << 13;
    state ^= state >> 7;
    state ^= state << 17;
    return state;
}

static size_t below(size_t bound)
{
    return bound == 0 ? 0 : (size_t)(next_number() % bound);
}

/* ---- a malloc that refuses */

void *__real_malloc(size_t size);
void *__real_realloc(void *old, size_t size);
void __real_free(void *block);
static int is_counted;
static size_t left;
static uint64_t refused;
static long held;   /* blocks that the call has not given back */

/* Whether a call that is counted has no room left for so many bytes; else it has so many fewer. */
static int is_refused(size_t size)
{
    if (!is_counted) {
        return 0;
    }
    if (size > left) {
        refused++;
        return 1;
    }
    left -= size;
    return 0;
}

void *__wrap_malloc(size_t size)
{
    void *block;
    if (is_refused(size)) {
        return NULL;
    }
    block = __real_malloc(size);
    held += is_counted && block != NULL;
    return block;
}

void *__wrap_realloc(void *old, size_t size)
{
    void *block;
    if (is_refused(size)) {
        return NULL;
    }
    block = __real_realloc(old, size);
    held += is_counted && old == NULL && block != NULL;
    return block;
}

void __wrap_free(void *block)
{
    held -= is_counted && block != NULL;
    __real_free(block);
}

/* ---- memory whose end may not be crossed */

typedef struct {
    uint8_t *end;
    size_t length;
} Walled;

static Walled walled(size_t length)
{
    size_t page = (size_t)sysconf(_SC_PAGESIZE), whole = (length + SIDES + page - 1) / page * page;
    uint8_t *begin = (uint8_t *)mmap(NULL, whole + page, PROT_READ | PROT_WRITE, MAP_PRIVATE | MAP_ANONYMOUS, -1, 0);
    Walled made;
    if (begin == (uint8_t *)MAP_FAILED || mprotect(begin + whole, page, PROT_NONE) != 0) {
        perror("mmap");
        exit(2);
    }
    made.end = begin + whole;
    made.length = length;
    return made;
}

/* ---- what is asked */

typedef struct {
    uint8_t *bytes;
    size_t length;
} Seed;

static Seed seeds[256];
static size_t seed_count;

static const char *const SETTINGS[] = {"", "RESOLUTION=600", "PAPER=A4", "PAPER=A3 RESOLUTION=600", "COPIES=2 DUPLEX=ON", "NONE=1", " ", "RESOLUTION=600 "};

static void read_seed(const char *name)
{
    FILE *file = fopen(name, "rb");
    Seed *seed = &seeds[seed_count++ % 256];
    if (file == NULL || (seed->bytes = (uint8_t *)malloc(LONGEST)) == NULL) {
        perror(name);
        exit(2);
    }
    seed->length = fread(seed->bytes, 1, LONGEST, file);
    fclose(file);
}

/* Puts bytes at the end of the memory: random ones, a seed, a front of one, or one that was changed. */
static size_t fill(const Walled *memory, uint8_t **begin)
{
    const Seed *seed = &seeds[below(seed_count)];
    size_t length = next_number() % 4 == 0 ? below(200) : seed->length, at;
    int is_random = next_number() % 4 == 0;
    if (next_number() % 3 == 0) {
        length = below(length + 1);
    }
    if (!is_random && length > seed->length) {
        length = seed->length;
    }
    *begin = memory->end - length;
    for (at = 0; is_random && at < length; at++) {
        (*begin)[at] = (uint8_t)next_number();
    }
    if (!is_random) {
        memcpy(*begin, seed->bytes, length);
        for (at = next_number() % 3 == 0 ? 0 : below(5); at > 0 && length > 0; at--) {
            (*begin)[below(length)] = (uint8_t)next_number();
        }
    }
    return length;
}

static size_t fill_settings(const Walled *memory, uint8_t **begin)
{
    size_t length;
    const char *words;
    if (next_number() % 8 == 0) {
        length = fill(memory, begin);
        return length;
    }
    words = SETTINGS[below(sizeof SETTINGS / sizeof *SETTINGS)];
    length = strlen(words);
    *begin = memory->end - length;
    memcpy(*begin, words, length);
    return length;
}

static RombixelaAnswer call(unsigned which, const uint8_t *first, size_t first_length, const uint8_t *second, size_t second_length, uint8_t *room,
                            size_t room_length)
{
    switch (which) {
    case 0: return rombixela_print(first, first_length, second, second_length, room, room_length);
    case 1: return rombixela_list(first, first_length, second, second_length, room, room_length);
    case 2: return rombixela_trace(first, first_length, second, second_length, room, room_length);
    case 3: return rombixela_disasm(second, second_length, room, room_length);
    case 4: return rombixela_asm(second, second_length, room, room_length);
    case 5: return rombixela_write(first, first_length, second, second_length, room, room_length);
    case 6: return rombixela_session(first_length % 6, first, first_length, second, second_length, room, room_length);
    case 7: return rombixela_sums(first, first_length, second, second_length, room, room_length);
    default: return rombixela_version(room, room_length);
    }
}

static int complain(uint64_t number, unsigned which, const char *what)
{
    printf("call %llu of function %u: %s\n", (unsigned long long)number, which, what);
    return 1;
}

static int one_call(uint64_t number, const Walled *memories, uint64_t *counts)
{
    unsigned which = (unsigned)below(64) == 0 ? 8 : (unsigned)below(8);
    uint8_t *first, *second, *room;
    size_t first_length = which == 5 || which == 6 ? fill(&memories[0], &first) : fill_settings(&memories[0], &first);
    size_t second_length = fill(&memories[1], &second), length, at;
    size_t most = next_number() % 16 == 0 ? memories[2].length : 300;
    RombixelaAnswer answer;
    length = below(most + 1);
    room = memories[2].end - length;
    memset(room - SIDES, MARK, length + SIDES);
    left = next_number() % 3 == 0 ? 1024 : next_number() % 2 == 0 ? below(1 << 22) : (size_t)1 << 40;
    refused = 0;
    held = 0;
    is_counted = 1;
    answer = call(which, first, first_length, second, second_length, room, length);
    is_counted = 0;
    counts[answer.fault < 3 ? answer.fault : 3]++;
    if (answer.put != (answer.bytes < length ? answer.bytes : length)) {
        return complain(number, which, "it put another number of bytes than there are, or is room for");
    }
    for (at = 0; at < SIDES; at++) {
        if (room[at - SIDES] != MARK) {
            return complain(number, which, "it wrote in front of the room");
        }
    }
    for (at = (size_t)answer.put; at < length; at++) {
        if (room[at] != MARK) {
            return complain(number, which, "it wrote behind what it put");
        }
    }
    if ((answer.fault == ROMBIXELA_NO_MEMORY) != (refused > 0)) {
        return complain(number, which, refused ? "memory ran out, and it does not say so" : "it says that memory ran out, and it did not");
    }
    if (held != 0) {
        return complain(number, which, "it keeps memory");
    }
    return 0;
}

int main(int count, char **words)
{
    Walled memories[3];
    uint64_t calls, number, counts[4] = {0, 0, 0, 0};
    int at;
    if (count < 4) {
        fprintf(stderr, "caller CALLS SEED FILE..\n");
        return 2;
    }
    calls = strtoull(words[1], NULL, 10);
    state = strtoull(words[2], NULL, 10) * 2 + 1;
    for (at = 3; at < count; at++) {
        read_seed(words[at]);
    }
    memories[0] = walled(LONGEST);
    memories[1] = walled(LONGEST);
    memories[2] = walled(1 << 21);
    for (number = 0; number < calls; number++) {
        if (one_call(number, memories, counts)) {
            return 1;
        }
    }
    printf("calls=%llu fine=%llu memory=%llu settings=%llu others=%llu\n", (unsigned long long)calls, (unsigned long long)counts[0],
           (unsigned long long)counts[1], (unsigned long long)counts[2], (unsigned long long)counts[3]);
    return 0;
}
