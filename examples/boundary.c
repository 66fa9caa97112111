/* Tries what no proof says of the C library: that the memory which it took is given back, and that
 * no call but desktern_new takes any; and what the header promises of null pointers, of choices
 * that the library does not know, and of memory that does not suffice.
 *
 * It is linked with --wrap=malloc, --wrap=realloc and --wrap=free, so that the library's calls of
 * these come to the functions below. Its arguments are scripts (docs/SCRIPT.md): it plays their
 * calls. It prints each check that fails with its line, and ends with 1 then. */
#include "desktern.h"

#include <ctype.h>
#include <inttypes.h>
#include <stdio.h>
#include <stdlib.h>
#include <string.h>

static unsigned long checks, failed;

static void check(int holds, const char *what, int line)
{
    checks++;
    if (holds)
        return;
    failed++;
    printf("examples/boundary.c:%d: does not hold: %s\n", line, what);
}

#define CHECK(holds) check(holds, #holds, __LINE__)

/* Allocation, counted. */

enum { MOST_BLOCKS = 64 };
static void *blocks[MOST_BLOCKS]; /* those that are out */
static size_t out;                /* how many they are */
static size_t asked;              /* calls of malloc, realloc and free */
static size_t until_failing;      /* the allocation that fails, from 1 on; 0 for none */

void *__real_malloc(size_t size);
void *__real_realloc(void *block, size_t size);
void __real_free(void *block);
void *__wrap_malloc(size_t size);
void *__wrap_realloc(void *block, size_t size);
void __wrap_free(void *block);

/* Takes a block from the list. One that is not there was not given out, or was given back. */
static void strike(void *block)
{
    for (size_t i = 0; i < out; i++) {
        if (blocks[i] == block) {
            blocks[i] = blocks[--out];
            return;
        }
    }
    check(0, "the block is out", __LINE__);
}

static void *list(void *block)
{
    if (!block || out == MOST_BLOCKS) {
        puts(block ? "boundary: more blocks are out than it counts" : "boundary: no memory");
        exit(1);
    }
    blocks[out++] = block;
    return block;
}

static int fails(void)
{
    asked++;
    return until_failing && --until_failing == 0;
}

void *__wrap_malloc(size_t size)
{
    return fails() ? NULL : list(__real_malloc(size));
}

void *__wrap_realloc(void *block, size_t size)
{
    if (fails())
        return NULL;
    if (block)
        strike(block);
    return list(__real_realloc(block, size));
}

void __wrap_free(void *block)
{
    asked++;
    if (block)
        strike(block);
    __real_free(block);
}

/* A statement in which nothing is allocated and nothing freed. */
#define QUIET(statement)        \
    do {                        \
        size_t before = asked;  \
        statement;              \
        CHECK(asked == before); \
    } while (0)

/* Answers. */

/* One that no call gives, so that a field which is not written shows. */
static desktern_answer unwritten(void)
{
    desktern_answer answer;
    memset(&answer, 0xff, sizeof answer);
    return answer;
}

static int equal(desktern_answer a, desktern_answer b)
{
    return a.outcome == b.outcome && a.number == b.number && a.layer == b.layer
        && a.block == b.block && a.word == b.word && a.macroblock == b.macroblock
        && a.first == b.first && a.second == b.second;
}

static desktern_answer plain(uint32_t outcome)
{
    return (desktern_answer){.outcome = outcome};
}

static desktern_answer accepted(uint64_t first, uint64_t second)
{
    return (desktern_answer){.first = first, .second = second};
}

/* A refusal at no word of a delivery. */
static desktern_answer refused(uint32_t number)
{
    return (desktern_answer){.outcome = DESKTERN_REFUSED, .number = number, .block = 6};
}

static desktern_answer new(uint32_t format, uint32_t store, uint32_t transform,
                           desktern_reel **reel)
{
    desktern_answer answer = unwritten();
    desktern_new(format, store, transform, reel, &answer);
    return answer;
}

static desktern_answer open(desktern_reel *reel, uint32_t kind, uint32_t rounding,
                            uint32_t layout)
{
    desktern_answer answer = unwritten();
    QUIET(desktern_open(reel, kind, rounding, layout, &answer));
    return answer;
}

static desktern_answer deliver(desktern_reel *reel, uint32_t segment, const uint8_t *bytes,
                               size_t length)
{
    desktern_answer answer = unwritten();
    QUIET(desktern_deliver(reel, segment, bytes, length, &answer));
    return answer;
}

static desktern_answer close(desktern_reel *reel)
{
    desktern_answer answer = unwritten();
    QUIET(desktern_close(reel, &answer));
    return answer;
}

static desktern_answer sample(desktern_reel *reel, uint32_t plane, uint32_t across, uint32_t down)
{
    desktern_answer answer = unwritten();
    QUIET(desktern_sample(reel, plane, across, down, &answer));
    return answer;
}

static desktern_answer age(desktern_reel *reel, uint32_t column, uint32_t row)
{
    desktern_answer answer = unwritten();
    QUIET(desktern_age(reel, column, row, &answer));
    return answer;
}

static size_t plane(desktern_reel *reel, uint32_t number, uint8_t *samples, size_t length)
{
    size_t size;
    QUIET(size = desktern_plane(reel, number, samples, length));
    return size;
}

static size_t ages(desktern_reel *reel, uint8_t *to, size_t length)
{
    size_t size;
    QUIET(size = desktern_ages(reel, to, length));
    return size;
}

/* Stores and transforms, of which the first two are known; and formats, of which none is. */
static const uint32_t CHOICES[] = {0, 1, 2, 7, UINT32_MAX};
static const uint32_t NO_FORMATS[] = {0, 4, UINT32_MAX};

#define EACH(i, of) (size_t i = 0; i < sizeof(of) / sizeof *(of); i++)

static const size_t MACROBLOCKS[] = {0, 8 * 6, 11 * 9, 22 * 18};
enum { FORMATS = 3, MOST_MACROBLOCKS = 22 * 18, MOST_SAMPLES = 352 * 288, WORDS = 7, BLOCKS = 8 };

/* Something that is no reel, and is only looked at. */
static desktern_reel *const NO_REEL = (desktern_reel *)&failed;

static desktern_reel *begin(uint32_t format, uint32_t store, uint32_t transform)
{
    desktern_reel *reel = NO_REEL;
    CHECK(equal(new(format, store, transform, &reel), accepted(0, 0)));
    CHECK(reel != NO_REEL && out == BLOCKS);
    return reel;
}

static void end(desktern_reel *reel)
{
    desktern_free(reel);
    CHECK(out == 0);
}

/* The records of a picture in one segment: INTRA macroblocks of a head and six DC words each. */
static uint8_t flat[MOST_MACROBLOCKS * WORDS * 4];

static void fill_flat(void)
{
    static const uint8_t MACROBLOCK[WORDS * 4] = {
        0x19, 0, 0, 0,    0x30, 0, 0, 0x64, 0x32, 0, 0, 0x64, 0x34, 0, 0, 0x64,
        0x36, 0, 0, 0x64, 0x38, 0, 0, 0x6e, 0x3a, 0, 0, 0x6e,
    };
    for (size_t i = 0; i < sizeof flat; i++)
        flat[i] = MACROBLOCK[i % sizeof MACROBLOCK];
}

/* A reel is given back from each state, and its blocks with it. */
static void gives_back(uint32_t format, uint32_t store, uint32_t transform)
{
    size_t macroblocks = MACROBLOCKS[format], length = macroblocks * WORDS * 4;

    end(begin(format, store, transform));

    desktern_reel *reel = begin(format, store, transform);
    CHECK(equal(open(reel, 0, 0, 1), accepted(1, 0)));
    end(reel);

    reel = begin(format, store, transform);
    CHECK(equal(open(reel, 0, 0, 3), accepted(2, 0)));
    CHECK(equal(deliver(reel, 2, flat, length), refused(7)));
    CHECK(deliver(reel, 1, flat, length).outcome == DESKTERN_REFUSED);
    end(reel);

    reel = begin(format, store, transform);
    CHECK(equal(open(reel, 0, 0, 1), accepted(1, 0)));
    CHECK(deliver(reel, 0, flat, length - 1).number == 9);
    CHECK(equal(deliver(reel, 0, flat, length), accepted(macroblocks * WORDS, macroblocks)));
    CHECK(equal(deliver(reel, 0, flat, length), refused(8)));
    end(reel);

    reel = begin(format, store, transform);
    CHECK(equal(open(reel, 0, 0, 1), accepted(1, 0)));
    CHECK(equal(deliver(reel, 0, flat, length), accepted(macroblocks * WORDS, macroblocks)));
    CHECK(equal(close(reel), accepted(1, 0)));
    CHECK(equal(open(reel, 1, 0, 1), accepted(1, 0)));
    CHECK(equal(close(reel), accepted(0, 0)));
    CHECK(equal(sample(reel, 0, 0, 0), accepted(100, 0)));
    CHECK(equal(age(reel, 0, 0), accepted(1, 0)));
    end(reel);
}

/* Each allocation fails in turn, and then none. */
static void runs_out(uint32_t format, uint32_t store, uint32_t transform)
{
    for (size_t nth = 1; nth <= BLOCKS; nth++) {
        desktern_reel *reel = NO_REEL;
        until_failing = nth;
        CHECK(equal(new(format, store, transform, &reel), plain(DESKTERN_NO_MEMORY)));
        CHECK(until_failing == 0 && reel == NO_REEL && out == 0);
    }
    until_failing = BLOCKS + 1;
    desktern_reel *reel = begin(format, store, transform);
    CHECK(until_failing == 1);
    until_failing = 0;
    end(reel);
}

/* What desktern_new does not make, it asks no memory for, and it asks for the format first. */
static void makes_nothing(uint32_t format, uint32_t store, uint32_t transform, desktern_answer due)
{
    desktern_reel *reel = NO_REEL;
    desktern_answer answer;
    QUIET(answer = new(format, store, transform, &reel));
    CHECK(equal(answer, due) && reel == NO_REEL);
    if (reel != NO_REEL)
        end(reel);
}

static void begins(void)
{
    for EACH(s, CHOICES) {
        for EACH(t, CHOICES) {
            uint32_t store = CHOICES[s], transform = CHOICES[t];
            for EACH(f, NO_FORMATS)
                makes_nothing(NO_FORMATS[f], store, transform, refused(1));
            for (uint32_t format = 1; format <= FORMATS; format++) {
                if (store < 2 && transform < 2) {
                    gives_back(format, store, transform);
                    runs_out(format, store, transform);
                } else {
                    makes_nothing(format, store, transform, plain(DESKTERN_UNKNOWN_CHOICE));
                }
            }
        }
    }
}

/* Null where nothing lies, with the answers that any other pointer gets. */
static void delivers_null(desktern_reel *reel, uint32_t segment)
{
    CHECK(equal(deliver(reel, segment, NULL, 0), deliver(reel, segment, flat, 0)));
}

static void sizes_by_null(desktern_reel *reel, uint32_t format)
{
    size_t luma = MACROBLOCKS[format] * 16 * 16;
    CHECK(plane(reel, 0, NULL, 0) == luma);
    CHECK(plane(reel, 1, NULL, 0) == luma / 4 && plane(reel, 2, NULL, 0) == luma / 4);
    CHECK(plane(reel, 3, NULL, 0) == 0 && plane(reel, UINT32_MAX, NULL, 0) == 0);
    CHECK(ages(reel, NULL, 0) == MACROBLOCKS[format]);
}

static void takes_null(uint32_t format, uint32_t store)
{
    desktern_reel *reel = begin(format, store, 0);
    sizes_by_null(reel, format);
    CHECK(equal(deliver(reel, 0, NULL, 0), plain(DESKTERN_OUT_OF_TURN)));
    open(reel, 0, 0, 3);
    sizes_by_null(reel, format);
    delivers_null(reel, 0);
    delivers_null(reel, 1);
    delivers_null(reel, 2);
    desktern_answer missing = {.outcome = DESKTERN_REFUSED, .number = 10, .layer = 1, .block = 6};
    CHECK(equal(deliver(reel, 0, NULL, 0), missing));
    close(reel);
    sizes_by_null(reel, format);
    end(reel);
    QUIET(desktern_free(NULL));
}

/* A copy writes what it says, and no byte beside it; where there is too little room, none. */
static void copies(uint32_t format, uint32_t store)
{
    static uint8_t room[MOST_SAMPLES + 1], untouched[MOST_SAMPLES + 1];
    memset(untouched, 0xa5, sizeof untouched);
    desktern_reel *reel = begin(format, store, 0);
    open(reel, 0, 0, 1);
    deliver(reel, 0, flat, MACROBLOCKS[format] * WORDS * 4);
    close(reel);
    for (uint32_t number = 0; number <= 3; number++) {
        /* the ages come last */
        size_t size = number < 3 ? plane(reel, number, NULL, 0) : ages(reel, NULL, 0);
        for (size_t length = size - 1; length <= size + 1; length++) {
            memcpy(room, untouched, sizeof room);
            size_t told = number < 3 ? plane(reel, number, room, length) : ages(reel, room, length);
            size_t written = length < size ? 0 : size;
            uint8_t due = number == 0 ? 100 : number < 3 ? 110 : 0;
            CHECK(told == size);
            CHECK(written == 0 || (room[0] == due && memcmp(room, room + 1, written - 1) == 0));
            CHECK(memcmp(room + written, untouched, sizeof room - written) == 0);
        }
    }
    end(reel);
}

/* Plays the calls of a script, and copies each finished picture. */
static void plays(const char *name, uint32_t store, uint32_t transform)
{
    static char line[1 << 17];
    static uint8_t bytes[1 << 16], room[MOST_SAMPLES];
    FILE *script = fopen(name, "r");
    CHECK(script != NULL);
    if (!script)
        return;
    desktern_reel *reel = NULL;
    uint32_t n[3];
    int at;
    while (fgets(line, sizeof line, script)) {
        if (sscanf(line, "new %" SCNu32, n) == 1) {
            desktern_reel *next = NULL;
            size_t before = out;
            desktern_answer answer = new(n[0], store, transform, &next);
            CHECK(out == before + (answer.outcome == DESKTERN_ACCEPTED ? BLOCKS : 0));
            if (answer.outcome == DESKTERN_ACCEPTED) {
                desktern_free(reel);
                reel = next;
                CHECK(out == BLOCKS);
            }
        } else if (!reel) {
            continue;
        } else if (sscanf(line, "open %" SCNu32 "%" SCNu32 "%" SCNu32, n, n + 1, n + 2) == 3) {
            open(reel, n[0], n[1], n[2]);
        } else if (sscanf(line, "deliver %" SCNu32 " %n", n, &at) == 1) {
            size_t length = 0;
            for (char pair[3] = ""; isxdigit((unsigned char)line[at]); at += 2) {
                memcpy(pair, line + at, 2);
                bytes[length++] = (uint8_t)strtoul(pair, NULL, 16);
            }
            deliver(reel, n[0], bytes, length);
        } else if (strncmp(line, "close", 5) == 0) {
            close(reel);
            for (uint32_t number = 0; number < 3; number++)
                plane(reel, number, room, sizeof room);
            ages(reel, room, sizeof room);
        } else if (sscanf(line, "sample %" SCNu32 "%" SCNu32 "%" SCNu32, n, n + 1, n + 2) == 3) {
            sample(reel, n[0], n[1], n[2]);
        } else if (sscanf(line, "age %" SCNu32 "%" SCNu32, n, n + 1) == 2) {
            age(reel, n[0], n[1]);
        }
    }
    fclose(script);
    end(reel);
}

int main(int count, char **names)
{
    fill_flat();
    begins();
    for (uint32_t store = 0; store < 2; store++) {
        for (uint32_t format = 1; format <= FORMATS; format++) {
            takes_null(format, store);
            copies(format, store);
        }
        for (uint32_t transform = 0; transform < 2; transform++)
            for (int i = 1; i < count; i++)
                plays(names[i], store, transform);
    }
    if (failed) {
        printf("boundary: %lu of %lu checks failed\n", failed, checks);
        return 1;
    }
    printf("boundary: %lu checks passed\n", checks);
    return 0;
}
