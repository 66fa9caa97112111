/* Plays a script of calls (docs/SCRIPT.md) through the C library and prints the answers as
 * `desktern` does. Lines `records` touch no reel, and the library has no call for them: they are
 * read and not answered, and do not count. */
#define _POSIX_C_SOURCE 200809L
#include "desktern.h"

#include <stdbool.h>
#include <stdio.h>
#include <stdlib.h>
#include <string.h>

/* What is wrong with a line. */
static const char NO_CALL[] = "no such call";
static const char BAD_NUMBER[] = "a decimal number below 4294967296 is due";
static const char BAD_BYTES[] = "bytes are pairs of hexadecimal digits, or - for none";
static const char BAD_STORE[] = "the store is bytes or tiles";
static const char BAD_TRANSFORM[] = "the transform is two-pass or direct";
static const char BAD_KIND[] = "the kind is 0 (INTRA) or 1 (INTER)";
static const char BAD_MACROBLOCKS[] =
    "the number of macroblocks is a decimal number below 4294967296";
static const char TOO_MANY[] = "too many fields";

/* A field of a line. */
typedef struct {
    const char *text;
    size_t length;
} field;

/* What is left of a line. */
typedef struct {
    const char *at;
    const char *end;
} fields;

/* A reel with what the script chose for it, and what was told so far. */
typedef struct {
    desktern_reel *reel;
    uint32_t format;
    uint32_t store;
    uint32_t transform;
    uint8_t *samples;
    unsigned long calls;
    unsigned long refused;
} player;

static void stop(const char *why)
{
    fprintf(stderr, "%s\n", why);
    exit(1);
}

/* Room for so many bytes, one or more. */
static uint8_t *room(size_t count)
{
    uint8_t *bytes = malloc(count);
    if (!bytes)
        stop("memory does not suffice");
    return bytes;
}

static bool is_space(char c)
{
    return c == ' ' || c == '\t' || c == '\r';
}

/* The next field; one of no length where none is left. */
static field next_field(fields *rest)
{
    while (rest->at < rest->end && is_space(*rest->at))
        rest->at++;
    field found = {rest->at, 0};
    while (rest->at < rest->end && !is_space(*rest->at))
        rest->at++;
    found.length = (size_t)(rest->at - found.text);
    return found;
}

static bool is_word(field f, const char *word)
{
    return f.length == strlen(word) && memcmp(f.text, word, f.length) == 0;
}

/* A decimal number of 32 bits. */
static bool read_number(field f, uint32_t *number)
{
    uint64_t value = 0;
    for (size_t i = 0; i < f.length; i++) {
        if (f.text[i] < '0' || f.text[i] > '9')
            return false;
        value = value * 10 + (uint64_t)(f.text[i] - '0');
        if (value > UINT32_MAX)
            return false;
    }
    *number = (uint32_t)value;
    return f.length > 0;
}

static int digit(char c)
{
    if (c >= '0' && c <= '9')
        return c - '0';
    if (c >= 'a' && c <= 'f')
        return c - 'a' + 10;
    if (c >= 'A' && c <= 'F')
        return c - 'A' + 10;
    return -1;
}

/* Pairs of hexadecimal digits, or `-` for no bytes, which lie nowhere: their pointer is null. The
 * caller frees the bytes. */
static bool read_bytes(field f, uint8_t **bytes, size_t *count)
{
    *bytes = NULL;
    *count = 0;
    if (is_word(f, "-"))
        return true;
    if (f.length == 0 || f.length % 2 != 0)
        return false;
    *bytes = room(f.length / 2);
    for (size_t i = 0; i < f.length; i += 2) {
        int high = digit(f.text[i]), low = digit(f.text[i + 1]);
        if (high < 0 || low < 0) {
            free(*bytes);
            return false;
        }
        (*bytes)[(*count)++] = (uint8_t)(high * 16 + low);
    }
    return true;
}

/* So many numbers and no field more; else what is wrong. */
static const char *read_numbers(fields *rest, uint32_t *numbers, int count)
{
    for (int i = 0; i < count; i++)
        if (!read_number(next_field(rest), &numbers[i]))
            return BAD_NUMBER;
    return next_field(rest).length ? TOO_MANY : NULL;
}

/* The sum of bytes that docs/SCRIPT.md names. */
static uint32_t sum_of(const uint8_t *bytes, size_t count)
{
    uint32_t sum = 2166136261u;
    for (size_t i = 0; i < count; i++)
        sum = (sum ^ bytes[i]) * 16777619u;
    return sum;
}

/* The samples of the largest plane that the library knows: the luma of CIF. */
enum { MOST_SAMPLES = 352 * 288 };

static void print_picture(player *p)
{
    printf("picture");
    for (uint32_t plane = 0; plane < 3; plane++) {
        size_t size = desktern_plane(p->reel, plane, p->samples, MOST_SAMPLES);
        printf(" %08x", sum_of(p->samples, size));
    }
    size_t size = desktern_ages(p->reel, p->samples, MOST_SAMPLES);
    printf(" ages %08x\n", sum_of(p->samples, size));
}

/* A line for an answer. What was accepted prints as many of its two numbers as the call has. */
static void print_answer(const char *call, const desktern_answer *answer, int numbers)
{
    static const char *const LAYERS[] = {"picture", "words", "macroblock", "block", "segment"};
    if (answer->outcome == DESKTERN_OUT_OF_TURN) {
        printf("%s out-of-turn\n", call);
    } else if (answer->outcome == DESKTERN_REFUSED) {
        printf("%s no %u %s %llu %llu %u\n", call, answer->number, LAYERS[answer->layer],
               (unsigned long long)answer->word, (unsigned long long)answer->macroblock,
               answer->block);
    } else {
        printf("%s ok", call);
        if (numbers > 0)
            printf(" %llu", (unsigned long long)answer->first);
        if (numbers > 1)
            printf(" %llu", (unsigned long long)answer->second);
        printf("\n");
    }
}

static void tell(player *p, const char *call, const desktern_answer *answer, int numbers)
{
    print_answer(call, answer, numbers);
    p->calls++;
    p->refused += answer->outcome == DESKTERN_REFUSED;
}

/* Gives a reel back. A picture that is still open is closed first, and told but not counted. */
static void leave(player *p)
{
    if (!p->reel)
        return;
    desktern_answer answer;
    desktern_close(p->reel, &answer);
    if (answer.outcome == DESKTERN_ACCEPTED) {
        print_answer("close", &answer, 1);
        print_picture(p);
    }
    desktern_free(p->reel);
}

static const char *play_new(player *p, fields *rest)
{
    uint32_t format;
    const char *wrong = read_numbers(rest, &format, 1);
    if (wrong)
        return wrong;
    desktern_reel *reel = NULL;
    desktern_answer answer;
    desktern_new(format, p->store, p->transform, &reel, &answer);
    if (answer.outcome == DESKTERN_NO_MEMORY)
        stop("memory does not suffice");
    if (answer.outcome == DESKTERN_UNKNOWN_CHOICE)
        stop("the library has no such store or transform");
    if (answer.outcome == DESKTERN_ACCEPTED) {
        leave(p);
        p->reel = reel;
        p->format = format;
    }
    tell(p, "new", &answer, 0);
    return NULL;
}

/* A call on the reel; before the first reel it is out of turn. */
static const desktern_answer OUT_OF_TURN = {.outcome = DESKTERN_OUT_OF_TURN};

static const char *play_open(player *p, fields *rest)
{
    uint32_t n[3];
    const char *wrong = read_numbers(rest, n, 3);
    if (wrong)
        return wrong;
    desktern_answer answer = OUT_OF_TURN;
    if (p->reel)
        desktern_open(p->reel, n[0], n[1], n[2], &answer);
    tell(p, "open", &answer, 1);
    return NULL;
}

static const char *play_deliver(player *p, fields *rest)
{
    uint32_t segment;
    uint8_t *bytes;
    size_t count;
    if (!read_number(next_field(rest), &segment))
        return BAD_NUMBER;
    if (!read_bytes(next_field(rest), &bytes, &count))
        return BAD_BYTES;
    if (next_field(rest).length) {
        free(bytes);
        return TOO_MANY;
    }
    desktern_answer answer = OUT_OF_TURN;
    if (p->reel)
        desktern_deliver(p->reel, segment, bytes, count, &answer);
    free(bytes);
    tell(p, "deliver", &answer, 2);
    return NULL;
}

static const char *play_close(player *p, fields *rest)
{
    if (next_field(rest).length)
        return TOO_MANY;
    desktern_answer answer = OUT_OF_TURN;
    if (p->reel)
        desktern_close(p->reel, &answer);
    tell(p, "close", &answer, 1);
    if (answer.outcome == DESKTERN_ACCEPTED)
        print_picture(p);
    return NULL;
}

static const char *play_sample(player *p, fields *rest)
{
    uint32_t n[3];
    const char *wrong = read_numbers(rest, n, 3);
    if (wrong)
        return wrong;
    desktern_answer answer = OUT_OF_TURN;
    if (p->reel)
        desktern_sample(p->reel, n[0], n[1], n[2], &answer);
    tell(p, "sample", &answer, 1);
    return NULL;
}

static const char *play_age(player *p, fields *rest)
{
    uint32_t n[2];
    const char *wrong = read_numbers(rest, n, 2);
    if (wrong)
        return wrong;
    desktern_answer answer = OUT_OF_TURN;
    if (p->reel)
        desktern_age(p->reel, n[0], n[1], &answer);
    tell(p, "age", &answer, 1);
    return NULL;
}

/* `ages` is refused where `age 0 0` is. */
static const char *play_ages(player *p, fields *rest)
{
    static const size_t COLUMNS[] = {0, 8, 11, 22};
    if (next_field(rest).length)
        return TOO_MANY;
    desktern_answer answer = OUT_OF_TURN;
    if (p->reel)
        desktern_age(p->reel, 0, 0, &answer);
    tell(p, "ages", &answer, 0);
    if (answer.outcome == DESKTERN_ACCEPTED) {
        size_t count = desktern_ages(p->reel, p->samples, MOST_SAMPLES);
        for (size_t i = 0; i < count; i++)
            printf("%u%c", p->samples[i], (i + 1) % COLUMNS[p->format] ? ' ' : '\n');
    }
    return NULL;
}

/* One of two words and no field more. */
static const char *read_choice(fields *rest, const char *zero, const char *one,
                               const char *neither, uint32_t *choice)
{
    field f = next_field(rest);
    if (!is_word(f, zero) && !is_word(f, one))
        return neither;
    if (next_field(rest).length)
        return TOO_MANY;
    *choice = is_word(f, one);
    return NULL;
}

static const char *skip_records(fields *rest)
{
    field kind = next_field(rest);
    uint32_t macroblocks;
    uint8_t *bytes;
    size_t count;
    if (!is_word(kind, "0") && !is_word(kind, "1"))
        return BAD_KIND;
    if (!read_number(next_field(rest), &macroblocks))
        return BAD_MACROBLOCKS;
    if (!read_bytes(next_field(rest), &bytes, &count))
        return BAD_BYTES;
    free(bytes);
    return next_field(rest).length ? TOO_MANY : NULL;
}

/* Plays a line; gives what is wrong with it, if anything is. */
static const char *play_line(player *p, fields rest)
{
    field call = next_field(&rest);
    if (call.length == 0)
        return NULL;
    if (is_word(call, "store"))
        return read_choice(&rest, "bytes", "tiles", BAD_STORE, &p->store);
    if (is_word(call, "transform"))
        return read_choice(&rest, "two-pass", "direct", BAD_TRANSFORM, &p->transform);
    if (is_word(call, "new"))
        return play_new(p, &rest);
    if (is_word(call, "open"))
        return play_open(p, &rest);
    if (is_word(call, "deliver"))
        return play_deliver(p, &rest);
    if (is_word(call, "close"))
        return play_close(p, &rest);
    if (is_word(call, "sample"))
        return play_sample(p, &rest);
    if (is_word(call, "age"))
        return play_age(p, &rest);
    if (is_word(call, "ages"))
        return play_ages(p, &rest);
    if (is_word(call, "records"))
        return skip_records(&rest);
    return NO_CALL;
}

int main(void)
{
    player p = {.samples = room(MOST_SAMPLES)};
    char *line = NULL;
    size_t size = 0;
    ssize_t length;
    for (unsigned long number = 1; (length = getline(&line, &size, stdin)) >= 0; number++) {
        if (length > 0 && line[length - 1] == '\n')
            length--;
        const char *comment = memchr(line, '#', (size_t)length);
        fields rest = {line, comment ? comment : line + length};
        const char *wrong = play_line(&p, rest);
        if (wrong)
            printf("error %lu: %s\n", number, wrong);
    }
    leave(&p);
    printf("done %lu calls, %lu refused\n", p.calls, p.refused);
    free(line);
    free(p.samples);
    return 0;
}
