/*
 * What include/flockdrift.h says, tried from C: the layout of the answers, sizes at their limits, null pointers, the
 * order of the refusals, what a refusal leaves, what an accepted call leaves behind the image, the figures sheet, the
 * counts, load and save, names and the two forms, option 118 with a call, what a book holds, options with no book, the
 * struct of a book, and several threads. Prints a line for each difference.
 */
#define _POSIX_C_SOURCE 200809L

#include "flockdrift.h"

#include <pthread.h>
#include <stdio.h>
#include <stdlib.h>
#include <string.h>

enum {
    FULL = FLOCKDRIFT_IMAGE_CAPACITY,
    FIRST_FULL = FLOCKDRIFT_FIRST_FORM_CAPACITY,
    SECOND = FLOCKDRIFT_SECOND_FORM,
    RECORD = 44, /* of a lease; in the first form 19 */
    /* images of two pools and so many leases */
    NONE = 31,
    ONE = NONE + RECORD,
    TWO = ONE + RECORD,
    THREE = TWO + RECORD,
    FOUR = THREE + RECORD,
    BUFFER = FULL + 64, /* the last bytes stand outside of every image */
    FIGURES = FLOCKDRIFT_FIGURES_CAPACITY,
    ROW = FLOCKDRIFT_FIGURES_ROW,
    LENGTHS = FLOCKDRIFT_COUNTS_LENGTHS,
    COUNTS = FLOCKDRIFT_COUNTS_ROWS * LENGTHS,
    REPLY = FLOCKDRIFT_REPLY_CAPACITY,
    SELECTED = FLOCKDRIFT_SELECTED_REPLY_CAPACITY,
    THREADS = 4,
    STACK = 128 * 1024 /* what the header says of a call's stack, and the rest for the thread itself */
};

/* What the buffers hold where no call has written. */
enum {
    IMAGE_FILL = 0xa5,
    FIGURES_FILL = 0x96,
    COUNTS_FILL = 0xc3,
    REPLY_FILL = 0x5a,
    SAVED_FILL = 0x69,
    TEXT_FILL = 0x3c
};

static int differences;

/* Each trial names the line that it stands on. */
static void same(int line, const char *what, unsigned long got, unsigned long wanted)
{
    if (got != wanted) {
        printf("header.c:%d: %s is %lu and not %lu\n", line, what, got, wanted);
        differences++;
    }
}

#define SAME(what, got, wanted) same(__LINE__, what, (unsigned long)(got), (unsigned long)(wanted))
#define REFUSED(s, a, number, place) refused(__LINE__, s, a, number, place)
#define ACCEPTED(s, a, bytes, count, image_bytes) accepted(__LINE__, s, a, bytes, count, image_bytes)
#define READ(s, a, bytes, count) accepted_reading(__LINE__, s, a, bytes, count)
#define FILLED(from, n, value) filled(__LINE__, from, n, value)
#define HEAD(a, number, term, length, last, pools, leases) \
    head_is(__LINE__, a, (const uint32_t[6]){number, term, length, last, pools, leases})
#define POOL(a, number, network, length) pool_is(__LINE__, a, (const uint32_t[3]){number, network, length})
#define LEASE(a, number, network, length, client, state, h, d, expires) \
    lease_is(__LINE__, a, (const uint32_t[8]){number, network, length, client, state, h, d, expires})
#define NAME(a, octets, n) name_is(__LINE__, a, octets, n)
#define FIGURES_OF(a, network, length, high_water, in_use, unusable) \
    figures_are(__LINE__, a, (const uint32_t[5]){network, length, high_water, in_use, unusable})
#define ROWS(s, rows, n) rows_are(__LINE__, s, rows, n)
#define SELECTION(a, number, address) selection_is(__LINE__, a, (const uint32_t[2]){number, address})

/* All that is lent to the calls. Where a function has `s`, they get s[0], and s[1] is as s[0] was before the call. */
struct lent {
    uint8_t image[BUFFER];
    size_t bytes;
    uint8_t figures[FIGURES + 8]; /* the last bytes stand outside of the sheet */
    uint16_t counts[COUNTS + 8];  /* the last stand outside of the counts */
    uint8_t reply[SELECTED + 8];
    uint8_t saved[BUFFER];
    char text[FLOCKDRIFT_TEXT_CAPACITY];
};

#define NO 0xff, 0xff /* a figure that was not told */
#define NO_118 0, NULL, 0 /* a call without option 118 */

static const uint32_t network[2] = {0x0a000800, 0x0a000100};
static const uint8_t length[2] = {26, 24};

static const uint8_t ask_26[] = {0xdc, 5, 0, 1, 2, 0, 26};
static const uint8_t ask_two[] = {0xdc, 9, 0, 1, 2, 0, 25, 1, 2, 0, 28};
static const uint8_t ask_25[] = {0xdc, 5, 0, 1, 2, 0, 25};
static const uint8_t ask_8[] = {0xdc, 5, 0, 1, 2, 0, 8};
static const uint8_t ask_31[] = {0xdc, 5, 0, 1, 2, 0, 31};
static const uint8_t list_all[] = {0xdc, 5, 0, 1, 2, 2, 0};
static const uint8_t name_26[] = {0xdc, 11, 0, 2, 8, 0, 10, 0, 8, 0, 26, 0, 0};
static const uint8_t tell_26[] = {0xdc, 17, 0, 2, 14, 0, 10, 0, 8, 0, 26, 0, 6, 1, 10, NO, 0, 2};
static const uint8_t name_and_bad[] = {0xdc, 13, 0, 2, 8, 0, 10, 0, 8, 0, 26, 0, 0, 1, 0};
/* a network bit past its prefix, before a second entry that is cut, and before a suboption whose Len is bad */
static const uint8_t network_and_cut[] = {0xdc, 12, 0, 2, 9, 0, 10, 0, 8, 1, 26, 0, 0, 10};
static const uint8_t network_and_bad[] = {0xdc, 13, 0, 2, 8, 0, 10, 0, 8, 1, 26, 0, 0, 1, 0};
static const uint8_t name_of_zero[] = {0xdc, 8, 0, 1, 2, 0, 26, 3, 1, 0};
/* a /26, the name `west hall` before it and `x` after it */
static const uint8_t ask_west[] = {0xdc, 19, 0, 3, 9, 'w', 'e', 's', 't', ' ', 'h', 'a', 'l', 'l', 1, 2, 0, 26, 3, 1, 'x'};

/* What stands in s[0] is what the next refusal has to leave. */
static void keep(struct lent *s)
{
    memcpy(&s[1], &s[0], sizeof s[0]);
}

static void fill(struct lent *s)
{
    memset(s, 0, sizeof *s);
    memset(s->image, IMAGE_FILL, sizeof s->image);
    memset(s->figures, FIGURES_FILL, sizeof s->figures);
    memset(s->counts, COUNTS_FILL, sizeof s->counts);
    memset(s->reply, REPLY_FILL, sizeof s->reply);
    memset(s->saved, SAVED_FILL, sizeof s->saved);
    memset(s->text, TEXT_FILL, sizeof s->text);
    s->bytes = 77; /* nothing that open and load look at */
    keep(s);
}

static void set_bytes(struct lent *s, size_t bytes)
{
    s->bytes = bytes;
    keep(s);
}

/* A refusal has no counts, and nothing that was lent has changed. */
static void refused(int line, struct lent *s, struct flockdrift_answer a, uint32_t number, uint32_t place)
{
    same(line, "number", a.number, number);
    same(line, "place", a.place, place);
    same(line, "bytes", a.bytes, 0);
    same(line, "count", a.count, 0);
    same(line, "what a refusal changed", memcmp(&s[0], &s[1], sizeof s[0]) != 0, 0);
}

static void accepted(int line, struct lent *s, struct flockdrift_answer a, size_t bytes, uint32_t count,
                     size_t image_bytes)
{
    same(line, "number", a.number, 0);
    same(line, "place", a.place, 0);
    same(line, "bytes", a.bytes, bytes);
    same(line, "count", a.count, count);
    same(line, "the image's length", s->bytes, image_bytes);
    same(line, "what changed past every image", memcmp(s->image + FULL, s[1].image + FULL, BUFFER - FULL) != 0, 0);
    same(line, "what changed past the figures", memcmp(s->figures + FIGURES, s[1].figures + FIGURES, 8) != 0, 0);
    same(line, "what changed past the counts", memcmp(s->counts + COUNTS, s[1].counts + COUNTS, 16) != 0, 0);
    keep(s);
}

/* For list, save, whole and sheet. */
static void accepted_reading(int line, struct lent *s, struct flockdrift_answer a, size_t bytes, uint32_t count)
{
    same(line, "what a call that reads changed", memcmp(s->image, s[1].image, BUFFER) != 0, 0);
    same(line, "figures that a call that reads changed", memcmp(s->figures, s[1].figures, FIGURES) != 0, 0);
    same(line, "counts that a call that reads changed", memcmp(s->counts, s[1].counts, sizeof s->counts) != 0, 0);
    accepted(line, s, a, bytes, count, s[1].bytes);
}

static void filled(int line, const void *from, size_t n, uint8_t value)
{
    size_t i;

    for (i = 0; i < n; i++)
        same(line, "a byte", ((const uint8_t *)from)[i], value);
}

/* The fields of an answer, in their order. */
static void same_fields(int line, const void *answer, size_t n, const uint32_t *wanted)
{
    uint32_t field[8];
    size_t i;

    memcpy(field, answer, n * sizeof field[0]);
    for (i = 0; i < n; i++)
        same(line, "a field", field[i], wanted[i]);
}

static void head_is(int line, struct flockdrift_head_answer a, const uint32_t *wanted)
{
    same_fields(line, &a, 6, wanted);
}

static void pool_is(int line, struct flockdrift_pool_answer a, const uint32_t *wanted)
{
    same_fields(line, &a, 3, wanted);
}

/* Of a lease without a name, or of a refusal. */
static void lease_is(int line, struct flockdrift_lease_answer a, const uint32_t *wanted)
{
    same_fields(line, &a, 8, wanted);
    same(line, "the length of no name", a.name_bytes, 0);
    filled(line, a.name, sizeof a.name, 0);
}

static void name_is(int line, struct flockdrift_lease_answer a, const void *octets, size_t n)
{
    same(line, "number", a.number, 0);
    same(line, "the name's length", a.name_bytes, n);
    same(line, "whether the name differs", memcmp(a.name, octets, n) != 0, 0);
    filled(line, a.name + n, sizeof a.name - n, 0);
}

static void figures_are(int line, struct flockdrift_figures a, const uint32_t *wanted)
{
    same_fields(line, &a, 5, wanted);
}

/* The sheet has these rows, and after them only such of places without a lease. */
static void rows_are(int line, const struct lent *s, const uint8_t *rows, size_t n)
{
    static const uint8_t none[ROW] = {0, 0, 0, 0, 0, 255, 255, 255, 255, 255, 255};
    size_t i;

    for (i = 0; i < FIGURES / ROW; i++)
        same(line, "whether a row differs", memcmp(s->figures + i * ROW, i < n ? rows + i * ROW : none, ROW) != 0, 0);
}

static void selection_is(int line, struct flockdrift_selection_answer a, const uint32_t *wanted)
{
    same_fields(line, &a, 2, wanted);
}

/* THE CALLS, each with buffers that are large enough */

static struct flockdrift_answer open_at(struct lent *s, size_t capacity)
{
    return flockdrift_open(s->image, capacity, &s->bytes, s->figures, FIGURES, s->counts, network, 2, length, 2,
                           3600, 28, 1000);
}

static struct flockdrift_answer ask(struct lent *s, uint32_t client, uint32_t now, const uint8_t *option, size_t n)
{
    return flockdrift_ask(s->image, BUFFER, &s->bytes, s->figures, FIGURES, s->counts, client, now, option, n, NO_118,
                          s->reply, REPLY);
}

static struct flockdrift_answer take(struct lent *s, uint32_t client, uint32_t now, const uint8_t *option, size_t n)
{
    return flockdrift_take(s->image, BUFFER, &s->bytes, s->figures, FIGURES, s->counts, client, now, option, n, NO_118,
                           s->reply, REPLY);
}

static struct flockdrift_answer list(struct lent *s, uint32_t client, uint32_t now, const uint8_t *option, size_t n)
{
    return flockdrift_list(s->image, BUFFER, s->bytes, s->counts, client, now, option, n, s->reply, REPLY);
}

static struct flockdrift_answer release(struct lent *s, uint32_t client, uint32_t now, const uint8_t *option, size_t n)
{
    return flockdrift_release(s->image, BUFFER, &s->bytes, s->figures, FIGURES, s->counts, client, now, option, n);
}

static struct flockdrift_answer mark(struct lent *s, uint32_t of, uint32_t prefix, uint32_t deprecated, uint32_t now)
{
    return flockdrift_mark(s->image, BUFFER, &s->bytes, s->figures, FIGURES, s->counts, of, prefix, deprecated, now);
}

static struct flockdrift_answer load(struct lent *s, size_t capacity, size_t saved_bytes)
{
    return flockdrift_load(s->image, capacity, &s->bytes, s->figures, FIGURES, s->counts, s->saved, saved_bytes);
}

static struct flockdrift_answer save(struct lent *s, size_t buffer_capacity)
{
    return flockdrift_save(s->image, BUFFER, s->bytes, s->counts, SECOND, 0, s->saved, buffer_capacity);
}

static struct flockdrift_answer save_first(struct lent *s, size_t buffer_capacity)
{
    return flockdrift_save(s->image, BUFFER, s->bytes, s->counts, FLOCKDRIFT_FIRST_FORM, 0, s->saved, buffer_capacity);
}

/* For an older desk. */
static struct flockdrift_answer save_older(struct lent *s, uint32_t form, size_t buffer_capacity)
{
    return flockdrift_save(s->image, BUFFER, s->bytes, s->counts, form, 1, s->saved, buffer_capacity);
}

static struct flockdrift_answer check(const struct lent *s)
{
    return flockdrift_check(s->image, BUFFER, s->bytes, s->counts);
}

static struct flockdrift_head_answer head(const struct lent *s, size_t capacity)
{
    return flockdrift_head(s->image, capacity, s->bytes, s->counts);
}

static struct flockdrift_pool_answer pool(const struct lent *s, size_t capacity, size_t index)
{
    return flockdrift_pool(s->image, capacity, s->bytes, s->counts, index);
}

static struct flockdrift_lease_answer lease(const struct lent *s, size_t capacity, size_t index)
{
    return flockdrift_lease(s->image, capacity, s->bytes, s->counts, index);
}

static struct flockdrift_answer whole(const struct lent *s, uint32_t prefix)
{
    return flockdrift_whole(s->image, BUFFER, s->bytes, s->counts, prefix);
}

/* The image, taken for saved bytes. */
static struct flockdrift_answer load_of_own(struct lent *s)
{
    memcpy(s->saved, s->image, s->bytes);
    return load(s, BUFFER, s->bytes);
}

/* The table that most trials begin with: one lease, at 10.0.8.0/26, an image of 75 bytes. */
static void begin(struct lent *s)
{
    fill(s);
    ACCEPTED(s, open_at(s, BUFFER), 0, 0, NONE);
    ACCEPTED(s, ask(s, 7, 1000, ask_26, sizeof ask_26), 13, 1, ONE);
}

/* An image that the caller puts into the buffer, with other bytes after it, its figures and its counts. */
static void put(struct lent *s, const uint8_t *image, size_t bytes, const uint8_t *figures, const uint16_t *counts)
{
    memset(s->image, IMAGE_FILL, sizeof s->image);
    memcpy(s->image, image, bytes);
    memcpy(s->figures, figures, FIGURES);
    memcpy(s->counts, counts, COUNTS * sizeof counts[0]);
    set_bytes(s, bytes);
}

/* THE PROMISES */

static void layout(void)
{
    SAME("the answer's size", sizeof(struct flockdrift_answer), 16);
    SAME("the offset of number", offsetof(struct flockdrift_answer, number), 0);
    SAME("the offset of place", offsetof(struct flockdrift_answer, place), 4);
    SAME("the offset of bytes", offsetof(struct flockdrift_answer, bytes), 8);
    SAME("the offset of count", offsetof(struct flockdrift_answer, count), 12);
    SAME("the head's size", sizeof(struct flockdrift_head_answer), 24);
    SAME("the offset of leases", offsetof(struct flockdrift_head_answer, leases), 20);
    SAME("the pool's size", sizeof(struct flockdrift_pool_answer), 12);
    SAME("the offset of length", offsetof(struct flockdrift_pool_answer, length), 8);
    SAME("the lease's size", sizeof(struct flockdrift_lease_answer), 60);
    SAME("the offset of state", offsetof(struct flockdrift_lease_answer, state), 16);
    SAME("the offset of expires", offsetof(struct flockdrift_lease_answer, expires), 28);
    SAME("the offset of name_bytes", offsetof(struct flockdrift_lease_answer, name_bytes), 32);
    SAME("the offset of name", offsetof(struct flockdrift_lease_answer, name), 36);
    SAME("a full image", FULL, 13 + 8 * 9 + FLOCKDRIFT_LEASES * RECORD);
    SAME("a full image of the first form", FIRST_FULL, 13 + 8 * 9 + FLOCKDRIFT_LEASES * 19);
    SAME("the figures sheet's size", FIGURES, FLOCKDRIFT_LEASES * ROW);
    SAME("the counts' size", sizeof(((struct flockdrift_book *)NULL)->counts), 368);
    SAME("the selection's size", sizeof(struct flockdrift_selection_answer), 8);
    SAME("the offset of address", offsetof(struct flockdrift_selection_answer, address), 4);
}

/* A null pointer is one of no elements. */
static void nulls(struct lent *s)
{
    size_t *b = &s->bytes;

    begin(s);
    REFUSED(s, flockdrift_open(NULL, 0, b, NULL, 0, s->counts, NULL, 0, NULL, 0, 3600, 28, 1000), 12, 0);
    REFUSED(s, flockdrift_open(NULL, 0, b, NULL, 0, s->counts, network, 2, length, 2, 3600, 28, 1000), 14, 0);
    REFUSED(s, flockdrift_ask(NULL, 0, b, NULL, 0, s->counts, 0, 0, NULL, 0, NO_118, NULL, 0), 1, 0);
    REFUSED(s, flockdrift_ask(NULL, 0, b, NULL, 0, s->counts, 0, 0, NULL, 0, NO_118, s->reply, REPLY), 5, 0);
    REFUSED(s, flockdrift_take(NULL, 0, b, NULL, 0, s->counts, 0, 0, NULL, 0, NO_118, NULL, 0), 1, 0);
    REFUSED(s, flockdrift_take(NULL, 0, b, NULL, 0, s->counts, 0, 0, NULL, 0, NO_118, s->reply, REPLY), 5, 0);
    REFUSED(s, flockdrift_list(NULL, 0, 0, s->counts, 0, NO_118, NULL, 0), 1, 0);
    REFUSED(s, flockdrift_list(NULL, 0, 0, s->counts, 0, NO_118, s->reply, REPLY), 5, 0);
    REFUSED(s, flockdrift_release(NULL, 0, b, NULL, 0, s->counts, 0, 0, NULL, 0), 5, 0);
    REFUSED(s, flockdrift_mark(NULL, 0, b, NULL, 0, s->counts, 0, 0, 0, 0), 5, 0);
    REFUSED(s, flockdrift_load(NULL, 0, b, NULL, 0, s->counts, NULL, 0), 5, 0);
    REFUSED(s, flockdrift_load(NULL, 0, b, NULL, 0, s->counts, s->image, ONE), 14, 0);
    REFUSED(s, flockdrift_open(s->image, BUFFER, b, NULL, 0, s->counts, network, 2, length, 2, 3600, 28, 1000), 14, 0);
    REFUSED(s, flockdrift_ask(s->image, BUFFER, b, NULL, 0, s->counts, 0, 0, NULL, 0, NO_118, s->reply, REPLY), 15, 0);
    REFUSED(s, flockdrift_take(s->image, BUFFER, b, NULL, 0, s->counts, 0, 0, NULL, 0, NO_118, s->reply, REPLY), 15, 0);
    REFUSED(s, flockdrift_release(s->image, BUFFER, b, NULL, 0, s->counts, 0, 0, NULL, 0), 15, 0);
    REFUSED(s, flockdrift_mark(s->image, BUFFER, b, NULL, 0, s->counts, 0, 0, 0, 0), 15, 0);
    REFUSED(s, flockdrift_save(NULL, 0, 0, s->counts, SECOND, 0, NULL, 0), 5, 0);
    REFUSED(s, save(s, 0), 14, 0);
    REFUSED(s, flockdrift_save(s->image, BUFFER, ONE, s->counts, SECOND, 0, NULL, 0), 14, 0);
    REFUSED(s, flockdrift_save(s->image, BUFFER, ONE, s->counts, FLOCKDRIFT_FIRST_FORM, 1, NULL, 0), 14, 0);
    REFUSED(s, flockdrift_sheet(NULL, 0, NULL, 0), 5, 0);
    REFUSED(s, flockdrift_sheet(s->image, ONE, NULL, 0), 14, 0);
    REFUSED(s, flockdrift_check(NULL, 0, 0, s->counts), 5, 0);
    SAME("the head of nothing", flockdrift_head(NULL, 0, 0, s->counts).number, 5);
    SAME("a pool of nothing", flockdrift_pool(NULL, 0, 0, s->counts, 0).number, 5);
    REFUSED(s, flockdrift_whole(NULL, 0, 0, s->counts, 24), 5, 0);
    SAME("a lease of nothing", flockdrift_lease(NULL, 0, 0, s->counts, 0).number, 5);
    REFUSED(s, flockdrift_check_option(NULL, 0), 6, 0);
    SELECTION(flockdrift_read_selection(NULL, 0), 6, 0);
    REFUSED(s, flockdrift_write_selection(1, NULL, 0), 14, 0);
}

/* A buffer below the size of a full image holds none, nor does one below the length that the image is said to have. */
static void sizes(struct lent *s)
{
    static const size_t no_image[] = {0, 1, NONE - 1, NONE + 1, ONE - 1, ONE + 1, FULL, BUFFER, BUFFER + 1, SIZE_MAX};
    size_t *b = &s->bytes, i;
    uint8_t *f = s->figures;

    begin(s);
    REFUSED(s, flockdrift_ask(s->image, FULL - 1, b, f, FIGURES, s->counts, 7, 1000, ask_26, sizeof ask_26, NO_118,
            s->reply, REPLY), 5, 0);
    REFUSED(s, flockdrift_take(s->image, FULL - 1, b, f, FIGURES, s->counts, 7, 1000, name_26, sizeof name_26, NO_118,
            s->reply, REPLY), 5, 0);
    REFUSED(s, flockdrift_list(s->image, FULL - 1, ONE, s->counts, 7, 1000, list_all, sizeof list_all, s->reply,
            REPLY), 5, 0);
    REFUSED(s, flockdrift_release(s->image, FULL - 1, b, f, FIGURES, s->counts, 7, 1000, name_26, sizeof name_26), 5,
            0);
    REFUSED(s, flockdrift_mark(s->image, FULL - 1, b, f, FIGURES, s->counts, network[0], 26, 1, 1000), 5, 0);
    REFUSED(s, flockdrift_save(s->image, FULL - 1, ONE, s->counts, SECOND, 0, s->saved, BUFFER), 5, 0);
    REFUSED(s, flockdrift_check(s->image, FULL - 1, ONE, s->counts), 5, 0);
    HEAD(head(s, FULL - 1), 5, 0, 0, 0, 0, 0);
    POOL(pool(s, FULL - 1, 0), 5, 0, 0);
    LEASE(lease(s, FULL - 1, 0), 5, 0, 0, 0, 0, 0, 0, 0);
    for (i = 0; i < sizeof no_image / sizeof no_image[0]; i++) {
        set_bytes(s, no_image[i]);
        REFUSED(s, ask(s, 7, 1000, ask_26, sizeof ask_26), 5, 0);
        REFUSED(s, take(s, 7, 1000, name_26, sizeof name_26), 5, 0);
        REFUSED(s, list(s, 7, 1000, list_all, sizeof list_all), 5, 0);
        REFUSED(s, release(s, 7, 1000, name_26, sizeof name_26), 5, 0);
        REFUSED(s, mark(s, network[0], 26, 1, 1000), 5, 0);
        REFUSED(s, save(s, BUFFER), 5, 0);
        REFUSED(s, check(s), 5, 0);
        HEAD(head(s, BUFFER), 5, 0, 0, 0, 0, 0);
        POOL(pool(s, BUFFER, 0), 5, 0, 0);
        LEASE(lease(s, BUFFER, 0), 5, 0, 0, 0, 0, 0, 0, 0);
    }

    /* in a buffer of a full image's size and no more all of them work */
    set_bytes(s, ONE);
    READ(s, flockdrift_check(s->image, FULL, ONE, s->counts), 0, 0);
    HEAD(head(s, FULL), 0, 3600, 28, 1000, 2, 1);
    POOL(pool(s, FULL, 1), 0, 0x0a000800, 26);
    LEASE(lease(s, FULL, 0), 0, 0x0a000800, 26, 7, 1, 0, 0, 1120);
    ACCEPTED(s, flockdrift_mark(s->image, FULL, b, f, FIGURES, s->counts, network[0], 26, 1, 1000), 0, 0, ONE);
    ACCEPTED(s, flockdrift_ask(s->image, FULL, b, f, FIGURES, s->counts, 8, 1000, ask_two, sizeof ask_two, NO_118,
             s->reply, REPLY), 23, 2, THREE);
    ACCEPTED(s, flockdrift_take(s->image, FULL, b, f, FIGURES, s->counts, 7, 1000, name_26, sizeof name_26, NO_118,
             s->reply, REPLY), 13, 1, THREE);
    READ(s, flockdrift_list(s->image, FULL, THREE, s->counts, 7, 1000, list_all, sizeof list_all, s->reply, REPLY), 13, 1);
    READ(s, flockdrift_save(s->image, FULL, THREE, s->counts, SECOND, 0, s->saved, THREE), THREE, 0);
    ACCEPTED(s, flockdrift_release(s->image, FULL, b, f, FIGURES, s->counts, 7, 1000, name_26, sizeof name_26), 0, 1,
             TWO);
    ACCEPTED(s, load(s, FULL, THREE), 0, 0, THREE);
    ACCEPTED(s, open_at(s, FULL), 0, 0, NONE);
}

/* Several things are wrong with each call, one less from line to line: the first row that applies is given. */
static void order(struct lent *s)
{
    size_t *b = &s->bytes;
    uint8_t *f = s->figures;
    uint32_t late = 4292375296u;

    fill(s);
    REFUSED(s, flockdrift_open(s->image, FULL - 1, b, f, FIGURES, s->counts, network, 2, length, 2, 59, 28, 1000),
            12, 0);
    REFUSED(s, open_at(s, FULL - 1), 14, 0);
    REFUSED(s, flockdrift_open(s->image, BUFFER, b, f, FIGURES, s->counts, network, 2, length, 1, 3600, 28, 1000),
            12, 0);
    REFUSED(s, flockdrift_open(s->image, BUFFER, b, f, FIGURES, s->counts, network, 1, length, 2, 3600, 28, 1000),
            12, 0);
    REFUSED(s, flockdrift_open(s->image, BUFFER, b, f, FIGURES, s->counts, network, 2, length, 2, 3600, 256 + 28,
            1000), 12, 0);
    REFUSED(s, flockdrift_open(s->image, BUFFER, b, f, FIGURES, s->counts, network, 2, length, 2, 3600, 28, late),
            12, 0);
    REFUSED(s, load(s, FULL - 1, ONE), 5, 0);

    begin(s);
    set_bytes(s, ONE - 1);
    REFUSED(s, flockdrift_ask(s->image, BUFFER, b, f, FIGURES, s->counts, 0, 999, NULL, 0, NO_118, s->reply,
            REPLY - 1), 1, 0);
    REFUSED(s, ask(s, 0, 999, NULL, 0), 5, 0);
    REFUSED(s, flockdrift_take(s->image, BUFFER, b, f, FIGURES, s->counts, 0, 999, NULL, 0, NO_118, s->reply,
            REPLY - 1), 1, 0);
    REFUSED(s, take(s, 0, 999, NULL, 0), 5, 0);
    REFUSED(s, flockdrift_list(s->image, BUFFER, ONE - 1, s->counts, 0, 999, NULL, 0, s->reply, REPLY - 1), 1, 0);
    REFUSED(s, list(s, 0, 999, NULL, 0), 5, 0);
    REFUSED(s, release(s, 0, 999, NULL, 0), 5, 0);
    REFUSED(s, mark(s, 0, 0, 0, 999), 5, 0);
    REFUSED(s, save(s, 0), 5, 0);
    REFUSED(s, flockdrift_sheet(s->image, ONE - 1, s->text, 0), 5, 0);
    set_bytes(s, ONE);
    REFUSED(s, ask(s, 0, 999, NULL, 0), 2, 0);
    REFUSED(s, ask(s, 7, 999, NULL, 0), 3, 0);
    REFUSED(s, ask(s, 7, late, NULL, 0), 4, 0);
    REFUSED(s, ask(s, 7, 1000, NULL, 0), 6, 0);
    REFUSED(s, ask(s, 7, 1000, name_and_bad, sizeof name_and_bad), 7, 13);
    REFUSED(s, ask(s, 7, 1000, ask_31, sizeof ask_31), 16, 3);
    REFUSED(s, ask(s, 7, 1000, network_and_cut, sizeof network_and_cut), 7, 3);
    REFUSED(s, ask(s, 7, 1000, network_and_bad, sizeof network_and_bad), 16, 3);
    REFUSED(s, ask(s, 7, 1000, name_26, sizeof name_26), 8, 0);
    REFUSED(s, ask(s, 7, 1000, ask_8, sizeof ask_8), 10, 0);
    REFUSED(s, take(s, 0, 999, NULL, 0), 2, 0);
    REFUSED(s, take(s, 8, 999, NULL, 0), 3, 0);
    REFUSED(s, take(s, 8, late, NULL, 0), 4, 0);
    REFUSED(s, take(s, 8, 1000, NULL, 0), 6, 0);
    REFUSED(s, take(s, 8, 1000, ask_31, sizeof ask_31), 16, 3);
    REFUSED(s, take(s, 8, 1000, network_and_cut, sizeof network_and_cut), 7, 3);
    REFUSED(s, take(s, 8, 1000, network_and_bad, sizeof network_and_bad), 16, 3);
    REFUSED(s, take(s, 8, 1000, ask_26, sizeof ask_26), 8, 0);
    REFUSED(s, take(s, 8, 1000, name_26, sizeof name_26), 11, 0);
    REFUSED(s, list(s, 0, 999, NULL, 0), 2, 0);
    REFUSED(s, list(s, 8, 999, NULL, 0), 3, 0);
    REFUSED(s, list(s, 8, late, NULL, 0), 4, 0);
    REFUSED(s, list(s, 8, 1000, NULL, 0), 6, 0);
    REFUSED(s, list(s, 8, 1000, ask_31, sizeof ask_31), 16, 3);
    REFUSED(s, list(s, 8, 1000, network_and_cut, sizeof network_and_cut), 7, 3);
    REFUSED(s, list(s, 8, 1000, network_and_bad, sizeof network_and_bad), 16, 3);
    REFUSED(s, list(s, 8, 1000, ask_26, sizeof ask_26), 8, 0);
    REFUSED(s, list(s, 8, 1000, list_all, sizeof list_all), 11, 0);
    REFUSED(s, release(s, 0, 999, NULL, 0), 2, 0);
    REFUSED(s, release(s, 8, 999, NULL, 0), 3, 0);
    REFUSED(s, release(s, 8, late, NULL, 0), 4, 0);
    REFUSED(s, release(s, 8, 1000, NULL, 0), 6, 0);
    REFUSED(s, release(s, 8, 1000, ask_31, sizeof ask_31), 16, 3);
    REFUSED(s, release(s, 8, 1000, network_and_cut, sizeof network_and_cut), 7, 3);
    REFUSED(s, release(s, 8, 1000, network_and_bad, sizeof network_and_bad), 16, 3);
    REFUSED(s, release(s, 8, 1000, ask_26, sizeof ask_26), 8, 0);
    REFUSED(s, release(s, 8, 1000, name_26, sizeof name_26), 11, 0);
    REFUSED(s, mark(s, network[0], 25, 1, 999), 3, 0);
    REFUSED(s, mark(s, network[0], 25, 1, late), 4, 0);
    REFUSED(s, mark(s, network[0], 25, 1, 1000), 11, 0);
    REFUSED(s, mark(s, network[0], 256 + 26, 1, 1000), 11, 0);
    REFUSED(s, save(s, ONE - 1), 14, 0);
}

/* Each call, what it leaves in the buffers, and nothing of what was removed. */
static void calls(struct lent *s)
{
    fill(s);
    ACCEPTED(s, open_at(s, BUFFER), 0, 0, NONE);
    FILLED(s->image + NONE, FULL - NONE, 0);
    ACCEPTED(s, ask(s, 7, 1000, ask_26, sizeof ask_26), 13, 1, ONE);
    SAME("the reply", memcmp(s->reply, name_26, sizeof name_26) != 0, 0);
    FILLED(s->reply + 13, sizeof s->reply - 13, REPLY_FILL);
    ACCEPTED(s, ask(s, 8, 1000, ask_two, sizeof ask_two), 23, 2, THREE);
    FILLED(s->image + THREE, FULL - THREE, 0);
    ACCEPTED(s, take(s, 7, 1010, name_26, sizeof name_26), 13, 1, THREE);
    READ(s, list(s, 7, 1020, list_all, sizeof list_all), 13, 1);

    ACCEPTED(s, mark(s, network[0], 26, 256, 1030), 0, 0, THREE);
    READ(s, list(s, 7, 1030, list_all, sizeof list_all), 13, 1);
    SAME("the entry's flags", s->reply[11], 1);
    ACCEPTED(s, mark(s, network[0], 26, 0, 1030), 0, 0, THREE);
    READ(s, list(s, 7, 1030, list_all, sizeof list_all), 13, 1);
    SAME("the entry's flags", s->reply[11], 0);
    FILLED(s->reply + 23, sizeof s->reply - 23, REPLY_FILL);

    FILLED(s->saved, sizeof s->saved, SAVED_FILL);
    FILLED(s->text, sizeof s->text, TEXT_FILL);
}

/*
 * At 1130 the two leases that nobody took have ended. Where a call removes leases zeros follow the image up to the end
 * of the old one, and what a caller put past that stays.
 */
static void removed(struct lent *s)
{
    uint8_t image[THREE], figures[FIGURES];
    uint16_t counts[COUNTS];

    begin(s);
    ACCEPTED(s, take(s, 7, 1010, name_26, sizeof name_26), 13, 1, ONE);
    ACCEPTED(s, ask(s, 8, 1010, ask_two, sizeof ask_two), 23, 2, THREE);
    memcpy(image, s->image, sizeof image);
    memcpy(figures, s->figures, sizeof figures);
    memcpy(counts, s->counts, sizeof counts);

    put(s, image, sizeof image, figures, counts);
    ACCEPTED(s, ask(s, 9, 1130, ask_25, sizeof ask_25), 13, 1, TWO);
    FILLED(s->image + TWO, THREE - TWO, 0);
    FILLED(s->image + THREE, BUFFER - THREE, IMAGE_FILL);
    put(s, image, sizeof image, figures, counts);
    ACCEPTED(s, take(s, 7, 1130, name_26, sizeof name_26), 13, 1, ONE);
    FILLED(s->image + ONE, THREE - ONE, 0);
    FILLED(s->image + THREE, BUFFER - THREE, IMAGE_FILL);
    put(s, image, sizeof image, figures, counts);
    ACCEPTED(s, mark(s, network[0], 26, 1, 1130), 0, 0, ONE);
    FILLED(s->image + ONE, THREE - ONE, 0);
    FILLED(s->image + THREE, BUFFER - THREE, IMAGE_FILL);
    /* removes three and counts the one that its entry names */
    put(s, image, sizeof image, figures, counts);
    ACCEPTED(s, release(s, 7, 1130, name_26, sizeof name_26), 0, 1, NONE);
    FILLED(s->image + NONE, THREE - NONE, 0);
    FILLED(s->image + THREE, BUFFER - THREE, IMAGE_FILL);

    /* of an older image, and of what is past it, open leaves nothing up to a full image's size */
    put(s, image, sizeof image, figures, counts);
    ACCEPTED(s, open_at(s, BUFFER), 0, 0, NONE);
    FILLED(s->image + NONE, FULL - NONE, 0);
    FILLED(s->image + FULL, BUFFER - FULL, IMAGE_FILL);
    set_bytes(s, sizeof image);
    REFUSED(s, save(s, BUFFER), 5, 0);
}

/* What a client holds it is offered again, and only what is not held is new. */
static void again(struct lent *s)
{
    static const uint8_t ask_h[] = {0xdc, 5, 0, 1, 2, 1, 26};
    static const uint8_t ask_default[] = {0xdc, 5, 0, 1, 2, 0, 0};
    static const uint8_t rows[] = {0, 1, 0, 10, 26, NO, NO, NO, 0, 8, 0, 10, 26, 1, 0, 2, 0, 3, 0};
    uint8_t reply[13];

    begin(s);
    memcpy(s->figures + 5, rows + ROW + 5, 6);
    keep(s);
    ACCEPTED(s, ask(s, 7, 1060, ask_26, sizeof ask_26), 13, 1, ONE);
    SAME("the reply", memcmp(s->reply, name_26, sizeof name_26) != 0, 0);
    LEASE(lease(s, BUFFER, 0), 0, network[0], 26, 7, FLOCKDRIFT_HELD, 0, 0, 1180);
    ROWS(s, rows + ROW, 1);

    /* d stays and is in the reply; nothing else of it differs */
    ACCEPTED(s, mark(s, network[0], 26, 1, 1070), 0, 0, ONE);
    ACCEPTED(s, ask(s, 7, 1070, ask_26, sizeof ask_26), 13, 1, ONE);
    memcpy(reply, name_26, sizeof reply);
    reply[11] = 1;
    SAME("the reply", memcmp(s->reply, reply, sizeof reply) != 0, 0);
    LEASE(lease(s, BUFFER, 0), 0, network[0], 26, 7, FLOCKDRIFT_HELD, 0, 1, 1190);

    /* another h, another client: a lease more, and the row of the first moves with it */
    ACCEPTED(s, ask(s, 7, 1070, ask_h, sizeof ask_h), 13, 1, TWO);
    ROWS(s, rows, 2);
    ACCEPTED(s, ask(s, 8, 1070, ask_default, sizeof ask_default), 13, 1, THREE);
    ACCEPTED(s, ask(s, 8, 1080, ask_default, sizeof ask_default), 13, 1, THREE);
    LEASE(lease(s, BUFFER, 1), 0, 0x0a000140, 28, 8, FLOCKDRIFT_HELD, 0, 0, 1200);

    /* leased, it is offered to nobody */
    ACCEPTED(s, take(s, 7, 1080, name_26, sizeof name_26), 13, 1, THREE);
    ACCEPTED(s, ask(s, 7, 1080, ask_26, sizeof ask_26), 13, 1, FOUR);
    LEASE(lease(s, BUFFER, 3), 0, network[0], 26, 7, FLOCKDRIFT_LEASED, 0, 1, 4680);
}

/*
 * A sheet that does not match, or of another size, is refused in the place of 15: after 1 and 5, before 2 and 3. Open
 * and load, which would fill it, refuse its size last.
 */
static void not_the_sheet(struct lent *s, size_t size)
{
    size_t *b = &s->bytes, bytes = s->bytes;
    uint8_t *f = s->figures;

    keep(s);
    REFUSED(s, flockdrift_ask(s->image, BUFFER, b, f, size, s->counts, 0, 999, NULL, 0, NO_118, s->reply,
            REPLY - 1), 1, 0);
    REFUSED(s, flockdrift_ask(s->image, BUFFER, b, f, size, s->counts, 0, 999, NULL, 0, NO_118, s->reply, REPLY), 15, 0);
    REFUSED(s, flockdrift_take(s->image, BUFFER, b, f, size, s->counts, 0, 999, NULL, 0, NO_118, s->reply,
            REPLY - 1), 1, 0);
    REFUSED(s, flockdrift_take(s->image, BUFFER, b, f, size, s->counts, 0, 999, NULL, 0, NO_118, s->reply, REPLY), 15, 0);
    REFUSED(s, flockdrift_release(s->image, BUFFER, b, f, size, s->counts, 0, 999, NULL, 0), 15, 0);
    REFUSED(s, flockdrift_mark(s->image, BUFFER, b, f, size, s->counts, 0, 0, 0, 999), 15, 0);
    REFUSED(s, flockdrift_open(s->image, BUFFER, b, f, size, s->counts, network, 2, length, 2, 59, 28, 1000), 12, 0);
    REFUSED(s, flockdrift_load(s->image, BUFFER, b, f, size, s->counts, s->saved, 0), 5, 0);
    if (size != FIGURES) {
        REFUSED(s, flockdrift_open(s->image, BUFFER, b, f, size, s->counts, network, 2, length, 2, 3600, 28, 1000),
                14, 0);
        REFUSED(s, flockdrift_load(s->image, BUFFER, b, f, size, s->counts, s->saved, ONE), 14, 0);
    }
    set_bytes(s, bytes - 1);
    REFUSED(s, flockdrift_ask(s->image, BUFFER, b, f, size, s->counts, 0, 999, NULL, 0, NO_118, s->reply, REPLY), 5, 0);
    REFUSED(s, flockdrift_take(s->image, BUFFER, b, f, size, s->counts, 0, 999, NULL, 0, NO_118, s->reply, REPLY), 5, 0);
    REFUSED(s, flockdrift_release(s->image, BUFFER, b, f, size, s->counts, 0, 999, NULL, 0), 5, 0);
    REFUSED(s, flockdrift_mark(s->image, BUFFER, b, f, size, s->counts, 0, 0, 0, 999), 5, 0);
    set_bytes(s, bytes);
    READ(s, list(s, 7, 1010, list_all, sizeof list_all), 13, 1);
    READ(s, save(s, BUFFER), bytes, 0);
    READ(s, check(s), 0, 0);
}

static void unsound_figures(struct lent *s)
{
    static const size_t sizes[] = {0, 1, ROW, FIGURES - ROW, FIGURES - 1, FIGURES + 1};
    size_t i;

    begin(s);
    ACCEPTED(s, take(s, 7, 1010, name_26, sizeof name_26), 13, 1, ONE);
    READ(s, save(s, BUFFER), ONE, 0);
    for (i = 0; i < sizeof sizes / sizeof sizes[0]; i++)
        not_the_sheet(s, sizes[i]);
    /* network and length of the lease, every byte of the first row without one and of the last */
    for (i = 0; i < FIGURES; i++)
        if (i < 5 || (i >= ROW && i < 2 * ROW) || i >= FIGURES - ROW) {
            s->figures[i] ^= 1;
            not_the_sheet(s, FIGURES);
            s->figures[i] ^= 1;
        }
    /* the lease's figures may be any */
    memset(s->figures + 5, 0, 6);
    keep(s);
    ACCEPTED(s, take(s, 7, 1010, name_26, sizeof name_26), 13, 1, ONE);
}

/* Every call that takes the book, with rows that would apply after 5. */
static void not_the_counts(struct lent *s)
{
    size_t *b = &s->bytes;
    uint8_t *f = s->figures;

    keep(s);
    REFUSED(s, flockdrift_ask(s->image, BUFFER, b, f, 0, s->counts, 0, 999, NULL, 0, NO_118, s->reply, REPLY - 1), 1, 0);
    REFUSED(s, flockdrift_ask(s->image, BUFFER, b, f, 0, s->counts, 0, 999, NULL, 0, NO_118, s->reply, REPLY), 5, 0);
    REFUSED(s, flockdrift_take(s->image, BUFFER, b, f, 0, s->counts, 0, 999, NULL, 0, NO_118, s->reply, REPLY), 5, 0);
    REFUSED(s, flockdrift_release(s->image, BUFFER, b, f, 0, s->counts, 0, 999, NULL, 0), 5, 0);
    REFUSED(s, flockdrift_mark(s->image, BUFFER, b, f, 0, s->counts, 0, 0, 0, 999), 5, 0);
    REFUSED(s, list(s, 0, 999, NULL, 0), 5, 0);
    REFUSED(s, save(s, 0), 5, 0);
    REFUSED(s, check(s), 5, 0);
    REFUSED(s, whole(s, 24), 5, 0);
    REFUSED(s, whole(s, 7), 5, 0);
    HEAD(head(s, BUFFER), 5, 0, 0, 0, 0, 0);
    POOL(pool(s, BUFFER, 9), 5, 0, 0);
    LEASE(lease(s, BUFFER, 9), 5, 0, 0, 0, 0, 0, 0, 0);
}

/* How much is left, and counts that are another's. */
static void counts(struct lent *s)
{
    static const uint32_t outside[] = {0, 1, 7, 31, 32, 256 + 24, 65536 + 24, UINT32_MAX};
    uint16_t swapped;
    size_t i;

    begin(s);
    READ(s, whole(s, 24), 0, 1);
    READ(s, whole(s, 26), 0, 0);
    for (i = 0; i < sizeof outside / sizeof outside[0]; i++)
        READ(s, whole(s, outside[i]), 0, 0);
    /* one more in each place: of both pools, and of the six that there are not */
    for (i = 0; i < COUNTS; i++) {
        s->counts[i]++;
        not_the_counts(s);
        s->counts[i]--;
    }
    /* the two rows exchanged */
    swapped = s->counts[24 - 8];
    s->counts[24 - 8] = 0;
    s->counts[LENGTHS + 24 - 8] = swapped;
    not_the_counts(s);
    ACCEPTED(s, load_of_own(s), 0, 0, ONE);
    READ(s, whole(s, 24), 0, 1);

    ACCEPTED(s, ask(s, 8, 1010, ask_two, sizeof ask_two), 23, 2, THREE);
    READ(s, whole(s, 24), 0, 0);
    READ(s, whole(s, 26), 0, 1);
    READ(s, whole(s, 28), 0, 1);
    /* at 1130 all have ended, and are counted when they are removed */
    READ(s, whole(s, 25), 0, 0);
    ACCEPTED(s, ask(s, 9, 1130, ask_25, sizeof ask_25), 13, 1, ONE);
    READ(s, whole(s, 25), 0, 1);
    READ(s, whole(s, 26), 0, 1);
}

/* What each call does to the rows. */
static void figures(struct lent *s)
{
    /* in use and no high water, then high water and nothing else */
    static const uint8_t tell_twice[] = {0xdc, 28, 0, 2, 25, 0, 10, 0, 8, 0, 26, 0, 4, NO, 0, 7,
                                         10, 0, 8, 0, 26, 0, 6, 0, 11, NO, NO};
    static const uint8_t once[] = {10, 1, NO, 2, 0}, twice[] = {11, 0, 7, 0, 2, 0}, untold[] = {NO, NO, NO};
    uint8_t rows[] = {0, 1, 0, 10, 25, NO, NO, NO, 128, 1, 0, 10, 28, NO, NO, NO, 0, 8, 0, 10, 26, NO, NO, NO};
    uint8_t *row = rows + 2 * ROW;

    fill(s);
    ACCEPTED(s, open_at(s, BUFFER), 0, 0, NONE);
    ROWS(s, row, 0);
    ACCEPTED(s, ask(s, 7, 1000, ask_26, sizeof ask_26), 13, 1, ONE);
    ROWS(s, row, 1);
    ACCEPTED(s, ask(s, 8, 1000, ask_two, sizeof ask_two), 23, 2, THREE);
    ROWS(s, rows, 3);
    ACCEPTED(s, take(s, 7, 1010, tell_26, sizeof tell_26), 13, 1, THREE);
    memcpy(row + 5, once, sizeof once);
    ROWS(s, rows, 3);
    REFUSED(s, take(s, 8, 1010, tell_twice, sizeof tell_twice), 11, 0);
    ACCEPTED(s, take(s, 7, 1020, tell_twice, sizeof tell_twice), 20, 2, THREE);
    memcpy(row + 5, twice, sizeof twice);
    ROWS(s, rows, 3);

    /* what is not told stays, in a take with no figures and in a mark */
    ACCEPTED(s, take(s, 7, 1030, name_26, sizeof name_26), 13, 1, THREE);
    ACCEPTED(s, mark(s, network[0], 26, 1, 1030), 0, 0, THREE);
    ROWS(s, rows, 3);
    READ(s, list(s, 7, 1030, list_all, sizeof list_all), 13, 1);
    READ(s, save(s, BUFFER), THREE, 0);

    /* at 1130 the two others have ended: their rows go, and the third moves to the front */
    ACCEPTED(s, mark(s, network[0], 26, 0, 1130), 0, 0, ONE);
    ROWS(s, row, 1);
    ACCEPTED(s, release(s, 7, 1140, tell_26, sizeof tell_26), 0, 1, NONE);
    ROWS(s, row, 0);
    /* the same prefix again has nothing of what was told before; nor has a book that was saved */
    memcpy(row + 5, untold, sizeof untold);
    ACCEPTED(s, ask(s, 9, 1140, ask_26, sizeof ask_26), 13, 1, ONE);
    ROWS(s, row, 1);
    ACCEPTED(s, load(s, BUFFER, THREE), 0, 0, THREE);
    ROWS(s, rows, 3);
}

static void load_and_save(struct lent *s)
{
    uint8_t image[ONE];
    struct flockdrift_answer a;
    size_t i;

    begin(s);
    memcpy(image, s->image, sizeof image);
    REFUSED(s, save(s, ONE - 1), 14, 0);
    READ(s, save(s, ONE), ONE, 0);
    SAME("what is saved", memcmp(s->saved, image, sizeof image) != 0, 0);
    FILLED(s->saved + ONE, sizeof s->saved - ONE, SAVED_FILL);
    READ(s, save(s, BUFFER), ONE, 0);
    FILLED(s->saved + ONE, sizeof s->saved - ONE, SAVED_FILL);

    /* over a longer image, which need not even be one */
    memset(s->image, IMAGE_FILL, sizeof s->image);
    set_bytes(s, SIZE_MAX);
    REFUSED(s, load(s, BUFFER, ONE - 1), 5, 0);
    REFUSED(s, load(s, BUFFER, ONE + 1), 5, 0);
    REFUSED(s, load(s, BUFFER, BUFFER), 5, 0);
    REFUSED(s, load(s, FULL - 1, ONE - 1), 5, 0);
    REFUSED(s, load(s, FULL - 1, ONE), 14, 0);
    ACCEPTED(s, load(s, BUFFER, ONE), 0, 0, ONE);
    SAME("what is loaded", memcmp(s->image, image, sizeof image) != 0, 0);
    FILLED(s->image + ONE, FULL - ONE, 0);

    /* an image has no checksum: without its last record, or with another bit, it may be that of another table */
    ACCEPTED(s, load(s, BUFFER, NONE), 0, 0, NONE);
    FILLED(s->image + NONE, FULL - NONE, 0);
    for (i = 0; i < 8 * sizeof image; i++) {
        s->saved[i / 8] ^= (uint8_t)(1 << i % 8);
        keep(s);
        a = load(s, BUFFER, ONE);
        if (a.number == 0) {
            ACCEPTED(s, a, 0, 0, ONE);
            SAME("what is loaded", memcmp(s->image, s->saved, ONE) != 0, 0);
        } else {
            REFUSED(s, a, 5, 0);
        }
        s->saved[i / 8] ^= (uint8_t)(1 << i % 8);
    }
}

/* Names: whose they are, what keeps them, and 17 in its place. */
static void names(struct lent *s)
{
    uint8_t asked[40] = {0xdc, 32, 0, 3, 25};
    uint8_t octets[FLOCKDRIFT_NAME_CAPACITY];
    size_t i;

    fill(s);
    ACCEPTED(s, open_at(s, BUFFER), 0, 0, NONE);
    ACCEPTED(s, ask(s, 7, 1000, ask_west, sizeof ask_west), 13, 1, ONE);
    SAME("the reply", memcmp(s->reply, name_26, sizeof name_26) != 0, 0);
    NAME(lease(s, BUFFER, 0), "west hall", 9);
    /* given again, marked, taken */
    ACCEPTED(s, ask(s, 7, 1010, ask_26, sizeof ask_26), 13, 1, ONE);
    ACCEPTED(s, mark(s, network[0], 26, 1, 1010), 0, 0, ONE);
    ACCEPTED(s, take(s, 7, 1010, name_26, sizeof name_26), 13, 1, ONE);
    NAME(lease(s, BUFFER, 0), "west hall", 9);

    /* a name of 25 octets: after 8, before 10 and where there is room; of 24, with zeros inside, it is one */
    memset(asked + 5, 0xff, 25);
    asked[1] = 28;
    REFUSED(s, ask(s, 8, 1010, asked, 30), 8, 0);
    asked[1] = 32;
    memcpy(asked + 30, ask_8 + 3, 4);
    REFUSED(s, ask(s, 8, 1010, asked, 34), 17, 0);
    memcpy(asked + 30, ask_25 + 3, 4);
    REFUSED(s, ask(s, 8, 1010, asked, 34), 17, 0);
    memset(octets, 0, sizeof octets);
    octets[0] = octets[FLOCKDRIFT_NAME_CAPACITY - 1] = 0x80;
    asked[1] = 31;
    asked[4] = FLOCKDRIFT_NAME_CAPACITY;
    memcpy(asked + 5, octets, sizeof octets);
    memcpy(asked + 29, ask_25 + 3, 4);
    ACCEPTED(s, ask(s, 8, 1010, asked, 33), 13, 1, TWO);
    NAME(lease(s, BUFFER, 0), octets, sizeof octets);
    NAME(lease(s, BUFFER, 1), "west hall", 9);

    /* it goes with its lease, and leaves nothing */
    ACCEPTED(s, release(s, 7, 1020, name_26, sizeof name_26), 0, 1, ONE);
    FILLED(s->image + ONE, FULL - ONE, 0);
    ACCEPTED(s, ask(s, 9, 1020, ask_26, sizeof ask_26), 13, 1, TWO);
    LEASE(lease(s, BUFFER, 1), 0, network[0], 26, 9, FLOCKDRIFT_HELD, 0, 0, 1140);

    /* a name outside the rules: its length, its last octet, an octet after it */
    for (i = NONE + 19; i < TWO; i++)
        if (i == NONE + 19 || i == ONE - 1 || i >= ONE + 19) {
            s->image[i] ^= 0x80;
            keep(s);
            REFUSED(s, check(s), 5, 0);
            REFUSED(s, save(s, BUFFER), 5, 0);
            REFUSED(s, flockdrift_sheet(s->image, TWO, s->text, sizeof s->text), 5, 0);
            s->image[i] ^= 0x80;
            keep(s);
        }
    READ(s, check(s), 0, 0);
}

/* The two forms: load takes both, save writes either, the calls work on the second. */
static void forms(struct lent *s)
{
    static const uint32_t seconds[] = {0, 2, 3, 257, UINT32_MAX};
    static const uint8_t first_head[] = {11, 0, 1, 0}, first_lease[] = {17, 0, 3, 0};
    static const char rows[] = "sheet lines=1 free=1\nfree 10.0.1.0/24\n"
                               "used 10.0.8.0/26 station 7 until 1120 name west hall\n";
    enum { FIRST = NONE + 19 };
    uint8_t image[ONE], first[FIRST];
    size_t i;

    begin(s);
    memcpy(image, s->image, sizeof image);
    for (i = 0; i < sizeof seconds / sizeof seconds[0]; i++) {
        READ(s, flockdrift_save(s->image, BUFFER, ONE, s->counts, seconds[i], seconds[i] >> 1, s->saved, ONE), ONE, 0);
        SAME("what is saved", memcmp(s->saved, image, ONE) != 0, 0);
    }
    memset(s->saved, SAVED_FILL, sizeof s->saved);
    keep(s);
    REFUSED(s, save_first(s, FIRST - 1), 14, 0);
    READ(s, save_first(s, FIRST), FIRST, 0);
    FILLED(s->saved + FIRST, sizeof s->saved - FIRST, SAVED_FILL);
    memcpy(first, image, FIRST);
    memcpy(first, first_head, sizeof first_head);
    memcpy(first + NONE, first_lease, sizeof first_lease);
    SAME("the first form", memcmp(s->saved, first, FIRST) != 0, 0);
    READ(s, flockdrift_sheet(first, FIRST, s->text, sizeof s->text), sizeof rows - 1 - 15, 0);

    /* loaded, it is the second */
    REFUSED(s, load(s, FULL - 1, FIRST), 14, 0);
    REFUSED(s, load(s, BUFFER, FIRST - 1), 5, 0);
    memset(s->image, IMAGE_FILL, sizeof s->image);
    keep(s);
    ACCEPTED(s, load(s, BUFFER, FIRST), 0, 0, ONE);
    SAME("what is loaded", memcmp(s->image, image, ONE) != 0, 0);
    FILLED(s->image + ONE, FULL - ONE, 0);
    ACCEPTED(s, load(s, BUFFER, NONE), 0, 0, NONE);

    /* a mixture is none */
    memcpy(s->saved, image, ONE);
    memcpy(s->saved, first_head, sizeof first_head);
    keep(s);
    REFUSED(s, load(s, BUFFER, ONE), 5, 0);
    memcpy(s->saved, first, FIRST);
    s->saved[2] = 5;
    keep(s);
    REFUSED(s, load(s, BUFFER, FIRST), 5, 0);

    /* and bytes of the first form are no book */
    ACCEPTED(s, open_at(s, BUFFER), 0, 0, NONE);
    s->image[2] = 1;
    keep(s);
    REFUSED(s, check(s), 5, 0);
    REFUSED(s, ask(s, 7, 1000, ask_26, sizeof ask_26), 5, 0);
    REFUSED(s, list(s, 7, 1000, list_all, sizeof list_all), 5, 0);
    REFUSED(s, save_first(s, BUFFER), 5, 0);
    HEAD(head(s, BUFFER), 5, 0, 0, 0, 0, 0);
    s->image[2] = 5;
    keep(s);

    /* a name is lost in the first form: 18 before 14, 5 before it */
    ACCEPTED(s, ask(s, 7, 1000, ask_west, sizeof ask_west), 13, 1, ONE);
    READ(s, flockdrift_sheet(s->image, ONE, s->text, sizeof s->text), sizeof rows - 1, 0);
    SAME("the sheet", memcmp(s->text, rows, sizeof rows - 1) != 0, 0);
    REFUSED(s, save_first(s, BUFFER), 18, 0);
    REFUSED(s, save_first(s, 0), 18, 0);
    REFUSED(s, save(s, 0), 14, 0);
    s->counts[0]++;
    keep(s);
    REFUSED(s, save_first(s, 0), 5, 0);
    s->counts[0]--;
    keep(s);
    READ(s, save(s, BUFFER), ONE, 0);
    ACCEPTED(s, load(s, BUFFER, ONE), 0, 0, ONE);
    NAME(lease(s, BUFFER, 0), "west hall", 9);
}

/* An ask or a take that carries these bytes as option 118, with so much room for the reply. */
static struct flockdrift_answer ask_118(struct lent *s, uint32_t client, const uint8_t *option, size_t n,
                                        const uint8_t *carried, size_t m, size_t room)
{
    return flockdrift_ask(s->image, BUFFER, &s->bytes, s->figures, FIGURES, s->counts, client, 1000, option, n, 1, carried,
                          m, s->reply, room);
}

static struct flockdrift_answer take_118(struct lent *s, uint32_t client, const uint8_t *option, size_t n,
                                         const uint8_t *carried, size_t m, size_t room)
{
    return flockdrift_take(s->image, BUFFER, &s->bytes, s->figures, FIGURES, s->counts, client, 1000, option, n, 1,
                           carried, m, s->reply, room);
}

/* Option 118 with an ask and a take: its pool, the reply with the option after it, sizes, numbers and their order. */
static void selection(struct lent *s)
{
    static const uint8_t small[] = {118, 4, 10, 0, 8, 63};
    static const uint8_t large[] = {118, 4, 10, 0, 1, 0};
    static const uint8_t outside[][6] = {{118, 4, 10, 0, 0, 255}, {118, 4, 10, 0, 2, 0}, {118, 4, 10, 0, 7, 255},
                                         {118, 4, 10, 0, 8, 64}, {118, 4, 0, 0, 0, 0}};
    static const uint8_t bad[][7] = {{118, 4, 10, 0, 8}, {118, 3, 10, 0, 8, 0}, {119, 4, 10, 0, 8, 0},
                                     {118, 5, 10, 0, 8, 0, 0}, {118, 4, 10, 0, 8, 0, 0}};
    static const size_t bad_bytes[] = {5, 6, 6, 7, 7};
    static const uint8_t in_small[] = {0xdc, 11, 0, 2, 8, 0, 10, 0, 8, 0, 26, 0, 0};
    static const uint8_t in_large[] = {0xdc, 11, 0, 2, 8, 0, 10, 0, 1, 0, 26, 0, 0};
    /* both leases, a high water of 266 told of each */
    static const uint8_t tell_both[] = {0xdc, 22, 0,  2, 19, 0, 10, 0, 1, 0, 26, 0, 2, 1,
                                        10,   10, 0,  8, 0,  26, 0, 2, 1, 10};
    static const uint8_t rows[] = {0, 1, 0, 10, 26, NO, NO, NO, 0, 8, 0, 10, 26, 10, 1, NO, NO};
    size_t i;

    fill(s);
    keep(s);
    ACCEPTED(s, open_at(s, BUFFER), 0, 0, NONE);
    /* the best fit is the small pool, the large one is named; the option follows, and is not counted as an entry */
    ACCEPTED(s, ask_118(s, 7, ask_26, sizeof ask_26, large, sizeof large, SELECTED), 19, 1, ONE);
    SAME("option 220", memcmp(s->reply, in_large, sizeof in_large) != 0, 0);
    SAME("option 118 after it", memcmp(s->reply + 13, large, sizeof large) != 0, 0);
    FILLED(s->reply + 19, sizeof s->reply - 19, REPLY_FILL);
    /* held in the large pool, so not offered again in the small one, which is full then */
    ACCEPTED(s, ask_118(s, 7, ask_26, sizeof ask_26, small, sizeof small, SELECTED), 19, 1, TWO);
    SAME("option 220", memcmp(s->reply, in_small, sizeof in_small) != 0, 0);
    REFUSED(s, ask_118(s, 8, ask_26, sizeof ask_26, small, sizeof small, SELECTED), 10, 0);
    ACCEPTED(s, ask_118(s, 7, ask_26, sizeof ask_26, small, sizeof small, SELECTED + 8), 19, 1, TWO);

    /* a take finds what lies in the pool, and files the figures of that alone */
    REFUSED(s, take_118(s, 7, in_small, sizeof in_small, large, sizeof large, SELECTED), 11, 0);
    ACCEPTED(s, take_118(s, 7, tell_both, sizeof tell_both, small, sizeof small, SELECTED), 19, 1, TWO);
    SAME("option 220", memcmp(s->reply, in_small, sizeof in_small) != 0, 0);
    SAME("option 118 after it", memcmp(s->reply + 13, small, sizeof small) != 0, 0);
    LEASE(lease(s, BUFFER, 0), 0, 0x0a000100, 26, 7, FLOCKDRIFT_HELD, 0, 0, 1120);
    LEASE(lease(s, BUFFER, 1), 0, 0x0a000800, 26, 7, FLOCKDRIFT_LEASED, 0, 0, 4600);
    ROWS(s, rows, 2);

    /* 263 with the option, also with a bad one; 257 without it, whatever the bytes are */
    REFUSED(s, ask_118(s, 7, ask_26, sizeof ask_26, large, sizeof large, SELECTED - 1), 1, 0);
    REFUSED(s, ask_118(s, 7, ask_26, sizeof ask_26, large, 1, REPLY), 1, 0);
    REFUSED(s, ask_118(s, 7, ask_26, sizeof ask_26, NULL, 0, SELECTED - 1), 1, 0);
    REFUSED(s, take_118(s, 7, in_small, sizeof in_small, small, sizeof small, SELECTED - 1), 1, 0);
    REFUSED(s, take_118(s, 7, in_small, sizeof in_small, NULL, 0, REPLY), 1, 0);
    ACCEPTED(s, flockdrift_take(s->image, BUFFER, &s->bytes, s->figures, FIGURES, s->counts, 7, 1000, in_small,
             sizeof in_small, 0, large, 3, s->reply, REPLY), 13, 1, TWO);
    ACCEPTED(s, flockdrift_ask(s->image, BUFFER, &s->bytes, s->figures, FIGURES, s->counts, 7, 1000, ask_26,
             sizeof ask_26, 0, small, sizeof small, s->reply, REPLY), 13, 1, TWO);
    /* any number but 0 says that there is one */
    REFUSED(s, flockdrift_take(s->image, BUFFER, &s->bytes, s->figures, FIGURES, s->counts, 7, 1000, in_small,
            sizeof in_small, UINT32_MAX, large, sizeof large, s->reply, SELECTED), 11, 0);

    /* bad ones: 6, before 7, 16 and 8 of option 220, after 2 and 3 */
    REFUSED(s, ask_118(s, 7, ask_26, sizeof ask_26, NULL, 0, SELECTED), 6, 0);
    for (i = 0; i < sizeof bad / sizeof bad[0]; i++) {
        REFUSED(s, ask_118(s, 7, ask_26, sizeof ask_26, bad[i], bad_bytes[i], SELECTED), 6, 0);
        REFUSED(s, ask_118(s, 7, ask_31, sizeof ask_31, bad[i], bad_bytes[i], SELECTED), 6, 0);
        REFUSED(s, ask_118(s, 7, in_small, sizeof in_small, bad[i], bad_bytes[i], SELECTED), 6, 0);
        REFUSED(s, ask_118(s, 0, ask_26, sizeof ask_26, bad[i], bad_bytes[i], SELECTED), 2, 0);
        REFUSED(s, take_118(s, 7, in_small, sizeof in_small, bad[i], bad_bytes[i], SELECTED), 6, 0);
        REFUSED(s, take_118(s, 7, name_and_bad, sizeof name_and_bad, bad[i], bad_bytes[i], SELECTED), 6, 0);
    }
    /* one past the ends of the pools, and the address of an unused one: 19, after 6, 7, 16 and 8, before 10 and 11 */
    for (i = 0; i < sizeof outside / sizeof outside[0]; i++) {
        const uint8_t *at = outside[i];

        REFUSED(s, ask_118(s, 7, ask_26, sizeof ask_26, at, 6, SELECTED), 19, 0);
        REFUSED(s, ask_118(s, 7, ask_8, sizeof ask_8, at, 6, SELECTED), 19, 0);
        REFUSED(s, ask_118(s, 7, ask_26, sizeof ask_26 - 1, at, 6, SELECTED), 6, 0);
        REFUSED(s, ask_118(s, 7, ask_31, sizeof ask_31, at, 6, SELECTED), 16, 3);
        REFUSED(s, ask_118(s, 7, in_small, sizeof in_small, at, 6, SELECTED), 8, 0);
        REFUSED(s, take_118(s, 7, in_small, sizeof in_small, at, 6, SELECTED), 19, 0);
        REFUSED(s, take_118(s, 9, in_small, sizeof in_small, at, 6, SELECTED), 19, 0);
        REFUSED(s, take_118(s, 7, name_and_bad, sizeof name_and_bad, at, 6, SELECTED), 7, 13);
        REFUSED(s, take_118(s, 7, ask_26, sizeof ask_26, at, 6, SELECTED), 8, 0);
    }
}

/* The sheet, in a text buffer of no byte less than it has, and in one of one byte less. */
static void sheet(struct lent *s)
{
    static const char rows[] = "sheet lines=1 free=1\nfree 10.0.1.0/24\nused 10.0.8.0/26 station 7 until 1120\n";
    size_t n = sizeof rows - 1;
    uint8_t image[ONE];

    begin(s);
    memcpy(image, s->image, sizeof image);
    REFUSED(s, flockdrift_sheet(image, ONE - 1, s->text, sizeof s->text), 5, 0);
    REFUSED(s, flockdrift_sheet(s->image, ONE + 1, s->text, sizeof s->text), 5, 0);
    REFUSED(s, flockdrift_sheet(image, ONE, s->text, n - 1), 14, 0);
    READ(s, flockdrift_sheet(image, ONE, s->text, n), n, 0);
    SAME("the sheet", memcmp(s->text, rows, n) != 0, 0);
    FILLED(s->text + n, sizeof s->text - n, TEXT_FILL);
}

/* What a book holds, in fields; and that it stays as it is. */
static void queries(struct lent *s)
{
    static const uint8_t ask_h[] = {0xdc, 5, 0, 1, 2, 1, 25};

    begin(s);
    HEAD(head(s, BUFFER), 0, 3600, 28, 1000, 2, 1);
    POOL(pool(s, BUFFER, 0), 0, 0x0a000100, 24);
    POOL(pool(s, BUFFER, 1), 0, 0x0a000800, 26);
    POOL(pool(s, BUFFER, 2), 11, 0, 0);
    POOL(pool(s, BUFFER, SIZE_MAX), 11, 0, 0);
    LEASE(lease(s, BUFFER, 0), 0, 0x0a000800, 26, 7, FLOCKDRIFT_HELD, 0, 0, 1120);
    LEASE(lease(s, BUFFER, 1), 11, 0, 0, 0, 0, 0, 0, 0);
    LEASE(lease(s, BUFFER, SIZE_MAX), 11, 0, 0, 0, 0, 0, 0, 0);
    READ(s, check(s), 0, 0);

    ACCEPTED(s, ask(s, 8, 1005, ask_h, sizeof ask_h), 13, 1, TWO);
    ACCEPTED(s, take(s, 7, 1010, name_26, sizeof name_26), 13, 1, TWO);
    ACCEPTED(s, mark(s, 0x0a000100, 25, 1, 1015), 0, 0, TWO);
    HEAD(head(s, BUFFER), 0, 3600, 28, 1015, 2, 2);
    LEASE(lease(s, BUFFER, 0), 0, 0x0a000100, 25, 8, FLOCKDRIFT_HELD, 1, 1, 1125);
    LEASE(lease(s, BUFFER, 1), 0, 0x0a000800, 26, 7, FLOCKDRIFT_LEASED, 0, 0, 4610);
    LEASE(lease(s, BUFFER, 2), 11, 0, 0, 0, 0, 0, 0, 0);

    /* the first has ended at 1125 and stands there until a call that changes the table */
    READ(s, list(s, 7, 1200, list_all, sizeof list_all), 13, 1);
    LEASE(lease(s, BUFFER, 0), 0, 0x0a000100, 25, 8, FLOCKDRIFT_HELD, 1, 1, 1125);
    ACCEPTED(s, take(s, 7, 1200, name_26, sizeof name_26), 13, 1, ONE);
    LEASE(lease(s, BUFFER, 0), 0, 0x0a000800, 26, 7, FLOCKDRIFT_LEASED, 0, 0, 4800);
    LEASE(lease(s, BUFFER, 1), 11, 0, 0, 0, 0, 0, 0, 0);
}

/* Options, with no book. */
static void options(struct lent *s)
{
    static const uint8_t selected[] = {118, 4, 10, 0, 1, 0};
    static const uint8_t short_118[] = {118, 3, 10, 0, 1};
    static uint8_t longest[257];
    size_t n = FLOCKDRIFT_SELECTION_CAPACITY;

    fill(s);
    READ(s, flockdrift_check_option(ask_26, sizeof ask_26), 0, 0);
    READ(s, flockdrift_check_option(name_26, sizeof name_26), 0, 0);
    REFUSED(s, flockdrift_check_option(ask_26, sizeof ask_26 - 1), 6, 0);
    REFUSED(s, flockdrift_check_option(selected, sizeof selected), 6, 0);
    REFUSED(s, flockdrift_check_option(ask_31, sizeof ask_31), 16, 3);
    REFUSED(s, flockdrift_check_option(network_and_cut, sizeof network_and_cut), 7, 3);
    REFUSED(s, flockdrift_check_option(network_and_bad, sizeof network_and_bad), 16, 3);
    REFUSED(s, flockdrift_check_option(name_of_zero, sizeof name_of_zero), 16, 7);
    /* the longest option: a number without Len as its last byte, and a name of a zero as its last three */
    longest[0] = 0xdc;
    longest[1] = 255;
    longest[3] = 9;
    longest[4] = 251;
    REFUSED(s, flockdrift_check_option(longest, sizeof longest), 7, 256);
    longest[4] = 249;
    longest[254] = 3;
    longest[255] = 1;
    REFUSED(s, flockdrift_check_option(longest, sizeof longest), 16, 254);
    REFUSED(s, flockdrift_check_option(name_and_bad, sizeof name_and_bad), 7, 13);

    SELECTION(flockdrift_read_selection(selected, sizeof selected), 0, 0x0a000100);
    SELECTION(flockdrift_read_selection(selected, sizeof selected - 1), 6, 0);
    SELECTION(flockdrift_read_selection(short_118, sizeof short_118), 6, 0);
    SELECTION(flockdrift_read_selection(ask_26, sizeof ask_26), 6, 0);

    REFUSED(s, flockdrift_write_selection(0x0a000100, s->reply, n - 1), 14, 0);
    READ(s, flockdrift_write_selection(0x0a000100, s->reply, sizeof s->reply), n, 0);
    SAME("the option", memcmp(s->reply, selected, n) != 0, 0);
    FILLED(s->reply + n, sizeof s->reply - n, REPLY_FILL);
    READ(s, flockdrift_write_selection(UINT32_MAX, s->reply, n), n, 0);
    SELECTION(flockdrift_read_selection(s->reply, n), 0, UINT32_MAX);
}

/* The struct of a book: each function is the plain one, and a copy is a book to go back to. */
static void book(struct lent *s)
{
    static struct flockdrift_book held;
    struct flockdrift_book before;
    uint32_t i;

    fill(s);
    SAME("no book", flockdrift_book_check(&held).number, 5);
    SAME("no book", flockdrift_book_head(&held).number, 5);
    ACCEPTED(s, open_at(s, BUFFER), 0, 0, NONE);
    SAME("open", flockdrift_book_open(&held, network, 2, length, 2, 3600, 28, 1000).number, 0);
    ACCEPTED(s, ask(s, 7, 1000, ask_26, sizeof ask_26), 13, 1, ONE);
    before = held;
    SAME("ask", flockdrift_book_ask(&held, 7, 1000, ask_26, sizeof ask_26, NO_118, s->reply, REPLY).bytes, 13);
    held = before;
    SAME("ask again", flockdrift_book_ask(&held, 7, 1000, ask_26, sizeof ask_26, NO_118, s->reply, REPLY).count, 1);
    ACCEPTED(s, take(s, 7, 1010, tell_26, sizeof tell_26), 13, 1, ONE);
    SAME("take", flockdrift_book_take(&held, 7, 1010, tell_26, sizeof tell_26, NO_118, s->reply, REPLY).count, 1);
    SAME("list", flockdrift_book_list(&held, 7, 1020, list_all, sizeof list_all, s->reply, REPLY).count, 1);
    ACCEPTED(s, mark(s, 0x0a000800, 26, 1, 1030), 0, 0, ONE);
    SAME("mark", flockdrift_book_mark(&held, 0x0a000800, 26, 1, 1030).number, 0);
    SAME("the length", held.bytes, s->bytes);
    SAME("the image", memcmp(held.image, s->image, FULL) != 0, 0);
    SAME("the figures", memcmp(held.figures, s->figures, FIGURES) != 0, 0);
    SAME("the counts", memcmp(held.counts, s->counts, sizeof held.counts) != 0, 0);
    SAME("whole", flockdrift_book_whole(&held, 24).count, 1);

    HEAD(flockdrift_book_head(&held), 0, 3600, 28, 1030, 2, 1);
    POOL(flockdrift_book_pool(&held, 1), 0, 0x0a000800, 26);
    LEASE(flockdrift_book_lease(&held, 0), 0, 0x0a000800, 26, 7, FLOCKDRIFT_LEASED, 0, 1, 4610);
    FIGURES_OF(flockdrift_book_figures(&held, 0), 0x0a000800, 26, 266, FLOCKDRIFT_UNTOLD, 2);
    FIGURES_OF(flockdrift_book_figures(&held, 1), 0, 0, 65535, 65535, 65535);
    FIGURES_OF(flockdrift_book_figures(&held, 1023), 0, 0, 65535, 65535, 65535);
    FIGURES_OF(flockdrift_book_figures(&held, 1024), 0, 0, 65535, 65535, 65535);
    FIGURES_OF(flockdrift_book_figures(&held, SIZE_MAX), 0, 0, 65535, 65535, 65535);
    SAME("save", flockdrift_book_save(&held, SECOND, 1, s->saved, sizeof s->saved).bytes, ONE);
    SAME("save", flockdrift_book_save(&held, SECOND, 0, s->saved, sizeof s->saved).bytes, ONE);
    SAME("sheet", flockdrift_book_sheet(&held, s->text, sizeof s->text).number, 0);
    SAME("release", flockdrift_book_release(&held, 7, 1040, name_26, sizeof name_26).count, 1);
    SAME("load", flockdrift_book_load(&held, s->saved, ONE).number, 0);
    SAME("what is loaded", memcmp(held.image, s->image, FULL) != 0, 0);
    FIGURES_OF(flockdrift_book_figures(&held, 0), 0x0a000800, 26, 65535, 65535, 65535);
    held.figures[4] = 25;
    SAME("other figures", flockdrift_book_mark(&held, 0x0a000800, 26, 1, 1030).number, FLOCKDRIFT_FIGURES_UNSOUND);
    held.counts[7][22]++;
    SAME("other counts", flockdrift_book_whole(&held, 24).number, FLOCKDRIFT_NOT_AN_IMAGE);
    SAME("other counts", flockdrift_book_sheet(&held, s->text, sizeof s->text).number, FLOCKDRIFT_NOT_AN_IMAGE);
    held.counts[7][22]--;
    SAME("the counts again", flockdrift_book_whole(&held, 24).number, 0);
    held.bytes = SIZE_MAX;
    SAME("a length past the buffer", flockdrift_book_sheet(&held, s->text, sizeof s->text).number, 5);
    SAME("a length past the buffer", flockdrift_book_check(&held).number, 5);

    for (i = 0; i <= 20; i++)
        SAME("no words", flockdrift_text(i)[0] == '\0', 0);
    SAME("words", strcmp(flockdrift_text(FLOCKDRIFT_BAD_FIELD), "a field outside the rules in the suboption") != 0, 0);
    SAME("words", strcmp(flockdrift_text(FLOCKDRIFT_NAME_TOO_LONG), "the name is too long") != 0, 0);
    SAME("words", strcmp(flockdrift_text(18), "names would be lost in the first form") != 0, 0);
    SAME("words", strcmp(flockdrift_text(19), "no pool contains the address of option 118") != 0, 0);
    SAME("words", strcmp(flockdrift_text(20), "too many leases for an older desk") != 0, 0);
    SAME("words", strcmp(flockdrift_text(5), "not the image of a sound table, or not its counts") != 0, 0);
}

/*
 * What an older desk gets of a table of 8 pools and so many leases without names: all of it up to 256, and otherwise 20,
 * before 14; 5 before it.
 */
static void older(struct lent *s, uint32_t leases)
{
    const uint32_t bytes[2] = {85 + 19 * leases, 85 + RECORD * leases};
    uint32_t form;

    for (form = 1; form <= 2; form++) {
        if (leases > FLOCKDRIFT_OLDER_LEASES) {
            REFUSED(s, save_older(s, form, BUFFER), 20, 0);
            REFUSED(s, save_older(s, form, 0), 20, 0);
        } else {
            READ(s, save_older(s, form, bytes[form - 1]), bytes[form - 1], 0);
            REFUSED(s, save_older(s, form, bytes[form - 1] - 1), 14, 0);
        }
        s->counts[0]++;
        keep(s);
        REFUSED(s, save_older(s, form, 0), 5, 0);
        s->counts[0]--;
        keep(s);
    }
    memset(s->saved, SAVED_FILL, sizeof s->saved);
    keep(s);
}

/* A lease more, with a name: 20 before 18, and 18 for a desk that reads as many. It goes again. */
static void older_with_a_name(struct lent *s, uint32_t leases)
{
    const uint32_t at = leases << 6;
    const uint8_t own[] = {0xdc, 11, 0, 2, 8, 0, (uint8_t)(at >> 24), (uint8_t)(at >> 16),
                           (uint8_t)(at >> 8), (uint8_t)at, 26, 0, 0};

    ACCEPTED(s, ask(s, 5000, 0, ask_west, sizeof ask_west), 13, 1, 85 + RECORD * (leases + 1));
    if (leases >= FLOCKDRIFT_OLDER_LEASES) {
        REFUSED(s, save_older(s, FLOCKDRIFT_FIRST_FORM, 0), 20, 0);
        REFUSED(s, save_older(s, SECOND, 0), 20, 0);
    } else {
        REFUSED(s, save_older(s, FLOCKDRIFT_FIRST_FORM, 0), 18, 0);
        REFUSED(s, save_older(s, SECOND, 0), 14, 0);
    }
    REFUSED(s, save_first(s, 0), 18, 0);
    ACCEPTED(s, release(s, 5000, 0, own, sizeof own), 0, 1, 85 + RECORD * leases);
}

/* A full table: 1,024 leases, an image of 45,141 bytes in a buffer that has no byte more. */
static void full(struct lent *s)
{
    static const uint32_t pools[8] = {0, 1u << 30, 2u << 30, 3u << 30, 5u << 28, 6u << 28, 7u << 28, 9u << 28};
    static const uint8_t eights[8] = {8, 8, 8, 8, 8, 8, 8, 8};
    size_t *b = &s->bytes;
    uint8_t *f = s->figures;
    struct flockdrift_answer a;
    uint32_t i;

    fill(s);
    ACCEPTED(s, flockdrift_open(s->image, FULL, b, f, FIGURES, s->counts, pools, 8, eights, 8, 60, 30, 0), 0, 0, 85);
    for (i = 1; i <= FLOCKDRIFT_LEASES; i++) {
        a = flockdrift_ask(s->image, FULL, b, f, FIGURES, s->counts, i, 0, ask_26, sizeof ask_26, NO_118, s->reply, REPLY);
        ACCEPTED(s, a, 13, 1, 85 + RECORD * i);
        if (i == 1 || (i >= 255 && i <= 257) || i == FLOCKDRIFT_LEASES)
            older(s, i);
        if (i >= 255 && i <= 257)
            older_with_a_name(s, i);
    }
    SAME("the length of a full image", s->bytes, FULL);
    HEAD(head(s, FULL), 0, 60, 30, 0, 8, 1024);
    POOL(pool(s, FULL, 7), 0, 3u << 30, 8);
    LEASE(lease(s, FULL, 1023), 0, 1023u << 6, 26, 1024, FLOCKDRIFT_HELD, 0, 0, 120);
    LEASE(lease(s, FULL, 1024), 11, 0, 0, 0, 0, 0, 0, 0);
    /* neither a lease more nor a prefix of this length; what is offered again needs none */
    REFUSED(s, flockdrift_ask(s->image, FULL, b, f, FIGURES, s->counts, 7, 0, ask_8, sizeof ask_8, NO_118, s->reply,
            REPLY), 9, 0);
    REFUSED(s, flockdrift_ask(s->image, FULL, b, f, FIGURES, s->counts, 1025, 0, ask_26, sizeof ask_26, NO_118, s->reply,
            REPLY), 9, 0);
    a = flockdrift_ask(s->image, FULL, b, f, FIGURES, s->counts, 1024, 0, ask_26, sizeof ask_26, NO_118, s->reply, REPLY);
    ACCEPTED(s, a, 13, 1, FULL);

    REFUSED(s, save(s, FULL - 1), 14, 0);
    READ(s, save(s, FULL), FULL, 0);
    FILLED(s->saved + FULL, sizeof s->saved - FULL, SAVED_FILL);
    REFUSED(s, save_first(s, FIRST_FULL - 1), 14, 0);
    READ(s, save_first(s, FIRST_FULL), FIRST_FULL, 0);
    REFUSED(s, load(s, FULL, FIRST_FULL - 1), 5, 0);
    REFUSED(s, load(s, FULL, FIRST_FULL + 1), 5, 0);
    ACCEPTED(s, load(s, FULL, FIRST_FULL), 0, 0, FULL);
    READ(s, save(s, FULL), FULL, 0);
    SAME("there and back", memcmp(s->saved, s->image, FULL) != 0, 0);
    REFUSED(s, load(s, FULL, FULL - 1), 5, 0);
    REFUSED(s, load(s, FULL, FULL + 1), 5, 0);
    ACCEPTED(s, load(s, FULL, FULL), 0, 0, FULL);
    a = flockdrift_sheet(s->image, s->bytes, s->text, sizeof s->text);
    SAME("the sheet's number", a.number, 0);
    READ(s, a, a.bytes, 0);

    /* all of them end at 120 */
    a = flockdrift_ask(s->image, FULL, b, f, FIGURES, s->counts, 7, 120, ask_26, sizeof ask_26, NO_118, s->reply, REPLY);
    ACCEPTED(s, a, 13, 1, 129);
    FILLED(s->image + 129, FULL - 129, 0);
    ACCEPTED(s, load(s, FULL, FULL), 0, 0, FULL);
    ACCEPTED(s, open_at(s, FULL), 0, 0, NONE);
    FILLED(s->image + NONE, FULL - NONE, 0);
    ACCEPTED(s, ask(s, 7, 1000, ask_26, sizeof ask_26), 13, 1, ONE);
}

/* The same history on an image of each thread's own, on a small stack. */
static void *history(void *own)
{
    int i;

    for (i = 0; i < 4; i++)
        full(own);
    return NULL;
}

static void threads(void)
{
    static struct lent own[THREADS][2];
    pthread_t thread[THREADS];
    pthread_attr_t attributes;
    int i;

    SAME("the attributes", pthread_attr_init(&attributes), 0);
    SAME("the stack", pthread_attr_setstacksize(&attributes, STACK), 0);
    for (i = 0; i < THREADS; i++)
        if (pthread_create(&thread[i], &attributes, history, own[i]) != 0)
            exit(EXIT_FAILURE);
    for (i = 0; i < THREADS; i++)
        SAME("the join", pthread_join(thread[i], NULL), 0);
    for (i = 1; i < THREADS; i++)
        SAME("what another thread has", memcmp(own[0], own[i], sizeof own[0]) != 0, 0);
    pthread_attr_destroy(&attributes);
}

int main(void)
{
    static struct lent s[2];

    layout();
    nulls(s);
    sizes(s);
    order(s);
    calls(s);
    removed(s);
    again(s);
    unsound_figures(s);
    counts(s);
    figures(s);
    load_and_save(s);
    names(s);
    forms(s);
    selection(s);
    sheet(s);
    queries(s);
    options(s);
    book(s);
    full(s);
    threads();
    return differences == 0 ? EXIT_SUCCESS : EXIT_FAILURE;
}
