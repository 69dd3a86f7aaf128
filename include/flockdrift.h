/*
 * Flockdrift: leases of subnets over DHCP option 220 (RFC 6656), embedded in a server.
 *
 * The server holds the lease table as a book: its image, at the front of a buffer, the image's length, the figures
 * sheet with what clients told of the use of their leases, and the counts of what is left. They are lent to each call:
 * one that accepts leaves the new ones in them, one that refuses has changed none. The image is also a saved form,
 * which the server writes to a file and loads from it; figures and counts are not saved.
 *
 *     static struct flockdrift_book book;            all zeros: no table yet, open or load makes one
 *     struct flockdrift_answer a = flockdrift_book_load(&book, saved, saved_bytes);
 *     if (a.number == 0)
 *         a = flockdrift_book_ask(&book, client, now, option, option_bytes, 0, NULL, 0, reply, sizeof reply);
 *     if (a.number != 0)
 *         puts(flockdrift_text(a.number));
 *
 * The functions flockdrift_book_.. hand the book's fields to those that the library exports, which take them one by
 * one. A later version may need more fields: what goes through the struct stays as it is.
 *
 * Each exported function is proved to do what docs and specifications say of it, for all arguments; what that needs of
 * a caller:
 *
 * - A pointer points to as many elements as the size after it says (`networks` to n, `lengths` to m); where the size is
 *   0 it may be null. `counts` has no size: it points to all 184 counts. Where `image_bytes` is a pointer it is never
 *   null, nor are counts or a book. What a call writes overlaps no other argument.
 * - Nothing is kept between two calls: no pointer, no allocation, no global. Any number of threads may call at once,
 *   each with buffers of its own; two calls on one book need a lock around them, unless both only read it (list, save,
 *   sheet, check, whole, head, pool, lease, figures). A sheet takes up to 51 KiB of stack, an
 *   ask up to 10, every other call less than 2 (measured on x86-64; a proof says nothing of the stack).
 *
 * Networks are IPv4 addresses as numbers, 10.0.1.0 being 0x0a000100, and lengths are prefix lengths. Times are seconds
 * of the server's clock, which does not run backwards. A client is a number that the server gives it, not 0. Options
 * are whole options, from the code byte to the last byte that the length byte counts: 220, and 118 where it says so.
 *
 * OPTION 118 (RFC 3011) names the subnet that a client is to be served from, by an address in it. Whether it is enabled
 * is the server's choice, made anew with each ask and take: `selected` is not 0 where it is enabled and the message
 * carried one, and `selection` is then the whole option, of `selection_bytes`, whatever its bytes are: a bad one is
 * refused with 6. Where `selected` is 0 the call is one without option 118: `selection` is not looked at, and may be null
 * with size 0. The other calls never carry it.
 *
 * With it the call is about one pool, that which contains the address: all that an ask offers lies in it, what it offers
 * again too, and a take does not find what lies in another. An accepted call's reply has the option, byte for byte, after
 * option 220, so the reply buffer must have FLOCKDRIFT_SELECTED_REPLY_CAPACITY; `bytes` of the answer counts both, and
 * `count` the entries of option 220.
 *
 * C99 or later, C++ too; flockdrift.rs beside this file has the same for Rust, rust/flockdrift a safe wrapper. Link
 * with libflockdrift.a, which `tools/build flockdrift` makes in target/staticlib.
 *
 * THE IMAGE is records, one after another with nothing between or after them: one head, then 1 to 8 pools, then up to
 * 1,024 leases, pools and leases each ascending by network. All numbers are little-endian. It has two forms, and one
 * table has one image in each.
 *
 * A record is its length (2 bytes, which count what follows them), its kind (2 bytes) and its fields. The second form:
 *
 *     kind       length  fields, with the bytes of each
 *     5, head    11      term 4, default length 1, last time 4
 *     2, pool    7       network 4, prefix length 1
 *     4, lease   42      network 4, prefix length 1, state 1 (1 held, 2 leased), flags 1 (h 1 + d 2), client 4, end 4,
 *                        name length 1 (0 to 24), name 24: its octets, the last not zero, then zeros
 *
 * The first form, that of versions before 0.14, has no names:
 *
 *     1, head    11      as kind 5
 *     2, pool    7       the same
 *     3, lease   17      as kind 4 up to and with the end
 *
 * The head tells the form, and records of both forms in one image are no image. Every call works on the second form: a
 * book's image is never of the first. The first is for files: flockdrift_load and flockdrift_sheet read both, a lease of
 * the first getting an empty name, and flockdrift_save writes either, the first exactly if no lease has a name.
 *
 * A desk of a version before 0.16 loads no more than 256 leases, in either form. What is saved for one is the same image;
 * flockdrift_save, told so, refuses a table of more leases with 20.
 *
 * A lease's name is that of the ask that made it, for an operator to read; it is in no reply. It stays with the lease,
 * and goes with it.
 *
 * flockdrift_head, flockdrift_pool and flockdrift_lease answer the fields as numbers, so that a server need not read
 * them itself.
 *
 * THE FIGURES SHEET is 1,024 rows of 11 bytes, one for each place of a lease: first those of the leases, in their order,
 * then those of the places that have none. All numbers are little-endian:
 *
 *     network 4, prefix length 1, high water 2, in use 2, unusable 2
 *
 * Network and length are the lease's. A figure is what the client told last in an entry of a take, 0xffff where it told
 * none. The row of a place without a lease has network 0, length 0 and three times 0xffff. A sheet of which one row is
 * not so does not match the table, nor does one of another size.
 *
 * Open and load fill the sheet, nothing told. An ask adds a row for each lease that it makes, nothing told; with a lease
 * its row is removed, whether it ended or was released; a take files the figures of the entries that it finds, in
 * order, where 0xffff or a missing one keeps what was told before; nothing else changes a figure.
 * flockdrift_book_figures answers a row as numbers.
 *
 * THE COUNTS say how much is left: 8 rows of 23 numbers, a row for each place of a pool, in the pools' order, and in it
 * one number for each length from 8 to 30: how many whole free prefixes of that length the pool has. A free prefix is
 * whole if the prefix of twice its size around it is not free, or not in the pool: every free address is in exactly
 * one. A lease that stands in the table is not free, whether it has ended or not. The rows of places without a pool are
 * all 0. The numbers are 16 bits in the machine's own order; they are not saved.
 *
 * Counts that are not the table's make a book unsound: every call but open and load, which work them out, finds that
 * out and refuses with 5. A call that accepts leaves the counts of the table as it then is. flockdrift_whole answers
 * the sum over the pools for a length.
 */
#ifndef FLOCKDRIFT_H
#define FLOCKDRIFT_H

#include <stddef.h>
#include <stdint.h>

#ifdef __cplusplus
extern "C" {
#endif

/* Of this header and of the library that belongs to it. */
#define FLOCKDRIFT_VERSION "0.16.0"

/*
 * The image of a full table: 8 pools and 1,024 leases. No image is longer, and a book's buffer must not be smaller. After
 * open and load the rest of a buffer of this size is zeros, and every other call that accepts zeroes what the new image
 * leaves of the old one: of a removed lease, or of an older table, nothing stays behind. No call writes past this size.
 */
#define FLOCKDRIFT_IMAGE_CAPACITY 45141

/* The same in the first form: a buffer of this size holds what flockdrift_save writes in that form. */
#define FLOCKDRIFT_FIRST_FORM_CAPACITY 19541

/* A table has at most so many leases, and one that is saved for an older desk so many. */
#define FLOCKDRIFT_LEASES 1024
#define FLOCKDRIFT_OLDER_LEASES 256

/* A name has at most so many octets. */
#define FLOCKDRIFT_NAME_CAPACITY 24

/* A figures sheet has exactly this size: so many bytes in a row, and 1,024 rows. */
#define FLOCKDRIFT_FIGURES_ROW 11
#define FLOCKDRIFT_FIGURES_CAPACITY 11264

/* The counts: a row for each of so many pools, of so many lengths, the first of which is 8. */
#define FLOCKDRIFT_COUNTS_ROWS 8
#define FLOCKDRIFT_COUNTS_LENGTHS 23

/*
 * What the smallest reply buffer has, and what it has for an ask or a take that carries an option 118. No reply is
 * longer: one of the second size serves every call.
 */
#define FLOCKDRIFT_REPLY_CAPACITY 257
#define FLOCKDRIFT_SELECTED_REPLY_CAPACITY 263

/* An option 118 has this size. */
#define FLOCKDRIFT_SELECTION_CAPACITY 6

/*
 * A text buffer of this size holds every sheet; most are far shorter. It is a first line of 28 bytes, 1,024 leases of at
 * most 90 (a name of 24 octets makes 30 of them) and 22,536 free prefixes of at most 24: each pool has one, and each lease
 * at most 22 more, one for each length from 9 to 30.
 */
#define FLOCKDRIFT_TEXT_CAPACITY 633052

/*
 * The answer of every call. After a refusal all but `number` and `place` are 0, and nothing that was lent has changed:
 * no byte of image, figures, reply, buffer or text, no count, and not the image's length.
 */
struct flockdrift_answer {
    uint32_t number; /* 0: accepted; otherwise why not, see below */
    uint32_t place;  /* of FLOCKDRIFT_BAD_SUBOPTION and FLOCKDRIFT_BAD_FIELD: where in the option the suboption begins,
                        the code byte being at 0; 0 of every other number */
    uint32_t bytes;  /* how many bytes of reply, buffer or text were written; those after them are as they were */
    uint32_t count;  /* ask, take, list: entries in the reply; release: leases removed by the option's entries; whole:
                        whole free prefixes of the length */
};

/*
 * Why a call is refused. If several apply, the answer is the first in this order: 1, 5, 15, 2, 3, 4, 6, 7 and 16, 8, 17,
 * 19, 9, 10, 11, 12, 20, 18, 14. 6 is one row for both options: a bad option 118 comes before a bad suboption of option 220.
 * 7 and 16 stand in one row: the first bad suboption decides which, and of one that is bad in both ways the framing, all
 * of which is looked at before any field.
 */
enum {
    FLOCKDRIFT_ACCEPTED = 0,
    FLOCKDRIFT_REPLY_TOO_SMALL = 1,   /* the reply buffer is below FLOCKDRIFT_REPLY_CAPACITY; ask and take with an
                                         option 118, also a bad one: below FLOCKDRIFT_SELECTED_REPLY_CAPACITY */
    FLOCKDRIFT_NO_CLIENT = 2,         /* client 0 */
    FLOCKDRIFT_TOO_EARLY = 3,         /* now is before the time of the last accepted call that changed the table */
    FLOCKDRIFT_TOO_LATE = 4,          /* now is above 4,292,375,295 */
    FLOCKDRIFT_NOT_AN_IMAGE = 5,      /* the bytes are not the image of a table, whole and sound; or, but for load and
                                         sheet, it is of the first form; or their buffer is below
                                         FLOCKDRIFT_IMAGE_CAPACITY or below image_bytes; or, where counts are lent to be
                                         read, one of them is not the table's */
    FLOCKDRIFT_NOT_THE_OPTION = 6,    /* the input is not exactly one option 220; or, where `selected` says that there
                                         is one, and in read_selection, not exactly one option 118 */
    FLOCKDRIFT_BAD_SUBOPTION = 7,     /* a suboption's framing is bad, as of a message that was cut: no Len byte, a Len
                                         past the end or one that the suboption cannot have, an entry cut short, a
                                         figure length odd or past the end; `place` says which suboption */
    FLOCKDRIFT_WRONG_SUBOPTIONS = 8,  /* requests or entries are not those that this call takes */
    FLOCKDRIFT_TABLE_FULL = 9,        /* ask: 1,024 leases are present, and nothing is offered again */
    FLOCKDRIFT_NO_SPACE = 10,         /* ask: no free prefix of the length, with an option 118 none in its pool, and
                                         nothing is offered again */
    FLOCKDRIFT_NOT_FOUND = 11,        /* take, list, release, mark: no such lease, in a take with an option 118 none in
                                         its pool; pool, lease: none with the index */
    FLOCKDRIFT_OUTSIDE_RULES = 12,    /* open: pools, term, default length or start */
    FLOCKDRIFT_BUFFER_TOO_SMALL = 14, /* open, load: the image buffer is below FLOCKDRIFT_IMAGE_CAPACITY, or the
                                         figures sheet is not of FLOCKDRIFT_FIGURES_CAPACITY; save, sheet,
                                         write_selection: what is written is longer than its buffer */
    FLOCKDRIFT_FIGURES_UNSOUND = 15,  /* ask, take, release, mark: the figures sheet does not match the table, as it is
                                         lent, with the leases that have ended; or it is of another size */
    FLOCKDRIFT_BAD_FIELD = 16,        /* a suboption's framing is good, and a field of it outside the rules: a request's
                                         prefix above 30, an entry's prefix 0 or above 30, a network bit past the
                                         prefix, a name's last octet zero; `place` says which suboption */
    FLOCKDRIFT_NAME_TOO_LONG = 17,    /* ask: the option's first name has more than FLOCKDRIFT_NAME_CAPACITY octets,
                                         whatever would be offered */
    FLOCKDRIFT_NAMES_LOST = 18,       /* save in the first form: a lease has a name */
    FLOCKDRIFT_NOT_IN_A_POOL = 19,    /* ask, take: no pool contains the address of option 118 */
    FLOCKDRIFT_TOO_MANY_LEASES = 20   /* save for an older desk, in either form: the table has more than
                                         FLOCKDRIFT_OLDER_LEASES, those that have ended too */
};

/* A number in words, for a log; never null. */
static inline const char *flockdrift_text(uint32_t number)
{
    switch (number) {
    case FLOCKDRIFT_ACCEPTED: return "accepted";
    case FLOCKDRIFT_REPLY_TOO_SMALL: return "the reply buffer is too small";
    case FLOCKDRIFT_NO_CLIENT: return "there is no client 0";
    case FLOCKDRIFT_TOO_EARLY: return "the time is before the last time of the table";
    case FLOCKDRIFT_TOO_LATE: return "the time is too late";
    case FLOCKDRIFT_NOT_AN_IMAGE: return "not the image of a sound table, or not its counts";
    case FLOCKDRIFT_NOT_THE_OPTION: return "not exactly the option";
    case FLOCKDRIFT_BAD_SUBOPTION: return "bad framing in the suboption";
    case FLOCKDRIFT_WRONG_SUBOPTIONS: return "the suboptions are not those that the call takes";
    case FLOCKDRIFT_TABLE_FULL: return "the table is full";
    case FLOCKDRIFT_NO_SPACE: return "no free prefix of the length";
    case FLOCKDRIFT_NOT_FOUND: return "nothing found";
    case FLOCKDRIFT_OUTSIDE_RULES: return "pools, term, default length or start are outside the rules";
    case FLOCKDRIFT_BUFFER_TOO_SMALL: return "the buffer is too small";
    case FLOCKDRIFT_FIGURES_UNSOUND: return "the figures sheet does not match the table";
    case FLOCKDRIFT_BAD_FIELD: return "a field outside the rules in the suboption";
    case FLOCKDRIFT_NAME_TOO_LONG: return "the name is too long";
    case FLOCKDRIFT_NAMES_LOST: return "names would be lost in the first form";
    case FLOCKDRIFT_NOT_IN_A_POOL: return "no pool contains the address of option 118";
    case FLOCKDRIFT_TOO_MANY_LEASES: return "too many leases for an older desk";
    default: return "no number of this library";
    }
}

/*
 * THE CALLS. Those that change the table are lent the figures sheet with it; the others do not look at it. All but
 * sheet, which is for saved bytes, are lent the counts.
 */

/*
 * Makes the image of a table without leases, its figures sheet and its counts, whatever they held before. There are 1
 * to 8 pools, in any order: networks[i] with lengths[i], n and m being equal; each of length 8 to 30, aligned to its
 * size, none overlapping another. A lease is for `term` seconds, 60 to 2,592,000; a request that suggests no length
 * asks for `default_length`, 1 to 30; `start` is the time, at most 4,292,375,295. Numbers: 12, 14.
 */
struct flockdrift_answer flockdrift_open(uint8_t *image, size_t capacity, size_t *image_bytes, uint8_t *figures,
                                         size_t figures_capacity, uint16_t *counts, const uint32_t *networks, size_t n,
                                         const uint8_t *lengths, size_t m, uint32_t term, uint32_t default_length,
                                         uint32_t start);

/*
 * Offers a prefix for each of the option's 1 to 25 requests, where there is one, and holds it for 120 seconds; the reply
 * has one information for each, in order. At least one request must be granted.
 *
 * What the client was offered before and has not taken, if it has not ended, it is offered again: a request gets the
 * lease of its length and h that the client holds, of several the lowest, each only once in a call. It is held for 120
 * seconds from now on, even if it would have ended later; its d stays and is in the reply, and its row of the figures
 * sheet and its name stay. This needs no place in the table and no free prefix. Only the other requests get free
 * prefixes. So a client whose answer was lost, and who asks again, gets the same prefixes.
 *
 * The leases that this call makes get the octets of the option's first name, or an empty name where it has none; names
 * after the first are not looked at.
 *
 * With an option 118 all of this is about the leases and the free prefixes of one pool: what the client holds in another
 * is not offered again, and stays as it is. The table is full as before, with the leases of all pools. Numbers: 1, 5, 15,
 * 2, 3, 4, 6, 7, 16, 8, 17, 19, 9, 10.
 */
struct flockdrift_answer flockdrift_ask(uint8_t *image, size_t capacity, size_t *image_bytes, uint8_t *figures,
                                        size_t figures_capacity, uint16_t *counts, uint32_t client, uint32_t now,
                                        const uint8_t *option, size_t option_bytes, uint32_t selected,
                                        const uint8_t *selection, size_t selection_bytes, uint8_t *reply,
                                        size_t reply_capacity);

/*
 * Confirms or renews, for the table's term, the client's leases that the option's entries name, and files the figures
 * of these entries; the reply names the leases that were found, without figures. The option has entries and no request.
 * With an option 118 an entry outside its pool is not found, and its figures are not filed. Numbers: 1, 5, 15, 2, 3, 4,
 * 6, 7, 16, 8, 19, 11.
 */
struct flockdrift_answer flockdrift_take(uint8_t *image, size_t capacity, size_t *image_bytes, uint8_t *figures,
                                         size_t figures_capacity, uint16_t *counts, uint32_t client, uint32_t now,
                                         const uint8_t *option, size_t option_bytes, uint32_t selected,
                                         const uint8_t *selection, size_t selection_bytes, uint8_t *reply,
                                         size_t reply_capacity);

/*
 * Lists the client's leases, ascending, at most 35 in a reply; whose s bit says that more remain, and an option with
 * that reply's information then gets the next ones. Every request of the option has its i bit set. Changes nothing.
 * Numbers: 1, 5, 2, 3, 4, 6, 7, 16, 8, 11.
 */
struct flockdrift_answer flockdrift_list(const uint8_t *image, size_t capacity, size_t image_bytes,
                                         const uint16_t *counts, uint32_t client, uint32_t now, const uint8_t *option,
                                         size_t option_bytes, uint8_t *reply, size_t reply_capacity);

/* Removes the client's leases that the option's entries name. Numbers: 5, 15, 2, 3, 4, 6, 7, 16, 8, 11. */
struct flockdrift_answer flockdrift_release(uint8_t *image, size_t capacity, size_t *image_bytes, uint8_t *figures,
                                            size_t figures_capacity, uint16_t *counts, uint32_t client, uint32_t now,
                                            const uint8_t *option, size_t option_bytes);

/*
 * Marks the lease with this network and length as deprecated, or, where `deprecated` is 0, as not. The client learns of
 * it from its next take or list. Numbers: 5, 15, 3, 4, 11.
 */
struct flockdrift_answer flockdrift_mark(uint8_t *image, size_t capacity, size_t *image_bytes, uint8_t *figures,
                                         size_t figures_capacity, uint16_t *counts, uint32_t network, uint32_t length,
                                         uint32_t deprecated, uint32_t now);

/*
 * Makes the table of the saved bytes, which are of either form, the book's: its image, of the second form, its figures
 * sheet, nothing told, and its counts, whatever these held before. They must be an image exactly, with nothing missing
 * and nothing after it; but an image has no checksum, so bytes that were changed may be the image of another table: keep
 * a checksum beside a file that may be. Numbers, 5 being for the saved bytes: 5, 14.
 */
struct flockdrift_answer flockdrift_load(uint8_t *image, size_t capacity, size_t *image_bytes, uint8_t *figures,
                                         size_t figures_capacity, uint16_t *counts, const uint8_t *saved,
                                         size_t saved_bytes);

/* The two forms of an image, for flockdrift_save. */
enum { FLOCKDRIFT_FIRST_FORM = 1, FLOCKDRIFT_SECOND_FORM = 2 };

/*
 * Checks the image and writes the table into a buffer, in the first form where `form` is 1 and in the second where it is
 * ANY other number; from there it can be written to a file while other calls go on. Where `older` is not 0 it is saved
 * for an older desk, one that loads no more than FLOCKDRIFT_OLDER_LEASES: the bytes are the same, and a table with more
 * leases is refused. A lease that has ended counts until a call removes it. Changes nothing else. Numbers: 5, 20 (for an
 * older desk only), 18 (the first form only), 14.
 */
struct flockdrift_answer flockdrift_save(const uint8_t *image, size_t capacity, size_t image_bytes,
                                         const uint16_t *counts, uint32_t form, uint32_t older, uint8_t *buffer,
                                         size_t buffer_capacity);

/*
 * Writes the table as text for an operator: a line `sheet lines=LEASES free=ROWS`, then a line for each lease and each
 * free prefix, ascending, each ended by a newline, with no 0 after the last. The line of a lease with a name ends with
 * ` name ` and its octets, `?` for each that is not 0x20 to 0x7e. The image may be of either form and stand anywhere: it
 * needs no room after it. Saved bytes have no counts, so it takes none. Changes nothing else, and refuses with 5 exactly
 * what is no image, so that it also tells whether a file is one. Numbers: 5, 14.
 */
struct flockdrift_answer flockdrift_sheet(const uint8_t *image, size_t image_bytes, char *text, size_t text_capacity);

/*
 * WHAT A BOOK HOLDS. These change nothing and have no time: a lease that has ended stands there until the next accepted
 * call that changes the table. Each checks the whole image, as every call does. In the structs all but `number` are 0
 * after a refusal.
 */

/* Whether what is lent is a sound book with its counts: what every call but open and load finds out first. Numbers: 5. */
struct flockdrift_answer flockdrift_check(const uint8_t *image, size_t capacity, size_t image_bytes,
                                          const uint16_t *counts);

/*
 * How much is left: the count of the answer is that of the whole free prefixes of this length, summed over the pools,
 * of the table as it stands, with leases that have ended; 0 for every length outside 8 to 30. Numbers: 5.
 */
struct flockdrift_answer flockdrift_whole(const uint8_t *image, size_t capacity, size_t image_bytes,
                                          const uint16_t *counts, uint32_t length);

struct flockdrift_head_answer {
    uint32_t number;
    uint32_t term;           /* seconds of a lease */
    uint32_t default_length; /* of a request that suggests none */
    uint32_t last_time;      /* of the last accepted call that changed the table */
    uint32_t pools;          /* how many there are, 1 to 8 */
    uint32_t leases;         /* how many there are, up to FLOCKDRIFT_LEASES */
};

/* The head of the table, and how many pools and leases it has. Numbers: 5. */
struct flockdrift_head_answer flockdrift_head(const uint8_t *image, size_t capacity, size_t image_bytes,
                                              const uint16_t *counts);

struct flockdrift_pool_answer {
    uint32_t number;
    uint32_t network;
    uint32_t length;
};

/* The pool with this index, which counts from 0; they ascend by network. Numbers: 5, 11. */
struct flockdrift_pool_answer flockdrift_pool(const uint8_t *image, size_t capacity, size_t image_bytes,
                                              const uint16_t *counts, size_t index);

enum {
    FLOCKDRIFT_HELD = 1,  /* offered, until it is taken or 120 seconds have passed since it was offered last */
    FLOCKDRIFT_LEASED = 2
};

struct flockdrift_lease_answer {
    uint32_t number;
    uint32_t network;
    uint32_t length;
    uint32_t client;
    uint32_t state;   /* FLOCKDRIFT_HELD or FLOCKDRIFT_LEASED */
    uint32_t h;       /* 1 if its request had h set, otherwise 0 */
    uint32_t d;       /* 1 if it is deprecated, otherwise 0 */
    uint32_t expires; /* the time of its end: from then on it is none */
    uint32_t name_bytes;                    /* how long its name is, 0 to FLOCKDRIFT_NAME_CAPACITY */
    uint8_t name[FLOCKDRIFT_NAME_CAPACITY]; /* its octets, any but for the last, which is not zero; then zeros */
};

/* The lease with this index, which counts from 0; they ascend by network. Numbers: 5, 11. */
struct flockdrift_lease_answer flockdrift_lease(const uint8_t *image, size_t capacity, size_t image_bytes,
                                                const uint16_t *counts, size_t index);

/* OPTIONS, with no book. */

/* Checks an option 220, as ask, take, list and release do before they look at what it asks for. Numbers: 6, 7, 16. */
struct flockdrift_answer flockdrift_check_option(const uint8_t *option, size_t option_bytes);

struct flockdrift_selection_answer {
    uint32_t number;
    uint32_t address; /* 0 after a refusal */
};

/* Reads an option 118 (RFC 3011): the address of the subnet that a client is to be served from. Numbers: 6. */
struct flockdrift_selection_answer flockdrift_read_selection(const uint8_t *option, size_t option_bytes);

/* Writes an option 118 with this address, FLOCKDRIFT_SELECTION_CAPACITY bytes. Numbers: 14. */
struct flockdrift_answer flockdrift_write_selection(uint32_t address, uint8_t *buffer, size_t buffer_capacity);

/*
 * A BOOK IN ONE STRUCT. All zeros is no book: every call but open and load refuses it with 5. It has no pointer: a copy
 * of the struct is a copy of the book, to which a server can go back. Each function is the one above of that name.
 */
struct flockdrift_book {
    size_t bytes; /* the image's length */
    uint8_t image[FLOCKDRIFT_IMAGE_CAPACITY];
    uint8_t figures[FLOCKDRIFT_FIGURES_CAPACITY];
    uint16_t counts[FLOCKDRIFT_COUNTS_ROWS][FLOCKDRIFT_COUNTS_LENGTHS];
};

static inline struct flockdrift_answer flockdrift_book_open(struct flockdrift_book *book, const uint32_t *networks,
                                                            size_t n, const uint8_t *lengths, size_t m, uint32_t term,
                                                            uint32_t default_length, uint32_t start)
{
    return flockdrift_open(book->image, sizeof book->image, &book->bytes, book->figures, sizeof book->figures,
                           book->counts[0], networks, n, lengths, m, term, default_length, start);
}

static inline struct flockdrift_answer flockdrift_book_ask(struct flockdrift_book *book, uint32_t client, uint32_t now,
                                                           const uint8_t *option, size_t option_bytes,
                                                           uint32_t selected, const uint8_t *selection,
                                                           size_t selection_bytes, uint8_t *reply,
                                                           size_t reply_capacity)
{
    return flockdrift_ask(book->image, sizeof book->image, &book->bytes, book->figures, sizeof book->figures,
                          book->counts[0], client, now, option, option_bytes, selected, selection, selection_bytes,
                          reply, reply_capacity);
}

static inline struct flockdrift_answer flockdrift_book_take(struct flockdrift_book *book, uint32_t client, uint32_t now,
                                                            const uint8_t *option, size_t option_bytes,
                                                            uint32_t selected, const uint8_t *selection,
                                                            size_t selection_bytes, uint8_t *reply,
                                                            size_t reply_capacity)
{
    return flockdrift_take(book->image, sizeof book->image, &book->bytes, book->figures, sizeof book->figures,
                           book->counts[0], client, now, option, option_bytes, selected, selection, selection_bytes,
                           reply, reply_capacity);
}

static inline struct flockdrift_answer flockdrift_book_list(const struct flockdrift_book *book, uint32_t client,
                                                            uint32_t now, const uint8_t *option, size_t option_bytes,
                                                            uint8_t *reply, size_t reply_capacity)
{
    return flockdrift_list(book->image, sizeof book->image, book->bytes, book->counts[0], client, now, option,
                           option_bytes, reply, reply_capacity);
}

static inline struct flockdrift_answer flockdrift_book_release(struct flockdrift_book *book, uint32_t client,
                                                               uint32_t now, const uint8_t *option, size_t option_bytes)
{
    return flockdrift_release(book->image, sizeof book->image, &book->bytes, book->figures, sizeof book->figures,
                              book->counts[0], client, now, option, option_bytes);
}

static inline struct flockdrift_answer flockdrift_book_mark(struct flockdrift_book *book, uint32_t network,
                                                            uint32_t length, uint32_t deprecated, uint32_t now)
{
    return flockdrift_mark(book->image, sizeof book->image, &book->bytes, book->figures, sizeof book->figures,
                           book->counts[0], network, length, deprecated, now);
}

static inline struct flockdrift_answer flockdrift_book_load(struct flockdrift_book *book, const uint8_t *saved,
                                                            size_t saved_bytes)
{
    return flockdrift_load(book->image, sizeof book->image, &book->bytes, book->figures, sizeof book->figures,
                           book->counts[0], saved, saved_bytes);
}

static inline struct flockdrift_answer flockdrift_book_save(const struct flockdrift_book *book, uint32_t form,
                                                            uint32_t older, uint8_t *buffer, size_t buffer_capacity)
{
    return flockdrift_save(book->image, sizeof book->image, book->bytes, book->counts[0], form, older, buffer,
                           buffer_capacity);
}

static inline struct flockdrift_answer flockdrift_book_check(const struct flockdrift_book *book)
{
    return flockdrift_check(book->image, sizeof book->image, book->bytes, book->counts[0]);
}

/* The sheet takes saved bytes; of a book whose counts are not its own there is none. */
static inline struct flockdrift_answer flockdrift_book_sheet(const struct flockdrift_book *book, char *text,
                                                             size_t text_capacity)
{
    struct flockdrift_answer a = flockdrift_book_check(book);

    return a.number != 0 ? a : flockdrift_sheet(book->image, book->bytes, text, text_capacity);
}

static inline struct flockdrift_answer flockdrift_book_whole(const struct flockdrift_book *book, uint32_t length)
{
    return flockdrift_whole(book->image, sizeof book->image, book->bytes, book->counts[0], length);
}

static inline struct flockdrift_head_answer flockdrift_book_head(const struct flockdrift_book *book)
{
    return flockdrift_head(book->image, sizeof book->image, book->bytes, book->counts[0]);
}

static inline struct flockdrift_pool_answer flockdrift_book_pool(const struct flockdrift_book *book, size_t index)
{
    return flockdrift_pool(book->image, sizeof book->image, book->bytes, book->counts[0], index);
}

static inline struct flockdrift_lease_answer flockdrift_book_lease(const struct flockdrift_book *book, size_t index)
{
    return flockdrift_lease(book->image, sizeof book->image, book->bytes, book->counts[0], index);
}

/* A figure that no client told. */
#define FLOCKDRIFT_UNTOLD 0xffff

struct flockdrift_figures {
    uint32_t network;
    uint32_t length;     /* 0 where there is no lease with the index */
    uint32_t high_water; /* each figure is 0 to 65,534, or FLOCKDRIFT_UNTOLD */
    uint32_t in_use;
    uint32_t unusable;
};

/* A little-endian number of so many bytes. */
static inline uint32_t flockdrift_little_endian(const uint8_t *from, size_t bytes)
{
    uint32_t number = 0;

    while (bytes > 0)
        number = number << 8 | from[--bytes];
    return number;
}

/*
 * The row of the figures sheet for the lease with this index, as it stands there: whether the sheet matches is for the
 * calls to find out. Past the last row it is that of a place without a lease.
 */
static inline struct flockdrift_figures flockdrift_book_figures(const struct flockdrift_book *book, size_t index)
{
    struct flockdrift_figures figures = {0, 0, FLOCKDRIFT_UNTOLD, FLOCKDRIFT_UNTOLD, FLOCKDRIFT_UNTOLD};
    const uint8_t *row;

    if (index >= sizeof book->figures / FLOCKDRIFT_FIGURES_ROW)
        return figures;
    row = book->figures + index * FLOCKDRIFT_FIGURES_ROW;
    figures.network = flockdrift_little_endian(row, 4);
    figures.length = row[4];
    figures.high_water = flockdrift_little_endian(row + 5, 2);
    figures.in_use = flockdrift_little_endian(row + 7, 2);
    figures.unusable = flockdrift_little_endian(row + 9, 2);
    return figures;
}

#ifdef __cplusplus
}
#endif

#endif
