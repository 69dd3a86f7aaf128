/*
 * The loop of a DHCP server in small, with Flockdrift embedded: build it with
 *
 *     cc -std=c99 -Iinclude examples/embed.c target/staticlib/libflockdrift.a -o embed
 *     ./embed DIRECTORY [STOP-AFTER] < messages
 *
 * The book is the file `leases` in DIRECTORY, as the library saves it, in the second form: without the figures that
 * clients told, which are all untold after a start. A file of the first form is loaded as well, and the next change puts
 * one of the second in its place. Each line of standard input stands for a message or for a word from the operator, and its
 * answer goes to standard output, both in the console's words:
 *
 *     open TERM DEFAULT START PREFIX..       a new book, where there is none yet
 *     ask|take CLIENT NOW OPTION [OPTION]    option 220 in hexadecimal, and option 118 where the message has one
 *     list|return CLIENT NOW OPTION
 *     mark NOW PREFIX 0|1
 *     sheet                                  the book as text
 *
 * This server has option 118 enabled: what a message has of it goes to the call.
 *
 * A client gets its answer only after the new image is on the disk: it is written to another file, which is synced and
 * then renamed over the old one, and the directory is synced. So a server that is killed between any two steps finds at
 * its next start the image from before the message or the one from after it, whole, and it has promised no lease that
 * is not in it. A client whose answer was lost asks again: a take then gets the same answer, and an ask within 120
 * seconds the same prefixes; after that a prefix that nobody took is free again. STOP-AFTER shows this: the server kills
 * itself after so many steps.
 *
 * If the image cannot be written the server goes back to the book from before the message, gives no answer, says why on
 * standard error and goes on. A new book takes the place of no other: open is no word where there is a book, and its
 * file is linked into place, which fails where a file has come to stand there. A file that is no image is named with
 * its number, and stays as it is: the server does not start on it.
 *
 * One server at a time works on a directory.
 */
#define _POSIX_C_SOURCE 200809L

#include "flockdrift.h"

#include <ctype.h>
#include <errno.h>
#include <fcntl.h>
#include <signal.h>
#include <stdio.h>
#include <stdlib.h>
#include <string.h>
#include <sys/types.h>
#include <unistd.h>

enum {
    OPTION_CAPACITY = 257, /* the longest option */
    POOLS = 16,            /* more than a table takes, so that it is the library that refuses */
    PIECE = 32             /* bytes for one write: few, so that a kill can leave half an image in the new file */
};

struct server {
    const char *name; /* of the directory where the image is kept */
    int directory;
    unsigned long stop_after;
    struct flockdrift_book book;
    uint8_t saved[FLOCKDRIFT_IMAGE_CAPACITY + 1]; /* one byte more shows a file that is longer than any image */
    char text[FLOCKDRIFT_TEXT_CAPACITY];
};

/* Stands between any two steps after which the world may look different. */
static void step(struct server *s)
{
    if (s->stop_after != 0 && --s->stop_after == 0)
        raise(SIGKILL);
}

/* THE IMAGE FILE */

/* Says what could not be done with a file of the directory, in errno's words. */
static int complain(const struct server *s, const char *file)
{
    fprintf(stderr, "embed: %s/%s: %s\n", s->name, file, strerror(errno));
    return -1;
}

/* The same of a refusal, with its number. */
static int complain_refused(const struct server *s, struct flockdrift_answer a)
{
    fprintf(stderr, "embed: %s/leases: refused %lu: %s\n", s->name, (unsigned long)a.number, flockdrift_text(a.number));
    return -1;
}

/* Closes a file after a failure, whose errno is the one to report. */
static int failed(int fd)
{
    int error = errno;

    close(fd);
    errno = error;
    return -1;
}

/* Reads a file as far as the buffer goes. */
static int read_all(int fd, uint8_t *to, size_t room, size_t *bytes)
{
    ssize_t n;

    *bytes = 0;
    while ((n = read(fd, to + *bytes, room - *bytes)) != 0)
        if (n > 0)
            *bytes += (size_t)n;
        else if (errno != EINTR)
            return failed(fd);
    return close(fd);
}

/* Loads the book, or finds that there is none yet. A file that is no image is an error, and stays for the operator. */
static int read_book(struct server *s)
{
    struct flockdrift_answer a;
    size_t bytes;
    int fd = openat(s->directory, "leases", O_RDONLY | O_CLOEXEC);

    if (fd < 0 && errno == ENOENT)
        return 0;
    if (fd < 0 || read_all(fd, s->saved, sizeof s->saved, &bytes) != 0)
        return complain(s, "leases");
    a = flockdrift_book_load(&s->book, s->saved, bytes);
    return a.number == 0 ? 0 : complain_refused(s, a);
}

static int write_all(struct server *s, int fd, const uint8_t *from, size_t bytes)
{
    while (bytes > 0) {
        ssize_t n = write(fd, from, bytes < PIECE ? bytes : PIECE);

        if (n < 0 && errno == EINTR)
            continue;
        if (n < 0)
            return -1;
        from += n;
        bytes -= (size_t)n;
        step(s);
    }
    return 0;
}

/*
 * Writes the bytes to the new file, all of them on the disk. A file that was left there loses its name first: it may be
 * the image itself, which open links.
 */
static int write_new(struct server *s, size_t bytes)
{
    int fd;

    if (unlinkat(s->directory, "leases.new", 0) != 0 && errno != ENOENT)
        return -1;
    step(s);
    fd = openat(s->directory, "leases.new", O_WRONLY | O_CREAT | O_EXCL | O_CLOEXEC, 0600);
    if (fd < 0)
        return -1;
    step(s);
    if (write_all(s, fd, s->saved, bytes) != 0 || fsync(fd) != 0)
        return failed(fd);
    step(s);
    if (close(fd) != 0)
        return -1;
    step(s);
    return 0;
}

/* Puts the new file in the place of the old one; where there is to be none yet, only if there is none. */
static int put_in_place(struct server *s, int first)
{
    int e = first ? linkat(s->directory, "leases.new", s->directory, "leases", 0)
                  : renameat(s->directory, "leases.new", s->directory, "leases");

    if (e != 0)
        return -1;
    step(s);
    if (fsync(s->directory) != 0)
        return -1;
    step(s);
    return 0;
}

/*
 * Puts the book's image in the place of the old one: after this returns 0 it is there, and after a crash or a failure
 * it is one of the two. Save checks once more what goes to the disk, so that a fault elsewhere in the server does not
 * take the good file's place.
 */
static int write_book(struct server *s, int first)
{
    struct flockdrift_answer a =
        flockdrift_book_save(&s->book, FLOCKDRIFT_SECOND_FORM, 0, s->saved, sizeof s->saved);

    if (a.number != 0)
        return complain_refused(s, a);
    if (write_new(s, a.bytes) != 0)
        return complain(s, "leases.new");
    return put_in_place(s, first) == 0 ? 0 : complain(s, "leases");
}

/* MESSAGES AS LINES */

static char *word(char **rest)
{
    return strtok_r(NULL, " \r\n", rest);
}

static int number(const char *text, uint32_t *value)
{
    unsigned long long n;
    char *end;

    if (text == NULL || !isdigit((unsigned char)text[0]))
        return -1;
    errno = 0;
    n = strtoull(text, &end, 10);
    if (errno != 0 || *end != '\0' || n > UINT32_MAX)
        return -1;
    *value = (uint32_t)n;
    return 0;
}

/* A.B.C.D/L */
static int prefix(const char *text, uint32_t *network, uint8_t *length)
{
    uint8_t part[5];
    int i;

    if (text == NULL)
        return -1;
    for (i = 0; i < 5; i++) {
        unsigned long n;
        char *end;

        if (!isdigit((unsigned char)text[0]))
            return -1;
        errno = 0;
        n = strtoul(text, &end, 10);
        if (errno != 0 || n > UINT8_MAX || *end != ".../"[i]) /* after the fifth stands the end of the text */
            return -1;
        part[i] = (uint8_t)n;
        text = end + 1;
    }
    *network = (uint32_t)part[0] << 24 | (uint32_t)part[1] << 16 | (uint32_t)part[2] << 8 | part[3];
    *length = part[4];
    return 0;
}

static int digit(char c)
{
    const char digits[] = "0123456789abcdef";
    const char *at = c == '\0' ? NULL : strchr(digits, tolower((unsigned char)c));

    return at == NULL ? -1 : (int)(at - digits);
}

/* An option in hexadecimal; `-` stands for no bytes. */
static int octets(const char *text, uint8_t *option, size_t *bytes)
{
    size_t n;

    if (text == NULL)
        return -1;
    if (strcmp(text, "-") == 0)
        text = "";
    for (n = 0; text[2 * n] != '\0'; n++) {
        int high = digit(text[2 * n]);
        int low = high < 0 ? -1 : digit(text[2 * n + 1]);

        if (low < 0 || n == OPTION_CAPACITY)
            return -1;
        option[n] = (uint8_t)(high * 16 + low);
    }
    *bytes = n;
    return 0;
}

static void show(const struct server *s, struct flockdrift_answer a, const char *verb, const uint8_t *reply)
{
    uint32_t i;

    if (a.number == FLOCKDRIFT_BAD_SUBOPTION || a.number == FLOCKDRIFT_BAD_FIELD) {
        printf("refused %lu place=%lu\n", (unsigned long)a.number, (unsigned long)a.place);
    } else if (a.number != 0) {
        printf("refused %lu\n", (unsigned long)a.number);
    } else if (strcmp(verb, "sheet") == 0) {
        printf("%.*s", (int)a.bytes, s->text);
    } else if (a.bytes != 0) {
        printf("ok bytes=%lu count=%lu ", (unsigned long)a.bytes, (unsigned long)a.count);
        for (i = 0; i < a.bytes; i++)
            printf("%02x", reply[i]);
        printf("\n");
    } else if (strcmp(verb, "return") == 0) {
        printf("ok count=%lu\n", (unsigned long)a.count);
    } else {
        printf("ok\n");
    }
}

/* THE LOOP */

/* open TERM DEFAULT START PREFIX.. */
static int call_open(struct server *s, char *rest, struct flockdrift_answer *a)
{
    uint32_t networks[POOLS], term, length, start;
    uint8_t lengths[POOLS];
    size_t n = 0;
    char *text;

    if (number(word(&rest), &term) != 0 || number(word(&rest), &length) != 0 || number(word(&rest), &start) != 0)
        return -1;
    while ((text = word(&rest)) != NULL) {
        if (n == POOLS || prefix(text, &networks[n], &lengths[n]) != 0)
            return -1;
        n++;
    }
    if (flockdrift_book_check(&s->book).number == 0) {
        fprintf(stderr, "embed: %s/leases: there is a book, which open would lose\n", s->name);
        return -1;
    }
    *a = flockdrift_book_open(&s->book, networks, n, lengths, n, term, length, start);
    return 0;
}

/* mark NOW PREFIX 0|1 */
static int call_mark(struct server *s, char *rest, struct flockdrift_answer *a)
{
    uint32_t now, network, flag;
    uint8_t length;

    if (number(word(&rest), &now) != 0 || prefix(word(&rest), &network, &length) != 0 ||
        number(word(&rest), &flag) != 0 || flag > 1 || word(&rest) != NULL)
        return -1;
    *a = flockdrift_book_mark(&s->book, network, length, flag, now);
    return 0;
}

/* The call that a message asks for; -1 where the line is none. */
static int call(struct server *s, const char *verb, char *rest, struct flockdrift_answer *a, uint8_t *reply)
{
    uint8_t option[OPTION_CAPACITY], selection[OPTION_CAPACITY];
    uint32_t client, now, selected;
    size_t bytes, selection_bytes = 0;
    char *text;

    if (strcmp(verb, "open") == 0)
        return call_open(s, rest, a);
    if (strcmp(verb, "mark") == 0)
        return call_mark(s, rest, a);
    if (strcmp(verb, "sheet") == 0) {
        if (word(&rest) != NULL)
            return -1;
        *a = flockdrift_book_sheet(&s->book, s->text, sizeof s->text);
        return 0;
    }
    if (number(word(&rest), &client) != 0 || number(word(&rest), &now) != 0 ||
        octets(word(&rest), option, &bytes) != 0)
        return -1;
    text = word(&rest);
    selected = text != NULL;
    if (selected && (octets(text, selection, &selection_bytes) != 0 || word(&rest) != NULL))
        return -1;
    if (strcmp(verb, "ask") == 0)
        *a = flockdrift_book_ask(&s->book, client, now, option, bytes, selected, selection, selection_bytes, reply,
                                 FLOCKDRIFT_SELECTED_REPLY_CAPACITY);
    else if (strcmp(verb, "take") == 0)
        *a = flockdrift_book_take(&s->book, client, now, option, bytes, selected, selection, selection_bytes, reply,
                                  FLOCKDRIFT_SELECTED_REPLY_CAPACITY);
    else if (selected)
        return -1;
    else if (strcmp(verb, "list") == 0)
        *a = flockdrift_book_list(&s->book, client, now, option, bytes, reply, FLOCKDRIFT_SELECTED_REPLY_CAPACITY);
    else if (strcmp(verb, "return") == 0)
        *a = flockdrift_book_release(&s->book, client, now, option, bytes);
    else
        return -1;
    return 0;
}

/* Answers one message; -1 where the answer could not be written. */
static int serve(struct server *s, char *line, unsigned long count)
{
    const struct flockdrift_book before = s->book;
    uint8_t reply[FLOCKDRIFT_SELECTED_REPLY_CAPACITY];
    struct flockdrift_answer a;
    char *rest;
    const char *verb = strtok_r(line, " \r\n", &rest);

    if (verb == NULL || verb[0] == '#')
        return 0;
    if (call(s, verb, rest, &a, reply) != 0) {
        printf("error line %lu\n", count);
        return fflush(stdout);
    }
    step(s);
    if (a.number == 0 && strcmp(verb, "list") != 0 && strcmp(verb, "sheet") != 0 &&
        write_book(s, strcmp(verb, "open") == 0) != 0) {
        s->book = before;
        return 0;
    }
    show(s, a, verb, reply);
    if (fflush(stdout) != 0)
        return -1;
    step(s);
    return 0;
}

int main(int argc, char **argv)
{
    static struct server s;
    unsigned long count = 0;
    uint32_t stop_after = 0;
    char *line = NULL;
    size_t room = 0;
    int status = EXIT_FAILURE;

    if (argc < 2 || argc > 3 || (argc == 3 && number(argv[2], &stop_after) != 0)) {
        fprintf(stderr, "usage: %s DIRECTORY [STOP-AFTER] < messages\n", argv[0]);
        return EXIT_FAILURE;
    }
    s.stop_after = stop_after;
    s.name = argv[1];
    s.directory = open(s.name, O_RDONLY | O_DIRECTORY | O_CLOEXEC);
    if (s.directory < 0) {
        perror(s.name);
        return EXIT_FAILURE;
    }
    if (read_book(&s) != 0)
        goto done;
    while (getline(&line, &room, stdin) >= 0)
        if (serve(&s, line, ++count) != 0) {
            perror("standard output");
            goto done;
        }
    if (feof(stdin))
        status = EXIT_SUCCESS;
    else
        perror("standard input");
done:
    free(line);
    close(s.directory);
    return status;
}
