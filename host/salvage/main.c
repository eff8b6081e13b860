/*
 * The report of a damaged capture of plain chunks: which stretches of it can be read, and which are lost.
 *
 * The capture is read into memory of its own and not mapped: the library is lent bytes that must stay as they are while it looks at
 * them, and a file that someone else still writes to would not.
 */
#include "mishkeldur.h"

#include <errno.h>
#include <fcntl.h>
#include <getopt.h>
#include <stdarg.h>
#include <stdbool.h>
#include <stdio.h>
#include <stdlib.h>
#include <string.h>
#include <sys/stat.h>
#include <unistd.h>

enum { DEFAULT_LIMIT = 61440, FIRST_ROOM = 65536, FIRST_STRETCHES = 16384 };

static const char help[] =
    "salvage: reports which stretches of a damaged capture of plain chunks can be read, and which are lost.\n"
    "\n"
    "  salvage [--limit N] FILE     a capture; - is standard input\n"
    "\n"
    "  --limit N        the longest packet, 1 to 16777214 bytes (61440)\n"
    "  --help, --version\n"
    "\n"
    "A line for each stretch, its fields parted by tabs: good, offset, bytes, packets; or lost, offset, bytes, and the number of the\n"
    "refusal that began it (2 too large, 3 out of sync, 8 a cut end). Exit status: 0 all was reported; 1 it could not be done.\n";

struct capture {
    uint8_t *bytes;
    size_t len, room;
};

static bool fail(const char *format, ...) __attribute__((format(printf, 1, 2)));
static bool fail(const char *format, ...)
{
    va_list words;
    fputs("salvage: ", stderr);
    va_start(words, format);
    vfprintf(stderr, format, words);
    va_end(words);
    fputc('\n', stderr);
    return false;
}

/* "1: bad limit" is "refused 1 (bad limit)". */
static bool refused(uint8_t status)
{
    const char *text = mk_refusal_text(status), *colon = strstr(text, ": ");
    return fail("refused %u (%s)", (unsigned)status, colon ? colon + 2 : text);
}

/* ---- the capture */

static bool make_room(struct capture *capture, size_t room)
{
    uint8_t *bytes = room > capture->room ? realloc(capture->bytes, room) : NULL;
    if (!bytes)
        return fail("no memory for the capture, of which %zu bytes were read", capture->len);
    capture->bytes = bytes;
    capture->room = room;
    return true;
}

/* Room for a file of a known size and a byte more, so that its end is seen without another look for room. */
static size_t room_for(int file)
{
    struct stat about;
    if (fstat(file, &about) != 0 || !S_ISREG(about.st_mode) || about.st_size < FIRST_ROOM || (uintmax_t)about.st_size >= SIZE_MAX / 2)
        return FIRST_ROOM;
    return (size_t)about.st_size + 1;
}

static bool read_all(struct capture *capture, int file, const char *name)
{
    if (!make_room(capture, room_for(file)))
        return false;
    for (;;) {
        if (capture->len == capture->room && !make_room(capture, capture->room > SIZE_MAX / 2 ? 0 : 2 * capture->room))
            return false;
        ssize_t got = read(file, capture->bytes + capture->len, capture->room - capture->len);
        if (got == 0)
            return true;
        if (got > 0)
            capture->len += (size_t)got;
        else if (errno != EINTR)
            return fail("%s can't be read: %s", name, strerror(errno));
    }
}

static bool read_capture(struct capture *capture, const char *name)
{
    if (strcmp(name, "-") == 0)
        return read_all(capture, STDIN_FILENO, "standard input");
    int file = open(name, O_RDONLY);
    if (file < 0)
        return fail("%s can't be opened: %s", name, strerror(errno));
    bool good = read_all(capture, file, name);
    close(file);
    return good;
}

/* ---- the report */

static bool print_stretches(const size_t *list, size_t count)
{
    for (size_t i = 0; i < count; i++, list += MK_STRETCH_NUMBERS)
        if (printf("%s\t%zu\t%zu\t%zu\n", list[0] == MK_GOOD ? "good" : "lost", list[1], list[2], list[3]) < 0)
            break;
    return (fflush(stdout) == 0 && !ferror(stdout)) || fail("the report can't be written: %s", strerror(errno));
}

/* Most reports are short, so the first list is lent without asking how long it must be, which would take one more walk. */
static bool report(const struct capture *capture, size_t limit)
{
    size_t room = FIRST_STRETCHES, count = 0, *list = NULL;
    uint8_t status = MK_NO_ROOM;
    while (status == MK_NO_ROOM) {
        free(list);
        list = calloc(room, MK_STRETCH_NUMBERS * sizeof *list);
        if (!list)
            return fail("no memory for a report of %zu stretches", room);
        status = mk_salvage(limit, capture->bytes, capture->len, list, MK_STRETCH_NUMBERS * room, &count);
        if (status == MK_NO_ROOM && mk_stretches(limit, capture->bytes, capture->len, &room) != MK_OK)
            break;
    }
    bool good = status == MK_OK ? print_stretches(list, count) : refused(status);
    free(list);
    return good;
}

/* ---- the command line */

/* Any number: which ones are limits is the library's to say. */
static bool parse_limit(const char *text, size_t *limit)
{
    size_t sum = 0;
    if (!*text)
        return false;
    for (; *text; text++) {
        if (*text < '0' || *text > '9')
            return false;
        size_t digit = (size_t)(*text - '0');
        if (sum > (SIZE_MAX - digit) / 10)
            return false;
        sum = 10 * sum + digit;
    }
    *limit = sum;
    return true;
}

enum option_code { LIMIT = 1, HELP, VERSION };

static const struct option long_options[] = {
    {"limit", required_argument, NULL, LIMIT}, {"help", no_argument, NULL, HELP}, {"version", no_argument, NULL, VERSION}, {NULL, 0, NULL, 0}};

static int print_text(const char *text, const char *more)
{
    printf("%s%s", text, more);
    return fflush(stdout) == 0 ? EXIT_SUCCESS : EXIT_FAILURE;
}

int main(int count, char **words)
{
    size_t limit = DEFAULT_LIMIT;
    int which;
    opterr = 0;
    while ((which = getopt_long(count, words, "", long_options, NULL)) != -1) {
        if (which == HELP)
            return print_text(help, "");
        if (which == VERSION)
            return print_text("salvage " MK_VERSION, "\n");
        if (which != LIMIT)
            return fail("no such option, or its value is missing: %s (see salvage --help)", words[optind - 1]), EXIT_FAILURE;
        if (!parse_limit(optarg, &limit))
            return fail("--limit can't be '%s' (see salvage --help)", optarg), EXIT_FAILURE;
    }
    if (count - optind != 1)
        return fail("%s (see salvage --help)", optind < count ? "one capture at a time" : "which capture?"), EXIT_FAILURE;
    struct capture capture = {NULL, 0, 0};
    bool good = read_capture(&capture, words[optind]) && report(&capture, limit);
    free(capture.bytes);
    return good ? EXIT_SUCCESS : EXIT_FAILURE;
}
