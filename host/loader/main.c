/* The depot loader's command line. */
#include "loader.h"

#include <getopt.h>
#include <inttypes.h>
#include <stdio.h>
#include <stdlib.h>
#include <string.h>

static const char help[] =
    "loader: reads the rows of a timetable as a server sends them, and prints its trains by their signed offset.\n"
    "\n"
    "  loader [options] NAME.s2c.bin          a capture, with NAME.index.json and NAME.c2s.bin beside it\n"
    "  loader [options] --index NAME.index.json -\n"
    "                                         the server's bytes of a capture from standard input, with NAME.c2s.bin beside the index\n"
    "  loader [options] --connect HOST:PORT --user U --password-file F --database D --table T [--stored]\n"
    "                                         a running server; a path that has a / in place of HOST:PORT is a unix socket\n"
    "  loader --stream [--packet K] [--limit N] FILE\n"
    "                                         a server's bytes as plain chunks, - for standard input: its packets, of any length, and no rows\n"
    "\n"
    "  --limit N        the longest packet, 1 to 1073741824 bytes (61440; with --stream 1073741824)\n"
    "  --offset NAME    the column of the offset, of type TIME (t0)\n"
    "  --index FILE     a capture's index, if it does not stand beside it\n"
    "  --head N         how many trains are printed, 0 for all (20)\n"
    "  --stored         ask the server for frames (CLIENT_COMPRESS); packed ones are refused\n"
    "  --stream         read packets straight through a buffer of 4 KiB; the first chunk's number is taken as it stands\n"
    "  --packet K       with --stream: the payload of packet K, from 1, to standard output as it comes, and the report to standard error\n"
    "  --help, --version\n"
    "\n"
    "A line for each train: offset in microseconds, [-]HH:MM:SS.micros, row number. Trains whose offset is NULL are counted and not\n"
    "queued. With --stream a line for each packet: which, its bytes, in how many parts; nothing vouches for a payload unless the exit status is 0.\n"
    "Exit status: 0 all went well; 1 something was refused or could not be read; 2 bad usage.\n";

static int usage(const char *what, const char *value)
{
    fail("%s%s%s (see loader --help)", what, *value ? ": " : "", value);
    return EXIT_USAGE;
}

static bool parse_number(const char *text, uint64_t least, uint64_t most, uint64_t *value)
{
    uint64_t sum = 0;
    if (!*text)
        return false;
    for (; *text; text++) {
        if (*text < '0' || *text > '9')
            return false;
        uint64_t digit = (uint64_t)(*text - '0');
        if (sum > (UINT64_MAX - digit) / 10)
            return false;
        sum = 10 * sum + digit;
    }
    *value = sum;
    return sum >= least && sum <= most;
}

/* The bytes of the UTF-8 character at the front, if an identifier may have it: U+0001 to U+FFFF, no surrogates. Else 0. */
static size_t identifier_character(const uint8_t *at)
{
    if (at[0] < 0x80)
        return 1;
    if (at[0] >= 0xC2 && at[0] < 0xE0)
        return (at[1] & 0xC0) == 0x80 ? 2 : 0;
    if (at[0] < 0xE0 || at[0] >= 0xF0 || (at[1] & 0xC0) != 0x80 || (at[2] & 0xC0) != 0x80)
        return 0;
    bool long_form = at[0] == 0xE0 && at[1] < 0xA0, surrogate = at[0] == 0xED && at[1] >= 0xA0;
    return long_form || surrogate ? 0 : 3;
}

/* What the server's rules allow between backticks: 1 to 64 characters, the last of them no space. */
static bool identifier(const char *name)
{
    const uint8_t *at = (const uint8_t *)name;
    size_t characters = 0;
    while (*at) {
        size_t len = identifier_character(at);
        if (len == 0 || ++characters > 64)
            return false;
        at += len;
    }
    return characters > 0 && at[-1] != ' ';
}

enum option_code { LIMIT = 1, OFFSET, HEAD, INDEX, CONNECT, USER, PASSWORD_FILE, DATABASE, TABLE, STORED, STREAM, PACKET, HELP, VERSION };

static const struct option long_options[] = {{"limit", required_argument, NULL, LIMIT},
                                             {"offset", required_argument, NULL, OFFSET},
                                             {"head", required_argument, NULL, HEAD},
                                             {"index", required_argument, NULL, INDEX},
                                             {"connect", required_argument, NULL, CONNECT},
                                             {"user", required_argument, NULL, USER},
                                             {"password-file", required_argument, NULL, PASSWORD_FILE},
                                             {"database", required_argument, NULL, DATABASE},
                                             {"table", required_argument, NULL, TABLE},
                                             {"stored", no_argument, NULL, STORED},
                                             {"stream", no_argument, NULL, STREAM},
                                             {"packet", required_argument, NULL, PACKET},
                                             {"help", no_argument, NULL, HELP},
                                             {"version", no_argument, NULL, VERSION},
                                             {NULL, 0, NULL, 0}};

static bool take_option(struct options *options, int which, const char *value)
{
    uint64_t limit = 0;
    options->rows |= which == OFFSET || which == HEAD || which == INDEX;
    switch (which) {
    case LIMIT:
        if (!parse_number(value, 1, MK_MAX_LIMIT, &limit))
            return false;
        options->limit = (size_t)limit;
        return true;
    case OFFSET: options->offset = value; return *value != '\0';
    case HEAD: return parse_number(value, 0, UINT64_MAX, &options->head);
    case INDEX: options->index = value; return true;
    case CONNECT: options->connect = value; return true;
    case USER: options->user = value; return true;
    case PASSWORD_FILE: options->password_file = value; return true;
    case DATABASE: options->database = value; return identifier(value);
    case TABLE: options->table = value; return identifier(value);
    case STREAM: options->stream = true; return true;
    case PACKET: return parse_number(value, 1, UINT64_MAX, &options->packet);
    default: options->stored = true; return true;
    }
}

/* Whether the options go together; says what does not. */
static int check_options(const struct options *options)
{
    if (options->packet && !options->stream)
        return usage("--packet goes with --stream", "");
    if (options->connect) {
        if (options->stream)
            return usage("--stream reads a capture, not a server", "");
        if (options->capture || options->index)
            return usage("a capture or a server, not both", "");
        if (!options->user || !options->password_file || !options->database || !options->table)
            return usage("--connect wants --user, --password-file, --database and --table", "");
        return 0;
    }
    if (options->user || options->password_file || options->database || options->table || options->stored)
        return usage("--user, --password-file, --database, --table and --stored go with --connect", "");
    if (!options->capture)
        return usage("which capture?", "");
    if (options->stream)
        return options->rows ? usage("--offset, --head and --index are for rows, which --stream does not read", "") : 0;
    if (strcmp(options->capture, "-") == 0 && !options->index)
        return usage("standard input wants --index FILE", "");
    return 0;
}

/* 0: go on; else exit with *status. */
static bool read_options(int count, char **words, struct options *options, int *status)
{
    int which, place = 0;
    opterr = 0;
    *status = EXIT_USAGE;
    while ((which = getopt_long(count, words, "", long_options, &place)) != -1) {
        if (which == HELP || which == VERSION) {
            printf("%s", which == HELP ? help : "loader ");
            if (which == VERSION)
                printf("%s\n", mk_version());
            *status = fflush(stdout) == 0 ? 0 : EXIT_REFUSED;
            return false;
        }
        if (which == '?') {
            usage("no such option, or its value is missing", words[optind - 1]);
            return false;
        }
        if (!take_option(options, which, optarg)) {
            fail("--%s can't be '%s' (see loader --help)", long_options[place].name, optarg);
            return false;
        }
    }
    if (count - optind > 1) {
        usage("one capture at a time", words[optind + 1]);
        return false;
    }
    options->capture = optind < count ? words[optind] : NULL;
    if (options->limit == 0)
        options->limit = options->stream ? MK_MAX_LIMIT : DEFAULT_LIMIT;
    *status = check_options(options);
    return *status == 0;
}

static void summary(const struct load *load, double seconds)
{
    fprintf(stderr, "loader: %" PRIu64 " rows, %" PRIu64 " packets, %" PRIu64 " bytes, %" PRIu64 " NULL offsets, %.3f seconds\n",
            load->rows, load->line.packets, load->line.taken, load->nulls, seconds);
}

int main(int count, char **words)
{
    struct options options = {.offset = "t0", .head = 20};
    int status = 0;
    if (!read_options(count, words, &options, &status))
        return status;
    if (options.stream)
        return stream_capture(&options) ? 0 : EXIT_REFUSED;
    struct load *load = calloc(1, sizeof *load);
    if (!load) {
        fail("no memory");
        return EXIT_REFUSED;
    }
    load->options = &options;
    double start = seconds_now();
    bool good = options.connect ? load_server(load) : load_capture(load);
    progress_clear();
    if (good) {
        queue_sort(&load->queue);
        good = queue_print(&load->queue, options.head);
    }
    if (good)
        summary(load, seconds_now() - start);
    line_close(&load->line);
    free(load->queue.trains);
    free(load);
    return good ? 0 : EXIT_REFUSED;
}
