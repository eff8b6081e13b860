/* What people see: errors with their number, name and place, and the progress line. */
#include "loader.h"

#include <inttypes.h>
#include <stdarg.h>
#include <stdio.h>
#include <string.h>
#include <time.h>
#include <unistd.h>

enum { PROGRESS_WIDTH = 72 };

static bool progress_shown;

double seconds_now(void)
{
    struct timespec now;
    if (clock_gettime(CLOCK_MONOTONIC, &now) != 0)
        return 0;
    return (double)now.tv_sec + (double)now.tv_nsec / 1e9;
}

void progress_clear(void)
{
    if (progress_shown)
        fprintf(stderr, "\r%*s\r", PROGRESS_WIDTH, "");
    progress_shown = false;
}

/* Only on a terminal, and at most ten times a second: in a log it would be noise, and oftener it would cost time. */
void progress(const struct load *load)
{
    static int terminal = -1;
    static double last;
    if (terminal < 0) {
        terminal = isatty(STDERR_FILENO);
        last = seconds_now();
    }
    if (!terminal || seconds_now() - last < 0.1)
        return;
    last = seconds_now();
    char text[PROGRESS_WIDTH + 1];
    snprintf(text, sizeof text, "loader: %" PRIu64 " rows, %" PRIu64 " bytes", load->rows, load->line.taken);
    fprintf(stderr, "\r%-*s", PROGRESS_WIDTH, text);
    fflush(stderr);
    progress_shown = true;
}

bool fail(const char *format, ...)
{
    va_list words;
    progress_clear();
    fputs("loader: ", stderr);
    va_start(words, format);
    vfprintf(stderr, format, words);
    va_end(words);
    fputc('\n', stderr);
    return false;
}

/* A refusal's name without its number: "3: out of sync" is "out of sync". */
static const char *refusal_name(uint8_t status)
{
    const char *text = mk_refusal_text(status);
    const char *colon = strstr(text, ": ");
    return colon ? colon + 2 : text;
}

/*
 * The place is the number of bytes that the library had used up: for a chunk or a frame that is refused, where it begins; for a
 * value, the end of what was taken in before it was looked at.
 */
bool refused(const struct line *line, uint8_t status)
{
    char row[40] = "", column[SHOWN_NAME + 16] = "";
    if (line->row > 0)
        snprintf(row, sizeof row, ", row %" PRIu64, line->row);
    if (line->column)
        snprintf(column, sizeof column, ", column %s", line->column);
    return fail("refused %u (%s) at byte %" PRIu64 " of the %s's bytes, packet %" PRIu64 "%s%s", (unsigned)status, refusal_name(status),
                line->taken, line->whose, line->packets + (line->reading ? 1 : 0), row, column);
}

/* Control characters, also those of two bytes in UTF-8 (C2 80 to C2 9F). */
static bool is_control(const uint8_t *bytes, size_t i)
{
    return bytes[i] < 0x20 || bytes[i] == 0x7F || ((bytes[i] & 0xE0) == 0x80 && (i == 0 || bytes[i - 1] == 0xC2));
}

/* Bytes of a server as text: what a terminal might take for a command becomes a question mark, and what is too long is cut. */
const char *clean(char *into, size_t room, const uint8_t *bytes, size_t len)
{
    size_t count = len < room - 1 ? len : room - 1;
    for (size_t i = 0; i < count; i++)
        into[i] = is_control(bytes, i) ? '?' : (char)bytes[i];
    into[count] = '\0';
    return into;
}

/*
 * Why the server refused the login or the query: code, SQL state and text of the ERR that the line has read last. Before the login is done a
 * server may send one without a state, which is no ERR of protocol 4.1: then its code, and the bytes behind it as they stand.
 */
bool server_error(const struct load *load)
{
    const struct line *line = &load->line;
    const char *asked = load->logged_in ? "query" : "login";
    uint64_t numbers[MK_ANSWER_NUMBERS];
    char text[513], state[6];
    uint8_t status = mk_read_answer(line->packet, line->len, load->tracking, numbers, MK_ANSWER_NUMBERS);
    if (status == MK_BAD_PACKET)
        return fail("the server refused the %s: %u, without a SQL state (%s): %s", asked, (unsigned)little(line->packet + 1, 2),
                    mk_refusal_text(status), clean(text, sizeof text, line->packet + 3, line->len - 3));
    if (status != MK_OK)
        return refused(line, status);
    clean(state, sizeof state, line->packet + numbers[MK_ANSWER_STATE], numbers[MK_ANSWER_STATE_LEN]);
    clean(text, sizeof text, line->packet + numbers[MK_ANSWER_MESSAGE], numbers[MK_ANSWER_MESSAGE_LEN]);
    return fail("the server refused the %s: %u (%s): %s", asked, (unsigned)numbers[MK_ANSWER_CODE], state, text);
}
