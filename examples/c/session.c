/* Sends the lines of a script to a session, one at a time.
 *
 *   session [--compare] < script
 *
 * Built at the top of the repository, once `tools/library` has made the library:
 *
 *   cc -std=c11 -I include examples/c/session.c target/staticlib/libsession.a -o session
 *
 * Standard output has the answer lines, standard error the library's version and limits. With --compare the whole script goes to
 * robinlocker_run too, and the last line of standard error says whether answers and counts are the same. The status is 0, or 1 if
 * something went wrong or was not the same.
 */
#include <inttypes.h>
#include <stdio.h>
#include <stdlib.h>
#include <string.h>

#include "robinlocker.h"

/* The memory of a session. A static variable, since 192 KiB are much for a stack. */
static struct {
    uint32_t core[ROBINLOCKER_TABLE_WORDS];
    uint32_t theory[ROBINLOCKER_TABLE_WORDS];
    uint32_t solver[ROBINLOCKER_TABLE_WORDS];
    uint32_t kept[ROBINLOCKER_KEPT_WORDS];
} tables;

/* The three work tables, and all four, as the calls take them. */
#define THREE tables.core, ROBINLOCKER_TABLE_WORDS, tables.theory, ROBINLOCKER_TABLE_WORDS, tables.solver, ROBINLOCKER_TABLE_WORDS
#define FOUR THREE, tables.kept, ROBINLOCKER_KEPT_WORDS

/* One byte more than a script may have, so that a longer one is noticed. */
static uint8_t script[ROBINLOCKER_SCRIPT_BYTES + 1];

/* All answer lines, one behind the other. */
static struct {
    uint8_t *bytes;
    size_t length;
    size_t lines;
} answers;

static void stop(const char *why)
{
    fprintf(stderr, "session: %s\n", why);
    exit(1);
}

/* The limits by name, from 0. */
static const char *const limit_words[] = {
    "words of a work table, or more", "words of the fourth table, or more", "bytes of a script", "bytes of an answer line",
    "sorts", "symbols", "terms", "argument places", "argument pairs", "levels", "variables", "numbers of a line",
};

static void print_version_and_limits(void)
{
    uint32_t version = robinlocker_version();
    fprintf(stderr, "robinlocker %" PRIu32 ".%" PRIu32 ".%" PRIu32 "\n", version / 10000, version / 100 % 100, version % 100);
    for (uint32_t name = 0; name < sizeof limit_words / sizeof limit_words[0]; name++) {
        fprintf(stderr, "%6" PRIu32 " %s\n", robinlocker_limit(name), limit_words[name]);
    }
}

/* The room for one more answer line behind the others. */
static uint8_t *room_for_answer(void)
{
    uint8_t *bytes = realloc(answers.bytes, answers.length + ROBINLOCKER_ANSWER_BYTES);
    if (bytes == NULL) {
        stop("no memory for the answers");
    }
    answers.bytes = bytes;
    return bytes + answers.length;
}

static void send_line(const uint8_t *line, size_t length)
{
    uint8_t *answer = room_for_answer();
    size_t written;
    if (robinlocker_line(line, length, FOUR, answer, ROBINLOCKER_ANSWER_BYTES, &written) != ROBINLOCKER_DONE) {
        stop("the line is not answered");
    }
    fwrite(answer, 1, written, stdout);
    answers.length += written;
    answers.lines++;
}

/* Lines end in a line feed; the last may lack it. */
static void send_lines(size_t length)
{
    size_t start = 0;
    while (start < length) {
        const uint8_t *feed = memchr(script + start, '\n', length - start);
        size_t end = feed == NULL ? length : (size_t)(feed - script);
        send_line(script + start, end - start);
        start = end + 1;
    }
}

/* Does robinlocker_run give the same bytes and counts, in exactly as much output? */
static int same_as_run(size_t length)
{
    uint8_t *output = malloc(answers.length + 1);
    size_t answered;
    size_t written;
    if (output == NULL) {
        stop("no memory for the comparison");
    }
    uint32_t result = robinlocker_run(script, length, THREE, output, answers.length, &answered, &written);
    int same = result == ROBINLOCKER_DONE && answered == answers.lines && written == answers.length &&
               (written == 0 || memcmp(output, answers.bytes, written) == 0);
    free(output);
    fprintf(stderr, "%s: %zu lines, %zu bytes of answers\n", same ? "as robinlocker_run" : "NOT as robinlocker_run", answers.lines,
            answers.length);
    return same;
}

int main(int count, char **arguments)
{
    int compare = count == 2 && strcmp(arguments[1], "--compare") == 0;
    if (count > 1 && !compare) {
        stop("usage: session [--compare] < script");
    }
    print_version_and_limits();
    size_t length = fread(script, 1, sizeof script, stdin);
    if (ferror(stdin) || length > ROBINLOCKER_SCRIPT_BYTES) {
        stop("the script cannot be read or has too many bytes");
    }
    if (robinlocker_open(FOUR) != ROBINLOCKER_DONE) {
        stop("the session does not open");
    }
    send_lines(length);
    robinlocker_close(FOUR);
    int good = !compare || same_as_run(length);
    free(answers.bytes);
    return good && fflush(stdout) == 0 && !ferror(stdout) ? 0 : 1;
}
