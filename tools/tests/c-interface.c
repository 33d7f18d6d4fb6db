/* Tests what include/robinlocker.h promises.
 *
 *   c-interface SCRIPT..
 *
 * Every script is answered by robinlocker_run and line by line; the first, which should be short, also with every size of output.
 * Lent memory ends where a page begins that nobody may touch, so that a read or write past it ends the test by a signal.
 */
#define _DEFAULT_SOURCE
#include <stdio.h>
#include <stdlib.h>
#include <string.h>
#include <sys/mman.h>
#include <unistd.h>

#include "robinlocker.h"

enum {
    TABLES = 4,
    MORE_WORDS = 100,      /* words lent past those that are needed */
    OUTPUT_BYTES = 65536,  /* as much output as the program lends */
    LEFT_AS_IT_WAS = 4711, /* stands behind `answered` and `written` before a call */
    MOST_REPORTED = 20
};

static const size_t needed_words[TABLES] = {
    ROBINLOCKER_TABLE_WORDS, ROBINLOCKER_TABLE_WORDS, ROBINLOCKER_TABLE_WORDS, ROBINLOCKER_KEPT_WORDS,
};

/* ---- checks ---- */

static unsigned long checks, failures, lines_compared;

static void check_at(int line, int holds, const char *what)
{
    checks++;
    if (!holds && ++failures <= MOST_REPORTED) {
        printf("failed, line %d: %s\n", line, what);
    }
}

#define CHECK(holds) check_at(__LINE__, (holds), #holds)

/* ---- memory ---- */

/* Bytes that end where a page begins that nobody may touch; never given back. */
static void *fenced(size_t bytes)
{
    size_t page = (size_t)sysconf(_SC_PAGESIZE);
    size_t whole = (bytes + page - 1) / page * page;
    uint8_t *start = mmap(NULL, whole + page, PROT_READ | PROT_WRITE, MAP_PRIVATE | MAP_ANONYMOUS, -1, 0);
    if (start == MAP_FAILED || mprotect(start + whole, page, PROT_NONE) != 0) {
        perror("c-interface");
        exit(1);
    }
    return start + whole - bytes;
}

/* Bytes that no call leaves by chance. */
static void fill(void *memory, size_t bytes, uint32_t seed)
{
    uint8_t *byte = memory;
    for (size_t at = 0; at < bytes; at++) {
        seed = seed * 1664525 + 1013904223;
        byte[at] = (uint8_t)(seed >> 24);
    }
}

static int same_bytes(const void *one, const void *other, size_t bytes)
{
    return bytes == 0 || memcmp(one, other, bytes) == 0;
}

struct text {
    const uint8_t *bytes;
    size_t length;
};

static struct text text_of(const char *words)
{
    struct text text = {(const uint8_t *)words, strlen(words)};
    return text;
}

/* The four tables of a session, with how many words of each are lent. */
struct session {
    uint32_t *table[TABLES];
    size_t words[TABLES];
};

static struct session new_session(uint32_t seed)
{
    struct session session;
    for (int which = 0; which < TABLES; which++) {
        session.words[which] = needed_words[which] + MORE_WORDS;
        session.table[which] = fenced(session.words[which] * sizeof(uint32_t));
        fill(session.table[which], session.words[which] * sizeof(uint32_t), seed + (uint32_t)which);
    }
    return session;
}

/* The words of both, past the lent ones too. */
static int same_tables(const struct session *one, const struct session *other)
{
    for (int which = 0; which < TABLES; which++) {
        if (!same_bytes(one->table[which], other->table[which], (needed_words[which] + MORE_WORDS) * sizeof(uint32_t))) {
            return 0;
        }
    }
    return 1;
}

static void copy_tables(struct session *to, const struct session *from)
{
    for (int which = 0; which < TABLES; which++) {
        memcpy(to->table[which], from->table[which], (needed_words[which] + MORE_WORDS) * sizeof(uint32_t));
    }
}

static int zero_words(const uint32_t *words, size_t count)
{
    for (size_t at = 0; at < count; at++) {
        if (words[at] != 0) {
            return 0;
        }
    }
    return 1;
}

/* Is every lent word of the first so many tables zero? */
static int zero_tables(const struct session *session, int count)
{
    for (int which = 0; which < count; which++) {
        if (!zero_words(session->table[which], session->words[which])) {
            return 0;
        }
    }
    return 1;
}

/* ---- the calls on such memory ---- */

#define THREE(s) (s)->table[0], (s)->words[0], (s)->table[1], (s)->words[1], (s)->table[2], (s)->words[2]
#define FOUR(s) THREE(s), (s)->table[3], (s)->words[3]

/* What a call left, but for the memory. */
struct left {
    uint32_t result;
    size_t answered;
    size_t written;
};

static struct left left_nothing(void)
{
    struct left left = {LEFT_AS_IT_WAS, LEFT_AS_IT_WAS, LEFT_AS_IT_WAS};
    return left;
}

static int is_left(struct left left, uint32_t result, size_t answered, size_t written)
{
    return left.result == result && left.answered == answered && left.written == written;
}

static uint32_t open_session(struct session *session)
{
    return robinlocker_open(FOUR(session));
}

static void close_session(struct session *session)
{
    robinlocker_close(FOUR(session));
}

/* Sends a line; one is answered if all was done. */
static struct left send_line(struct session *session, struct text line, uint8_t *output, size_t room)
{
    struct left left = left_nothing();
    left.result = robinlocker_line(line.bytes, line.length, FOUR(session), output, room, &left.written);
    left.answered = left.result == ROBINLOCKER_DONE;
    return left;
}

static struct left run(struct session *session, struct text script, uint8_t *output, size_t room)
{
    struct left left = left_nothing();
    left.result =
        robinlocker_run(script.bytes, script.length, THREE(session), output, room, &left.answered, &left.written);
    return left;
}

/* Takes the next line off the script, without its line feed; 0 if there is none. */
static int next_line(struct text *script, struct text *line)
{
    if (script->length == 0) {
        return 0;
    }
    const uint8_t *feed = memchr(script->bytes, '\n', script->length);
    line->bytes = script->bytes;
    line->length = feed == NULL ? script->length : (size_t)(feed - script->bytes);
    size_t taken = feed == NULL ? line->length : line->length + 1;
    script->bytes += taken;
    script->length -= taken;
    return 1;
}

/* Sends the lines of a script to an open session until one is not answered, each answer behind the one before. */
static struct left send_lines(struct session *session, struct text script, uint8_t *output, size_t room)
{
    struct left all = {ROBINLOCKER_DONE, 0, 0};
    struct text line;
    while (all.result == ROBINLOCKER_DONE && next_line(&script, &line)) {
        struct left one = send_line(session, line, output + all.written, room - all.written);
        all.result = one.result;
        all.answered += one.answered;
        all.written += one.written;
    }
    return all;
}

/* ---- line by line as run ---- */

/* The two ways over the same memory: work tables, and an output for each. */
static struct session tables;
static uint8_t *by_lines, *by_run;

static void fill_outputs(size_t room)
{
    fill(by_lines, room, 5);
    fill(by_run, room, 5);
}

/* Do the lines of the script give what a run of it gives, in so much output? What a run leaves is returned. */
static struct left compare(struct text script, size_t room)
{
    uint8_t *lines_output = by_lines + OUTPUT_BYTES - room;
    uint8_t *run_output = by_run + OUTPUT_BYTES - room;
    fill_outputs(OUTPUT_BYTES);
    CHECK(open_session(&tables) == ROBINLOCKER_DONE);
    struct left lines = send_lines(&tables, script, lines_output, room);
    struct left whole = run(&tables, script, run_output, room);
    CHECK(is_left(lines, whole.result, whole.answered, whole.written));
    CHECK(same_bytes(by_lines, by_run, OUTPUT_BYTES));
    CHECK(zero_tables(&tables, 3));
    lines_compared += whole.answered;
    return whole;
}

/* With much output, with as much as is needed, and with one byte less. */
static void compare_script(struct text script)
{
    struct left whole = compare(script, OUTPUT_BYTES);
    CHECK(whole.result == ROBINLOCKER_DONE);
    struct left enough = compare(script, whole.written);
    CHECK(is_left(enough, ROBINLOCKER_DONE, whole.answered, whole.written));
    if (whole.written > 0) {
        CHECK(compare(script, whole.written - 1).result == ROBINLOCKER_FULL);
    }
}

static void compare_every_size(struct text script)
{
    size_t full = compare(script, OUTPUT_BYTES).written;
    for (size_t room = 0; room <= full; room++) {
        struct left left = compare(script, room);
        CHECK(left.result == (room < full ? ROBINLOCKER_FULL : ROBINLOCKER_DONE));
        CHECK(left.written <= room);
    }
}

/* ---- version and limits ---- */

static void test_version_and_limits(void)
{
    CHECK(robinlocker_version() == ROBINLOCKER_VERSION);
    CHECK(robinlocker_limit(ROBINLOCKER_LIMIT_TABLE_WORDS) == ROBINLOCKER_TABLE_WORDS);
    CHECK(robinlocker_limit(ROBINLOCKER_LIMIT_KEPT_WORDS) == ROBINLOCKER_KEPT_WORDS);
    CHECK(robinlocker_limit(ROBINLOCKER_LIMIT_SCRIPT_BYTES) == ROBINLOCKER_SCRIPT_BYTES);
    CHECK(robinlocker_limit(ROBINLOCKER_LIMIT_ANSWER_BYTES) == ROBINLOCKER_ANSWER_BYTES);
    CHECK(robinlocker_limit(ROBINLOCKER_LIMIT_SORTS) == ROBINLOCKER_SORTS);
    CHECK(robinlocker_limit(ROBINLOCKER_LIMIT_SYMBOLS) == ROBINLOCKER_SYMBOLS);
    CHECK(robinlocker_limit(ROBINLOCKER_LIMIT_TERMS) == ROBINLOCKER_TERMS);
    CHECK(robinlocker_limit(ROBINLOCKER_LIMIT_PLACES) == ROBINLOCKER_PLACES);
    CHECK(robinlocker_limit(ROBINLOCKER_LIMIT_PAIRS) == ROBINLOCKER_PAIRS);
    CHECK(robinlocker_limit(ROBINLOCKER_LIMIT_LEVELS) == ROBINLOCKER_LEVELS);
    CHECK(robinlocker_limit(ROBINLOCKER_LIMIT_VARS) == ROBINLOCKER_VARS);
    CHECK(robinlocker_limit(ROBINLOCKER_LIMIT_NUMBERS) == ROBINLOCKER_NUMBERS);
    for (uint32_t name = ROBINLOCKER_LIMIT_NUMBERS + 1; name < 1000; name++) {
        CHECK(robinlocker_limit(name) == 0);
    }
    CHECK(robinlocker_limit(UINT32_MAX) == 0);
}

/* ---- output that is too small ---- */

/* A line that does not fit is not performed, and is answered when it is sent again with room. */
static void refuse_room(struct session *session, struct session *before, struct text line, size_t room)
{
    uint8_t *output = by_lines + OUTPUT_BYTES - room;
    copy_tables(before, session);
    fill_outputs(OUTPUT_BYTES);
    CHECK(is_left(send_line(session, line, output, room), ROBINLOCKER_FULL, 0, 0));
    CHECK(same_tables(session, before));
    CHECK(same_bytes(by_lines, by_run, OUTPUT_BYTES));
}

static void test_full(struct text script)
{
    static uint8_t expected[OUTPUT_BYTES];
    size_t total = run(&tables, script, expected, OUTPUT_BYTES).written;
    struct session session = new_session(1), before = new_session(2);
    const uint8_t *answer = expected;
    struct text line;
    CHECK(open_session(&session) == ROBINLOCKER_DONE);
    while (next_line(&script, &line)) {
        size_t length = (size_t)((const uint8_t *)memchr(answer, '\n', total) - answer) + 1;
        for (size_t room = 0; room < length; room++) {
            refuse_room(&session, &before, line, room);
        }
        uint8_t *output = by_lines + OUTPUT_BYTES - length;
        CHECK(is_left(send_line(&session, line, output, length), ROBINLOCKER_DONE, 1, length));
        CHECK(same_bytes(output, answer, length));
        answer += length;
        total -= length;
    }
    CHECK(total == 0);
}

/* ---- sessions that are not open, tables that are short ---- */

/* Is the line turned down with that result, and nothing touched but `written`? */
static void turned_down(struct session *session, uint32_t result)
{
    struct session before = new_session(3);
    copy_tables(&before, session);
    fill_outputs(OUTPUT_BYTES);
    CHECK(is_left(send_line(session, text_of("sort=d"), by_lines, OUTPUT_BYTES), result, 0, 0));
    CHECK(same_tables(session, &before));
    CHECK(same_bytes(by_lines, by_run, OUTPUT_BYTES));
}

static void zero_all(struct session *session)
{
    for (int which = 0; which < TABLES; which++) {
        memset(session->table[which], 0, session->words[which] * sizeof(uint32_t));
    }
}

static void test_not_open(void)
{
    struct session session = new_session(10);
    turned_down(&session, ROBINLOCKER_NOT_OPEN);
    zero_all(&session);
    turned_down(&session, ROBINLOCKER_NOT_OPEN);
    CHECK(open_session(&session) == ROBINLOCKER_DONE);
    CHECK(is_left(send_line(&session, text_of("sort=d"), by_lines, OUTPUT_BYTES), ROBINLOCKER_DONE, 1, 5));
    close_session(&session);
    turned_down(&session, ROBINLOCKER_NOT_OPEN);
}

static void open_is_turned_down(struct session *session)
{
    struct session before = new_session(3);
    copy_tables(&before, session);
    CHECK(open_session(session) == ROBINLOCKER_SHORT_TABLE);
    CHECK(same_tables(session, &before));
}

static void run_is_turned_down(struct session *session, struct text script, uint32_t result)
{
    struct session before = new_session(3);
    copy_tables(&before, session);
    fill_outputs(OUTPUT_BYTES);
    CHECK(is_left(run(session, script, by_lines, OUTPUT_BYTES), result, 0, 0));
    CHECK(same_tables(session, &before));
    CHECK(same_bytes(by_lines, by_run, OUTPUT_BYTES));
}

/* One table is lent with so few words, and then as it should be: the session is as if nothing had been. */
static void lend_short(struct text script, int which, size_t words, int at_null)
{
    struct session session = new_session(20);
    struct session lent = session;
    lent.words[which] = words;
    open_is_turned_down(&lent);
    if (which < 3) {
        run_is_turned_down(&lent, script, ROBINLOCKER_SHORT_TABLE);
    }
    CHECK(open_session(&session) == ROBINLOCKER_DONE);
    turned_down(&lent, ROBINLOCKER_SHORT_TABLE);
    if (at_null) {
        lent.table[which] = NULL;
        CHECK(open_session(&lent) == ROBINLOCKER_SHORT_TABLE);
        CHECK(is_left(send_line(&lent, text_of("sort=d"), by_lines, OUTPUT_BYTES), ROBINLOCKER_SHORT_TABLE, 0, 0));
        CHECK(which == 3 || is_left(run(&lent, script, by_lines, OUTPUT_BYTES), ROBINLOCKER_SHORT_TABLE, 0, 0));
    }
    struct left whole = run(&tables, script, by_run, OUTPUT_BYTES);
    CHECK(is_left(send_lines(&session, script, by_lines, OUTPUT_BYTES), ROBINLOCKER_DONE, whole.answered, whole.written));
    CHECK(same_bytes(by_lines, by_run, whole.written));
}

static void test_short_tables(struct text script)
{
    for (int which = 0; which < TABLES; which++) {
        lend_short(script, which, needed_words[which] - 1, 0);
        lend_short(script, which, 0, 1);
    }
}

/* Exactly the words that are needed are enough, and none past them is touched: a page that nobody may touch is there. */
static void test_least_tables(struct text script)
{
    struct session session;
    for (int which = 0; which < TABLES; which++) {
        session.words[which] = needed_words[which];
        session.table[which] = fenced(needed_words[which] * sizeof(uint32_t));
    }
    struct left whole = run(&session, script, by_run, OUTPUT_BYTES);
    CHECK(whole.result == ROBINLOCKER_DONE);
    CHECK(open_session(&session) == ROBINLOCKER_DONE);
    CHECK(is_left(send_lines(&session, script, by_lines, OUTPUT_BYTES), ROBINLOCKER_DONE, whole.answered, whole.written));
    CHECK(same_bytes(by_lines, by_run, whole.written));
    close_session(&session);
    CHECK(zero_tables(&session, TABLES));
}

/* Memory that nobody has set is as good: valgrind says if anything hangs on what it holds. */
static void test_unset_memory(struct text script)
{
    struct session session;
    for (int which = 0; which < TABLES; which++) {
        session.words[which] = needed_words[which];
        session.table[which] = malloc(needed_words[which] * sizeof(uint32_t));
        CHECK(session.table[which] != NULL);
    }
    CHECK(open_session(&session) == ROBINLOCKER_DONE);
    struct left lines = send_lines(&session, script, by_lines, OUTPUT_BYTES);
    struct left whole = run(&tables, script, by_run, OUTPUT_BYTES);
    CHECK(is_left(lines, ROBINLOCKER_DONE, whole.answered, whole.written));
    CHECK(same_bytes(by_lines, by_run, whole.written));
    for (int which = 0; which < TABLES; which++) {
        free(session.table[which]);
    }
}

/* ---- null pointers of length zero ---- */

static void test_null(void)
{
    struct text none = {NULL, 0};
    struct session session = new_session(30), before = new_session(31);
    CHECK(is_left(run(&session, none, by_run, OUTPUT_BYTES), ROBINLOCKER_DONE, 0, 0));
    CHECK(zero_tables(&session, 3));
    CHECK(is_left(run(&session, text_of("sort=d"), NULL, 0), ROBINLOCKER_FULL, 0, 0));

    /* The empty line is answered as a run answers it. */
    struct left empty = run(&session, text_of("\n"), by_run, OUTPUT_BYTES);
    CHECK(empty.answered == 1 && same_bytes(by_run, "refused=3\n", 10));
    CHECK(open_session(&session) == ROBINLOCKER_DONE);
    CHECK(is_left(send_line(&session, none, by_lines, OUTPUT_BYTES), ROBINLOCKER_DONE, 1, empty.written));
    CHECK(same_bytes(by_lines, by_run, empty.written));

    copy_tables(&before, &session);
    CHECK(is_left(send_line(&session, text_of("sort=d"), NULL, 0), ROBINLOCKER_FULL, 0, 0));
    CHECK(is_left(send_line(&session, none, NULL, 0), ROBINLOCKER_FULL, 0, 0));
    CHECK(same_tables(&session, &before));
    CHECK(is_left(send_line(&session, text_of("sort=d"), by_lines, OUTPUT_BYTES), ROBINLOCKER_DONE, 1, 5));
}

/* ---- closing ---- */

static void test_close(void)
{
    struct session session = new_session(40);
    CHECK(open_session(&session) == ROBINLOCKER_DONE);
    CHECK(is_left(send_line(&session, text_of("sort=d"), by_lines, OUTPUT_BYTES), ROBINLOCKER_DONE, 1, 5));
    close_session(&session);
    CHECK(zero_tables(&session, TABLES));
    close_session(&session);
    CHECK(zero_tables(&session, TABLES));

    struct session never_opened = new_session(41);
    close_session(&never_opened);
    CHECK(zero_tables(&never_opened, TABLES));
}

/* Lent words become zero however few they are; words that are not lent stay. */
static void test_close_of_any_length(void)
{
    static const size_t lengths[] = {0, 1, 65, 66, 1000, ROBINLOCKER_TABLE_WORDS - 1};
    for (size_t at = 0; at < sizeof lengths / sizeof lengths[0]; at++) {
        struct session session = new_session(42), before = new_session(42);
        for (int which = 0; which < TABLES; which++) {
            session.words[which] = lengths[at] < needed_words[which] ? lengths[at] : needed_words[which] - 1;
        }
        close_session(&session);
        CHECK(zero_tables(&session, TABLES));
        for (int which = 0; which < TABLES; which++) {
            size_t lent = session.words[which], rest = needed_words[which] + MORE_WORDS - lent;
            CHECK(same_bytes(session.table[which] + lent, before.table[which] + lent, rest * sizeof(uint32_t)));
        }
    }
    for (int which = 0; which < TABLES; which++) {
        struct session session = new_session(43);
        session.table[which] = NULL;
        session.words[which] = 0;
        close_session(&session);
        CHECK(zero_tables(&session, TABLES));
    }
}

/* ---- sessions that move, that take turns, that begin again ---- */

static void test_moved(struct text script)
{
    struct session here = new_session(50), there = new_session(51);
    struct left whole = run(&tables, script, by_run, OUTPUT_BYTES);
    struct text line;
    size_t written = 0;
    CHECK(open_session(&here) == ROBINLOCKER_DONE);
    while (next_line(&script, &line)) {
        struct left left = send_line(&here, line, by_lines + written, OUTPUT_BYTES - written);
        CHECK(left.result == ROBINLOCKER_DONE);
        written += left.written;
        copy_tables(&there, &here);
        for (int which = 0; which < TABLES; which++) {
            fill(here.table[which], here.words[which] * sizeof(uint32_t), 52);
        }
        struct session old = here;
        here = there;
        there = old;
    }
    CHECK(written == whole.written);
    CHECK(same_bytes(by_lines, by_run, written));
}

/* One script's lines for each of two sessions, in turn. */
struct turn {
    struct session session;
    struct text script;
    uint8_t answers[OUTPUT_BYTES];
    size_t written;
};

static int take_turn(struct turn *turn)
{
    struct text line;
    if (!next_line(&turn->script, &line)) {
        return 0;
    }
    struct left left = send_line(&turn->session, line, turn->answers + turn->written, OUTPUT_BYTES - turn->written);
    CHECK(left.result == ROBINLOCKER_DONE);
    turn->written += left.written;
    return 1;
}

static void begin_turns(struct turn *turn, struct text script, uint32_t seed)
{
    turn->session = new_session(seed);
    turn->script = script;
    turn->written = 0;
    CHECK(open_session(&turn->session) == ROBINLOCKER_DONE);
}

static void end_turns(struct turn *turn, struct text script)
{
    struct left whole = run(&tables, script, by_run, OUTPUT_BYTES);
    CHECK(turn->written == whole.written);
    CHECK(same_bytes(turn->answers, by_run, whole.written));
}

static void test_interleaved(struct text one, struct text other)
{
    static struct turn first, second;
    begin_turns(&first, one, 60);
    begin_turns(&second, other, 61);
    while (take_turn(&first) + take_turn(&second) > 0) {
    }
    end_turns(&first, one);
    end_turns(&second, other);
}

/* A session that is open and has had lines is opened again, and is empty. */
static void test_opened_again(struct text script)
{
    struct session session = new_session(70);
    struct left whole = run(&tables, script, by_run, OUTPUT_BYTES);
    for (int time = 0; time < 2; time++) {
        CHECK(open_session(&session) == ROBINLOCKER_DONE);
        CHECK(is_left(send_lines(&session, script, by_lines, OUTPUT_BYTES), ROBINLOCKER_DONE, whole.answered, whole.written));
        CHECK(same_bytes(by_lines, by_run, whole.written));
    }
}

/* ---- any bytes ---- */

/* Is the line refused as one that does not read? */
static void does_not_read(struct session *session, const void *bytes, size_t length)
{
    struct text line = {memcpy(fenced(length), bytes, length), length};
    CHECK(is_left(send_line(session, line, by_lines, OUTPUT_BYTES), ROBINLOCKER_DONE, 1, 10));
    CHECK(same_bytes(by_lines, "refused=3\n", 10));
}

static void test_any_bytes(void)
{
    static uint8_t long_line[100000];
    struct session session = new_session(80);
    CHECK(open_session(&session) == ROBINLOCKER_DONE);
    for (int byte = 0; byte < 256; byte++) {
        uint8_t one = (uint8_t)byte;
        does_not_read(&session, &one, 1);
    }
    does_not_read(&session, "sort=d\n", 7);
    does_not_read(&session, "sort=d\nsort=d", 13);
    does_not_read(&session, "\nsort=d", 7);
    does_not_read(&session, "sort=d\0", 7);
    does_not_read(&session, "sort=", 5);
    memcpy(long_line, "pop=", 4);
    memset(long_line + 4, '1', sizeof long_line - 4);
    does_not_read(&session, long_line, sizeof long_line);

    /* None of them was performed: the first sort gets number 1, which the next line names. */
    CHECK(is_left(send_line(&session, text_of("fun=1"), by_lines, OUTPUT_BYTES), ROBINLOCKER_DONE, 1, 10));
    CHECK(same_bytes(by_lines, "refused=5\n", 10));
    CHECK(is_left(send_line(&session, text_of("sort=u"), by_lines, OUTPUT_BYTES), ROBINLOCKER_DONE, 1, 5));
    CHECK(is_left(send_line(&session, text_of("fun=1"), by_lines, OUTPUT_BYTES), ROBINLOCKER_DONE, 1, 5));
}

/* ---- how long an answer, a script and a session may be ---- */

/* A script whose last answer is a conflict with a leaf for nearly every term: zero and its successor are one, by a chain of terms. */
static struct text long_conflict(void)
{
    static char bytes[ROBINLOCKER_SCRIPT_BYTES];
    const int last = ROBINLOCKER_TERMS - 2;
    int length = sprintf(bytes, "sort=d\nctor=1\nctor=1,1\nfun=1,1\nclose=1\nterm=0\nterm=2,0\nterm=5,0\n");
    for (int term = 2; term < last; term++) {
        length += sprintf(bytes + length, "term=5,%d\n", term);
    }
    length += sprintf(bytes + length, "eq=0,1\nvar=0,%d\niface=0,2,65535,4294967295\n", last + 1);
    for (int term = 2; term < last; term++) {
        length += sprintf(bytes + length, "iface=%d,%d,65535,%u\n", term, term + 1, 4294967295u - (unsigned)term);
    }
    length += sprintf(bytes + length, "iface=%d,1,65535,4294960000\ncheck=1\n", last);
    struct text script = {(const uint8_t *)bytes, (size_t)length};
    return script;
}

static void test_long_answer(void)
{
    struct text script = long_conflict();
    compare_script(script);
    struct left whole = run(&tables, script, by_run, OUTPUT_BYTES);
    size_t start = whole.written - 1;
    while (by_run[start - 1] != '\n') {
        start--;
    }
    CHECK(same_bytes(by_run + start, "conflict=", 9));
    CHECK(whole.written - start > 18000 && whole.written - start <= ROBINLOCKER_ANSWER_BYTES);
}

static struct text long_script(size_t length)
{
    uint8_t *bytes = fenced(length);
    for (size_t at = 0; at < length; at++) {
        bytes[at] = (uint8_t)"sort=d\n"[at % 7];
    }
    struct text script = {bytes, length};
    return script;
}

static void test_long_script(void)
{
    struct session session = new_session(90);
    run_is_turned_down(&session, long_script(ROBINLOCKER_SCRIPT_BYTES + 1), ROBINLOCKER_LONG_SCRIPT);
    CHECK(run(&session, long_script(ROBINLOCKER_SCRIPT_BYTES), by_run, OUTPUT_BYTES).result == ROBINLOCKER_FULL);
}

/* A session goes on past the bytes of a script. */
static void test_long_session(void)
{
    struct session session = new_session(91);
    CHECK(open_session(&session) == ROBINLOCKER_DONE);
    CHECK(is_left(send_line(&session, text_of("close=1"), by_lines, OUTPUT_BYTES), ROBINLOCKER_DONE, 1, 5));
    for (size_t sent = 0; sent <= ROBINLOCKER_SCRIPT_BYTES; sent += 13) {
        CHECK(is_left(send_line(&session, text_of("push=1"), by_lines, OUTPUT_BYTES), ROBINLOCKER_DONE, 1, 5));
        CHECK(is_left(send_line(&session, text_of("pop=0"), by_lines, OUTPUT_BYTES), ROBINLOCKER_DONE, 1, 5));
        CHECK(same_bytes(by_lines, "ok=1\n", 5));
    }
}

/* ---- all of it ---- */

static struct text read_script(const char *name)
{
    static uint8_t bytes[ROBINLOCKER_SCRIPT_BYTES];
    FILE *file = fopen(name, "rb");
    if (file == NULL) {
        perror(name);
        exit(1);
    }
    size_t length = fread(bytes, 1, sizeof bytes, file);
    fclose(file);
    struct text script = {length == 0 ? NULL : memcpy(fenced(length), bytes, length), length};
    return script;
}

int main(int count, char **names)
{
    if (count < 2) {
        fprintf(stderr, "usage: c-interface SCRIPT..\n");
        return 64;
    }
    /* What failed is printed at once, in case a signal ends the test. */
    setvbuf(stdout, NULL, _IOLBF, BUFSIZ);
    tables = new_session(0);
    by_lines = fenced(OUTPUT_BYTES);
    by_run = fenced(OUTPUT_BYTES);
    struct text first = read_script(names[1]);

    test_version_and_limits();
    for (int which = 1; which < count; which++) {
        compare_script(read_script(names[which]));
    }
    compare_every_size(first);
    test_full(first);
    test_not_open();
    test_short_tables(first);
    test_least_tables(first);
    test_unset_memory(first);
    test_null();
    test_close();
    test_close_of_any_length();
    test_moved(first);
    test_interleaved(first, read_script(names[count - 1]));
    test_opened_again(first);
    test_any_bytes();
    test_long_answer();
    test_long_script();
    test_long_session();
    printf("%lu checks, %lu failed; %d scripts, %lu lines line by line as by run\n", checks, failures, count - 1, lines_compared);
    return failures == 0 ? 0 : 1;
}
