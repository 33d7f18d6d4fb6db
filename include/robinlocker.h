/* Robinlocker: a datatype solver whose every answer line is a theorem.
 *
 * Two ways to use it:
 *   - robinlocker_run answers a whole script.
 *   - robinlocker_open, robinlocker_line and robinlocker_close keep a session open and answer one line at a time.
 * Sent line by line into one output, each answer behind the one before, until one does not fit, the lines of a script of at most
 * ROBINLOCKER_SCRIPT_BYTES are answered as by robinlocker_run: the same bytes, the same last result, as many lines and bytes. This is
 * KeptRuns in crates/session/specs/Kept.antt, proved. What is proved of the answers is Claim in crates/session/specs/Claim.antt;
 * KeptHolds says that it holds of a session kept open, whatever outputs are lent and however many lines are sent.
 *
 * The library allocates nothing, keeps nothing of its own between calls, and calls nothing but C's memcpy and memset: all it works
 * on is lent, or stands on the stack. Hence calls on different memory may run at the same time in different threads.
 *
 * Stack, as measured: robinlocker_run up to 304 KiB, robinlocker_line 192 KiB more; 1 MiB is enough for both
 * (docs/PERFORMANCE.md).
 *
 * What every call asks of its caller:
 *   - A pointer and the length behind it name memory of that length that is the caller's: words of 32 bits, or bytes. A length of
 *     zero may go with any pointer, a null pointer too. Tables are aligned as uint32_t asks.
 *   - No two of the areas lent to one call overlap.
 *   - The pointers behind which a count is left (`answered`, `written`) point to a size_t of the caller's, aligned as it asks.
 * Nothing is asked of what the memory holds, but for one rule of robinlocker_line, which is said there. Where several things are
 * wrong at once, the result is the first in this order: SHORT_TABLE, NOT_OPEN or LONG_SCRIPT, FULL.
 *
 * Lines, answers and questions are described in README.md.
 */
#ifndef ROBINLOCKER_H
#define ROBINLOCKER_H

#include <stddef.h>
#include <stdint.h>

#ifdef __cplusplus
extern "C" {
#endif

/* The version of this header: 10000 times the first number, 100 times the second, the third. */
#define ROBINLOCKER_VERSION 10000

/* ---- limits ---- */

#define ROBINLOCKER_TABLE_WORDS 16384  /* words of each of the three work tables, or more */
#define ROBINLOCKER_KEPT_WORDS 66      /* words of the fourth table of a session kept open, or more */
#define ROBINLOCKER_SCRIPT_BYTES 65536 /* bytes of a script of robinlocker_run at most */
#define ROBINLOCKER_ANSWER_BYTES 23562 /* no answer line has more bytes, its line feed among them */
#define ROBINLOCKER_SORTS 64           /* sorts at most, Bool among them */
#define ROBINLOCKER_SYMBOLS 512        /* symbols at most */
#define ROBINLOCKER_TERMS 1024         /* terms at most */
#define ROBINLOCKER_PLACES 4096        /* argument places of all terms at most */
#define ROBINLOCKER_PAIRS 2048         /* argument pairs of congruences in force at most */
#define ROBINLOCKER_LEVELS 64          /* open levels at most */
#define ROBINLOCKER_VARS 1024          /* variables are numbered below it */
#define ROBINLOCKER_NUMBERS 17         /* numbers of a line at most */

/* The names of the limits for robinlocker_limit. */
enum robinlocker_limit_name {
    ROBINLOCKER_LIMIT_TABLE_WORDS = 0,
    ROBINLOCKER_LIMIT_KEPT_WORDS = 1,
    ROBINLOCKER_LIMIT_SCRIPT_BYTES = 2,
    ROBINLOCKER_LIMIT_ANSWER_BYTES = 3,
    ROBINLOCKER_LIMIT_SORTS = 4,
    ROBINLOCKER_LIMIT_SYMBOLS = 5,
    ROBINLOCKER_LIMIT_TERMS = 6,
    ROBINLOCKER_LIMIT_PLACES = 7,
    ROBINLOCKER_LIMIT_PAIRS = 8,
    ROBINLOCKER_LIMIT_LEVELS = 9,
    ROBINLOCKER_LIMIT_VARS = 10,
    ROBINLOCKER_LIMIT_NUMBERS = 11
};

/* The version of the library that is linked, counted as ROBINLOCKER_VERSION is. */
uint32_t robinlocker_version(void);

/* The limit of that name in the library that is linked; 0 if there is no such name. */
uint32_t robinlocker_limit(uint32_t name);

/* ---- results ---- */

/* "Nothing was touched" speaks of tables and output; the counts are set to 0. */
#define ROBINLOCKER_DONE 0         /* all was done */
#define ROBINLOCKER_SHORT_TABLE 1  /* a table has too few words: nothing was touched */
#define ROBINLOCKER_LONG_SCRIPT 2  /* the script has too many bytes: nothing was touched */
#define ROBINLOCKER_FULL 12        /* an answer line does not fit the output left */
#define ROBINLOCKER_NOT_OPEN 100   /* no session is open on these tables: nothing was touched */

/* ---- a whole script ---- */

/* Answers the lines of a script, each with an answer line at the start of the output or right behind the one before.
 * DONE: all lines are answered. FULL: the run stopped at the first line whose answer line does not fit. Else none is answered.
 * Behind `answered` and `written`: how many lines are answered, how many bytes of output are written; output past these is
 * untouched. After DONE and FULL every word of the tables is 0, whatever they held. */
uint32_t robinlocker_run(const uint8_t *script, size_t script_bytes,
                         uint32_t *core, size_t core_words,
                         uint32_t *theory, size_t theory_words,
                         uint32_t *solver, size_t solver_words,
                         uint8_t *output, size_t output_bytes,
                         size_t *answered, size_t *written);

/* ---- a session kept open ---- */

/* Opens an empty session on four tables, whatever they hold: a session that was open there is lost.
 * DONE, or SHORT_TABLE: one of the first three has fewer than ROBINLOCKER_TABLE_WORDS words, or the fourth has fewer than
 * ROBINLOCKER_KEPT_WORDS. Of longer work tables the words behind the first ROBINLOCKER_TABLE_WORDS are left alone by this call and by
 * robinlocker_line. All of the fourth table is the library's. */
uint32_t robinlocker_open(uint32_t *core, size_t core_words,
                          uint32_t *theory, size_t theory_words,
                          uint32_t *solver, size_t solver_words,
                          uint32_t *kept, size_t kept_words);

/* Answers one line, given without its line feed; its answer line, with a line feed, goes to the start of the output.
 * Any bytes are answered; a line that does not read, as one with a line feed in it, is answered `refused=3`.
 *
 * DONE: behind `written` is the length of the answer line; output past it is untouched.
 * FULL: the answer line does not fit the output. The line is not performed: tables and output are as they were, and the line may
 *   be sent again with more output. With ROBINLOCKER_ANSWER_BYTES of output this never happens (proved); with less, each call
 *   works on copies of the tables, so it is also faster to lend as much.
 * SHORT_TABLE: as for robinlocker_open. NOT_OPEN: no session is open on these tables, as after robinlocker_close.
 * But for DONE, 0 is left behind `written` and nothing else is touched.
 *
 * The one rule: if the fourth table begins with the word that marks an open session (1,380,732,747), then the four tables hold what
 * the last call on a session left in them, at any address and of any lengths that suffice. A copy of all four is a session of its
 * own. Memory that is zero, as from calloc, is never marked. So robinlocker_run must not be lent the work tables of an open session:
 * it sets them to 0, and the mark stays. */
uint32_t robinlocker_line(const uint8_t *line, size_t line_bytes,
                          uint32_t *core, size_t core_words,
                          uint32_t *theory, size_t theory_words,
                          uint32_t *solver, size_t solver_words,
                          uint32_t *kept, size_t kept_words,
                          uint8_t *output, size_t output_bytes,
                          size_t *written);

/* Sets every word of the four tables to 0, whatever their lengths and whatever they hold. No session is open there afterwards;
 * closing twice is no error. */
void robinlocker_close(uint32_t *core, size_t core_words,
                       uint32_t *theory, size_t theory_words,
                       uint32_t *solver, size_t solver_words,
                       uint32_t *kept, size_t kept_words);

#ifdef __cplusplus
}
#endif

#endif
