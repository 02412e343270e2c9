/* Calendrica 1.0.0: dates of calendars that follow the sky, each with the facts on which it rests.
 *
 * Lines and certificates are those of the program: docs/FORMAT.md says them to the byte. What each call writes is proved, as far as the
 * caller keeps what stands here:
 *
 * - An evaluator is a variable of the caller's, CALENDRICA_NONE at first. `calendrica_open` fills it; then the other calls take it,
 *   until `calendrica_close` empties it. It isn't copied, and what stands in it is neither read nor changed.
 * - One thread at a time uses an evaluator, the one that opened it. Threads take an evaluator each.
 * - A pointer isn't NULL, also where the length beside it is 0, and points to as many bytes as that says. No two of the
 *   pointers of a call lead to the same bytes.
 * - malloc, realloc and free are those of one C library, which aligns as C says. No call is made from a signal handler, or in the
 *   child of a fork of a process with threads.
 *
 * No call starts a thread, waits, reads a file or writes one, or ends the process. An evaluator keeps the facts that it has computed
 * for the calls that follow, in some 88 MiB at most; a call takes as much as its text besides, and `calendrica_check` up to 17 times its
 * input. 96 KiB of stack are enough.
 */
#ifndef CALENDRICA_H
#define CALENDRICA_H

#include <stddef.h>

#ifdef __cplusplus
extern "C" {
#endif

#define CALENDRICA_VERSION "1.0.0"
#define CALENDRICA_VERSION_MAJOR 1
#define CALENDRICA_VERSION_MINOR 0
#define CALENDRICA_VERSION_PATCH 0

/* How a call ends. The numbers are those with which the program ends, and 9, which it has not. */
enum calendrica_status {
    CALENDRICA_DONE = 0,      /* the line has a result; each verdict is yes */
    CALENDRICA_MIXED = 1,     /* the line has none, and the text says why; some verdict is no or skip */
    CALENDRICA_MEMORY = 5,    /* out of memory; nothing is handed over, and the length is 0 */
    CALENDRICA_TOO_LARGE = 6, /* the bytes to check are more than 268,435,456; nothing is handed over, and the length is 0 */
    CALENDRICA_BAD_TEXT = 7,  /* the bytes to check are no certificate; `bad LINE RULE` is handed over */
    CALENDRICA_NO_ROOM = 9    /* the room is too small and as it was; the length is what is needed */
};

typedef struct calendrica_evaluator {
    unsigned char *kept;
} calendrica_evaluator;

#define CALENDRICA_NONE { NULL }

/* Fills an evaluator that is CALENDRICA_NONE. Ends with CALENDRICA_DONE, or CALENDRICA_MEMORY, and then it is CALENDRICA_NONE
 * still. */
int calendrica_open(calendrica_evaluator *evaluator);

/* Gives up what an open evaluator keeps. It is CALENDRICA_NONE afterwards. */
void calendrica_close(calendrica_evaluator *evaluator);

/* Answers a line FROM DATE TO, without a line feed at its end, by its block: the facts that it lists, numbered from 1, and then
 * `line 1 ..`, each ended by a line feed, as the program writes them for this line alone between its header and its end line. A
 * line of more than 200 bytes, or with other bytes than a tab and 0x20 to 0x7E, is refused by rule 1, as `line 1 refused 1`. The
 * text goes to the beginning of `room`, without a 0 behind it, and its length to `length`. Ends with CALENDRICA_DONE,
 * CALENDRICA_MIXED, CALENDRICA_NO_ROOM or CALENDRICA_MEMORY. */
int calendrica_answer(calendrica_evaluator *evaluator, const char *line, size_t line_length, char *room, size_t room_length,
                      size_t *length);

/* The same by the result of the line alone, without a line feed, as `78-44-1-0-1`, with CALENDRICA_DONE; with CALENDRICA_MIXED
 * why it has none, `refused R`, `refused 4 DAY`, `refused 5 BACK`, `undecided` or `void`. No text has more than 64 bytes. */
int calendrica_result(calendrica_evaluator *evaluator, const char *line, size_t line_length, char *room, size_t room_length,
                      size_t *length);

/* Checks a certificate, whoever made it, as `calendrica check` does: hands over a verdict for each of its lines and their counts,
 * with CALENDRICA_DONE where each is yes, and else CALENDRICA_MIXED; or why the bytes are none, with CALENDRICA_BAD_TEXT. Ends with
 * these, CALENDRICA_TOO_LARGE, CALENDRICA_NO_ROOM or CALENDRICA_MEMORY. */
int calendrica_check(calendrica_evaluator *evaluator, const char *text, size_t text_length, char *room, size_t room_length,
                     size_t *length);

#ifdef __cplusplus
}
#endif

#endif
