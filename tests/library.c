/* Tries the library from C. library answer|result FILE: for each line of FILE the answer, or the result and a line feed, by one
 * evaluator. library check FILE: the verdicts of FILE. library rooms: answers in rooms of every size, of 0 bytes and of 4 MiB.
 * library threads FILE: the answers by two evaluators in two threads at once, which have to be the same, and those once more. Ends
 * with 0, or says what was wrong and ends with 1. */
#include "calendrica.h"
#include <pthread.h>
#include <stdio.h>
#include <stdlib.h>
#include <string.h>

#define ROOM 65536

struct bytes {
    char *at;
    size_t length;
};

typedef int call(calendrica_evaluator *, const char *, size_t, char *, size_t, size_t *);

static void fail(const char *what)
{
    fprintf(stderr, "library.c: %s\n", what);
    exit(1);
}

static void expect(int holds, const char *what)
{
    if (!holds)
        fail(what);
}

static struct bytes make(size_t length)
{
    struct bytes made = { malloc(length + 1), length };
    expect(made.at != NULL, "no memory");
    return made;
}

static struct bytes read_whole(const char *name)
{
    FILE *file = fopen(name, "rb");
    expect(file != NULL, "no such file");
    expect(fseek(file, 0, SEEK_END) == 0, "no end");
    struct bytes read = make((size_t)ftell(file));
    rewind(file);
    expect(fread(read.at, 1, read.length, file) == read.length, "not read");
    fclose(file);
    return read;
}

static void open_or_fail(calendrica_evaluator *evaluator)
{
    expect(calendrica_open(evaluator) == CALENDRICA_DONE, "not opened");
    expect(evaluator->kept != NULL, "opened, and yet none");
}

/* The text of a call, by a room of the size that a first try with a room of 1 byte told. */
static struct bytes text_of(calendrica_evaluator *evaluator, call *ask, struct bytes asked, int *status)
{
    char none[1] = { 7 };
    size_t wanted = 99;
    *status = ask(evaluator, asked.at, asked.length, none, 0, &wanted);
    expect(*status == CALENDRICA_NO_ROOM && none[0] == 7, "a room of 0 bytes");
    struct bytes text = make(wanted);
    text.at[wanted] = 7;
    *status = ask(evaluator, asked.at, asked.length, text.at, wanted, &text.length);
    expect(text.length == wanted && text.at[wanted] == 7, "a room of the size that was told");
    return text;
}

/* For each line the text of a call, one behind another, with `end` behind each. */
static struct bytes texts_of(call *ask, struct bytes lines, const char *end)
{
    calendrica_evaluator evaluator = CALENDRICA_NONE;
    struct bytes all = make(lines.length * 40 + ROOM);
    size_t filled = 0;
    open_or_fail(&evaluator);
    for (size_t start = 0; start < lines.length;) {
        const char *feed = memchr(lines.at + start, '\n', lines.length - start);
        size_t length = feed ? (size_t)(feed - (lines.at + start)) : lines.length - start;
        size_t told = 0;
        int status = ask(&evaluator, lines.at + start, length, all.at + filled, all.length - filled, &told);
        expect(status == CALENDRICA_DONE || status == CALENDRICA_MIXED, "no answer");
        filled += told;
        memcpy(all.at + filled, end, strlen(end));
        filled += strlen(end);
        start += length + 1;
    }
    calendrica_close(&evaluator);
    expect(evaluator.kept == NULL, "closed, and yet not none");
    all.length = filled;
    return all;
}

static void show(struct bytes text)
{
    fwrite(text.at, 1, text.length, stdout);
    free(text.at);
}

static void check(struct bytes file)
{
    calendrica_evaluator evaluator = CALENDRICA_NONE;
    int status, again;
    open_or_fail(&evaluator);
    struct bytes verdicts = text_of(&evaluator, calendrica_check, file, &status);
    struct bytes verdicts_again = text_of(&evaluator, calendrica_check, file, &again);
    expect(again == status && verdicts_again.length == verdicts.length, "a second check");
    expect(memcmp(verdicts.at, verdicts_again.at, verdicts.length) == 0, "a second check's verdicts");
    calendrica_close(&evaluator);
    free(verdicts_again.at);
    show(verdicts);
    printf("status %d\n", status);
}

/* A room of each size up to one byte more than is needed: what is too small stays as it was, and nothing behind a text changes. */
static void try_rooms(calendrica_evaluator *evaluator, call *ask, const char *line, const char *wanted)
{
    char room[512];
    size_t length = strlen(wanted);
    for (size_t size = 0; size <= length + 1; size++) {
        size_t told = 0;
        memset(room, 7, sizeof room);
        int status = ask(evaluator, line, strlen(line), room, size, &told);
        expect(told == length, "the length that is told");
        expect((status == CALENDRICA_NO_ROOM) == (size < length), "the status of a room");
        size_t front = size < length ? 0 : length;
        expect(memcmp(room, wanted, front) == 0, "the text in a room");
        for (size_t at = front; at < sizeof room; at++)
            expect(room[at] == 7, "a byte behind the text");
    }
}

static void rooms(void)
{
    calendrica_evaluator evaluator = CALENDRICA_NONE;
    open_or_fail(&evaluator);
    try_rooms(&evaluator, calendrica_answer, "", "line 1 refused 1\n");
    try_rooms(&evaluator, calendrica_result, "", "refused 1");
    try_rooms(&evaluator, calendrica_answer, "gregorian 2027-02-06 fixed", "line 1 gregorian 2027-02-06 fixed 740018 facts\n");
    try_rooms(&evaluator, calendrica_result, "gregorian 2027-02-06 chinese", "78-44-1-0-1");
    try_rooms(&evaluator, calendrica_result, "persian 1402-12-30 gregorian", "refused 5 1403-1-1");
    try_rooms(&evaluator, calendrica_check, "no header\n", "bad 1 1\n");

    struct bytes large = make(4194304);
    int status;
    memset(large.at, 'x', large.length);
    struct bytes text = text_of(&evaluator, calendrica_answer, large, &status);
    expect(status == CALENDRICA_MIXED && text.length == 17 && memcmp(text.at, "line 1 refused 1\n", 17) == 0, "a line of 4 MiB");
    free(text.at);
    free(large.at);
    calendrica_close(&evaluator);
}

static void *answer_all(void *lines)
{
    struct bytes *answers = malloc(sizeof *answers);
    expect(answers != NULL, "no memory");
    *answers = texts_of(calendrica_answer, *(struct bytes *)lines, "");
    return answers;
}

static void threads(struct bytes lines)
{
    pthread_t other;
    void *theirs;
    expect(pthread_create(&other, NULL, answer_all, &lines) == 0, "no thread");
    struct bytes *ours = answer_all(&lines);
    expect(pthread_join(other, &theirs) == 0, "no join");
    struct bytes *others = theirs;
    expect(ours->length == others->length && memcmp(ours->at, others->at, ours->length) == 0, "two threads");
    free(others->at);
    free(others);
    show(*ours);
    free(ours);
}

int main(int count, char **words)
{
    struct bytes input = { NULL, 0 };
    expect(count >= 2, "usage: library answer|result|check|rooms|threads [FILE]");
    if (count > 2)
        input = read_whole(words[2]);
    if (strcmp(words[1], "answer") == 0)
        show(texts_of(calendrica_answer, input, ""));
    else if (strcmp(words[1], "result") == 0)
        show(texts_of(calendrica_result, input, "\n"));
    else if (strcmp(words[1], "check") == 0)
        check(input);
    else if (strcmp(words[1], "threads") == 0)
        threads(input);
    else
        rooms();
    free(input.at);
    return 0;
}
