/* What the tests of the library share. */
#ifndef CHECKS_H
#define CHECKS_H

#include "aia.h"

#include <stdio.h>
#include <stdlib.h>
#include <string.h>

/* Ends the test where a fact does not hold. */
#define CHECK(fact)                                                                  \
    do {                                                                             \
        if (!(fact)) {                                                               \
            fprintf(stderr, "%s:%d: not so: %s\n", __FILE__, __LINE__, #fact);       \
            exit(1);                                                                 \
        }                                                                            \
    } while (0)

/* One answer, and the bytes behind it, which no call may write. */
struct said {
    uint8_t bytes[AIA_ANSWER + 8];
    size_t length;
};

enum { UNTOUCHED = 0x5a };

/* aia_line or aia_text. */
typedef int32_t answering(struct aia **, const uint8_t *, size_t, uint8_t *, size_t, size_t *);

/* Gives a text to a handle by one of these, with room for an answer. */
static inline int32_t say_by(answering *call, struct aia **handle, const char *text, size_t room,
                             struct said *said)
{
    memset(said->bytes, UNTOUCHED, sizeof said->bytes);
    said->length = 12345;
    int32_t code = call(handle, (const uint8_t *)text, strlen(text), said->bytes, room,
                        &said->length);
    for (size_t at = said->length; at < sizeof said->bytes; at++)
        CHECK(said->bytes[at] == UNTOUCHED);
    return code;
}

static inline int32_t say(struct aia **handle, const char *text, size_t room, struct said *said)
{
    return say_by(aia_line, handle, text, room, said);
}

static inline int32_t say_code(struct aia **handle, const char *text, size_t room,
                               struct said *said)
{
    return say_by(aia_text, handle, text, room, said);
}

/* The word of each code from 16 on, as docs/REFERENCE.md has it, by the header's names. */
static const char *const words_of_codes[] = {
    [AIA_NO_MACHINE] = "nomachine", [AIA_AGAIN] = "again",     [AIA_MOVING] = "moving",
    [AIA_BAD] = "bad",              [AIA_RANGE] = "range",     [AIA_FULL] = "full",
    [AIA_BUSY] = "busy",            [AIA_HOME] = "home",       [AIA_ENTERED] = "entered",
    [AIA_PARKED] = "parked",        [AIA_NO_FILE] = "nofile",  [AIA_PASSED] = "passed",
    [AIA_UNREADY] = "unready",      [AIA_IDLE] = "idle",       [AIA_AWAY] = "away",
    [AIA_ILLEGAL] = "illegal",      [AIA_VIRTUAL] = "virtual", [AIA_FAULT] = "fault",
    [AIA_GUARDED] = "guarded",      [AIA_OTHER] = "other",     [AIA_NOT_VALID] = "notvalid",
    [AIA_G_FAULT] = "gfault",
};

/* That of a number, NULL where it is no such code. */
static inline const char *word_of_code(int32_t code)
{
    const int32_t count = sizeof words_of_codes / sizeof *words_of_codes;
    return code >= 0 && code < count ? words_of_codes[code] : NULL;
}

/* Tells whether a text is answered with these words and an LF; "" of none. */
static inline bool answers(struct aia **handle, const char *text, const char *words)
{
    struct said said;
    int32_t code = say(handle, text, AIA_ANSWER, &said);
    size_t length = strlen(words);
    if (code != AIA_DONE)
        return false;
    if (length == 0)
        return said.length == 0;
    return said.length == length + 1 && memcmp(said.bytes, words, length) == 0 &&
           said.bytes[length] == '\n';
}

#endif
