/* handles WHAT: tests of handles. WHAT is `edges`, what calls answer at the edges of their words;
 * `codes`, each code of the header that a call answers, by its name there; `many`, 1,000 handles at
 * once, each asked in turn; `long`, 10,000,000 lines on one handle; or `threads`, one handle that
 * goes through threads in order, and a handle each for four at once. */
#include "checks.h"

#include <pthread.h>

/* Parts and entries of a closed handle. */
static void closed_parts(struct aia **handle)
{
    uint32_t kind = 7;
    uint64_t n[5] = {7, 7, 7, 7, 7};
    CHECK(aia_save(handle, 0, 0, 0, &kind, &n[0], &n[1], &n[2], &n[3], &n[4]) == AIA_CLOSED);
    CHECK(kind == 0 && !n[0] && !n[1] && !n[2] && !n[3] && !n[4]);
    kind = n[0] = n[1] = n[2] = 7;
    CHECK(aia_entry(handle, 1, 0, &kind, &n[0], &n[1], &n[2]) == AIA_CLOSED);
    CHECK(kind == 0 && !n[0] && !n[1] && !n[2]);
    CHECK(aia_load_part(handle, 0, 0, AIA_PART_PRIO, 0, 0, 0, 0, 0) == AIA_CLOSED);
    CHECK(aia_load_part(handle, 0, 0, 5, 0, 0, 0, 0, 0) == AIA_NO_LINE);
}

/* A closed handle answers that it is closed, and stays so. */
static void closed_ones(void)
{
    struct aia *handle = NULL;
    struct said said;
    uint64_t wide = 7;
    uint32_t narrow = 7;
    size_t taken = 7, written = 7;
    uint8_t room[AIA_ANSWER];
    CHECK(say(&handle, "machine 1 1 63 1", AIA_ANSWER, &said) == AIA_CLOSED && said.length == 0);
    CHECK(say_code(&handle, "machine 1 1 63 1", AIA_ANSWER, &said) == AIA_CLOSED);
    CHECK(say_code(&handle, "ld 0", AIA_ANSWER - 1, &said) == AIA_NO_ROOM && said.length == 0);
    CHECK(aia_reset(&handle) == AIA_CLOSED && handle == NULL);
    CHECK(aia_replay(&handle, room, 1, &taken, room + 1, 1, &written) == AIA_CLOSED);
    CHECK(taken == 0 && written == 0);
    CHECK(aia_machine(&handle, 1, 1, 63, 1) == AIA_CLOSED);
    CHECK(aia_store(&handle, 0, 0) == AIA_CLOSED && aia_step(&handle, 0, 0) == AIA_CLOSED);
    CHECK(aia_load(&handle, 0, &narrow) == AIA_CLOSED && narrow == 0);
    CHECK(aia_csr(&handle, 0, AIA_STOPEI, AIA_CSRR, 0, &wide) == AIA_CLOSED && wide == 0);
    wide = narrow = 7;
    CHECK(aia_signals(&handle, 0, &narrow, &wide) == AIA_CLOSED && narrow == 0 && wide == 0);
    closed_parts(&handle);
    CHECK(handle == NULL);
    aia_close(&handle);
    CHECK(handle == NULL);
}

/* Room of 64 bytes is enough, and of 63 too little: then nothing changed. */
static void room_for_answers(struct aia **handle)
{
    struct said said;
    CHECK(say(handle, "machine 1 1 63 1", AIA_ANSWER - 1, &said) == AIA_NO_ROOM);
    CHECK(said.length == 0 && answers(handle, "ld 0", "nomachine"));
    CHECK(say(handle, "machine 1 1 63 1", AIA_ANSWER, &said) == AIA_DONE && said.length == 3);
    CHECK(answers(handle, "machine 1 1 63 1", "again"));
    CHECK(answers(handle, "# a comment", "") && answers(handle, "", ""));
    CHECK(answers(handle, "nonsense", "bad") && answers(handle, "ld 0 ", "bad"));
}

/* Texts that say the codes of their answers, with the bytes of aia_line. */
static void codes_of_texts(struct aia **handle)
{
    static const struct {
        const char *text, *answer;
        int32_t code;
    } rows[] = {
        {"machine 1 1 63 1", "ok\n", AIA_DONE},       {"machine 1 1 63 1", "again\n", AIA_AGAIN},
        {"pins 1", "range\n", AIA_RANGE},             {"st 0x1 1", "fault\n", AIA_FAULT},
        {"nonsense", "bad\n", AIA_BAD},               {"# a comment", "", AIA_DONE},
        {"", "", AIA_DONE},                           {"pins 0", "pins 0 0 0 0\n", AIA_DONE},
        {"h 0 csrr stopei", "0x0000000000000000\n", AIA_DONE},
        {"h 0 csrr sireg", "illegal\n", AIA_ILLEGAL}, {"step 0 0", "range\n", AIA_RANGE},
    };
    struct said said;
    CHECK(say_code(handle, "ld 0", AIA_ANSWER, &said) == AIA_NO_MACHINE && said.length == 10);
    CHECK(say_code(handle, "machine 1 1 63 1", AIA_ANSWER - 1, &said) == AIA_NO_ROOM);
    CHECK(said.length == 0 && answers(handle, "ld 0", "nomachine"));
    for (size_t at = 0; at < sizeof rows / sizeof *rows; at++) {
        CHECK(say_code(handle, rows[at].text, AIA_ANSWER, &said) == rows[at].code);
        CHECK(said.length == strlen(rows[at].answer));
        CHECK(memcmp(said.bytes, rows[at].answer, said.length) == 0);
    }
}

/* Numbers that are of no part, and those that are of one. */
static void parts(struct aia **handle)
{
    const uint64_t wide = (uint64_t)1 << 32;
    const uint32_t image = AIA_PART_IMAGE;
    uint32_t kind = 7;
    uint64_t n[5];
    CHECK(aia_vm(handle, 1, 0x8, 0) == AIA_DONE);
    CHECK(aia_load_part(handle, 0, 0, 0, 0, 0, 0, 0, 0) == AIA_NO_LINE);
    CHECK(aia_load_part(handle, 0, 0, 5, 0, 0, 0, 0, 0) == AIA_NO_LINE);
    CHECK(aia_load_part(handle, 0, 0, image, wide + 1, 63, 0, 0, 0x70) == AIA_NO_LINE);
    CHECK(aia_load_part(handle, 0, 0, image, 1, wide + 63, 0, 0, 0x70) == AIA_NO_LINE);
    CHECK(aia_load_part(handle, 0, 0, image, 1, 63, 2, 0, 0x70) == AIA_NO_LINE);
    CHECK(aia_load_part(handle, 0, 0, image, 1, 63, 0, wide, 0x70) == AIA_NO_LINE);
    CHECK(aia_load_part(handle, 0, 0, image, 1, 63, 1, 5, 0x72) == AIA_DONE);
    CHECK(aia_save(handle, 0, 0, 0, &kind, &n[0], &n[1], &n[2], &n[3], &n[4]) == AIA_DONE);
    CHECK(kind == image && n[0] == 1 && n[1] == 63 && n[2] == 1 && n[3] == 5 && n[4] == 0x72);
    CHECK(aia_load_part(handle, 0, 1, AIA_PART_PRIO, 0, 0, 9, 9, 9) == AIA_RANGE);
}

/* Both signals of a hart: the supervisor file's, and that of a guest file. */
static void signals(void)
{
    struct aia *handle = NULL;
    uint32_t pins = 7;
    uint64_t hgeip = 7;
    CHECK(aia_open(&handle) == AIA_DONE);
    CHECK(aia_signals(&handle, 0, &pins, &hgeip) == AIA_NO_MACHINE && pins == 0 && hgeip == 0);
    CHECK(aia_machine(&handle, 1, 2, 63, 1) == AIA_DONE);
    CHECK(aia_signals(&handle, 0, &pins, &hgeip) == AIA_DONE && pins == 0 && hgeip == 0);
    CHECK(answers(&handle, "h 0 csrrw siselect 0x70", "0x0000000000000000"));
    CHECK(answers(&handle, "h 0 csrrw sireg 1", "0x0000000000000000"));
    CHECK(answers(&handle, "h 0 csrrw siselect 0xc0", "0x0000000000000070"));
    CHECK(answers(&handle, "h 0 csrrw sireg 0x20", "0x0000000000000000"));
    CHECK(aia_store(&handle, 0x28000000, 5) == AIA_DONE);
    CHECK(aia_signals(&handle, 0, &pins, &hgeip) == AIA_DONE && pins == 8 && hgeip == 0);
    CHECK(answers(&handle, "vm 1 0x8 0", "ok") && answers(&handle, "arrive 0 0 0", "ok"));
    CHECK(answers(&handle, "g 0 0 csrrw siselect 0x70", "0x0000000000000000"));
    CHECK(answers(&handle, "g 0 0 csrrw sireg 1", "0x0000000000000000"));
    CHECK(answers(&handle, "g 0 0 csrrw siselect 0xc0", "0x0000000000000070"));
    CHECK(answers(&handle, "g 0 0 csrrw sireg 0x8", "0x0000000000000000"));
    CHECK(answers(&handle, "g 0 0 ipi 0 3", "ok"));
    CHECK(aia_signals(&handle, 0, &pins, &hgeip) == AIA_DONE && pins == 8 && hgeip == 2);
    CHECK(aia_signals(&handle, 1, &pins, &hgeip) == AIA_RANGE && pins == 0 && hgeip == 0);
    aia_close(&handle);
}

/* A handle that is reset has no machine, and may make another one, time and again. */
static void resets(void)
{
    struct aia *handle = NULL, *before;
    CHECK(aia_open(&handle) == AIA_DONE && aia_reset(&handle) == AIA_DONE);
    before = handle;
    for (uint64_t harts = 1; harts <= 4; harts++) {
        CHECK(answers(&handle, "pins 0", "nomachine"));
        CHECK(aia_machine(&handle, harts, 1, 63, 1) == AIA_DONE);
        CHECK(aia_store(&handle, 0x28000000, 5) == AIA_DONE);
        CHECK(aia_machine(&handle, harts, 1, 63, 1) == AIA_AGAIN);
        CHECK(answers(&handle, "h 0 csrrw siselect 0x80", "0x0000000000000000"));
        CHECK(answers(&handle, "h 0 csrr sireg", "0x0000000000000020"));
        CHECK(aia_reset(&handle) == AIA_DONE && handle == before);
    }
    aia_close(&handle);
}

/* A script is taken up to the line for whose answer there may be no room. */
static void scripts(struct aia **handle)
{
    const char *script = "pins 0\npins 0\n# nothing\npins 0";
    const uint8_t *bytes = (const uint8_t *)script;
    uint8_t room[AIA_ANSWER + 13];
    size_t taken, written;
    memset(room, UNTOUCHED, sizeof room);
    CHECK(aia_replay(handle, bytes, strlen(script), &taken, room, AIA_ANSWER + 12, &written) ==
          AIA_NO_ROOM);
    CHECK(taken == 7 && written == 13 && memcmp(room, "pins 0 0 0 0\n", 13) == 0);
    CHECK(room[13] == UNTOUCHED);
    CHECK(aia_replay(handle, bytes + 7, strlen(script) - 7, &taken, room, AIA_ANSWER + 13,
                     &written) == AIA_DONE);
    CHECK(taken == strlen(script) - 7 && written == 26);
    CHECK(aia_replay(handle, bytes, 0, &taken, room, 0, &written) == AIA_DONE);
    CHECK(taken == 0 && written == 0);
    CHECK(aia_replay(handle, bytes, 6, &taken, room, AIA_ANSWER - 1, &written) == AIA_NO_ROOM);
    CHECK(taken == 0 && written == 0);
}

/* Numbers of CSRs and instructions that there are not. */
static void numbers(struct aia **handle)
{
    uint64_t value = 7;
    CHECK(aia_csr(handle, 0, AIA_STOPI, AIA_CSRR, 0, &value) == AIA_NO_LINE && value == 0);
    CHECK(aia_csr(handle, 0, AIA_STOPEI, 4, 0, &value) == AIA_NO_LINE);
    CHECK(aia_guest_csr(handle, 0, 0, AIA_MTOPEI, AIA_CSRR, 0, &value) == AIA_NO_LINE);
    CHECK(aia_csr(handle, 1, AIA_STOPEI, AIA_CSRR, 0, &value) == AIA_RANGE && value == 0);
    CHECK(aia_machine(handle, 1, 1, 63, 1) == AIA_AGAIN);
}

static void edges(void)
{
    struct aia *handle = NULL, *other = NULL, *moved;
    CHECK(aia_version() == AIA_VERSION);
    closed_ones();
    CHECK(aia_open(&handle) == AIA_DONE && handle);
    moved = handle;
    CHECK(aia_open(&handle) == AIA_OPEN && handle == moved);
    room_for_answers(&handle);
    scripts(&handle);
    numbers(&handle);
    resets();
    CHECK(aia_open(&other) == AIA_DONE && other != handle);
    codes_of_texts(&other);
    parts(&other);
    signals();
    CHECK(aia_reset(&other) == AIA_DONE);
    CHECK(answers(&other, "ld 0", "nomachine"));
    handle = NULL; /* moved is the handle from here on */
    CHECK(answers(&moved, "machine 1 1 63 1", "again"));
    aia_close(&moved);
    aia_close(&moved);
    aia_close(&other);
    CHECK(!moved && !other);
    CHECK(answers(&moved, "ld 0", "") == false);
}

/* The word of each code from 16 on, and of no other number. */
static void names(void)
{
    static const int32_t none[] = {INT32_MIN, -1, 0, 1, 15, 20, 31, 50, INT32_MAX};
    uint8_t name[AIA_ANSWER + 1];
    size_t written;
    for (int32_t code = -100; code < 200; code++) {
        const char *word = word_of_code(code);
        memset(name, UNTOUCHED, sizeof name);
        CHECK(aia_code_name(code, name, AIA_ANSWER, &written) == (word ? AIA_DONE : AIA_NO_LINE));
        CHECK(written == (word ? strlen(word) : 0) && name[written] == UNTOUCHED);
        CHECK(!word || memcmp(name, word, written) == 0);
        CHECK(aia_code_name(code, name, AIA_ANSWER - 1, &written) == AIA_NO_ROOM && written == 0);
    }
    for (size_t at = 0; at < sizeof none / sizeof *none; at++)
        CHECK(aia_code_name(none[at], name, AIA_ANSWER, &written) == AIA_NO_LINE && written == 0);
}

/* Each code from AIA_NO_MACHINE on but AIA_BAD, which texts alone are answered. AIA_NO_MEMORY is in
 * no_memory.c, and the others below 16 are among the edges. */
static void codes(void)
{
    struct aia *handle = NULL;
    uint64_t wide;
    uint32_t narrow;
    int steps = 0;
    names();
    CHECK(aia_open(&handle) == AIA_DONE);
    CHECK(aia_load(&handle, 0, &narrow) == AIA_NO_MACHINE && narrow == 0);
    CHECK(aia_machine(&handle, 5, 0, 63, 1) == AIA_RANGE);
    CHECK(aia_machine(&handle, 2, 2, 63, 8) == AIA_DONE);
    CHECK(aia_machine(&handle, 9, 9, 9, 9) == AIA_AGAIN);
    CHECK(aia_csr(&handle, 0, AIA_SIREG, AIA_CSRR, 0, &wide) == AIA_ILLEGAL && wide == 0);
    CHECK(aia_store(&handle, 1, 1) == AIA_FAULT);
    CHECK(aia_store(&handle, 0x28001000, 1) == AIA_GUARDED);

    CHECK(aia_vm(&handle, 2, 0x8, 0) == AIA_DONE && aia_vm(&handle, 2, 0x18, 0) == AIA_DONE);
    CHECK(aia_msi(&handle, 0, 0x28001000, 5) == AIA_OTHER);
    CHECK(aia_msi(&handle, 1, 0x28010000, 5) == AIA_NOT_VALID);
    CHECK(aia_guest_csr(&handle, 0, 0, AIA_STOPEI, AIA_CSRR, 0, &wide) == AIA_AWAY && wide == 0);
    CHECK(aia_step(&handle, 0, 0) == AIA_IDLE && aia_leave(&handle, 0, 0) == AIA_PARKED);
    CHECK(aia_arrive(&handle, 0, 0, 0) == AIA_DONE && aia_arrive(&handle, 0, 0, 0) == AIA_HOME);
    CHECK(aia_guest_csr(&handle, 0, 0, AIA_SIREG, AIA_CSRR, 0, &wide) == AIA_VIRTUAL);
    CHECK(aia_ipi(&handle, 0, 0, 2, 3) == AIA_G_FAULT);
    CHECK(aia_enter(&handle, 0, 1) == AIA_DONE && aia_enter(&handle, 0, 1) == AIA_ENTERED);
    CHECK(aia_arrive(&handle, 1, 0, 0) == AIA_DONE && aia_arrive(&handle, 1, 1, 0) == AIA_NO_FILE);
    for (int store = 0; store < 8; store++)
        CHECK(aia_send(&handle, 0, 0x28000000, 5) == AIA_DONE);
    CHECK(aia_send(&handle, 0, 0x28000000, 5) == AIA_FULL);

    /* A source that may be passed: delegated, active in the child, which sends MSIs. */
    CHECK(aia_pass(&handle, 1, 0, 0, 5) == AIA_UNREADY);
    CHECK(aia_store(&handle, 0x0c000004, 0x400) == AIA_DONE);
    CHECK(aia_store(&handle, 0x0c008004, 6) == AIA_DONE);
    CHECK(aia_store(&handle, 0x0c008000, 0x104) == AIA_DONE);
    CHECK(aia_store(&handle, 0x0c001bc4, 0x2000) == AIA_DONE);
    CHECK(aia_store(&handle, 0x0c001bc8, 0x28000) == AIA_DONE);
    CHECK(aia_store(&handle, 0x0c001bcc, 0x500000) == AIA_DONE);
    CHECK(aia_pass(&handle, 1, 0, 0, 5) == AIA_DONE);
    CHECK(aia_pass(&handle, 1, 0, 0, 5) == AIA_PASSED);

    CHECK(aia_begin_leave(&handle, 0, 0) == AIA_DONE && aia_leave(&handle, 0, 0) == AIA_BUSY);
    while (aia_step(&handle, 0, 0) == AIA_MOVING)
        CHECK(++steps < 100);
    CHECK(steps > 0 && aia_step(&handle, 0, 0) == AIA_IDLE);
    aia_close(&handle);
}

/* Writes 0 over each word of a file's pending set, in which just this bit of this word stood. */
static void clear_all_but(struct aia **handle, uint64_t number, uint64_t bit)
{
    for (uint64_t word = 0x80; word < 0xa0; word += 2) {
        uint64_t value;
        CHECK(aia_csr(handle, 0, AIA_SISELECT, AIA_CSRRW, word, &value) == AIA_DONE);
        CHECK(aia_csr(handle, 0, AIA_SIREG, AIA_CSRRW, 0, &value) == AIA_DONE);
        CHECK(value == (word == number ? bit : 0));
    }
}

/* Each handle has its own machine: identity I + 1 of handle I's file is pending in it alone. */
static void many(void)
{
    enum { HANDLES = 1000, ROUNDS = 20 };
    static struct aia *handles[HANDLES];
    for (int at = 0; at < HANDLES; at++) {
        CHECK(aia_open(&handles[at]) == AIA_DONE);
        CHECK(aia_machine(&handles[at], 1, 0, 1023, 1) == AIA_DONE);
    }
    for (int round = 0; round < ROUNDS; round++) {
        for (int at = 0; at < HANDLES; at++)
            CHECK(aia_store(&handles[at], 0x28000000, at + 1) == AIA_DONE);
        for (int at = HANDLES - 1; at >= 0; at--)
            clear_all_but(&handles[at], 0x80 + (at + 1) / 64 * 2, (uint64_t)1 << (at + 1) % 64);
    }
    for (int at = 0; at < HANDLES; at += 2)
        aia_close(&handles[at]);
    for (int at = 0; at < HANDLES; at++) {
        CHECK((handles[at] == NULL) == (at % 2 == 0));
        aia_close(&handles[at]);
    }
}

/* Ten million lines: each store is claimed by the next line. */
static void long_one(void)
{
    struct aia *handle = NULL;
    uint64_t value;
    CHECK(aia_open(&handle) == AIA_DONE && aia_machine(&handle, 1, 0, 63, 1) == AIA_DONE);
    CHECK(answers(&handle, "h 0 csrrw siselect 0x70", "0x0000000000000000"));
    CHECK(answers(&handle, "h 0 csrrw sireg 1", "0x0000000000000000"));
    CHECK(answers(&handle, "h 0 csrrw siselect 0xc0", "0x0000000000000070"));
    CHECK(answers(&handle, "h 0 csrrw sireg 0xfffffffffffffffe", "0x0000000000000000"));
    for (uint32_t line = 0; line < 5000000; line++) {
        uint64_t identity = 1 + line % 63;
        CHECK(aia_store(&handle, 0x28000000, (uint32_t)identity) == AIA_DONE);
        CHECK(aia_csr(&handle, 0, AIA_STOPEI, AIA_CSRRW, 0, &value) == AIA_DONE);
        CHECK(value == (identity << 16 | identity));
    }
    aia_close(&handle);
}

static void *in_order(void *handle)
{
    for (int line = 0; line < 1000; line++)
        CHECK(aia_store(handle, 0x28000000, 5) == AIA_DONE);
    return NULL;
}

static void *at_once(void *handle)
{
    struct aia *own = NULL;
    (void)handle;
    CHECK(aia_open(&own) == AIA_DONE && aia_machine(&own, 4, 7, 2047, 1023) == AIA_DONE);
    for (uint64_t line = 0; line < 100000; line++)
        CHECK(aia_wire(&own, 1 + line % 1023, line & 1) == AIA_DONE);
    aia_close(&own);
    return NULL;
}

static void threads(void)
{
    struct aia *handle = NULL;
    pthread_t four[4];
    CHECK(aia_open(&handle) == AIA_DONE && aia_machine(&handle, 1, 0, 63, 1) == AIA_DONE);
    for (int at = 0; at < 4; at++) {
        CHECK(pthread_create(four, NULL, in_order, &handle) == 0);
        CHECK(pthread_join(*four, NULL) == 0);
    }
    CHECK(answers(&handle, "h 0 csrrw siselect 0x80", "0x0000000000000000"));
    CHECK(answers(&handle, "h 0 csrr sireg", "0x0000000000000020"));
    aia_close(&handle);
    for (int at = 0; at < 4; at++)
        CHECK(pthread_create(&four[at], NULL, at_once, NULL) == 0);
    for (int at = 0; at < 4; at++)
        CHECK(pthread_join(four[at], NULL) == 0);
}

int main(int argc, char **argv)
{
    static const struct {
        const char *name;
        void (*test)(void);
    } tests[] = {{"edges", edges}, {"codes", codes}, {"many", many}, {"long", long_one},
                 {"threads", threads}};
    for (size_t at = 0; argc == 2 && at < sizeof tests / sizeof *tests; at++) {
        if (strcmp(argv[1], tests[at].name) == 0) {
            tests[at].test();
            return 0;
        }
    }
    CHECK(!"the word is edges, codes, many, long or threads");
}
