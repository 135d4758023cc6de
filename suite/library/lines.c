/* lines HOW [ROOM]: answers the script on standard input as `aia replay` does, by the library. HOW
 * is `texts`, each line by aia_line; `codes`, each line by aia_text, whose code is held to the word
 * that is answered; `script`, all of it by aia_replay, with ROOM bytes for answers
 * at a time; or `calls`, each line that has a call without text by that call, its answer spelled
 * here again, and the others by aia_line. At the end it tells on standard error how many lines each
 * took. */
#include "checks.h"

#include <inttypes.h>

enum { MOST_WORDS = 9, LONGEST_LINE = 128 };

static long by_call, by_text;

/* ---- a line as words and numbers */

static bool is_number(const char *word, uint64_t *value)
{
    const char *digits = word;
    int base = 10;
    if (word[0] == '0' && word[1] == 'x') {
        base = 16;
        digits = word + 2;
    }
    size_t length = strlen(digits);
    const char *known = base == 16 ? "0123456789abcdef" : "0123456789";
    if (length == 0 || strspn(digits, known) != length)
        return false;
    /* leading zeros, and numbers that may not fit, are left to the text */
    if (base == 10 ? length > 19 || (digits[0] == '0' && length > 1) : length > 16)
        return false;
    *value = strtoull(digits, NULL, base);
    return true;
}

/* Cuts a line into words at single spaces; 0 where it has others, or too many words. */
static int words_of(char *line, char *words[MOST_WORDS])
{
    int count = 0;
    if (strlen(line) > LONGEST_LINE)
        return 0;
    for (char *word = line; word; count++) {
        char *space = strchr(word, ' ');
        if (space)
            *space++ = '\0';
        if (count == MOST_WORDS || *word == '\0')
            return 0;
        words[count] = word;
        word = space;
    }
    return count;
}

/* ---- answers, spelled again */

static void spell_code(int32_t code, const char *done)
{
    const char *word = word_of_code(code);
    if (code == AIA_DONE)
        puts(done);
    else if (word)
        puts(word);
    else
        printf("code %" PRId32 "\n", code);
}

static void spell_value(int32_t code, int digits, uint64_t value)
{
    char text[32];
    snprintf(text, sizeof text, "0x%0*" PRIx64, digits, value);
    CHECK(code == AIA_DONE || value == 0);
    spell_code(code, text);
}

static void spell_pins(int32_t code, uint32_t pins)
{
    char text[32];
    snprintf(text, sizeof text, "pins %u %u %u %u", pins & 1, pins >> 1 & 1, pins >> 2 & 1,
             pins >> 3 & 1);
    CHECK(pins < 16 && (code == AIA_DONE || pins == 0));
    spell_code(code, text);
}

/* Sees that the numbers behind the last are 0, and all of a line that is refused. */
static void ends(int32_t code, uint32_t kind, const uint64_t *numbers, int count, int room)
{
    CHECK((code == AIA_DONE) == (kind != 0));
    for (int at = code == AIA_DONE ? count : 0; at < room; at++)
        CHECK(numbers[at] == 0);
}

static void spell_part(int32_t code, uint32_t kind, const uint64_t n[5])
{
    static const int counts[] = {
        [AIA_PART_IMAGE] = 5, [AIA_PART_MAJORS] = 2, [AIA_PART_PRIO] = 2, [AIA_PART_WORD] = 3};
    char text[AIA_ANSWER] = "";
    CHECK(kind < sizeof counts / sizeof *counts);
    if (kind == AIA_PART_IMAGE)
        snprintf(text, sizeof text, "image %" PRIu64 " %" PRIu64 " %" PRIu64 " %" PRIu64
                 " 0x%016" PRIx64, n[0], n[1], n[2], n[3], n[4]);
    else if (kind == AIA_PART_WORD)
        snprintf(text, sizeof text, "word %" PRIu64 " 0x%016" PRIx64 " 0x%016" PRIx64, n[0], n[1],
                 n[2]);
    else
        snprintf(text, sizeof text, "%s 0x%016" PRIx64 " 0x%016" PRIx64,
                 kind == AIA_PART_MAJORS ? "majors" : "prio", n[0], n[1]);
    ends(code, kind, n, counts[kind], 5);
    spell_code(code, text);
}

static void spell_entry(int32_t code, uint32_t kind, const uint64_t n[3])
{
    static const int counts[] = {[AIA_ENTRY_BASIC] = 1, [AIA_ENTRY_MRIF] = 3,
                                 [AIA_ENTRY_MISCONFIGURED] = 0};
    static const char *const words[] = {[AIA_ENTRY_NOT_VALID] = "notvalid",
                                        [AIA_ENTRY_CUSTOM] = "custom",
                                        [AIA_ENTRY_MISCONFIGURED] = "misconfigured"};
    char text[AIA_ANSWER] = "";
    CHECK(kind < sizeof counts / sizeof *counts);
    if (kind == AIA_ENTRY_BASIC)
        snprintf(text, sizeof text, "basic 0x%016" PRIx64, n[0]);
    else if (kind == AIA_ENTRY_MRIF)
        snprintf(text, sizeof text, "mrif 0x%016" PRIx64 " 0x%016" PRIx64 " %" PRIu64, n[0], n[1],
                 n[2]);
    else if (kind != 0)
        snprintf(text, sizeof text, "%s", words[kind]);
    ends(code, kind, n, counts[kind], 3);
    spell_code(code, text);
}

/* ---- forms of lines that read no CSR: a row each */

typedef int32_t (*act)(struct aia **handle, const uint64_t *n);

static int32_t machine(struct aia **h, const uint64_t *n) { return aia_machine(h, n[0], n[1], n[2], n[3]); }
static int32_t vm(struct aia **h, const uint64_t *n) { return aia_vm(h, n[0], n[1], n[2]); }
static int32_t wire(struct aia **h, const uint64_t *n) { return aia_wire(h, n[0], n[1] == 1); }
static int32_t store(struct aia **h, const uint64_t *n) { return aia_store(h, n[0], (uint32_t)n[1]); }
static int32_t msi(struct aia **h, const uint64_t *n) { return aia_msi(h, n[0], n[1], (uint32_t)n[2]); }
static int32_t send(struct aia **h, const uint64_t *n) { return aia_send(h, n[0], n[1], (uint32_t)n[2]); }
static int32_t land(struct aia **h, const uint64_t *n) { return aia_land(h, n[0], n[1]); }
static int32_t refetch(struct aia **h, const uint64_t *n) { return aia_refetch(h, n[0], n[1]); }
static int32_t pass(struct aia **h, const uint64_t *n) { return aia_pass(h, n[0], n[1], n[2], n[3]); }
static int32_t ipi(struct aia **h, const uint64_t *n) { return aia_ipi(h, n[0], n[1], n[2], (uint32_t)n[3]); }
static int32_t arrive(struct aia **h, const uint64_t *n) { return aia_arrive(h, n[0], n[1], n[2]); }
static int32_t leave(struct aia **h, const uint64_t *n) { return aia_leave(h, n[0], n[1]); }
static int32_t shift(struct aia **h, const uint64_t *n) { return aia_shift(h, n[0], n[1], n[2]); }
static int32_t begin_arrive(struct aia **h, const uint64_t *n) { return aia_begin_arrive(h, n[0], n[1], n[2]); }
static int32_t begin_leave(struct aia **h, const uint64_t *n) { return aia_begin_leave(h, n[0], n[1]); }
static int32_t begin_shift(struct aia **h, const uint64_t *n) { return aia_begin_shift(h, n[0], n[1], n[2]); }
static int32_t step(struct aia **h, const uint64_t *n) { return aia_step(h, n[0], n[1]); }
static int32_t enter(struct aia **h, const uint64_t *n) { return aia_enter(h, n[0], n[1]); }
static int32_t leave_memory(struct aia **h, const uint64_t *n) { return aia_exit(h, n[0], n[1]); }
static int32_t inject(struct aia **h, const uint64_t *n) { return aia_inject(h, n[0], n[1], n[2], n[3] == 1); }
static int32_t hvictl(struct aia **h, const uint64_t *n) { return aia_hvictl(h, n[0], n[1], n[2]); }
static int32_t hviprio(struct aia **h, const uint64_t *n) { return aia_hviprio(h, n[0], n[1], n[2]); }

static int32_t load_image(struct aia **h, const uint64_t *n)
{
    return aia_load_part(h, n[0], n[1], AIA_PART_IMAGE, n[2], n[3], n[4], n[5], n[6]);
}

static int32_t load_majors(struct aia **h, const uint64_t *n)
{
    return aia_load_part(h, n[0], n[1], AIA_PART_MAJORS, n[2], n[3], 7, 7, 7);
}

static int32_t load_prio(struct aia **h, const uint64_t *n)
{
    return aia_load_part(h, n[0], n[1], AIA_PART_PRIO, n[2], n[3], 7, 7, 7);
}

static int32_t load_word(struct aia **h, const uint64_t *n)
{
    return aia_load_part(h, n[0], n[1], AIA_PART_WORD, n[2], n[3], n[4], 7, 7);
}

/* A word stands for itself, but `N` for a number, `V` for one of 32 bits, `L` for 0 or 1. */
static const struct {
    const char *words[MOST_WORDS];
    act act;
    const char *done;
} forms[] = {
    {{"machine", "N", "N", "N", "N"}, machine, "ok"},
    {{"vm", "N", "N", "N"}, vm, "ok"},
    {{"wire", "N", "L"}, wire, "ok"},
    {{"st", "N", "V"}, store, "ok"},
    {{"msi", "N", "N", "V"}, msi, "ok"},
    {{"send", "N", "N", "V"}, send, "ok"},
    {{"land", "N", "N"}, land, "ok"},
    {{"refetch", "N", "N"}, refetch, "ok"},
    {{"pass", "N", "N", "N", "N"}, pass, "ok"},
    {{"g", "N", "N", "ipi", "N", "V"}, ipi, "ok"},
    {{"arrive", "N", "N", "N"}, arrive, "ok"},
    {{"leave", "N", "N"}, leave, "ok"},
    {{"shift", "N", "N", "N"}, shift, "ok"},
    {{"begin", "arrive", "N", "N", "N"}, begin_arrive, "ok"},
    {{"begin", "leave", "N", "N"}, begin_leave, "ok"},
    {{"begin", "shift", "N", "N", "N"}, begin_shift, "ok"},
    {{"step", "N", "N"}, step, "done"},
    {{"enter", "N", "N"}, enter, "ok"},
    {{"exit", "N", "N"}, leave_memory, "ok"},
    {{"load", "N", "N", "image", "V", "V", "L", "V", "N"}, load_image, "ok"},
    {{"load", "N", "N", "majors", "N", "N"}, load_majors, "ok"},
    {{"load", "N", "N", "prio", "N", "N"}, load_prio, "ok"},
    {{"load", "N", "N", "word", "N", "N", "N"}, load_word, "ok"},
    {{"inject", "N", "N", "N", "L"}, inject, "ok"},
    {{"hvictl", "N", "N", "N"}, hvictl, "ok"},
    {{"hviprio", "N", "N", "N"}, hviprio, "ok"},
};

/* Tells whether words are of a form, and gives its numbers. */
static bool fits(const char *const *form, char **words, int count, uint64_t *numbers)
{
    int at = 0;
    for (; at < count && at < MOST_WORDS && form[at]; at++) {
        char kind = form[at][1] == '\0' ? form[at][0] : '\0';
        if (kind == 'N' || kind == 'V' || kind == 'L') {
            if (!is_number(words[at], numbers))
                return false;
            if (kind == 'V' && *numbers > UINT32_MAX)
                return false;
            if (kind == 'L' && *numbers > 1)
                return false;
            numbers++;
        } else if (strcmp(form[at], words[at]) != 0) {
            return false;
        }
    }
    return at == count && (at == MOST_WORDS || !form[at]);
}

/* ---- forms of lines that read a value */

static const struct {
    const char *name;
    uint32_t csr;
    char at_levels[4];
} csrs[] = {
    {"miselect", AIA_MISELECT, "m"}, {"mireg", AIA_MIREG, "m"},   {"mtopei", AIA_MTOPEI, "m"},
    {"siselect", AIA_SISELECT, "hg"}, {"sireg", AIA_SIREG, "hg"}, {"stopei", AIA_STOPEI, "hg"},
    {"stopi", AIA_STOPI, "g"},        {"sip", AIA_SIP, "g"},      {"sie", AIA_SIE, "g"},
};

static bool csr_of(const char *name, char level, uint32_t *csr)
{
    for (size_t at = 0; at < sizeof csrs / sizeof *csrs; at++) {
        if (strcmp(csrs[at].name, name) == 0 && strchr(csrs[at].at_levels, level)) {
            *csr = csrs[at].csr;
            return true;
        }
    }
    return false;
}

static bool op_of(const char *name, uint32_t *op)
{
    static const char *const ops[] = {
        [AIA_CSRR] = "csrr", [AIA_CSRRW] = "csrrw", [AIA_CSRRS] = "csrrs", [AIA_CSRRC] = "csrrc"};
    for (*op = 0; *op < sizeof ops / sizeof *ops; ++*op)
        if (strcmp(ops[*op], name) == 0)
            return true;
    return false;
}

/* `m H csrr CSR`, `h H csrr CSR`, `g VM C csrr CSR` and their kin. */
static bool by_csr(struct aia **handle, char **words, int count)
{
    uint64_t numbers[2], operand = 0, value = 1;
    uint32_t csr, op;
    char level = words[0][0];
    int named = level == 'g' ? 2 : 1;
    if (words[0][1] != '\0' || !strchr("mhg", level) || count < named + 3)
        return false;
    for (int at = 0; at < named; at++)
        if (!is_number(words[1 + at], &numbers[at]))
            return false;
    if (!op_of(words[1 + named], &op) || !csr_of(words[2 + named], level, &csr))
        return false;
    if (count != named + (op == AIA_CSRR ? 3 : 4))
        return false;
    if (op != AIA_CSRR && !is_number(words[3 + named], &operand))
        return false;
    int32_t code = level == 'g'
                       ? aia_guest_csr(handle, numbers[0], numbers[1], csr, op, operand, &value)
                       : aia_csr(handle, numbers[0], csr, op, operand, &value);
    spell_value(code, 16, value);
    return true;
}

static bool by_value(struct aia **handle, char **words, int count)
{
    static const char *const load[MOST_WORDS] = {"ld", "N"};
    static const char *const pins[MOST_WORDS] = {"pins", "N"};
    static const char *const hgeip[MOST_WORDS] = {"h", "N", "hgeip"};
    uint64_t number, wide = 1;
    uint32_t narrow = 1;
    if (fits(load, words, count, &number)) {
        int32_t code = aia_load(handle, number, &narrow);
        spell_value(code, 8, narrow);
    } else if (fits(pins, words, count, &number)) {
        int32_t code = aia_pins(handle, number, &narrow);
        spell_pins(code, narrow);
    } else if (fits(hgeip, words, count, &number)) {
        int32_t code = aia_hgeip(handle, number, &wide);
        spell_value(code, 16, wide);
    } else {
        return by_csr(handle, words, count);
    }
    return true;
}

static bool by_numbers(struct aia **handle, char **words, int count)
{
    static const char *const save[MOST_WORDS] = {"save", "N", "N", "N"};
    static const char *const entry[MOST_WORDS] = {"entry", "N", "N"};
    uint64_t asked[MOST_WORDS], n[5] = {7, 7, 7, 7, 7};
    uint32_t kind = 7;
    if (fits(save, words, count, asked)) {
        int32_t code = aia_save(handle, asked[0], asked[1], asked[2], &kind, &n[0], &n[1], &n[2],
                                &n[3], &n[4]);
        spell_part(code, kind, n);
    } else if (fits(entry, words, count, asked)) {
        int32_t code = aia_entry(handle, asked[0], asked[1], &kind, &n[0], &n[1], &n[2]);
        spell_entry(code, kind, n);
    } else {
        return by_value(handle, words, count);
    }
    return true;
}

static bool by_calls(struct aia **handle, const uint8_t *text, size_t length)
{
    char line[LONGEST_LINE + 1], *words[MOST_WORDS];
    uint64_t numbers[MOST_WORDS];
    if (length > LONGEST_LINE || memchr(text, '\0', length))
        return false;
    memcpy(line, text, length);
    line[length] = '\0';
    int count = words_of(line, words);
    if (count == 0)
        return false;
    for (size_t at = 0; at < sizeof forms / sizeof *forms; at++) {
        if (fits(forms[at].words, words, count, numbers)) {
            spell_code(forms[at].act(handle, numbers), forms[at].done);
            return true;
        }
    }
    return by_numbers(handle, words, count);
}

/* ---- the four ways */

static void each_line(struct aia **handle, const uint8_t *script, size_t length, bool calls)
{
    uint8_t answer[AIA_ANSWER];
    for (size_t at = 0; at < length;) {
        const uint8_t *end = memchr(script + at, '\n', length - at);
        size_t text = end ? (size_t)(end - script) - at : length - at, written;
        if (calls && by_calls(handle, script + at, text)) {
            by_call++;
        } else {
            CHECK(aia_line(handle, script + at, text, answer, sizeof answer, &written) == AIA_DONE);
            fwrite(answer, 1, written, stdout);
            by_text++;
        }
        at += text + 1;
    }
}

/* Gives the code of what was answered, by its word. */
static int32_t code_of(const uint8_t *answer, size_t length)
{
    const int32_t count = sizeof words_of_codes / sizeof *words_of_codes;
    for (int32_t code = 0; code < count; code++) {
        const char *word = words_of_codes[code];
        if (word && length == strlen(word) + 1 && memcmp(answer, word, length - 1) == 0)
            return code;
    }
    return AIA_DONE;
}

static void each_code(struct aia **handle, const uint8_t *script, size_t length)
{
    uint8_t answer[AIA_ANSWER];
    for (size_t at = 0; at < length;) {
        const uint8_t *end = memchr(script + at, '\n', length - at);
        size_t text = end ? (size_t)(end - script) - at : length - at, written;
        int32_t code = aia_text(handle, script + at, text, answer, sizeof answer, &written);
        /* `notvalid` is what an entry says too, which is a value */
        bool is_entry = text > 6 && memcmp(script + at, "entry ", 6) == 0;
        CHECK(code == code_of(answer, written) || (is_entry && code == AIA_DONE));
        fwrite(answer, 1, written, stdout);
        by_text++;
        at += text + 1;
    }
}

static void whole_script(struct aia **handle, const uint8_t *script, size_t length, size_t room)
{
    uint8_t *answers = malloc(room);
    size_t taken, written;
    int32_t code;
    CHECK(answers);
    do {
        code = aia_replay(handle, script, length, &taken, answers, room, &written);
        CHECK(code == AIA_DONE ? taken == length : code == AIA_NO_ROOM && taken > 0);
        fwrite(answers, 1, written, stdout);
        script += taken;
        length -= taken;
    } while (code == AIA_NO_ROOM);
    free(answers);
}

static uint8_t *all_input(size_t *length)
{
    size_t room = 1 << 16, got;
    uint8_t *bytes = malloc(room);
    CHECK(bytes);
    *length = 0;
    while ((got = fread(bytes + *length, 1, room - *length, stdin)) > 0) {
        *length += got;
        if (*length == room) {
            bytes = realloc(bytes, room *= 2);
            CHECK(bytes);
        }
    }
    return bytes;
}

int main(int argc, char **argv)
{
    size_t length;
    const char *how = argc > 1 ? argv[1] : "";
    uint8_t *script = all_input(&length);
    struct aia *handle = NULL;
    CHECK(aia_open(&handle) == AIA_DONE);
    if (strcmp(how, "script") == 0)
        whole_script(&handle, script, length, argc > 2 ? strtoul(argv[2], NULL, 10) : 4096);
    else if (strcmp(how, "texts") == 0 || strcmp(how, "calls") == 0)
        each_line(&handle, script, length, strcmp(how, "calls") == 0);
    else if (strcmp(how, "codes") == 0)
        each_code(&handle, script, length);
    else
        CHECK(!"the first word is texts, codes, script or calls");
    aia_close(&handle);
    CHECK(handle == NULL);
    free(script);
    fprintf(stderr, "%ld %ld\n", by_call, by_text);
    return 0;
}
