/* no_memory [SCRIPT..]: each allocation fails, with all after it. The handle stays as it was,
 * nothing is lost, and the same line goes well once there is memory. And of each script no line
 * asks for memory but that which makes the machine: the clauses only say that no other wants it.
 * Linked with --wrap=malloc,--wrap=realloc,--wrap=free. */
#include "checks.h"

void *__real_malloc(size_t size);
void *__real_realloc(void *block, size_t size);
void __real_free(void *block);
void *__wrap_malloc(size_t size);
void *__wrap_realloc(void *block, size_t size);
void __wrap_free(void *block);

static long left = -1; /* how many allocations go well yet; below 0, all */
static long blocks;    /* how many there are */
static long requests;  /* how often one was asked for */

static bool fails(void)
{
    requests++;
    if (left > 0)
        left--;
    else if (left == 0)
        return true;
    return false;
}

void *__wrap_malloc(size_t size)
{
    if (fails())
        return NULL;
    blocks++;
    return __real_malloc(size);
}

void *__wrap_realloc(void *block, size_t size)
{
    if (fails())
        return NULL;
    blocks += block == NULL;
    return __real_realloc(block, size);
}

void __wrap_free(void *block)
{
    blocks -= block != NULL;
    __real_free(block);
}

/* Makes the greatest machine by one of the four kinds of call. */
static int32_t make(struct aia **handle, int how)
{
    const char *script = "# the greatest\nmachine 4 31 2047 1023\npins 0\n";
    uint8_t room[3 * AIA_ANSWER];
    size_t taken, written;
    struct said said;
    if (how == 0)
        return aia_machine(handle, 4, 31, 2047, 1023);
    if (how == 1)
        return say(handle, "machine 4 31 2047 1023", AIA_ANSWER, &said);
    if (how == 2)
        return say_code(handle, "machine 4 31 2047 1023", AIA_ANSWER, &said);
    int32_t code = aia_replay(handle, (const uint8_t *)script, strlen(script), &taken, room,
                              sizeof room, &written);
    CHECK(code != AIA_NO_MEMORY || (taken == 15 && written == 0));
    return code;
}

/* Gives a handle the lines of a script, each as a text, and tells how many there are. */
static long ask_at_machines_alone(const char *name)
{
    static char line[1 << 16];
    struct aia *handle = NULL;
    struct said said;
    long lines = 0;
    FILE *script = fopen(name, "r");
    CHECK(script && aia_open(&handle) == AIA_DONE);
    while (fgets(line, sizeof line, script)) {
        line[strcspn(line, "\n")] = '\0';
        long before = requests;
        CHECK(say(&handle, line, AIA_ANSWER, &said) == AIA_DONE);
        CHECK(requests == before || strncmp(line, "machine ", 8) == 0);
        lines++;
    }
    aia_close(&handle);
    fclose(script);
    return lines;
}

int main(int argc, char **argv)
{
    long opens = 0, machines = 0, fine = 0, lines = 0;
    for (int at = 1; at < argc; at++)
        lines += ask_at_machines_alone(argv[at]);
    CHECK(argc == 1 || lines > 1000);
    for (int how = 0; how < 4; how++) {
        for (long at = 0; fine <= how && at < 10000; at++) {
            struct aia *handle = NULL;
            left = at;
            if (aia_open(&handle) != AIA_DONE) {
                CHECK(!handle && !blocks);
                opens++;
                continue;
            }
            long before = blocks;
            int32_t code = make(&handle, how);
            if (code == AIA_NO_MEMORY) {
                machines++;
                CHECK(handle && blocks == before && answers(&handle, "ld 0", "nomachine"));
                left = -1;
                CHECK(make(&handle, how) == AIA_DONE && answers(&handle, "pins 3", "pins 0 0 0 0"));
            } else {
                CHECK(code == AIA_DONE);
                fine++;
            }
            left = 0;
            CHECK(aia_reset(&handle) == AIA_DONE && handle && blocks == before);
            CHECK(answers(&handle, "ld 0", "nomachine"));
            left = -1;
            aia_close(&handle);
            CHECK(!handle && !blocks);
        }
    }
    CHECK(opens == 4 && fine == 4 && machines > 3);
    printf("%ld opens and %ld machines had no memory\n", opens, machines);
    return 0;
}
