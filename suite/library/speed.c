/* speed: times calls of the library, each many times on one handle, and prints nanoseconds and
 * millions a second. With a word and a count, `speed store 1000000`, it makes just those calls, for
 * a profiler. */
#include "checks.h"

#include <time.h>

static struct aia *model;

static void text(const char *line)
{
    uint8_t answer[AIA_ANSWER];
    size_t written;
    CHECK(aia_line(&model, (const uint8_t *)line, strlen(line), answer, sizeof answer, &written) ==
          AIA_DONE);
}

static void store(long at) { CHECK(aia_store(&model, 0x28000000, at & 63) == AIA_DONE); }

static void load(long at)
{
    uint32_t value;
    (void)at;
    CHECK(aia_load(&model, 0x0c000004, &value) == AIA_DONE);
}

static void claim(long at)
{
    uint64_t value;
    (void)at;
    CHECK(aia_csr(&model, 0, AIA_STOPEI, AIA_CSRRW, 0, &value) == AIA_DONE);
}

static void wire(long at) { CHECK(aia_wire(&model, 1, at & 1) == AIA_DONE); }
static void msi(long at) { CHECK(aia_msi(&model, 0, 0x28000000, at & 63) == AIA_DONE); }
static void text_store(long at) { text(at & 1 ? "st 0x28000000 5" : "st 0x28000000 9"); }
static void text_claim(long at) { (void)at; text("h 0 csrrw stopei 0"); }

static const struct {
    const char *name;
    void (*call)(long at);
} calls[] = {
    {"store", store}, {"load", load}, {"claim", claim}, {"wire", wire}, {"msi", msi},
    {"line-store", text_store}, {"line-claim", text_claim},
};

static double seconds(void)
{
    struct timespec now;
    clock_gettime(CLOCK_MONOTONIC, &now);
    return now.tv_sec + now.tv_nsec / 1e9;
}

int main(int argc, char **argv)
{
    long count = argc > 2 ? atol(argv[2]) : 20000000;
    CHECK(aia_open(&model) == AIA_DONE && aia_machine(&model, 2, 3, 255, 96) == AIA_DONE);
    text("vm 2 0x1 1");
    for (size_t at = 0; at < sizeof calls / sizeof *calls; at++) {
        if (argc > 1 && strcmp(argv[1], calls[at].name) != 0)
            continue;
        double begin = seconds();
        for (long call = 0; call < count; call++)
            calls[at].call(call);
        double each = (seconds() - begin) / count;
        if (argc < 3)
            printf("%-12s %6.1f ns %8.1f million a second\n", calls[at].name, each * 1e9,
                   1e-6 / each);
    }
    aia_close(&model);
    return 0;
}
