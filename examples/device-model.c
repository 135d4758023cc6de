/* SPDX-License-Identifier: Apache-2.0 */
/* A device model for an emulator: the interrupt files of the harts and the APLIC, on the emulator's
 * bus, by the library. The emulator hands on accesses of its bus, the wires of its devices and the
 * CSR instructions that it does not know; the device calls back where a hart's signal changes.
 * `examples/check-library` builds it, with the small emulator at its end.
 */
#include "aia.h"

#include <inttypes.h>
#include <stdio.h>

/* ---- the device */

enum { HARTS = 2, SOURCES = 31, GREATEST = 255 };

/* What becomes of an access: the emulator goes on, or raises a fault or an exception. */
enum outcome { GOES_ON, ACCESS_FAULT, ILLEGAL_INSTRUCTION, NOT_MINE };

/* A hart's external interrupts at machine level, MEIP, and at supervisor level, SEIP. */
typedef void signal_changed(void *emulator, unsigned hart, bool meip, bool seip);

struct device {
    struct aia *model;
    signal_changed *changed;
    void *emulator;
    uint32_t pins[HARTS];
};

/* By MSIs a hart's signals are those of its files; by wires those of the APLIC's domains. */
static void tell_signals(struct device *device)
{
    for (unsigned hart = 0; hart < HARTS; hart++) {
        uint32_t pins = 0;
        aia_pins(&device->model, hart, &pins);
        if (pins == device->pins[hart])
            continue;
        device->pins[hart] = pins;
        device->changed(device->emulator, hart, (pins & 5) != 0, (pins & 10) != 0);
    }
}

static bool device_reset(struct device *device)
{
    aia_reset(&device->model);
    if (aia_machine(&device->model, HARTS, 0, GREATEST, SOURCES) != AIA_DONE)
        return false;
    tell_signals(device); /* set_wire comes next, for each wire that is high */
    return true;
}

static bool device_new(struct device *device, signal_changed *changed, void *emulator)
{
    *device = (struct device){.changed = changed, .emulator = emulator};
    return aia_open(&device->model) == AIA_DONE && device_reset(device);
}

static void device_free(struct device *device)
{
    aia_close(&device->model);
}

/* Where the device answers on the bus: the files of both levels, and the APLIC's two domains. */
static bool is_mine(uint64_t addr)
{
    return (addr >= 0x0c000000 && addr < 0x0c010000) ||
           (addr >= 0x24000000 && addr < 0x24000000 + HARTS * 0x1000) ||
           (addr >= 0x28000000 && addr < 0x28000000 + HARTS * 0x20000);
}

/* The standard has accesses of 32 bits, aligned, alone. */
static enum outcome bus_write(struct device *device, uint64_t addr, uint64_t value, unsigned size)
{
    if (!is_mine(addr))
        return NOT_MINE;
    if (size != 4 || aia_store(&device->model, addr, (uint32_t)value) != AIA_DONE)
        return ACCESS_FAULT;
    tell_signals(device);
    return GOES_ON;
}

static enum outcome bus_read(struct device *device, uint64_t addr, uint64_t *value, unsigned size)
{
    uint32_t word;
    if (!is_mine(addr))
        return NOT_MINE;
    if (size != 4 || aia_load(&device->model, addr, &word) != AIA_DONE)
        return ACCESS_FAULT;
    *value = word;
    tell_signals(device); /* a load of claimi claims */
    return GOES_ON;
}

static void set_wire(struct device *device, unsigned source, bool level)
{
    aia_wire(&device->model, source, level);
    tell_signals(device);
}

/* A CSR instruction, by its funct3. csrrs and csrrc that name x0, or the immediate 0, only read. */
static enum outcome csr_access(struct device *device, unsigned hart, uint32_t csr, uint32_t funct3,
                               bool names_zero, uint64_t operand, uint64_t *value)
{
    uint32_t op = funct3 & 3;
    if (op != AIA_CSRRW && names_zero)
        op = AIA_CSRR;
    int32_t code = aia_csr(&device->model, hart, csr, op, operand, value);
    if (code == AIA_NO_LINE)
        return NOT_MINE;
    tell_signals(device);
    return code == AIA_DONE ? GOES_ON : ILLEGAL_INSTRUCTION;
}

/* ---- a small emulator, and a driver that it runs */

static void print_signal(void *emulator, unsigned hart, bool meip, bool seip)
{
    (void)emulator;
    printf("hart %u: MEIP %d SEIP %d\n", hart, meip, seip);
}

static uint64_t csrrw(struct device *device, unsigned hart, uint32_t csr, uint64_t operand)
{
    uint64_t value = 0;
    if (csr_access(device, hart, csr, 1, operand == 0, operand, &value) != GOES_ON)
        printf("hart %u: no access to CSR 0x%" PRIx32 "\n", hart, csr);
    return value;
}

static void store(struct device *device, uint64_t addr, uint32_t value)
{
    if (bus_write(device, addr, value, 4) != GOES_ON)
        printf("no store at 0x%" PRIx64 "\n", addr);
}

/* Hart 1 listens to the identities 1 to 63 at supervisor level. */
static void listen(struct device *device)
{
    csrrw(device, 1, AIA_SISELECT, 0x70);
    csrrw(device, 1, AIA_SIREG, 1);
    csrrw(device, 1, AIA_SISELECT, 0xc0);
    csrrw(device, 1, AIA_SIREG, ~(uint64_t)1);
}

/* Source 7 is delegated to the child domain, which sends MSIs: identity 9 to hart 1. */
static void aim_source(struct device *device)
{
    const uint64_t root = 0x0c000000, child = 0x0c008000;
    store(device, root + 0x1bc4, 0x1000);     /* mmsiaddrcfgh: one bit tells the hart */
    store(device, root + 0x1bc8, 0x28000);    /* smsiaddrcfg: where the files begin */
    store(device, root + 0x1bcc, 0x500000);   /* smsiaddrcfgh: a hart's is 2^5 pages further */
    store(device, root + 4 * 7, 1 << 10);     /* sourcecfg: delegated */
    store(device, child, 0x104);              /* domaincfg: on, by MSIs */
    store(device, child + 4 * 7, 4);          /* sourcecfg: a rising edge */
    store(device, child + 0x3000 + 4 * 7, 1 << 18 | 9); /* target */
    store(device, child + 0x1edc, 7);         /* setienum */
}

int main(void)
{
    struct device device;
    uint64_t value;
    if (!device_new(&device, print_signal, NULL))
        return 1;
    listen(&device);
    aim_source(&device);
    set_wire(&device, 7, true);
    printf("stopei 0x%" PRIx64 "\n", csrrw(&device, 1, AIA_STOPEI, 0));
    store(&device, 0x28020000, 3); /* another device's MSI */
    printf("stopei 0x%" PRIx64 "\n", csrrw(&device, 1, AIA_STOPEI, 0));
    printf("%d %d\n", bus_read(&device, 0x0c000000, &value, 8), bus_read(&device, 0, &value, 4));
    device_free(&device);
    return 0;
}
