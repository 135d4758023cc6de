/* SPDX-License-Identifier: Apache-2.0
 * Copyright the Lemdwab authors.
 *
 * The proved model of a RISC-V machine's interrupts, as a library for C and C++.
 *
 * A handle is one model. Its calls answer what the program `aia` answers to the same lines: after
 * whatever lines a handle was given, by whichever calls, each answer is the model's. What a line
 * says, and what is answered, docs/REFERENCE.md tells; what is proved of the calls,
 * docs/promises/library.md.
 *
 *     struct aia *model = NULL;
 *     if (aia_open(&model) == AIA_DONE && aia_machine(&model, 1, 0, 63, 1) == AIA_DONE)
 *         aia_store(&model, 0x28000000, 5);
 *     aia_close(&model);
 *
 * What the caller owes:
 * - A handle is NULL before it is opened first, and nothing else writes it. There is one of each:
 *   it may be moved, and never copied and used twice.
 * - One call at a time on a handle. It may go from thread to thread, in an order that a lock, the
 *   start or end of a thread, or a sequentially consistent atomic makes. Handles share nothing.
 * - No pointer that is given to a call is NULL, not even one to 0 bytes; a handle that it points to
 *   may be. Each is aligned as its type is. What it points to has the length that is said, at most
 *   PTRDIFF_MAX, and no two of a call overlap. What a call only writes need not be set before. None
 *   is kept after the call.
 * - A bool is 0 or 1, from other languages too; integers have the widths that are declared.
 * - No call from a signal handler, or from the child of a process that had threads, after fork.
 * - malloc, realloc and free come from one allocator.
 *
 * Memory is taken by aia_open, and by the line that makes the machine, alone. No call prints, calls
 * back or ends the program. What makes the machine takes much stack: in the program aia 186 KB were
 * seen, and 47 KB in its other lines. No clause bounds it; the library itself was not measured.
 */
#ifndef AIA_H
#define AIA_H

#include <stdbool.h>
#include <stddef.h>
#include <stdint.h>

#ifdef __cplusplus
extern "C" {
#endif

/* The version of this header: 10,000 times the major number, 100 times the minor one, and the patch
 * number, so 10000 is 1.0.0. */
#define AIA_VERSION 10000

/* The version of the library, as AIA_VERSION is that of the header. A program that was compiled
 * with one may be linked with the other if their major numbers are the same. */
uint32_t aia_version(void);

/* A model. A `struct aia *` is a handle; NULL is a closed one. */
struct aia;

/* What a call says. Below 16 it says how the call went: after codes 1 to 5 nothing changed, and no
 * answer was written, but by aia_replay, which did the lines that it says were taken. From 16 on,
 * and where it is AIA_DONE, it is the answer to the line. Of two that fit, AIA_NO_ROOM of
 * aia_line and aia_text and AIA_NO_LINE come before AIA_CLOSED. */
enum aia_code {
    AIA_DONE = 0,       /* the line did what it says, or the call did */
    AIA_NO_MEMORY = 1,  /* there is no memory */
    AIA_CLOSED = 2,     /* the handle is closed */
    AIA_OPEN = 3,       /* the handle is open already */
    AIA_NO_ROOM = 4,    /* there is less room than AIA_ANSWER bytes for an answer */
    AIA_NO_LINE = 5,    /* the numbers name no CSR, no instruction, no part or no code */
    AIA_NO_MACHINE = 16, /* nomachine */
    AIA_AGAIN = 17,      /* again */
    AIA_MOVING = 18,     /* moving */
    AIA_BAD = 19,        /* bad: of texts alone, so that only aia_text answers it */
    AIA_RANGE = 32,      /* range */
    AIA_FULL = 33,       /* full */
    AIA_BUSY = 34,       /* busy */
    AIA_HOME = 35,       /* home */
    AIA_ENTERED = 36,    /* entered */
    AIA_PARKED = 37,     /* parked */
    AIA_NO_FILE = 38,    /* nofile */
    AIA_PASSED = 39,     /* passed */
    AIA_UNREADY = 40,    /* unready */
    AIA_IDLE = 41,       /* idle */
    AIA_AWAY = 42,       /* away */
    AIA_ILLEGAL = 43,    /* illegal */
    AIA_VIRTUAL = 44,    /* virtual */
    AIA_FAULT = 45,      /* fault */
    AIA_GUARDED = 46,    /* guarded */
    AIA_OTHER = 47,      /* other */
    AIA_NOT_VALID = 48,  /* notvalid */
    AIA_G_FAULT = 49     /* gfault */
};

/* Room that is enough for any answer with its LF, in bytes. */
#define AIA_ANSWER 64

/* CSR instructions, by their funct3: 0 is `csrr`, which reads alone. */
enum aia_op { AIA_CSRR = 0, AIA_CSRRW = 1, AIA_CSRRS = 2, AIA_CSRRC = 3 };

/* CSRs, by their addresses: a hart has the first six, a virtual hart the last six. */
enum aia_csr_address {
    AIA_MISELECT = 0x350,
    AIA_MIREG = 0x351,
    AIA_MTOPEI = 0x35c,
    AIA_SISELECT = 0x150,
    AIA_SIREG = 0x151,
    AIA_STOPEI = 0x15c,
    AIA_STOPI = 0xdb0,
    AIA_SIP = 0x144,
    AIA_SIE = 0x104
};

/* Parts of an image, with the numbers of each in their order: no part is 0. */
enum aia_part_kind {
    AIA_PART_IMAGE = 1,  /* image: version, N, D, T, S */
    AIA_PART_MAJORS = 2, /* majors: J, E */
    AIA_PART_PRIO = 3,   /* prio: P, V */
    AIA_PART_WORD = 4    /* word: W, P, E */
};

/* What entries say, with the numbers of each in their order: none is 0. */
enum aia_entry_kind {
    AIA_ENTRY_BASIC = 1,        /* basic: P */
    AIA_ENTRY_MRIF = 2,         /* mrif: A, P, I */
    AIA_ENTRY_NOT_VALID = 3,    /* notvalid */
    AIA_ENTRY_CUSTOM = 4,       /* custom */
    AIA_ENTRY_MISCONFIGURED = 5 /* misconfigured */
};

/* ---- the handle */

/* Opens a closed handle; its model has no machine. AIA_DONE, AIA_NO_MEMORY or AIA_OPEN. */
int32_t aia_open(struct aia **handle);

/* Has an open handle's model be as after aia_open, with no machine: what it knew is forgotten. It
 * takes no memory. AIA_DONE or AIA_CLOSED. */
int32_t aia_reset(struct aia **handle);

/* Closes a handle and frees its model; a closed one stays closed. */
void aia_close(struct aia **handle);

/* ---- texts */

/* Answers one line, of `length` bytes without its LF: an LF in it is a byte like others, which no
 * line has but a comment. Writes the answer, with its LF, and how many bytes that are: 0 of an
 * empty line or a comment, and after any code but AIA_DONE. What is behind them stays as it was.
 * AIA_DONE whatever the answer says, AIA_NO_MEMORY, AIA_CLOSED or AIA_NO_ROOM. */
int32_t aia_line(struct aia **handle, const uint8_t *text, size_t length, uint8_t *answer,
                 size_t room, size_t *written);

/* Answers one line as aia_line does, and writes the same bytes, but where aia_line says AIA_DONE
 * whatever the answer is, this says the code of the answer, so that nobody reads words: AIA_BAD,
 * AIA_RANGE and the others from 16 on, and AIA_DONE of ok, done, a value, an empty line or a
 * comment. Or AIA_NO_MEMORY, AIA_CLOSED or AIA_NO_ROOM: with these alone no line was answered. */
int32_t aia_text(struct aia **handle, const uint8_t *text, size_t length, uint8_t *answer,
                 size_t room, size_t *written);

/* Writes the word that answers have for a code from 16 on, `range` of AIA_RANGE, with no LF and no
 * 0 behind it, and how many bytes that are: 0 after any code but AIA_DONE. What is behind them
 * stays as it was. AIA_DONE; AIA_NO_ROOM with less room than AIA_ANSWER bytes; AIA_NO_LINE of a
 * number that is no such code. */
int32_t aia_code_name(int32_t code, uint8_t *name, size_t room, size_t *written);

/* Answers the lines of a script, of any length. Says how many bytes of it were taken: whole lines,
 * or all of it, where a last line may have no LF; and how many bytes of answers were written. What
 * is behind them stays as it was. AIA_DONE where all was taken. AIA_NO_ROOM where less room than
 * AIA_ANSWER bytes was left before a line, AIA_NO_MEMORY at the line that makes the machine: call
 * again with the rest, and with AIA_ANSWER bytes of room at least: with less no line is taken. A
 * script that comes in pieces has to be cut behind an LF each time. AIA_CLOSED. */
int32_t aia_replay(struct aia **handle, const uint8_t *script, size_t length, size_t *taken,
                   uint8_t *answers, size_t room, size_t *written);

/* ---- lines without text: each answers as the line does that is named before it. All may answer
 * AIA_CLOSED; aia_machine alone may answer AIA_NO_MEMORY. A value is 0 where nothing was read. */

/* machine H G N S */
int32_t aia_machine(struct aia **handle, uint64_t harts, uint64_t guests, uint64_t n,
                    uint64_t sources);
/* vm C MASK HART */
int32_t aia_vm(struct aia **handle, uint64_t vcpus, uint64_t mask, uint64_t hart);
/* wire S L */
int32_t aia_wire(struct aia **handle, uint64_t source, bool level);
/* st A V */
int32_t aia_store(struct aia **handle, uint64_t addr, uint32_t value);
/* ld A */
int32_t aia_load(struct aia **handle, uint64_t addr, uint32_t *value);
/* pins H: bit 0 is the first of the four digits, of the APLIC's root domain; bit 1 its child's,
 * bit 2 the machine-level file's, bit 3 the supervisor file's. */
int32_t aia_pins(struct aia **handle, uint64_t hart, uint32_t *pins);
/* h H hgeip */
int32_t aia_hgeip(struct aia **handle, uint64_t hart, uint64_t *value);
/* pins H, and then h H hgeip, as aia_pins and aia_hgeip. The code is the first of theirs that is
 * not AIA_DONE. */
int32_t aia_signals(struct aia **handle, uint64_t hart, uint32_t *pins, uint64_t *hgeip);
/* m H csrr CSR, h H csrr CSR and their kin. AIA_NO_LINE where a number names none. */
int32_t aia_csr(struct aia **handle, uint64_t hart, uint32_t csr, uint32_t op, uint64_t operand,
                uint64_t *value);

/* msi VM A D */
int32_t aia_msi(struct aia **handle, uint64_t vm, uint64_t addr, uint32_t value);
/* send VM A D */
int32_t aia_send(struct aia **handle, uint64_t vm, uint64_t addr, uint32_t value);
/* land VM K */
int32_t aia_land(struct aia **handle, uint64_t vm, uint64_t k);
/* refetch VM C */
int32_t aia_refetch(struct aia **handle, uint64_t vm, uint64_t vcpu);
/* pass S VM C I */
int32_t aia_pass(struct aia **handle, uint64_t source, uint64_t vm, uint64_t vcpu,
                 uint64_t identity);
/* g VM C csrr CSR and its kin. AIA_NO_LINE where a number names none. */
int32_t aia_guest_csr(struct aia **handle, uint64_t vm, uint64_t vcpu, uint32_t csr, uint32_t op,
                      uint64_t operand, uint64_t *value);
/* g VM C ipi C2 D */
int32_t aia_ipi(struct aia **handle, uint64_t vm, uint64_t vcpu, uint64_t to, uint32_t value);
/* inject VM C BIT L */
int32_t aia_inject(struct aia **handle, uint64_t vm, uint64_t vcpu, uint64_t bit, bool level);
/* hvictl VM C V */
int32_t aia_hvictl(struct aia **handle, uint64_t vm, uint64_t vcpu, uint64_t value);
/* hviprio VM C V */
int32_t aia_hviprio(struct aia **handle, uint64_t vm, uint64_t vcpu, uint64_t value);

/* save VM C K: the part's kind and numbers, and 0 behind the last. All are 0 where the line is
 * refused. */
int32_t aia_save(struct aia **handle, uint64_t vm, uint64_t vcpu, uint64_t k, uint32_t *kind,
                 uint64_t *first, uint64_t *second, uint64_t *third, uint64_t *fourth,
                 uint64_t *fifth);
/* load VM C PART: by the part's kind and numbers; those behind its last are not looked at.
 * AIA_NO_LINE where a number is no kind, where version, N or T of an image has more than 32 bits,
 * or where D is neither 0 nor 1. */
int32_t aia_load_part(struct aia **handle, uint64_t vm, uint64_t vcpu, uint32_t kind,
                      uint64_t first, uint64_t second, uint64_t third, uint64_t fourth,
                      uint64_t fifth);
/* entry W0 W1: the entry's kind and numbers, and 0 behind the last. All are 0 where the line is
 * refused. */
int32_t aia_entry(struct aia **handle, uint64_t w0, uint64_t w1, uint32_t *kind, uint64_t *first,
                  uint64_t *second, uint64_t *third);

/* arrive VM C H */
int32_t aia_arrive(struct aia **handle, uint64_t vm, uint64_t vcpu, uint64_t hart);
/* leave VM C */
int32_t aia_leave(struct aia **handle, uint64_t vm, uint64_t vcpu);
/* shift VM C H */
int32_t aia_shift(struct aia **handle, uint64_t vm, uint64_t vcpu, uint64_t hart);
/* begin arrive VM C H */
int32_t aia_begin_arrive(struct aia **handle, uint64_t vm, uint64_t vcpu, uint64_t hart);
/* begin leave VM C */
int32_t aia_begin_leave(struct aia **handle, uint64_t vm, uint64_t vcpu);
/* begin shift VM C H */
int32_t aia_begin_shift(struct aia **handle, uint64_t vm, uint64_t vcpu, uint64_t hart);
/* step VM C: AIA_MOVING, and AIA_DONE of the last step. */
int32_t aia_step(struct aia **handle, uint64_t vm, uint64_t vcpu);
/* enter VM C */
int32_t aia_enter(struct aia **handle, uint64_t vm, uint64_t vcpu);
/* exit VM C */
int32_t aia_exit(struct aia **handle, uint64_t vm, uint64_t vcpu);

#ifdef __cplusplus
}
#endif

#endif
