/* Apache-2.0. What the first process and its virtual machines share. */
#ifndef SMALL_H
#define SMALL_H
#include <stdint.h>

/* The page of QEMU's test device, where the kernel and the guests tell their accesses. */
#define PAGE 0x100000UL
#define TELL_VMS (0xf04 / 4)
extern volatile uint32_t *page;

struct load {	/* what a workload asks of its virtual machines */
	int vms, harts, mode, rounds;
	int together;	/* whether all are mostly on one hart of the machine */
	int pause;	/* microseconds between two turns, at most */
	int plugs;	/* whether a hart of the machine goes and comes */
	int majors, sends;
	int stream;	/* whether a device sends much too, and what comes is claimed */
};

uint32_t drawn(void);
void pin(int thread, int hart);
void put(const char *file, const char *text);
void hotplug(int times);
void machines(const struct load *load);
#endif
