// SPDX-License-Identifier: GPL-2.0
/* Tells accesses by stores to the test device of QEMU's `virt`, which ignores them, and which
 * QEMU's trace logs in one order with all other accesses to devices. No interrupt comes between
 * the first store and the last one. */
#include <linux/atomic.h>
#include <linux/export.h>
#include <linux/init.h>
#include <linux/io.h>
#include <asm/csr.h>

static unsigned int nowhere[64];
static bool is_mapped;
void *tell_page = nowhere;
EXPORT_SYMBOL(tell_page);
/* What is mended, as the kernel's command line has it: see edit.py. */
int tell_level, tell_user, tell_half;

static void notrace put(unsigned int place, unsigned long value)
{
	tell_at(tell_page + place, 0, (unsigned int)value);
}

static unsigned long notrace silence(void)
{
	unsigned long flags;

	__asm__ __volatile__ ("csrrci %0, sstatus, 2" : "=r" (flags) : : "memory");
	return flags & 2;
}

static void notrace restore(unsigned long flags)
{
	if (flags)
		__asm__ __volatile__ ("csrsi sstatus, 2" : : : "memory");
}

unsigned long notrace tell_begin(void)
{
	return silence();
}
EXPORT_SYMBOL(tell_begin);

void notrace tell_end(unsigned long flags, unsigned int head, unsigned long written,
		      unsigned long old)
{
	unsigned int operation = head >> 12;

	if (is_mapped) {
		if (operation != TOLD_WRITE && operation != TOLD_SET && operation != TOLD_CLEAR) {
			put(0x18, old);
			if (old >> 32)
				put(0x1c, old >> 32);
		}
		if (operation != TOLD_READ) {
			put(0x20, written);
			if (written >> 32)
				put(0x24, written >> 32);
		}
		put(0x14, head);
	}
	restore(flags);
}
EXPORT_SYMBOL(tell_end);

void notrace tell_note(unsigned int kind, unsigned long one, unsigned long other)
{
	unsigned long flags;

	if (!is_mapped)
		return;
	flags = silence();
	put(0x34, one);
	put(0x38, other);
	put(0x30, kind);
	restore(flags);
}
EXPORT_SYMBOL(tell_note);

static int __init mend_level(char *word)
{
	tell_level = 1;
	return 0;
}
early_param("tell_level", mend_level);

static int __init mend_user(char *word)
{
	tell_user = 1;
	return 0;
}
early_param("tell_user", mend_user);

static int __init mend_half(char *word)
{
	tell_half = 1;
	return 0;
}
early_param("tell_half", mend_half);

/* The bits of a mask of a word become those of a value; gives the word before that. */
unsigned long tell_exchange(unsigned long *word, unsigned long value, unsigned long mask)
{
	unsigned long old = READ_ONCE(*word);

	while (!try_cmpxchg(word, &old, (old & ~mask) | (value & mask)))
		;
	return old;
}

void __init tell_init(void)
{
	void *page = (__force void *)ioremap(0x100000, 0x1000);

	if (page) {
		tell_page = page;
		is_mapped = true;
	}
}
