/* SPDX-License-Identifier: GPL-2.0 */
/* Each access to a CSR of the AIA, and of those beside it by which KVM reaches a guest file, tells
 * itself: tell_begin before it, tell_end behind it. edit.py gives the kernel's own macros the names
 * plain_csr_*, and has asm/csr.h take this file at its end. */
#define TOLD_CSR(csr) \
	((csr) == 0x104 || (csr) == 0x144 || (csr) == 0x150 || (csr) == 0x151 || (csr) == 0x15c || \
	 (csr) == 0xdb0 || (csr) == 0x204 || (csr) == 0x244 || (csr) == 0x250 || (csr) == 0x251 || \
	 (csr) == 0x25c || (csr) == 0xeb0 || (csr) == 0x600 || (csr) == 0x603 || (csr) == 0x604 || \
	 (csr) == 0x607 || (csr) == 0x608 || (csr) == 0x609 || (csr) == 0x645 || (csr) == 0x646 || \
	 (csr) == 0x647 || (csr) == 0xe12)

/* Where the kernel tells: a page of a device, or before that is mapped some memory. */
extern void *tell_page;
extern unsigned long tell_begin(void);
extern void tell_end(unsigned long flags, unsigned int head, unsigned long written,
		     unsigned long old);
extern void tell_note(unsigned int kind, unsigned long one, unsigned long other);

/* The operation of an access, in its head behind the CSR's number. */
enum { TOLD_READ, TOLD_SWAP, TOLD_WRITE, TOLD_READ_SET, TOLD_SET, TOLD_READ_CLEAR, TOLD_CLEAR };

/* The stores stand right before and behind the access, with no branch between. */
#define tell_at(page, place, head) \
	__asm__ __volatile__ ("sw %0, %1(%2)" : : "r" (head), "i" (place), "r" (page) : "memory")
#define told(csr, operation, written, old, access)				\
do {										\
	if (TOLD_CSR(csr)) {							\
		unsigned long told_flags = tell_begin();			\
		unsigned int told_head = (csr) | (operation) << 12;		\
		void *told_page = tell_page;					\
		tell_at(told_page, 0x10, told_head);				\
		access;								\
		tell_at(told_page, 0x2c, told_head);				\
		tell_end(told_flags, told_head, written, old);			\
	} else {								\
		access;								\
	}									\
} while (0)
#define told_answer(csr, operation, access, ...)				\
({										\
	unsigned long told_value = 0, told_old;					\
	__VA_ARGS__;								\
	told(csr, operation, told_value, told_old, told_old = access);		\
	told_old;								\
})
#define told_silent(csr, operation, val, access)				\
({										\
	unsigned long told_value = (unsigned long)(val);			\
	told(csr, operation, told_value, 0, access(csr, told_value));		\
})
#define told_both(csr, operation, val, access)					\
	told_answer(csr, operation, access(csr, told_value),			\
		    told_value = (unsigned long)(val))

#define csr_read(csr)		told_answer(csr, TOLD_READ, plain_csr_read(csr))
#define csr_swap(csr, val)	told_both(csr, TOLD_SWAP, val, plain_csr_swap)
#define csr_write(csr, val)	told_silent(csr, TOLD_WRITE, val, plain_csr_write)
#define csr_read_set(csr, val)	told_both(csr, TOLD_READ_SET, val, plain_csr_read_set)
#define csr_set(csr, val)	told_silent(csr, TOLD_SET, val, plain_csr_set)
#define csr_read_clear(csr, val) told_both(csr, TOLD_READ_CLEAR, val, plain_csr_read_clear)
#define csr_clear(csr, val)	told_silent(csr, TOLD_CLEAR, val, plain_csr_clear)
