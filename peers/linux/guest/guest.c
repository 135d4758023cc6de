/* Apache-2.0. A guest: sets up its interrupt file as Linux does, then claims, looks, enables,
 * disables, and sends to its peers, by a seed. Each access to a CSR tells itself by stores to the
 * page of the test device, as kernel/tell.c does for the kernel; another line tells that it is over
 * right behind it, before what it read is told. */
typedef unsigned long u64;
typedef unsigned int u32;

#define PAGE 0x100000UL
#define FILES 0x28000000UL
#define DOORBELL 0x10000000UL
#define DELIVERY 0x70
#define THRESHOLD 0x72
#define PENDING 0x80
#define ENABLED 0xc0
#define WORDS 4
/* Bits of the task. */
#define MAJORS(task) ((task) >> 60 & 1)
#define SENDS(task) ((task) >> 61 & 1)
#define CLAIMS(task) ((task) >> 62 & 1)

enum { READ = 0, SWAP = 1, SET = 3, CLEAR = 5 };
struct self { u64 page; u32 me, peers; u64 seed; };

static inline void put(u64 address, u32 value)
{
	asm volatile("sw %0, 0(%1)" : : "r"(value), "r"(address) : "memory");
}

static void told(struct self *self, u32 csr, u32 operation, u64 written, u64 old)
{
	put(self->page + 0x18, old);
	if (old >> 32)
		put(self->page + 0x1c, old >> 32);
	if (operation != READ) {
		put(self->page + 0x20, written);
		if (written >> 32)
			put(self->page + 0x24, written >> 32);
	}
	put(self->page + 0x14, csr | operation << 12);
}

#define ACCESS(csr, operation, mnemonic, value)						\
({											\
	u64 told_old, told_value = (value);						\
	asm volatile("sw %[head], 0x10(%[page])\n\t"					\
		     mnemonic " %[old], " #csr ", %[operand]\n\t"				\
		     "sw %[head], 0x2c(%[page])"					\
		     : [old] "=&r"(told_old)						\
		     : [head] "r"((u32)(csr) | (u32)(operation) << 12), [page] "r"(self->page),\
		       [operand] "r"(told_value) : "memory");				\
	told(self, csr, operation, told_value, told_old);				\
	told_old;									\
})
#define LOOK(csr)									\
({											\
	u64 told_old;									\
	asm volatile("sw %[head], 0x10(%[page])\n\t"					\
		     "csrr %[old], " #csr "\n\t"					\
		     "sw %[head], 0x2c(%[page])"					\
		     : [old] "=&r"(told_old)						\
		     : [head] "r"((u32)(csr)), [page] "r"(self->page) : "memory");	\
	told(self, csr, READ, 0, told_old);						\
	told_old;									\
})
#define WRITE(csr, value) ACCESS(csr, SWAP, "csrrw", value)
#define PUT_BITS(csr, value) ACCESS(csr, SET, "csrrs", value)
#define TAKE_BITS(csr, value) ACCESS(csr, CLEAR, "csrrc", value)
#define SELECT(number) WRITE(0x150, number)
#define CLAIM() WRITE(0x15c, 0)

static u32 drawn(struct self *self)
{
	self->seed = self->seed * 6364136223846793005UL + 1442695040888963407UL;
	return self->seed >> 33;
}

/* A step that is about the majors: software, timer and external interrupts. */
static void step_of_majors(struct self *self, u32 draw, u32 kind)
{
	u64 bits = (draw >> 7 & 1 ? 2 : 0) | (draw >> 8 & 1 ? 0x20 : 0) | (draw >> 9 & 1 ? 0x200 : 0);

	if (kind < 14)
		LOOK(0xdb0);
	else if (kind < 16)
		LOOK(0x144);
	else if (kind < 18)
		LOOK(0x104);
	else if (kind < 20)
		PUT_BITS(0x144, 2);
	else if (kind < 22)
		TAKE_BITS(0x144, 2);
	else if (kind < 23)
		WRITE(0x144, draw >> 5 & 1 ? 2 : 0);
	else if (kind < 25)
		WRITE(0x14d, 0);
	else if (kind < 27)
		WRITE(0x14d, ~0UL);
	else if (kind < 29)
		PUT_BITS(0x104, bits);
	else if (kind < 30)
		TAKE_BITS(0x104, bits);
	else
		WRITE(0x104, 0x222UL);
}

/* A step that is about the interrupt file; gives how many it claimed. */
static u32 step_of_file(struct self *self, u32 draw, u32 kind, int majors)
{
	u64 bit = 1UL << (draw >> 5 & 63);
	u32 word = 2 * (draw >> 11 & 3), to = draw >> 5 & 3, wait;

	if (kind < 12)
		return CLAIM() != 0;
	if (kind < 14) {
		LOOK(0x15c);
	} else if (kind < 16) {
		SELECT(PENDING + word);
		LOOK(0x151);
	} else if (kind < 18) {
		SELECT(ENABLED + word);
		PUT_BITS(0x151, bit);
	} else if (kind < 19) {
		SELECT(ENABLED + word);
		TAKE_BITS(0x151, bit);
	} else if (kind < 20) {
		SELECT(PENDING + word);
		PUT_BITS(0x151, bit);
	} else if (kind < 21) {
		SELECT(PENDING + word);
		TAKE_BITS(0x151, bit);
	} else if (kind < 22) {
		SELECT(THRESHOLD);
		WRITE(0x151, draw >> 13 & 1 ? 0 : draw >> 14 & 255);
	} else if (kind < 23) {
		SELECT(THRESHOLD);
		WRITE(0x151, 0);
	} else if (kind < 24) {
		SELECT(DELIVERY);
		LOOK(0x151);
		WRITE(0x151, 1);
	} else if (kind < 28) {
		if (to < self->peers)
			put(FILES + 0x1000UL * to, draw >> 8 & 255);
	} else if (kind < 30) {
		LOOK(0xdb0);
	} else if (kind < 31) {
		for (wait = draw >> 5 & 2047; wait; wait--)
			asm volatile("");
	} else {
		SELECT(THRESHOLD);
		WRITE(0x151, 0);
		SELECT(ENABLED);
		PUT_BITS(0x151, 0xff0UL);
		if (majors)
			PUT_BITS(0x104, 0x200UL);
		asm volatile("wfi" : : : "memory");
	}
	return 0;
}

/* All is disabled, and nothing pending; then many identities are enabled, or all. */
static void set_up(struct self *self, int majors, int all, u64 priorities)
{
	u32 word;

	SELECT(THRESHOLD);
	WRITE(0x151, 0);
	for (word = 0; word < WORDS; word++) {
		SELECT(ENABLED + 2 * word);
		WRITE(0x151, 0);
		SELECT(PENDING + 2 * word);
		WRITE(0x151, 0);
	}
	SELECT(DELIVERY);
	WRITE(0x151, 1);
	for (word = 0; word < WORDS; word++) {
		SELECT(ENABLED + 2 * word);
		PUT_BITS(0x151, all ? ~0UL : word ? 0x0000ffff0000ffffUL : 0x00000000ffffffffUL);
	}
	if (majors) {	/* its priorities are as user space set them: told alone */
		put(self->page + 0x10, 0x646 | SWAP << 12);
		put(self->page + 0x2c, 0);
		told(self, 0x646, SWAP, priorities, 0);
		WRITE(0x14d, ~0UL);
		WRITE(0x144, 0);
	}
	WRITE(0x104, majors ? 0x222UL : 0x200UL);
}

void guest(u64 me, u64 task, u64 priorities)
{
	u32 vm = task & 0xf, rounds = task >> 8 & 0xfffff, word, draw, sent;
	int majors = MAJORS(task);
	struct self of = { PAGE + 0x100 + vm * 0x200 + me * 0x40, me, task >> 4 & 0xf,
			   task >> 28 ^ me * 77 ^ vm * 1234567 }, *self = &of;
	u32 claimed = 0;

	set_up(self, majors, CLAIMS(task), priorities);
	if (CLAIMS(task) && !me)	/* its rounds take longer than those of the peer that sends */
		rounds /= 2;
	while (rounds--) {
		draw = drawn(self);
		if (SENDS(task) && me) {	/* a peer that sends, much and to the first */
			for (sent = 0; sent < 16; sent++)
				put(FILES, 1 + (drawn(self) % 255));
		}
		for (sent = 0; CLAIMS(task) && !me && sent < 8 && CLAIM(); sent++)
			claimed++;
		if (majors && !(draw >> 20 & 3))
			step_of_majors(self, draw, draw & 31);
		else
			claimed += step_of_file(self, draw, draw & 31, majors);
	}
	/* The end: all that is pending and enabled is claimed, then all words are read. */
	SELECT(THRESHOLD);
	WRITE(0x151, 0);
	while (CLAIM())
		claimed++;
	for (word = 0; word < WORDS; word++) {
		SELECT(PENDING + 2 * word);
		LOOK(0x151);
		SELECT(ENABLED + 2 * word);
		LOOK(0x151);
	}
	for (;;)
		put(DOORBELL, claimed);
}
