/* SPDX-License-Identifier: Apache-2.0 */
/* The machine around KVM: CPUs with CSRs and guest files, and the second stage of translation. */
#include <machine.h>

#define SELECT_BITS 0xfff
/* The place of file f of CPU c is PLACES + (c << PLACE_OF_CPU) + (f << 12). */
#define PLACES 0x100000UL
#define PLACE_OF_CPU 16

int peer_cpu, peer_spinlocks, greatest_identity;
static int file_count;		/* guest files of each CPU */
void (*peer_between)(void);
struct irq_domain peer_domain;
struct guest_file guest_files[PEER_CPUS][GUEST_FILES + 1];
struct second_stage second_stages[KVM_MAX_VCPUS];

static unsigned long selects[PEER_CPUS], statuses[PEER_CPUS], others[PEER_CPUS][4096];
static struct imsic_local_config local;
static struct imsic_global_config global = { .local = &local };

void peer_moment(void)
{
	if (peer_between && !peer_spinlocks)
		peer_between();
}

/* CPU 0 has the data that is declared, the others what is made for them as they ask first. */
void *peer_of_cpu(void *data, size_t size, int cpu)
{
	static struct { void *data; char *made; } known[16];
	int at = 0;

	if (cpu == 0)
		return data;
	while (known[at].data && known[at].data != data)
		at++;
	if (!known[at].data) {
		known[at].data = data;
		known[at].made = calloc(PEER_CPUS, size);
	}
	return known[at].made + cpu * size;
}

void on_each_cpu_mask(int cpu, void (*function)(void *), void *data, int wait)
{
	int was = peer_cpu;

	(void)wait;
	peer_cpu = cpu;
	function(data);
	peer_cpu = was;
}

/* Guest files. */

unsigned int file_top(const struct guest_file *file)
{
	unsigned long end = greatest_identity + 1;

	if (file->threshold && file->threshold < end)
		end = file->threshold;
	for (unsigned int identity = 1; identity < end; identity++) {
		unsigned long both = file->pending[identity / 64] & file->enabled[identity / 64];

		if (both >> (identity % 64) & 1)
			return identity;
	}
	return 0;
}

bool file_signals(const struct guest_file *file)
{
	return file->delivery && file_top(file);
}

void file_store(struct guest_file *file, u32 identity)
{
	if (identity && identity <= (u32)greatest_identity)
		file->pending[identity / 64] |= BIT(identity % 64);
}

struct guest_file *file_at(phys_addr_t place)
{
	return &guest_files[(place - PLACES) >> PLACE_OF_CPU][place >> 12 & 0xf];
}

void writel(u32 value, void *address)
{
	file_store(file_at((phys_addr_t)(uintptr_t)address), value);
}

static unsigned long changed(unsigned long old, enum peer_operation operation, unsigned long value)
{
	switch (operation) {
	case PEER_WRITE:
		return value;
	case PEER_SET:
		return old | value;
	case PEER_CLEAR:
		return old & ~value;
	default:
		return old;
	}
}

/* An access of a register that is there: what it read. */
unsigned long file_access(struct guest_file *file, unsigned int select,
			  enum peer_operation operation, unsigned long value)
{
	unsigned long keeps = ~0UL, none = 0, *place = &none, old;
	unsigned int word = (select & 0x3f) / 2;

	if (select == IMSIC_EIDELIVERY) {
		place = &file->delivery;
		keeps = 1;
	} else if (select == IMSIC_EITHRESHOLD) {
		place = &file->threshold;
		keeps = greatest_identity;
	} else if (select >= IMSIC_EIP0 && select <= IMSIC_EIE63 && !(select & 1)) {
		place = select < IMSIC_EIE0 ? &file->pending[word] : &file->enabled[word];
		keeps = word ? ~0UL : ~1UL;
		if (64 * word > (unsigned int)greatest_identity)
			keeps = 0;
	}
	old = *place & keeps;
	if (operation != PEER_READ)
		*place = changed(old, operation, value) & keeps;
	return old;
}

/* CSRs of the CPU on which KVM runs. */

static unsigned long signals_of_cpu(void)
{
	unsigned long signals = 0;

	for (int file = 1; file <= GUEST_FILES; file++)
		signals |= (unsigned long)file_signals(&guest_files[peer_cpu][file]) << file;
	return signals;
}

unsigned long peer_csr(int csr, enum peer_operation operation, unsigned long value)
{
	unsigned long *place = &others[peer_cpu][csr & 0xfff], old;
	int file = (statuses[peer_cpu] & HSTATUS_VGEIN) >> HSTATUS_VGEIN_SHIFT;

	if (csr == CSR_HGEIP)
		return signals_of_cpu();
	if (csr == CSR_VSIREG) {
		if (file < 1 || file > GUEST_FILES)
			abort();	/* KVM would have reached no file */
		peer_moment();
		return file_access(&guest_files[peer_cpu][file], selects[peer_cpu], operation,
				   value);
	}
	if (csr == CSR_VSISELECT)
		place = &selects[peer_cpu];
	else if (csr == CSR_HSTATUS)
		place = &statuses[peer_cpu];
	old = *place;
	*place = changed(old, operation, value);
	if (csr == CSR_VSISELECT)
		*place &= SELECT_BITS;
	else if (csr == CSR_HGEIE)	/* which guest files there are */
		*place &= BIT(file_count + 1) - 2;
	return old;
}

/* The second stage: each change has a moment before it, and one before it is in force. */

static struct second_stage *stage_of(struct kvm *kvm, gpa_t from)
{
	for (int at = 0; at < kvm->online_vcpus.counter; at++)
		if (kvm->vcpus[at]->arch.aia_context.imsic_addr == from)
			return &second_stages[at];
	abort();
}

int kvm_riscv_gstage_ioremap(struct kvm *kvm, gpa_t from, phys_addr_t to, unsigned long size,
			     bool writable, bool in_atomic)
{
	struct second_stage *stage = stage_of(kvm, from);

	(void)size, (void)writable, (void)in_atomic;
	peer_moment();
	stage->is_mapped = true;
	stage->leads_to = to;
	peer_moment();
	stage->is_cached = true;
	stage->cached = to;
	return 0;
}

void kvm_riscv_gstage_iounmap(struct kvm *kvm, gpa_t from, unsigned long size)
{
	struct second_stage *stage = stage_of(kvm, from);

	(void)size;
	peer_moment();
	stage->is_mapped = false;
	peer_moment();
	stage->is_cached = false;
}

const struct imsic_global_config *imsic_get_global_config(void)
{
	return &global;
}

int kvm_riscv_aia_init(void);

void machine_begins(int greatest, int guests)
{
	greatest_identity = greatest;
	file_count = guests;
	global.guest_index_bits = 3;
	global.nr_ids = global.nr_guest_ids = greatest;
	for (int cpu = 0; cpu < PEER_CPUS; cpu++) {
		struct imsic_local_config *one = per_cpu_ptr(&local, cpu);

		one->msi_pa = PLACES + ((unsigned long)cpu << PLACE_OF_CPU);
		one->msi_va = (void *)(uintptr_t)one->msi_pa;
	}
	if (kvm_riscv_aia_init())
		abort();
}
