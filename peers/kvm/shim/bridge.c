/* SPDX-License-Identifier: Apache-2.0 */
/* Reads the lines of a script that KVM can answer, and prints KVM's answers.

   The harts' supervisor files are the software files of a VM whose interrupts KVM emulates whole,
   and the child domain of the APLIC is its APLIC. The script's VM is one whose virtual CPUs have
   guest files of the simulated CPUs, where KVM's own code moves them; while one runs from memory it
   has its software file. What comes of a line that KVM leaves to user space is `user`.

   bridge [SEED]: with a SEED stores that follow a move in the script come within it, at moments
   that the number says. */
#include <machine.h>

#define MOST_LINES 100000
#define LINE_BYTES 130
#define MOST_WORDS 8
#define MOST_STORES 200
#define MOST_SOURCES 1024
#define ROOT_DOMAIN 0x0c000000UL
#define CHILD_DOMAIN 0x0c008000UL
#define DOMAINS_END 0x0c010000UL
#define FILES 0x28000000UL
#define MACHINE_GUEST_BITS 5
#define TRAP_ILLEGAL 2
#define TRAP_VIRTUAL 22

static char lines[MOST_LINES][LINE_BYTES];
static int line_count, next_line;
static struct kvm *machine, *guests;
static unsigned long selects[2][KVM_MAX_VCPUS];	/* siselect of the virtual CPUs of both */
static int places[KVM_MAX_VCPUS][2];	/* CPU and file of a resident virtual CPU, else file 0 */
static unsigned long mask;
static unsigned long draw_state;
static bool is_within;		/* stores come within moves */

static unsigned long number(const char *word)
{
	return strtoul(word, NULL, 0);
}

static unsigned long draw(void)
{
	draw_state = draw_state * 6364136223846793005UL + 1442695040888963407UL;
	return draw_state >> 33;
}

/* A line of which KVM has nothing, or that names what is not there, ends the run. */
static void refuse(const char *line)
{
	fprintf(stderr, "bridge: KVM has nothing of %s\n", line);
	exit(2);
}

static struct kvm_vcpu *vcpu_of(struct kvm *kvm, const char *word)
{
	unsigned long index = number(word);

	if (!kvm || index >= (unsigned long)kvm->online_vcpus.counter)
		refuse(word);
	return kvm->vcpus[index];
}

static void wide(unsigned long value)
{
	printf("0x%016lx\n", value);
}

static enum peer_operation operation_of(const char *mnemonic)
{
	switch (mnemonic[4]) {
	case 'w':
		return PEER_WRITE;
	case 's':
		return PEER_SET;
	case 'c':
		return PEER_CLEAR;
	default:
		return PEER_READ;
	}
}

/* A CSR instruction of a virtual CPU, with t1 as its operand and t0 as what it reads. */
static void trapped_access(struct kvm_vcpu *vcpu, int csr, enum peer_operation operation,
			   unsigned long value)
{
	static const int functions[] = { 2, 1, 2, 3 };
	struct kvm_cpu_trap trap = { 0 };
	int result;

	trap.stval = (unsigned long)csr << 20 | (operation == PEER_READ ? 0 : 6) << 15 |
		     functions[operation] << 12 | 5 << 7 | 0x73;
	vcpu->arch.guest_context.zero = 0;
	vcpu->arch.guest_context.t1 = value;
	redirected_cause = 0;
	result = kvm_riscv_vcpu_virtual_insn(vcpu, vcpu->run, &trap);
	if (redirected_cause == TRAP_ILLEGAL)
		puts("illegal");
	else if (redirected_cause == TRAP_VIRTUAL)
		puts("virtual");
	else if (result <= 0)
		puts("user");
	else
		wide(vcpu->arch.guest_context.t0);
}

/* An access to the CSRs of a software file; siselect is the guest's own and traps nowhere. */
static void software_access(struct kvm_vcpu *vcpu, unsigned long *select, const char *name,
			    enum peer_operation operation, unsigned long value)
{
	peer_csr(CSR_VSISELECT, PEER_WRITE, *select);
	if (!strcmp(name, "siselect"))
		wide(peer_csr(CSR_VSISELECT, operation, value));
	else
		trapped_access(vcpu, strcmp(name, "sireg") ? CSR_STOPEI : CSR_SIREG, operation,
			       value);
	*select = peer_csr(CSR_VSISELECT, PEER_READ, 0);
}

/* An access in a guest file, which the simulated CPU answers: no code of KVM has a part in it. */
static void direct_access(struct guest_file *file, unsigned long *select, const char *name,
			  enum peer_operation operation, unsigned long value)
{
	unsigned int top = file_top(file);

	if (!strcmp(name, "siselect")) {
		peer_csr(CSR_VSISELECT, PEER_WRITE, *select);
		wide(peer_csr(CSR_VSISELECT, operation, value));
		*select = peer_csr(CSR_VSISELECT, PEER_READ, 0);
	} else if (!strcmp(name, "stopei")) {
		wide((unsigned long)top << 16 | top);
		if (operation != PEER_READ && top)
			file->pending[top / 64] &= ~BIT(top % 64);
	} else if (*select < 0x70 || *select > 0xff || (*select > 0x7f && *select & 1)) {
		puts("virtual");
	} else {
		wide(file_access(file, *select, operation, value));
	}
}

/* Stores for virtual CPUs of the script's VM. */

static void device_store(unsigned long address, u32 value)
{
	unsigned long page = address >> 12, index = 0;
	int packed = 0;
	struct kvm_msi msi = { .data = value };

	for (int bit = 0; bit < 15; bit++)
		if (mask >> bit & 1)
			index |= (page >> bit & 1) << packed++;
	address = FILES + (index << 12) + (address & 0xfff);
	msi.address_lo = (u32)address;
	msi.address_hi = address >> 32;
	kvm_riscv_aia_inject_msi(guests, &msi);
}

/* By the second stage, as it is written or as a CPU still has it; where nothing is mapped the fault
   is emulated. */
static void peer_store(int from, int to, u32 value)
{
	struct second_stage *stage = &second_stages[to];

	if (stage->is_cached && (!stage->is_mapped || draw() & 1))
		file_store(file_at(stage->cached), value);
	else if (stage->is_mapped)
		file_store(file_at(stage->leads_to), value);
	else
		kvm_io_bus_write(guests->vcpus[from], KVM_MMIO_BUS, FILES + ((u64)to << 12), 4,
				 &value);
}

static bool is_store(const char *line)
{
	return !strncmp(line, "msi ", 4) || strstr(line, " ipi ");
}

static void store_of_line(const char *line)
{
	unsigned long vm, address, value;
	int from, to;

	if (!guests)
		refuse(line);
	if (sscanf(line, "msi %li %li %li", &vm, &address, &value) == 3)
		device_store(address, value);
	else if (sscanf(line, "g %li %i ipi %i %li", &vm, &from, &to, &value) == 4 &&
		 kvm_get_vcpu(guests, (unsigned int)from) && kvm_get_vcpu(guests, (unsigned int)to))
		peer_store(from, to, value);
	else
		refuse(line);
	puts("ok");
}

/* Moves, by KVM's own code. */

static const char *waiting[MOST_STORES];	/* stores that come within the move */
static int waiting_count, waiting_done;

static void between(void)
{
	void (*hook)(void) = peer_between;

	peer_between = NULL;	/* stores have moments too */
	while (waiting_done < waiting_count && draw() % 4 == 0)
		store_of_line(waiting[waiting_done++]);
	peer_between = hook;
}

/* The stores that follow in the script, but those of the virtual CPU that moves. */
static void gather_stores(int moving)
{
	waiting_count = waiting_done = 0;
	while (is_within && next_line < line_count && waiting_count < MOST_STORES) {
		const char *line = lines[next_line];

		unsigned long vm;
		int from = -1;

		sscanf(line, "g %li %i", &vm, &from);
		if (!is_store(line) || from == moving)
			break;
		waiting[waiting_count++] = line;
		next_line++;
	}
}

static void move(struct kvm_vcpu *vcpu, int cpu)
{
	int index = vcpu->vcpu_id;

	puts("ok");
	gather_stores(index);
	peer_between = between;
	if (cpu < 0) {
		peer_cpu = vcpu->cpu;
		kvm_riscv_vcpu_aia_imsic_release(vcpu);
		places[index][1] = 0;
	} else {
		peer_cpu = vcpu->cpu = cpu;
		kvm_riscv_vcpu_aia_imsic_update(vcpu);
		places[index][0] = cpu;
		places[index][1] = (vcpu->arch.guest_context.hstatus & HSTATUS_VGEIN) >>
				   HSTATUS_VGEIN_SHIFT;
	}
	peer_between = NULL;
	peer_cpu = 0;
	while (waiting_done < waiting_count)
		store_of_line(waiting[waiting_done++]);
}

/* Lines. */

static void store(unsigned long address, u32 value)
{
	if (address >= ROOT_DOMAIN && address < CHILD_DOMAIN)
		puts("ok");	/* KVM has no root domain: all sources are the child's */
	else if (address >= FILES)
		kvm_io_bus_write(machine->vcpus[0], KVM_MMIO_BUS, address, 4, &value), puts("ok");
	else
		puts(kvm_io_bus_write(machine->vcpus[0], KVM_MMIO_BUS, address, 4, &value) ?
		     "user" : "ok");
}

static void load(unsigned long address)
{
	u32 value = 0;

	if (kvm_io_bus_read(machine->vcpus[0], KVM_MMIO_BUS, address, 4, &value))
		puts("user");
	else
		printf("0x%08x\n", value);
}

/* A level that stands already is told to no wire. */
static void wire(unsigned long source, unsigned long level)
{
	static unsigned char levels[MOST_SOURCES];

	if (source < MOST_SOURCES && levels[source] != level) {
		levels[source] = level;
		kvm_riscv_aia_inject_irq(machine, source, level);
	}
	puts("ok");
}

static void guest_access(char **words, int count)
{
	struct kvm_vcpu *vcpu = vcpu_of(guests, words[2]);
	int index = vcpu->vcpu_id, *place = places[index];
	enum peer_operation operation = operation_of(words[3]);
	unsigned long value = count > 5 ? number(words[5]) : 0, *select = &selects[1][index];

	if (place[1])
		direct_access(&guest_files[place[0]][place[1]], select, words[4], operation,
			      value);
	else
		software_access(vcpu, select, words[4], operation, value);
}

static void hart_line(char **words, int count)
{
	struct kvm_vcpu *vcpu = vcpu_of(machine, words[1]);
	int index = vcpu->vcpu_id;

	if (!strcmp(words[0], "pins")) {
		printf("pins 0 0 0 %lu\n", vcpu->arch.irqs_pending >> IRQ_VS_EXT & 1);
	} else if (!strcmp(words[2], "hgeip")) {
		peer_cpu = index;
		wide(peer_csr(CSR_HGEIP, PEER_READ, 0));
		peer_cpu = 0;
	} else {
		software_access(vcpu, &selects[0][index], words[3], operation_of(words[2]),
				count > 4 ? number(words[4]) : 0);
	}
}

static void begin(char **words)
{
	if (number(words[1]) - 1 >= PEER_CPUS || number(words[2]) > GUEST_FILES ||
	    number(words[3]) >= 64 * FILE_WORDS)
		refuse("such a machine");
	machine_begins(number(words[3]), number(words[2]));
	machine = make_vm(number(words[1]), number(words[4]), KVM_DEV_RISCV_AIA_MODE_EMUL,
			  MACHINE_GUEST_BITS, CHILD_DOMAIN);
	puts("ok");
}

static bool guest_line(char **words, int count)
{
	const char *form = words[0];

	if (!strcmp(form, "vm")) {
		if (guests || number(words[1]) - 1 >= KVM_MAX_VCPUS)
			refuse("such a VM, or a second one");
		mask = number(words[2]);
		guests = make_vm(number(words[1]), 0, KVM_DEV_RISCV_AIA_MODE_AUTO, 0, 0);
		puts("ok");
	} else if (!strcmp(form, "arrive") || !strcmp(form, "shift")) {
		move(vcpu_of(guests, words[2]), number(words[3]) % PEER_CPUS);
	} else if (!strcmp(form, "leave")) {
		move(vcpu_of(guests, words[2]), -1);
	} else if (!strcmp(form, "enter") || !strcmp(form, "exit")) {
		puts("ok");	/* KVM lets a parked one run from its software file always */
	} else if (!strcmp(form, "g")) {
		guest_access(words, count);
	} else {
		return false;
	}
	return true;
}

/* How many words a line of each form has at least; of others KVM has nothing. */
static int least_words(const char *form)
{
	static const struct { const char *form; int words; } forms[] = {
		{ "machine", 5 }, { "vm", 4 }, { "arrive", 4 }, { "shift", 4 }, { "leave", 3 },
		{ "enter", 3 }, { "exit", 3 }, { "g", 5 }, { "msi", 4 }, { "wire", 3 },
		{ "st", 3 }, { "ld", 2 }, { "pins", 2 }, { "h", 3 },
	};

	for (unsigned int at = 0; at < ARRAY_SIZE(forms); at++)
		if (!strcmp(form, forms[at].form))
			return forms[at].words;
	return MOST_WORDS + 1;
}

static void answer(const char *line)
{
	char text[LINE_BYTES], *words[MOST_WORDS + 1] = { NULL };
	int count = 0;

	strcpy(text, line);
	for (char *word = strtok(text, " "); word && count < MOST_WORDS; word = strtok(NULL, " "))
		words[count++] = word;
	if (!count || count < least_words(words[0]) ||
	    !machine == !!strcmp(words[0], "machine") || (*line == 'h' && count == 3 &&
							  strcmp(words[2], "hgeip")))
		refuse(line);
	if (is_store(line))
		store_of_line(line);
	else if (guest_line(words, count))
		return;
	else if (!strcmp(words[0], "machine"))
		begin(words);
	else if (!strcmp(words[0], "wire"))
		wire(number(words[1]), number(words[2]));
	else if (!strcmp(words[0], "st"))
		store(number(words[1]), number(words[2]));
	else if (!strcmp(words[0], "ld"))
		load(number(words[1]));
	else
		hart_line(words, count);
}

int main(int count, char **arguments)
{
	is_within = count > 1;
	draw_state = is_within ? number(arguments[1]) : 1;
	while (line_count < MOST_LINES && fgets(lines[line_count], LINE_BYTES, stdin)) {
		char *line = lines[line_count];

		line[strcspn(line, "\n")] = 0;
		if (*line && *line != '#')
			line_count++;
	}
	while (next_line < line_count)
		answer(lines[next_line++]);
	return 0;
}
