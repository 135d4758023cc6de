/* SPDX-License-Identifier: Apache-2.0 */
/* The rest of KVM: places of devices, interrupts of a virtual CPU, and the making of a VM as user
   space does it. */
#include <machine.h>

long redirected_cause;

int kvm_io_bus_register_dev(struct kvm *kvm, enum kvm_bus bus, gpa_t address, int length,
			    struct kvm_io_device *device)
{
	(void)bus;
	kvm->places[kvm->place_count++] = (struct peer_place){ address, length, device };
	return 0;
}

static struct kvm_io_device *device_at(struct kvm *kvm, gpa_t address, int length)
{
	for (int at = 0; at < kvm->place_count; at++) {
		struct peer_place *place = &kvm->places[at];

		if (address >= place->base && address + length <= place->base + place->length)
			return place->device;
	}
	return NULL;
}

int kvm_io_bus_read(struct kvm_vcpu *vcpu, enum kvm_bus bus, gpa_t address, int length,
		    void *value)
{
	struct kvm_io_device *device = device_at(vcpu->kvm, address, length);

	(void)bus;
	return device ? kvm_iodevice_read(vcpu, device, address, length, value) : -EOPNOTSUPP;
}

int kvm_io_bus_write(struct kvm_vcpu *vcpu, enum kvm_bus bus, gpa_t address, int length,
		     const void *value)
{
	struct kvm_io_device *device = device_at(vcpu->kvm, address, length);

	(void)bus;
	return device ? kvm_iodevice_write(vcpu, device, address, length, value) : -EOPNOTSUPP;
}

int kvm_riscv_vcpu_set_interrupt(struct kvm_vcpu *vcpu, unsigned int number)
{
	vcpu->arch.irqs_pending |= BIT(number);
	return 0;
}

int kvm_riscv_vcpu_unset_interrupt(struct kvm_vcpu *vcpu, unsigned int number)
{
	vcpu->arch.irqs_pending &= ~BIT(number);
	return 0;
}

void kvm_riscv_vcpu_trap_redirect(struct kvm_vcpu *vcpu, struct kvm_cpu_trap *trap)
{
	(void)vcpu;
	redirected_cause = trap->scause;
}

unsigned long kvm_riscv_vcpu_unpriv_read(struct kvm_vcpu *vcpu, bool fetch, unsigned long address,
					 struct kvm_cpu_trap *trap)
{
	(void)vcpu, (void)fetch, (void)address, (void)trap;
	abort();	/* the bridge hands over every instruction */
}

static void configure(struct kvm *kvm, u32 group, u64 attribute, u64 value)
{
	struct kvm_device device = { kvm };
	struct kvm_device_attr one = { .group = group, .attr = attribute,
				       .addr = (u64)(uintptr_t)&value };

	if (kvm_riscv_aia_device_ops.set_attr(&device, &one)) {
		fprintf(stderr, "bridge: KVM refuses attribute %lu of group %u\n",
			(unsigned long)attribute, group);
		exit(1);
	}
}

static void add_vcpu(struct kvm *kvm, int number)
{
	struct kvm_vcpu *vcpu = calloc(1, sizeof(*vcpu));

	vcpu->kvm = kvm;
	vcpu->vcpu_id = vcpu->vcpu_idx = number;
	vcpu->run = calloc(1, sizeof(*vcpu->run));
	kvm->vcpus[number] = vcpu;
	kvm->online_vcpus.counter++;
	kvm->created_vcpus++;
	kvm_riscv_vcpu_aia_init(vcpu);
}

/* A VM: its files lie from 0x28000000 on, with room for guest files of `guest_bits` bits. */
struct kvm *make_vm(int vcpus, int sources, int mode, int guest_bits, gpa_t aplic)
{
	struct kvm *kvm = calloc(1, sizeof(*kvm));
	struct kvm_device device = { kvm };
	int hart_bits = 0;

	kvm_riscv_aia_init_vm(kvm);
	for (int number = 0; number < vcpus; number++)
		add_vcpu(kvm, number);
	while (1 << hart_bits < vcpus)
		hart_bits++;
	if (kvm_riscv_aia_device_ops.create(&device, 0))
		exit(1);
	configure(kvm, KVM_DEV_RISCV_AIA_GRP_CONFIG, KVM_DEV_RISCV_AIA_CONFIG_MODE, mode);
	configure(kvm, KVM_DEV_RISCV_AIA_GRP_CONFIG, KVM_DEV_RISCV_AIA_CONFIG_IDS,
		  greatest_identity);
	configure(kvm, KVM_DEV_RISCV_AIA_GRP_CONFIG, KVM_DEV_RISCV_AIA_CONFIG_SRCS, sources);
	configure(kvm, KVM_DEV_RISCV_AIA_GRP_CONFIG, KVM_DEV_RISCV_AIA_CONFIG_HART_BITS, hart_bits);
	configure(kvm, KVM_DEV_RISCV_AIA_GRP_CONFIG, KVM_DEV_RISCV_AIA_CONFIG_GUEST_BITS,
		  guest_bits);
	if (sources)
		configure(kvm, KVM_DEV_RISCV_AIA_GRP_ADDR, KVM_DEV_RISCV_AIA_ADDR_APLIC, aplic);
	for (int number = 0; number < vcpus; number++)
		configure(kvm, KVM_DEV_RISCV_AIA_GRP_ADDR, KVM_DEV_RISCV_AIA_ADDR_IMSIC(number),
			  0x28000000 + ((u64)number << (12 + guest_bits)));
	configure(kvm, KVM_DEV_RISCV_AIA_GRP_CTRL, KVM_DEV_RISCV_AIA_CTRL_INIT, 0);
	return kvm;
}
