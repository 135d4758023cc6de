/* SPDX-License-Identifier: Apache-2.0 */
/* Of VMs and virtual CPUs what the files of KVM look at. */
#ifndef PEER_KVM_HOST_H
#define PEER_KVM_HOST_H
#include <kernel.h>

#define KVM_STATS_NAME_SIZE 48
#define KVM_MAX_VCPUS 16
struct device;
#include <asm/csr.h>
#include <linux/kvm.h>
#include <kvm/iodev.h>
#include <linux/irqchip/riscv-imsic.h>
#include <asm/kvm_vcpu_insn.h>

struct kvm_device { struct kvm *kvm; };
struct kvm_device_ops {
	const char *name;
	int (*create)(struct kvm_device *device, u32 type);
	void (*destroy)(struct kvm_device *device);
	int (*set_attr)(struct kvm_device *device, struct kvm_device_attr *attribute);
	int (*get_attr)(struct kvm_device *device, struct kvm_device_attr *attribute);
	int (*has_attr)(struct kvm_device *device, struct kvm_device_attr *attribute);
};
#include <asm/kvm_aia.h>

struct kvm_cpu_trap { unsigned long sepc, scause, stval, htval, htinst; };

/* KVM finds a register by its number from the first one on. */
struct kvm_cpu_context {
	unsigned long zero, ra, sp, gp, tp, t0, t1, t2, others[24];
	unsigned long sepc, sstatus, hstatus;
};

struct kvm_vcpu_csr { unsigned long vsie, hvip; };

struct kvm_vcpu_arch {
	bool ran_atleast_once;
	struct kvm_cpu_context guest_context;
	struct kvm_vcpu_csr guest_csr;
	unsigned long isa[4], irqs_pending, irqs_pending_mask;
	struct kvm_mmio_decode mmio_decode;
	struct kvm_csr_decode csr_decode;
	struct kvm_vcpu_aia aia_context;
};

struct kvm_vcpu_stat {
	u64 wfi_exit_stat, wrs_exit_stat, mmio_exit_user, mmio_exit_kernel, csr_exit_user;
	u64 csr_exit_kernel;
};

struct kvm_vcpu {
	struct kvm *kvm;
	int cpu, vcpu_id, vcpu_idx;
	struct mutex mutex;
	struct kvm_run *run;
	struct kvm_vcpu_stat stat;
	struct kvm_vcpu_arch arch;
};

struct peer_place { gpa_t base; int length; struct kvm_io_device *device; };
struct kvm {
	struct { struct kvm_aia aia; } arch;
	struct kvm_vcpu *vcpus[KVM_MAX_VCPUS];
	atomic_t online_vcpus;
	int created_vcpus;
	struct mutex lock, slots_lock;
	struct peer_place places[KVM_MAX_VCPUS + 1];
	int place_count;
};

#define kvm_for_each_vcpu(index, vcpu, kvm) \
	for ((index) = 0; ((vcpu) = kvm_get_vcpu(kvm, index)); (index)++)
#define kvm_get_vcpu(kvm, index) \
	((int)(index) < (kvm)->online_vcpus.counter ? (kvm)->vcpus[index] : NULL)
#define kvm_get_vcpu_by_id kvm_get_vcpu

enum kvm_bus { KVM_MMIO_BUS };
int kvm_io_bus_register_dev(struct kvm *kvm, enum kvm_bus bus, gpa_t address, int length,
			    struct kvm_io_device *device);
#define kvm_io_bus_unregister_dev(kvm, bus, device) ((void)(kvm))
int kvm_io_bus_read(struct kvm_vcpu *vcpu, enum kvm_bus bus, gpa_t address, int length,
		    void *value);
int kvm_io_bus_write(struct kvm_vcpu *vcpu, enum kvm_bus bus, gpa_t address, int length,
		     const void *value);
int kvm_riscv_vcpu_set_interrupt(struct kvm_vcpu *vcpu, unsigned int number);
int kvm_riscv_vcpu_unset_interrupt(struct kvm_vcpu *vcpu, unsigned int number);
int kvm_riscv_gstage_ioremap(struct kvm *kvm, gpa_t from, phys_addr_t to, unsigned long size,
			     bool writable, bool in_atomic);
void kvm_riscv_gstage_iounmap(struct kvm *kvm, gpa_t from, unsigned long size);
void kvm_riscv_vcpu_trap_redirect(struct kvm_vcpu *vcpu, struct kvm_cpu_trap *trap);
unsigned long kvm_riscv_vcpu_unpriv_read(struct kvm_vcpu *vcpu, bool fetch, unsigned long address,
					 struct kvm_cpu_trap *trap);
#define kvm_vcpu_kick(vcpu) ((void)(vcpu))
#define kvm_riscv_setup_default_irq_routing(kvm, count) ((void)(kvm), 0)
#define kvm_register_device_ops(operations, type) ((void)(operations), 0)
#define kvm_unregister_device_ops(type) ((void)(type))
#define kvm_arch_vcpu_runnable(vcpu) ((void)(vcpu), 1)
#define kvm_vcpu_halt(vcpu) ((void)(vcpu))
#define kvm_vcpu_on_spin(vcpu, in_kernel) ((void)(vcpu))
#define kvm_vcpu_srcu_read_lock(vcpu) ((void)(vcpu))
#define kvm_vcpu_srcu_read_unlock(vcpu) ((void)(vcpu))

/* Counters of performance are none of this. */
#define KVM_RISCV_VCPU_HPMCOUNTER_CSR_FUNCS
#define riscv_isa_extension_available(isa, name) ((void)(isa), 1)
#define __riscv_isa_extension_available(isa, name) ((void)(isa), 0)
#define RISCV_ISA_EXT_SSCOFPMF 0
#endif
