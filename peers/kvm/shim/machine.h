/* SPDX-License-Identifier: Apache-2.0 */
/* The simulated machine and the rest of KVM, as the bridge sees them. */
#ifndef PEER_MACHINE_H
#define PEER_MACHINE_H
#include <linux/kvm_host.h>

#define GUEST_FILES 7
#define FILE_WORDS 32

struct guest_file {
	unsigned long delivery, threshold, pending[FILE_WORDS], enabled[FILE_WORDS];
};
extern struct guest_file guest_files[PEER_CPUS][GUEST_FILES + 1];
extern int greatest_identity;		/* of guest files and of VMs */
extern void (*peer_between)(void);	/* called at each moment at which others may come */
extern long redirected_cause;		/* of the newest trap that KVM gave to the guest */

/* Where the page of a virtual CPU leads, as written and as some CPU may still have it. */
struct second_stage { bool is_mapped, is_cached; phys_addr_t leads_to, cached; };
extern struct second_stage second_stages[KVM_MAX_VCPUS];

void machine_begins(int greatest, int guests);
unsigned int file_top(const struct guest_file *file);
bool file_signals(const struct guest_file *file);
void file_store(struct guest_file *file, u32 identity);
struct guest_file *file_at(phys_addr_t place);
unsigned long file_access(struct guest_file *file, unsigned int select,
			  enum peer_operation operation, unsigned long value);

struct kvm *make_vm(int vcpus, int sources, int mode, int guest_bits, gpa_t aplic);
#endif
