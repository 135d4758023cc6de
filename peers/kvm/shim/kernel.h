/* SPDX-License-Identifier: Apache-2.0 */
/* What the files of KVM take from the kernel, for one thread in user space. Every header of the
   kernel that is not taken from its package is this one. */
#ifndef PEER_KERNEL_H
#define PEER_KERNEL_H

#include <errno.h>
#include <stdbool.h>
#include <stddef.h>
#include <stdint.h>
#include <stdio.h>
#include <stdlib.h>
#include <string.h>

/* Types. */
typedef uint8_t u8, __u8;
typedef uint16_t u16, __u16, __le16;
typedef uint32_t u32, __u32, __le32;
typedef uint64_t u64, __le64;
typedef int8_t s8, __s8;
typedef int16_t s16, __s16;
typedef int32_t s32, __s32;
typedef int64_t s64;
typedef unsigned long ulong, gva_t;
typedef u64 phys_addr_t, gpa_t, gfn_t;
#define __u64 uint64_t
#define __s64 int64_t
#define __aligned_u64 uint64_t __attribute__((aligned(8)))
#define __user
#define __iomem
#define __percpu
#define likely(condition) (condition)
#define unlikely(condition) (condition)
#define __DECLARE_FLEX_ARRAY(type, name) struct { struct { } empty_##name; type name[]; }
#define __struct_group(tag, name, attributes, members...) \
	union { struct { members } attributes; struct tag { members } attributes name; }

/* Numbers and bits. */
#define BITS_PER_LONG 64
#define BITS_PER_TYPE(type) (8 * sizeof(type))
#define BIT(number) (1UL << (number))
#define GENMASK(high, low) ((~0UL << (low)) & (~0UL >> (63 - (high))))
#define GENMASK_ULL(high, low) GENMASK(high, low)
#define DIV_ROUND_UP(number, by) (((number) + (by) - 1) / (by))
#define BITS_TO_U64(count) DIV_ROUND_UP(count, 64)
#define ARRAY_SIZE(array) (sizeof(array) / sizeof((array)[0]))
#define _AC(number, suffix) number##suffix
#define _UL(number) _AC(number, UL)
#define __ASM_STR(text) #text
#define upper_32_bits(number) ((u32)((number) >> 32))
#define min(a, b) ((a) < (b) ? (a) : (b))
#define __ffs(number) ((unsigned long)__builtin_ctzl(number))
#define fls_long(number) ((number) ? 64U - (unsigned int)__builtin_clzl(number) : 0U)
#define __swab32(number) __builtin_bswap32(number)
#define READ_ONCE(place) (place)

static inline bool test_bit(long bit, const unsigned long *words)
{
	return words[bit / 64] >> (bit % 64) & 1;
}

static inline void set_bit(long bit, unsigned long *words)
{
	words[bit / 64] |= BIT(bit % 64);
}

static inline void clear_bit(long bit, unsigned long *words)
{
	words[bit / 64] &= ~BIT(bit % 64);
}
#define for_each_set_bit(bit, words, size) \
	for ((bit) = 0; (bit) < (int)(size); (bit)++) if (test_bit((bit), (words)))

/* Others may come between two accesses that they can see: each such place calls this, but within a
   spinlock, which they wait for. */
void peer_moment(void);
extern int peer_spinlocks;

typedef struct { long counter; } atomic_long_t;
typedef struct { int counter; } atomic_t;
#define atomic_read(number) ((number)->counter)

static inline long atomic_long_fetch_or(long value, atomic_long_t *number)
{
	long old;

	if (value)
		peer_moment();
	old = number->counter;
	number->counter |= value;
	return old;
}

/* Locks: one thread waits for none. */
typedef struct { int unused; } raw_spinlock_t, spinlock_t, rwlock_t;
struct mutex { int unused; };
#define raw_spin_lock_init(lock) ((void)(lock))
#define rwlock_init(lock) ((void)(lock))
#define raw_spin_lock_irqsave(lock, flags) ((void)(lock), (flags) = 0, (void)peer_spinlocks++)
#define raw_spin_unlock_irqrestore(lock, flags) \
	((void)(lock), (void)(flags), (void)peer_spinlocks--, peer_moment())
#define read_lock_irqsave(lock, flags) ((void)(lock), (flags) = 0)
#define read_unlock_irqrestore(lock, flags) ((void)(lock), (void)(flags))
#define write_lock_irqsave(lock, flags) ((void)(lock), (flags) = 0, peer_moment())
#define write_unlock_irqrestore(lock, flags) ((void)(lock), (void)(flags), peer_moment())
#define mutex_lock(mutex) ((void)(mutex))
#define mutex_unlock(mutex) ((void)(mutex))
#define mutex_trylock(mutex) ((void)(mutex), 1)
#define mutex_lock_killable(mutex) ((void)(mutex), 0)
#define lockdep_assert_held(lock) ((void)(lock))

/* Memory. */
struct page { char bytes[8192]; };
#define GFP_KERNEL 0
#define __GFP_ZERO 0
#define kzalloc(size, flags) calloc(1, (size))
#define kcalloc(count, size, flags) calloc((count), (size))
#define kfree free
#define get_order(size) 0
#define alloc_pages(flags, order) ((struct page *)calloc(1, sizeof(struct page)))
#define page_to_virt(page) ((void *)(page))
#define page_to_phys(page) ((phys_addr_t)(uintptr_t)(page))
#define free_pages(address, order) free((void *)(address))
#define copy_from_user(to, from, size) (memcpy((to), (void *)(uintptr_t)(from), (size)), 0)
#define copy_to_user(to, from, size) (memcpy((void *)(uintptr_t)(to), (from), (size)), 0)

/* CPUs, each with its data, its CSRs and its guest files. */
#define PEER_CPUS 4
extern int peer_cpu;
void *peer_of_cpu(void *data, size_t size, int cpu);
#define DEFINE_PER_CPU(type, name) type name
#define per_cpu_ptr(data, cpu) ((__typeof__(data))peer_of_cpu((data), sizeof(*(data)), (cpu)))
#define get_cpu_ptr(data) per_cpu_ptr(data, peer_cpu)
#define put_cpu_ptr(data) ((void)(data))
#define for_each_possible_cpu(cpu) for ((cpu) = 0; (cpu) < PEER_CPUS; (cpu)++)
#define cpumask_of(cpu) (cpu)
void on_each_cpu_mask(int cpu, void (*function)(void *), void *data, int wait);
void writel(u32 value, void *address);

enum peer_operation { PEER_READ, PEER_WRITE, PEER_SET, PEER_CLEAR };
unsigned long peer_csr(int csr, enum peer_operation operation, unsigned long value);

/* Interrupts of the host: none comes. */
typedef int irqreturn_t;
struct fwnode_handle;
struct irq_domain { int unused; };
extern struct irq_domain peer_domain;
#define IRQ_HANDLED 1
#define DOMAIN_BUS_ANY 0
#define riscv_get_intc_hwnode() ((struct fwnode_handle *)0)
#define irq_find_matching_fwnode(node, bus) ((void)(node), &peer_domain)
#define irq_create_mapping(domain, number) ((void)(domain), 12)
#define request_percpu_irq(number, handler, name, data) ((void)(handler), 0)
#define free_percpu_irq(number, data) ((void)(data))
#define enable_percpu_irq(number, type) ((void)(type))
#define disable_percpu_irq(number) ((void)(number))
#define irq_get_trigger_type(number) 0

/* The AIA is there. */
#define DEFINE_STATIC_KEY_FALSE(name) bool name
#define DECLARE_STATIC_KEY_FALSE(name) extern bool name
#define static_branch_unlikely(key) (*(key))
#define static_branch_enable(key) (*(key) = true)
#define kvm_err(...) fprintf(stderr, __VA_ARGS__)
#endif
