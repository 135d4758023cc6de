/* SPDX-License-Identifier: Apache-2.0 */
/* asm/csr.h of the kernel, with instructions on CSRs that reach the simulated CPU. */
#ifndef PEER_CSR_H
#define PEER_CSR_H
#include <kernel.h>
#include <asm/csr_of_kernel.h>
#undef csr_swap
#undef csr_read
#undef csr_write
#undef csr_set
#undef csr_clear
#define csr_swap(csr, value) peer_csr((csr), PEER_WRITE, (unsigned long)(value))
#define csr_read(csr) peer_csr((csr), PEER_READ, 0)
#define csr_write(csr, value) ((void)peer_csr((csr), PEER_WRITE, (unsigned long)(value)))
#define csr_set(csr, value) ((void)peer_csr((csr), PEER_SET, (unsigned long)(value)))
#define csr_clear(csr, value) ((void)peer_csr((csr), PEER_CLEAR, (unsigned long)(value)))
#endif
