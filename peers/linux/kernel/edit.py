#!/usr/bin/env python3
"""edit.py KERNEL: edits the source of Linux 6.12 in the folder KERNEL so that the kernel tells its
accesses to the AIA (tell.c), and three mends can be asked for as it boots:

    tell_level  the APLIC's driver looks at a source's input before it sets the source's pending bit
    tell_user   KVM's G-stage entry of a guest file has the user bit, so a guest's stores reach it
    tell_half   KVM reads and writes words of a software file by instructions of 64 bits

Each edit names a few words of the source, which have to stand in its file as often as it says; ends
with status 2 where they do not, and then nothing is written. Lines of Linux that are named here are
under its licence, GPL-2.0, and so is what this makes.
"""

import re
import sys
from pathlib import Path

HERE = Path(__file__).resolve().parent
IMSIC, MMU = "arch/riscv/kvm/aia_imsic.c", "arch/riscv/kvm/mmu.c"
CSR, IRQ = "arch/riscv/include/asm/csr.h", "arch/riscv/kernel/irq.c"
APLIC, MAKEFILE = "drivers/irqchip/irq-riscv-aplic-msi.c", "arch/riscv/kernel/Makefile"
# What KVM notes: the virtual hart's number, and a place: hart << 8 | guest file, or an identity.
NEW, OLD = "vcpu->cpu << 8 | new_vsfile_hgei", "old_vsfile_cpu << 8 | old_vsfile_hgei"


def note(kind, other, who="vcpu->vcpu_id"):
    return f"tell_note({kind}, {who}, {other});"


# File, the function that it is within, words of it, where what is put goes, what is put.
EDITS = [
    (IRQ, "", "void __init init_IRQ(void)\n{\n", "behind", "\ttell_init();\n"),
    (IRQ, "", "void __init init_IRQ(void)\n", "before", "extern void tell_init(void);\n"),
    (MAKEFILE, "", "obj-y\t+= head.o\n", "behind", "obj-y\t+= tell.o\n"),
    (APLIC, "", "static void aplic_msi_irq_retrigger_level(", "before",
     "extern int tell_level;\n"),
    (APLIC, "aplic_msi_irq_retrigger_level", "writel(d->hwirq,", "before",
     "if (!tell_level || readl(priv->regs + APLIC_CLRIP_BASE + d->hwirq / 32 * 4) &"
     " BIT(d->hwirq % 32))\n\t\t\t"),
    (MMU, "", "int kvm_riscv_gstage_ioremap(", "before", "extern int tell_user;\n"),
    (MMU, "kvm_riscv_gstage_ioremap", "pfn_pte(pfn, PAGE_KERNEL_IO);\n", "behind",
     "\t\tif (tell_user)\n\t\t\tpte = pte_mkdirty(pfn_pte(pfn, pgprot_noncached(PAGE_WRITE)));\n"),
    (IMSIC, "", "static unsigned long imsic_mrif_atomic_rmw(", "before",
     "extern int tell_half;\nextern unsigned long tell_exchange(unsigned long *word,"
     " unsigned long value,\n\t\t\t\t   unsigned long mask);\n"),
    (IMSIC, "imsic_mrif_atomic_rmw", "__asm__ __volatile__ (\n", "before",
     "if (tell_half)\n\t\treturn tell_exchange(ptr, new_val, wr_mask);\n\n\t"),
    # The end of a VM: the file is given back as it stands.
    (IMSIC, "imsic_vsfile_cleanup", "if (old_vsfile_cpu >= 0)\n", "behind",
     "\t\t" + note(6, OLD, "0") + "\n\tif (old_vsfile_cpu >= 0)\n"),
    # A leave: senders told; route and fence; taken; put and told; given back.
    (IMSIC, "kvm_riscv_vcpu_aia_imsic_release", "if (old_vsfile_cpu < 0)\n\t\treturn;\n", "behind",
     "\t" + note(4, OLD) + "\n"),
    (IMSIC, "kvm_riscv_vcpu_aia_imsic_release", "IMSIC_MMIO_PAGE_SZ);\n", "behind",
     "\t" + note(13, OLD) + "\n"),
    (IMSIC, "kvm_riscv_vcpu_aia_imsic_release", "imsic_swfile_update(vcpu, &tmrif);\n", "before",
     note(14, OLD) + "\n\t"),
    (IMSIC, "kvm_riscv_vcpu_aia_imsic_release", "imsic_swfile_update(vcpu, &tmrif);\n", "behind",
     "\t" + note(5, OLD) + "\n"),
    (IMSIC, "kvm_riscv_vcpu_aia_imsic_release",
     "kvm_riscv_aia_free_hgei(old_vsfile_cpu, old_vsfile_hgei);\n", "behind",
     "\t" + note(15, OLD) + "\n"),
    # An arrival or a shift: taken; routed and fenced; senders told; given back or copied; put.
    (IMSIC, "kvm_riscv_vcpu_aia_imsic_update", "new_vsfile_hgei = ret;\n", "behind",
     "\t" + note(1, NEW) + "\n"),
    (IMSIC, "kvm_riscv_vcpu_aia_imsic_update", "if (ret)\n\t\tgoto fail_free_vsfile_hgei;\n",
     "behind", "\t" + note(13, NEW) + "\n"),
    (IMSIC, "kvm_riscv_vcpu_aia_imsic_update", "imsic->vsfile_pa = new_vsfile_pa;\n", "behind",
     "\t" + note(2, NEW) + "\n"),
    (IMSIC, "kvm_riscv_vcpu_aia_imsic_update",
     "kvm_riscv_aia_free_hgei(old_vsfile_cpu, old_vsfile_hgei);\n", "behind",
     "\t\t" + note(15, OLD) + "\n"),
    (IMSIC, "kvm_riscv_vcpu_aia_imsic_update", "imsic_swfile_read(vcpu, true, &tmrif);\n", "behind",
     "\t\t" + note(10, NEW) + "\n"),
    (IMSIC, "kvm_riscv_vcpu_aia_imsic_update",
     "imsic_vsfile_local_update(new_vsfile_hgei, imsic->nr_hw_eix, &tmrif);\n", "behind",
     "\t" + note(3, NEW) + "\n"),
    # A guest's access that KVM does itself, in the software file: before and behind it.
    (IMSIC, "kvm_riscv_vcpu_aia_imsic_rmw", "if (isel == KVM_RISCV_AIA_IMSIC_TOPEI) {\n", "before",
     note(11, "isel") + "\n\t"),
    (IMSIC, "kvm_riscv_vcpu_aia_imsic_rmw", "if (wr_mask)\n\t\timsic_swfile_extirq_update",
     "before", note(12, "isel") + "\n\t"),
    # An MSI by KVM: to the guest file; to the software file, before and behind it.
    (IMSIC, "kvm_riscv_vcpu_aia_imsic_inject", "writel(iid, imsic->vsfile_va", "before",
     note(7, "iid") + "\n\t\t"),
    (IMSIC, "kvm_riscv_vcpu_aia_imsic_inject", "set_bit(iid &", "before",
     note(8, "iid") + "\n\t\t"),
    (IMSIC, "kvm_riscv_vcpu_aia_imsic_inject", "\t\timsic_swfile_extirq_update(vcpu);\n", "before",
     "\t\t" + note(9, "iid") + "\n"),
]
MACROS = ("swap", "read", "write", "read_set", "set", "read_clear", "clear")


def fail(message):
    print(f"edit.py: {message}", file=sys.stderr)
    sys.exit(2)


def edited(text, where, function, words, side, put):
    """The text of a file with one edit made: what is put stands before words, behind them, or
    instead of them."""
    start, end = 0, len(text)
    if function:
        head = rf"^\w[^\n;]*\b{function}\((?:[^;{{]*)\)\n{{\n"
        found = list(re.finditer(head, text, re.M))
        if len(found) != 1:
            fail(f"{where} has {len(found)} times the function {function}")
        start = found[0].start()
        end = text.index("\n}\n", start) + 1
    if text.count(words, start, end) != 1:
        fail(f"{where} has {text.count(words, start, end)} times, within {function or 'it'}:"
             f" {words}")
    at = text.index(words, start, end)
    end = at + len(words)
    return text[:end if side == "behind" else at] + put + text[at if side == "before" else end:]


def csr_header(text):
    """The kernel's macros under other names, and ours in their place."""
    for name in MACROS:
        old = f"#define csr_{name}(csr"
        if text.count(old) != 1:
            fail(f"{CSR} has {text.count(old)} times {old}")
        text = text.replace(old, f"#define plain_csr_{name}(csr")
    end = "#endif /* __ASSEMBLY__ */\n\n#endif /* _ASM_RISCV_CSR_H */\n"
    if not text.endswith(end):
        fail(f"{CSR} ends otherwise")
    return text.removesuffix(end) + "#include <asm/tell.h>\n\n" + end


def main():
    words = sys.argv[1:]
    if words[:1] in (["-h"], ["--help"]):
        print(__doc__.strip())
        return
    if len(words) != 1 or not (Path(words[0]) / CSR).is_file():
        fail("one KERNEL is wanted, the folder of its source\nedit.py -h says more")
    top = Path(words[0])
    files = {CSR: csr_header((top / CSR).read_text())}
    for where, *edit in EDITS:
        text = files.get(where) or (top / where).read_text()
        files[where] = edited(text, where, *edit)
    files["arch/riscv/include/asm/tell.h"] = (HERE / "tell.h").read_text()
    files["arch/riscv/kernel/tell.c"] = (HERE / "tell.c").read_text()
    for where, text in files.items():
        (top / where).write_text(text)


if __name__ == "__main__":
    main()
