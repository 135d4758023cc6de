"""Errors that can be planted in the model, one at a time: a comparison has to tell each.

    plants.py PLANT < script > answers

answers a script as the model would with that error. Each is a function that changes one rule of the
modules of the model; its name says the rule. `-h` lists them. Ends with status 2 where there is no
PLANT, or none of that name.
"""

from __future__ import annotations

import difflib
import inspect
import sys
import textwrap
from collections.abc import Callable
from typing import Any

from lemdwab.apart import aplic, interrupt_file, majors, model, moves, words
from lemdwab.apart.aplic import Aplic, Domain
from lemdwab.apart.interrupt_file import InterruptFile
from lemdwab.apart.majors import Majors
from lemdwab.apart.model import Machine, Vm
from lemdwab.apart.moves import ENTERED, LEAVING, SHIFTING, Pass, VirtualHart, word_mask

PLANTS: dict[str, Callable[..., Any]] = {}


def planted(change: Callable[..., Any]) -> Callable[..., Any]:
    PLANTS[change.__name__] = change
    return change


def plant(name: str) -> None:
    """Plants one error, for good in this process."""
    PLANTS[name]()
    model.METHODS.update({name: getattr(Machine, "pass_" if name == "pass" else name)
                          for name in model.METHODS})
    for name, touch in list(aplic.TOUCHES.items()):
        aplic.TOUCHES[name] = getattr(Domain, touch.__name__)
    aplic.WORDS["in_clrip"] = Domain.inputs
    moves.plan_of.cache_clear()


def around(owner: type[Any], name: str, wrapper: Callable[..., Any]) -> None:
    """A method, given the one that stood there."""
    old = getattr(owner, name)
    setattr(owner, name, lambda *given: wrapper(old, *given))


def in_source(owner: Any, name: str, old: str, new: str) -> None:
    """A method made anew, with one piece of its text changed."""
    text = textwrap.dedent(inspect.getsource(getattr(owner, name)))
    assert text.count(old) == 1, (name, old, text.count(old))
    scope = vars(sys.modules[owner.__module__])
    made: dict[str, Any] = {}
    exec(text.replace(old, new), scope, made)
    setattr(owner, name, made[name])


# Running from memory.

@planted
def exit_always_sends_a_notice() -> None:
    in_source(Machine, "exit", "if hart.is_live():", "if True:")


@planted
def exit_never_sends_a_notice() -> None:
    in_source(Machine, "exit", "if hart.is_live():", "if False:")


@planted
def exit_heeds_the_threshold() -> None:
    in_source(Machine, "exit", "if hart.is_live():", "if hart.file.top():")


@planted
def exit_heeds_delivery() -> None:
    in_source(Machine, "exit", "if hart.is_live():", "if hart.is_live() and hart.file.delivery:")


@planted
def a_claim_from_memory_clears_the_word() -> None:
    def g(old: Callable[..., str], machine: Machine, vm: int, number: int, csr: str, operation: str,
          operand: int) -> str:
        hart = machine.hart_named(vm, number)
        top = hart.file.top()
        answer = old(machine, vm, number, csr, operation, operand)
        if hart.home == ENTERED and csr == "topei" and operation != "read" and top:
            hart.file.pending &= ~word_mask(top // 64)
        return answer
    around(Machine, "g", g)


@planted
def sip_is_answered_from_memory() -> None:
    in_source(Machine, "g", "is_files, \"away\")", "(is_files or csr == \"sip\"), \"away\")")


@planted
def own_writes_from_memory_send_notices() -> None:
    def g(old: Callable[..., str], machine: Machine, vm: int, number: int, csr: str, operation: str,
          operand: int) -> str:
        hart = machine.hart_named(vm, number)
        before = hart.file.pending & hart.file.enabled
        answer = old(machine, vm, number, csr, operation, operand)
        if hart.home == ENTERED and hart.file.pending & hart.file.enabled & ~before:
            machine.notify(hart)
        return answer
    around(Machine, "g", g)


@planted
def no_notices_while_entered() -> None:
    in_source(Machine, "store_for", "if place is None and",
              "if place is None and hart.home != 'entered' and")


@planted
def no_ipi_from_memory() -> None:
    in_source(Machine, "ipi", "in (RESIDENT, ENTERED)", "== RESIDENT")


@planted
def exit_clears_delivery() -> None:
    in_source(Machine, "exit", "hart.home = PARKED", "hart.home = PARKED; hart.file.delivery = 0")


# Files.

@planted
def a_top_ignores_the_threshold() -> None:
    in_source(InterruptFile, "top", "if self.threshold:", "if False:")


@planted
def a_threshold_lets_itself_through() -> None:
    in_source(InterruptFile, "top", "(1 << self.threshold)", "(2 << self.threshold)")


@planted
def a_top_needs_delivery() -> None:
    in_source(InterruptFile, "top", "if self.threshold:",
              "if not self.delivery: return 0\n    if self.threshold:")


@planted
def a_threshold_is_kept_modulo_n() -> None:
    in_source(InterruptFile, "kept_threshold", "% (self.greatest + 1)", "% self.greatest")


@planted
def a_select_number_keeps_11_bits() -> None:
    in_source(InterruptFile, "access", "0xfff", "0x7ff")


@planted
def csrrc_by_0_does_not_claim() -> None:
    in_source(InterruptFile, "access", "!= \"read\" and old",
              "!= \"read\" and old and (operation != 'clear' or operand)")


@planted
def an_odd_select_number_reads_0() -> None:
    in_source(InterruptFile, "access_register", "(select >= 0x80 and select % 2)", "False")


@planted
def seteipnum_be_is_not_swapped() -> None:
    interrupt_file.swapped = lambda value: value


@planted
def the_greatest_identity_is_none() -> None:
    in_source(InterruptFile, "__init__", "(1 << (greatest + 1)) - 2", "(1 << greatest) - 2")


# Routes, stores in flight, notices.

@planted
def a_fence_lands_nothing() -> None:
    in_source(Machine, "step", "while flight:", "while False:")


@planted
def a_fence_lands_the_first_store_alone() -> None:
    in_source(Machine, "step", "while flight:", "if flight:")


@planted
def a_store_in_flight_lands_where_the_entry_leads_then() -> None:
    in_source(Machine, "land", "self.store_for(*flight.pop(number))",
              "hart, _, offset, value = flight.pop(number)\n"
              "    self.store_for(hart, hart.entry_in_force, offset, value)")


@planted
def refetch_does_nothing() -> None:
    in_source(Machine, "refetch", "= hart.entry", "= hart.entry_in_force")


@planted
def refetch_reaches_the_new_place_at_once() -> None:
    in_source(Machine, "refetch", "= hart.entry",
              "= hart.goal if hart.is_moving() else hart.origin")


@planted
def refetch_lands_what_is_in_flight() -> None:
    def refetch(old: Callable[..., str], machine: Machine, vm: int, number: int) -> str:
        answer = old(machine, vm, number)
        while machine.vms[vm].flight:
            machine.store_for(*machine.vms[vm].flight.pop(0))
        return answer
    around(Machine, "refetch", refetch)


@planted
def an_ipi_goes_by_the_entry() -> None:
    in_source(Machine, "ipi", "stage_in_force", "entry_in_force")


@planted
def an_msi_goes_by_the_stage() -> None:
    in_source(Machine, "msi", "entry_in_force", "stage_in_force")


@planted
def the_stage_is_in_force_as_it_is_written() -> None:
    in_source(VirtualHart, "make_access", "self.stage = self.goal",
              "self.stage = self.stage_in_force = self.goal")


@planted
def a_word_is_watched_from_its_pending_bits_on() -> None:
    in_source(VirtualHart, "make_access", "\"PutEnables\"", "\"PutPending\"")


@planted
def a_word_is_watched_until_its_pending_bits_are_taken() -> None:
    in_source(VirtualHart, "make_access", "\"TakeEnables\"", "\"TakePending\"")


@planted
def a_leave_watches_all_words_with_the_first() -> None:
    in_source(VirtualHart, "make_access", "self.watched |= word_mask(word) & self.file.implemented",
              "self.watched = self.file.implemented")


@planted
def a_leave_watches_from_its_beginning() -> None:
    in_source(VirtualHart, "begin", "self.goal = goal",
              "self.goal = goal; self.watched = self.file.implemented")


@planted
def a_leave_posts_by_what_is_live_at_the_post() -> None:
    in_source(Machine, "step", "hart.look_saw", "hart.is_live()")


@planted
def a_leave_always_posts() -> None:
    in_source(Machine, "step", "hart.look_saw", "True")


@planted
def a_leave_looks_at_all_words_at_each_look() -> None:
    in_source(VirtualHart, "make_access", "self.is_live(word_mask(word))", "self.is_live()")


@planted
def a_look_is_kept_from_an_earlier_leave() -> None:
    in_source(VirtualHart, "begin", "self.look_saw = False", "pass")


@planted
def no_notice_where_the_identity_was_pending() -> None:
    in_source(Machine, "store_for", "hart.file.ask(identity)\n        if place is None and",
              "was = hart.file.pending >> identity & 1\n        hart.file.ask(identity)\n"
              "        if not was and place is None and")


@planted
def a_notice_heeds_the_threshold() -> None:
    in_source(Machine, "store_for", "if place is None and",
              "if place is None and not 0 < hart.file.threshold <= identity and")


@planted
def a_notice_asks_by_the_number_in_the_vm() -> None:
    in_source(Machine, "notify", "hart.slot + 1",
              "next(vm.harts.index(hart) for vm in self.vms if hart in vm.harts) + 1")


@planted
def notices_go_to_hart_0() -> None:
    in_source(Machine, "notify", "[hart.notice_hart]", "[0]")


# Moves.

@planted
def a_shift_gives_its_old_file_back_at_once() -> None:
    in_source(Machine, "free_file", "for place in (one.origin, one.goal)",
              "for place in ((one.goal if one.home == 'shifting' else one.origin), one.goal)")


@planted
def the_new_file_is_taken_at_the_end() -> None:
    in_source(Machine, "free_file", "(one.origin, one.goal)", "(one.origin,)")


@planted
def the_greatest_free_file_is_taken() -> None:
    in_source(Machine, "free_file", "range(1, self.guests + 1)", "range(self.guests, 0, -1)")


@planted
def a_leave_is_heard_until_its_end() -> None:
    in_source(VirtualHart, "is_heard_at", "self.home in (LEAVING, SHIFTING) and self.steps == 0",
              "self.home in (LEAVING, SHIFTING)")


@planted
def a_leave_is_silent_at_once() -> None:
    in_source(VirtualHart, "is_heard_at", "self.home in (LEAVING, SHIFTING) and self.steps == 0",
              "False")


@planted
def a_shift_puts_the_threshold_in_no_step() -> None:
    moves.AFTER_WORDS[SHIFTING] = ("TakeThreshold", "PutDelivery")


@planted
def a_move_clears_the_delivery() -> None:
    in_source(VirtualHart, "end", "self.home =", "self.file.delivery = 0; self.home =")


@planted
def a_leave_needs_no_word_1() -> None:
    moves.BEFORE_WORDS[LEAVING] = ("TakeDelivery", "WriteEntry", "Fence", "Map",
                                   "GFence")


# Passes.

@planted
def a_pass_is_aimed_one_step_early() -> None:
    in_source(VirtualHart, "next_aim", "self.steps and plan[self.steps - 1][0] ==",
              "plan[self.steps][0] ==")


@planted
def passes_are_aimed_in_one_step() -> None:
    def step(old: Callable[..., str], machine: Machine, vm: int, number: int) -> str:
        hart = machine.hart_named(vm, number)
        answer = old(machine, vm, number)
        while hart.is_moving() and hart.aims and hart.next_aim():
            old(machine, vm, number)
        return answer
    around(Machine, "step", step)


@planted
def the_last_pass_is_aimed_first() -> None:
    in_source(VirtualHart, "next_aim", "self.passes[self.aims]", "self.passes[-1 - self.aims]")


@planted
def a_relay_leaves_the_identity_of_the_pass() -> None:
    in_source(Machine, "relay", "&= ~(1 << 33 + one.number)", "&= -1")


@planted
def a_relay_sends_no_notice() -> None:
    in_source(Machine, "relay", "self.store_for(one.hart, None, 0, one.identity)",
              "one.hart.file.ask(one.identity)")


@planted
def a_relay_goes_by_the_entry() -> None:
    in_source(Machine, "relay", "one.hart, None,", "one.hart, one.hart.entry_in_force,")


@planted
def a_pass_is_known_by_its_rank() -> None:
    in_source(Pass, "target", "33 + self.number", "33 + self.hart.passes.index(self)")


@planted
def a_target_keeps_the_hart_of_the_file_it_had() -> None:
    in_source(Pass, "target", "self.reach[0] << 18", "self.hart.notice_hart << 18")


@planted
def a_passed_target_may_be_written() -> None:
    in_source(Machine, "redirects", "in (\"sourcecfg\", \"target\")", "in (\"sourcecfg\",)")


@planted
def ie_of_the_child_may_not_be_written() -> None:
    in_source(Machine, "redirects", "bool(value >> 2 & 1) != domain.by_msi", "True")


@planted
def guards_stand_without_passes() -> None:
    in_source(Machine, "redirects", "if not self.passes:", "if False:")


@planted
def a_source_needs_an_enable_to_be_passed() -> None:
    in_source(Aplic, "is_passable", "self.child.active >> source & 1",
              "self.child.enabled >> source & 1")


@planted
def readiness_looks_at_hhxs() -> None:
    in_source(Aplic, "reaches_guests", "field(high, 18, 16) == 0", "field(high, 28, 16) == 0")


@planted
def fifteen_passes_are_all() -> None:
    in_source(Machine, "pass_", "< 16", "< 15")


# The APLIC.

@planted
def a_claim_clears_a_level_source() -> None:
    in_source(Domain, "claim", "~(1 << (top >> 16) & ~self.level)", "~(1 << (top >> 16))")


@planted
def registers_ask_for_level_sources_in_direct_delivery() -> None:
    in_source(Domain, "set_pending", "heard = self.active & ~self.level", "heard = self.active")


@planted
def registers_ask_for_low_level_sources() -> None:
    in_source(Domain, "set_pending", "self.level & self.inputs()", "self.level")


@planted
def a_fall_leaves_a_level_source_by_msis() -> None:
    in_source(Domain, "input_changed", "elif was", "elif not self.by_msi and was")


@planted
def a_change_of_delivery_leaves_targets() -> None:
    in_source(Domain, "write_domaincfg", "self.targets[source] = self.first_target()", "pass")


@planted
def a_change_of_delivery_leaves_level_sources() -> None:
    in_source(Domain, "write_domaincfg", "self.pending & ~self.level | self.inputs() & self.level",
              "self.pending")


@planted
def a_change_of_delivery_leaves_genmsi() -> None:
    in_source(Domain, "write_domaincfg", "self.genmsi = 0", "pass")


@planted
def sourcecfg_leaves_pending_bits() -> None:
    in_source(Domain, "configure", "if self.level & bit:", "if False:")


@planted
def sourcecfg_to_an_edge_mode_clears() -> None:
    in_source(Domain, "configure", "if self.level & bit:",
              "if not self.level & bit: self.pending &= ~bit\n    if self.level & bit:")


@planted
def an_inactive_source_keeps_its_enable_bit() -> None:
    in_source(Domain, "configure", "self.enabled &= ~bit", "pass")


@planted
def delegating_again_makes_the_childs_register_0() -> None:
    in_source(Aplic, "write_sourcecfg", "if is_delegated and sourcecfg == DELEGATED:", "if False:")


@planted
def reserved_modes_are_kept() -> None:
    aplic.legal_mode = lambda value: value & 7


@planted
def another_child_is_delegated_to() -> None:
    aplic.root_sourcecfg = lambda value: 0x400 if value >> 10 & 1 else aplic.legal_mode(value)


@planted
def claimi_leaves_iforce() -> None:
    in_source(Domain, "claim", "self.iforce[hart] = 0", "pass")


@planted
def claimi_clears_iforce_with_a_source() -> None:
    in_source(Domain, "claim", "if top:", "self.iforce[hart] = 0\n    if top:")


@planted
def ithreshold_lets_itself_through() -> None:
    in_source(Domain, "top", "priority < threshold", "priority <= threshold")


@planted
def the_greatest_number_of_one_priority_is_on_top() -> None:
    in_source(Domain, "top", "(priority, source))\n    return best[1] << 16",
              "(priority, -source))\n    return -best[1] << 16")


@planted
def topi_needs_ie() -> None:
    in_source(Domain, "top", "if self.by_msi:", "if self.by_msi or not self.is_on:")


@planted
def the_domain_signals_without_ie() -> None:
    in_source(Domain, "signals", "and self.is_on and", "and")


@planted
def genmsi_needs_ie() -> None:
    in_source(Domain, "write_genmsi", "self.genmsi_waits = True", "self.genmsi_waits = self.is_on")


@planted
def genmsi_counts_in_direct_delivery() -> None:
    in_source(Domain, "write_genmsi", "if self.by_msi:", "if True:")


@planted
def a_hart_that_is_not_there_is_kept() -> None:
    in_source(Domain, "hart_kept", "if hart < self.aplic.harts else 0", "if True else 0")


@planted
def a_priority_of_0_is_kept() -> None:
    in_source(Domain, "write_target", "(value & 0xff or 1)", "(value & 0xff)")


@planted
def the_lock_locks_two_registers() -> None:
    in_source(Aplic, "write_address", "if self.addresses[\"mmsiaddrcfgh\"] >> 31:",
              "if self.addresses['mmsiaddrcfgh'] >> 31 and register[0] == 'm':")


@planted
def groups_are_ignored() -> None:
    in_source(Aplic, "msi_address", "group << field(shape, 28, 24) + 12 | ", "")


@planted
def the_child_has_registers_of_addresses() -> None:
    in_source(Aplic, "load", " if domain is self.root else 0", "")


@planted
def a_forward_leaves_the_pending_bit() -> None:
    in_source(Aplic, "take_msis", "domain.pending &= ~ready",
              "domain.pending &= ~(ready & ~domain.level)")


@planted
def msis_to_guest_files_ask_without_a_pass() -> None:
    in_source(Machine, "deliver_msis", "elif kind == \"machine\":",
              "elif kind == \"guest\":\n"
              "            for other in self.virtual_harts:\n"
              "                if other.origin == self.spot(address)[1:]:\n"
              "                    other.file.store(0, value)\n"
              "        elif kind == \"machine\":")


# Majors.

@planted
def ties_go_to_the_majors_before_the_external_one() -> None:
    majors.OTHERS = ((1, 8, 0), (5, 24, 0), (13, 40, 0))


@planted
def a_byte_of_0_counts_as_0() -> None:
    in_source(Majors, "candidates", "or_256(self.hviprio1 >> low & 0xff)",
              "(self.hviprio1 >> low & 0xff)")


@planted
def iprio_0_counts_as_256_whatever_dpr_is() -> None:
    in_source(Majors, "candidates", "(priority, 0, major)", "(or_256(priority), 0, major)")


@planted
def dpr_is_the_other_way_round() -> None:
    in_source(Majors, "candidates", "if self.hvictl >> 9 & 1", "if not self.hvictl >> 9 & 1")


@planted
def iid_9_is_a_candidate() -> None:
    in_source(Majors, "candidates", "if major != 9:", "if True:")


@planted
def stopi_shows_256() -> None:
    in_source(Majors, "stopi", "min(first[0], 255)", "(first[0] & 0x1ff)")


@planted
def a_virtual_hart_writes_bit_9_of_sip() -> None:
    majors.GUESTS_OWN |= 1 << 9


@planted
def a_virtual_hart_does_not_write_bit_13_of_sip() -> None:
    majors.GUESTS_OWN = 1 << 1


@planted
def stopi_is_virtual_under_vti() -> None:
    in_source(Machine, "g", "if csr == \"topi\":",
              "if csr == 'topi' and majors.is_virtual(): raise Refused('virtual')\n"
              "    if csr == \"topi\":")


@planted
def hvictl_checks_iid_without_vti() -> None:
    setattr(model, "is_hvictl", lambda value: 1 <= value >> 16 & 0xfff <= 63)


# What lines name, and the order of words.

@planted
def the_mask_is_packed_the_other_way() -> None:
    in_source(Vm, "file_number", "enumerate(self.ones)", "enumerate(self.ones[::-1])")


@planted
def high_bits_of_an_msi_address_are_dropped() -> None:
    in_source(Vm, "has_address", "address >> 12 |", "(address & 0xffffffff) >> 12 |")


@planted
def full_comes_after_other() -> None:
    in_source(Machine, "send", "unless(len(sender.flight) < 8, \"full\")\n"
              "    hart = self.device_target(sender, address)\n",
              "hart = self.device_target(sender, address)\n"
              "    unless(len(sender.flight) < 8, \"full\")\n")


@planted
def unready_comes_before_passed() -> None:
    in_source(Machine, "pass_", "unless(source not in self.passed, \"passed\")\n",
              "unless(self.aplic.is_passable(source), \"unready\")\n"
              "    unless(source not in self.passed, \"passed\")\n")


@planted
def a_store_in_flight_that_names_no_identity_is_dropped() -> None:
    def send(old: Callable[..., str], machine: Machine, vm: int, address: int, value: int) -> str:
        answer = old(machine, vm, address, value)
        if not interrupt_file.requested(machine.greatest, address & 0xfff, value):
            machine.vms[vm].flight.pop()
        return answer
    around(Machine, "send", send)


@planted
def gfault_comes_before_away() -> None:
    in_source(Machine, "ipi", "unless(hart.home in",
              "unless(peer < len(self.vms[vm].harts), 'gfault')\n    unless(hart.home in")


@planted
def numbers_are_cut_to_32_bits() -> None:
    around(Machine, "hart_named", lambda old, machine, vm,
           number: old(machine, vm, number & 0xffffffff))


# Images.

@planted
def load_of_a_word_sends_no_notice() -> None:
    in_source(Machine, "load_word", "if hart.is_live(word_mask(word)):", "if False:")


@planted
def load_of_a_word_looks_at_all_words() -> None:
    in_source(Machine, "load_word", "if hart.is_live(word_mask(word)):", "if hart.is_live():")


@planted
def load_of_a_word_replaces_pending_bits() -> None:
    in_source(Machine, "load_word", "hart.file.pending |= pending << 64 * word",
              "hart.file.pending = hart.file.pending & ~word_mask(word) | pending << 64 * word")


@planted
def load_of_a_word_joins_enables() -> None:
    in_source(Machine, "load_word", "hart.file.enabled & ~word_mask(word) |", "hart.file.enabled |")


@planted
def load_of_an_image_leaves_the_select_number() -> None:
    in_source(Machine, "load_image", "threshold, select\n", "threshold, file.select\n")


@planted
def save_shows_the_signal() -> None:
    in_source(Machine, "save", "(majors.injected, majors.enabled)",
              "(majors.sip(file.signals()), majors.enabled)")


@planted
def load_takes_bit_0() -> None:
    in_source(Machine, "load_word", "(word or not (pending | enabled) & 1)", "True")


def listed() -> str:
    """The head comment, and each error by its name."""
    return "\n    ".join([f"{__doc__.strip()}\n", *PLANTS])


def check(name: str) -> None:
    """Ends with status 2, and the names that there are, where an error is none of these."""
    if name not in PLANTS:
        near = difflib.get_close_matches(name, PLANTS, 1, 0)
        words.fail(f"there is no plant {name}; the nearest is {near[0]}\n\n{listed()}")


def main() -> int:
    given = words.given(listed(), lambda given: given)
    check(given[0])
    # A command for the model ends with its word `replay`.
    if given[1:] not in ([], ["replay"]):
        words.fail(f"one plant is wanted, and not {' '.join(given)}")
    plant(given[0])
    model.replay()
    return 0
