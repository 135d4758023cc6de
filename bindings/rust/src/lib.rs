// SPDX-License-Identifier: Apache-2.0

//! A model of the interrupt side of a RISC-V machine, by the library for C, `libaia`.
//!
//! Each method does one line of a script, which its comment names; docs/REFERENCE.md says what each
//! line does. A line that is refused, or can't be answered, is an `Err` with the code, and the
//! model is as before.
//!
//! The linker needs the library: `rustc -L FOLDER -l static=aia`, or `-l aia` for the shared one.

use std::fmt;
use std::ptr;

/// What a call says of itself; from 16 on, what the answer to its line is.
#[derive(Clone, Copy, Debug, PartialEq, Eq, Hash)]
#[repr(i32)]
pub enum Code {
    Done = 0,
    NoMemory = 1,
    Closed = 2,
    Open = 3,
    NoRoom = 4,
    NoLine = 5,
    NoMachine = 16,
    Again = 17,
    Moving = 18,
    Bad = 19,
    Range = 32,
    Full = 33,
    Busy = 34,
    Home = 35,
    Entered = 36,
    Parked = 37,
    NoFile = 38,
    Passed = 39,
    Unready = 40,
    Idle = 41,
    Away = 42,
    Illegal = 43,
    Virtual = 44,
    Fault = 45,
    Guarded = 46,
    Other = 47,
    NotValid = 48,
    GFault = 49,
}

impl Code {
    /// All codes, in the order of their numbers.
    pub const ALL: [Code; 28] = [
        Code::Done,
        Code::NoMemory,
        Code::Closed,
        Code::Open,
        Code::NoRoom,
        Code::NoLine,
        Code::NoMachine,
        Code::Again,
        Code::Moving,
        Code::Bad,
        Code::Range,
        Code::Full,
        Code::Busy,
        Code::Home,
        Code::Entered,
        Code::Parked,
        Code::NoFile,
        Code::Passed,
        Code::Unready,
        Code::Idle,
        Code::Away,
        Code::Illegal,
        Code::Virtual,
        Code::Fault,
        Code::Guarded,
        Code::Other,
        Code::NotValid,
        Code::GFault,
    ];

    /// Gives the code of a number; a library of the same major version has no other.
    fn of(number: i32) -> Code {
        let found = Code::ALL.iter().find(|code| **code as i32 == number);
        *found.expect("a code of include/aia.h")
    }

    /// Gives the word that answers have for a code from 16 on, `range` of `Range`; `None` of those
    /// below.
    pub fn word(self) -> Option<String> {
        let (mut name, mut written) = ([0; ANSWER], 0);
        let found =
            unsafe { ffi::aia_code_name(self as i32, name.as_mut_ptr(), name.len(), &mut written) };
        (found == 0).then(|| String::from_utf8_lossy(&name[..written]).into_owned())
    }
}

impl fmt::Display for Code {
    fn fmt(&self, to: &mut fmt::Formatter<'_>) -> fmt::Result {
        match self.word() {
            Some(word) => to.write_str(&word),
            None => write!(to, "{self:?}"),
        }
    }
}

impl std::error::Error for Code {}

/// What a line gives, or the code for which it gives nothing.
pub type Answer<T> = Result<T, Code>;

/// A CSR instruction, with its operand.
#[derive(Clone, Copy, Debug, PartialEq, Eq)]
pub enum Op {
    /// `csrr`
    Read,
    /// `csrrw`
    Write(u64),
    /// `csrrs`
    Set(u64),
    /// `csrrc`
    Clear(u64),
}

impl Op {
    fn parts(self) -> (u32, u64) {
        match self {
            Op::Read => (0, 0),
            Op::Write(operand) => (1, operand),
            Op::Set(operand) => (2, operand),
            Op::Clear(operand) => (3, operand),
        }
    }
}

/// CSRs, by their addresses: a hart has the first six, a virtual hart the last six.
#[derive(Clone, Copy, Debug, PartialEq, Eq)]
#[repr(u32)]
pub enum Csr {
    Miselect = 0x350,
    Mireg = 0x351,
    Mtopei = 0x35c,
    Siselect = 0x150,
    Sireg = 0x151,
    Stopei = 0x15c,
    Stopi = 0xdb0,
    Sip = 0x144,
    Sie = 0x104,
}

/// One part of an image of a virtual hart.
#[derive(Clone, Copy, Debug, PartialEq, Eq)]
pub enum Part {
    /// `image`: the version, N, D, T and S
    Image {
        version: u32,
        identities: u32,
        delivery: bool,
        threshold: u32,
        select: u64,
    },
    /// `majors`: J and E
    Majors { injected: u64, enabled: u64 },
    /// `prio`: P and V
    Prio { hviprio1: u64, hvictl: u64 },
    /// `word`: W, P and E
    Word {
        word: u64,
        pending: u64,
        enabled: u64,
    },
}

/// What an entry of an MSI table says.
#[derive(Clone, Copy, Debug, PartialEq, Eq)]
pub enum Entry {
    /// `basic`: the number of a page
    Basic {
        page: u64,
    },
    /// `mrif`: an address, the page to which notices go, and their identity
    Mrif {
        addr: u64,
        page: u64,
        identity: u64,
    },
    NotValid,
    Custom,
    Misconfigured,
}

/// What a hart is told.
#[derive(Clone, Copy, Debug, PartialEq, Eq)]
pub struct Signals {
    /// bit 0: the APLIC's root domain, bit 1 its child's, bit 2 the machine-level file, bit 3 the
    /// supervisor-level file
    pub pins: u32,
    /// bit g: guest file g
    pub hgeip: u64,
}

// Room that is enough for any answer with its LF, in bytes.
const ANSWER: usize = 64;

mod ffi {
    #[repr(C)]
    pub struct Aia {
        _opaque: [u8; 0],
    }

    /// A handle, by which each call reaches its model.
    pub type Handle = *mut *mut Aia;

    /// `aia_line` or `aia_text`.
    pub type Answering =
        unsafe extern "C" fn(Handle, *const u8, usize, *mut u8, usize, *mut usize) -> i32;

    unsafe extern "C" {
        pub fn aia_version() -> u32;
        pub fn aia_open(handle: Handle) -> i32;
        pub fn aia_reset(handle: Handle) -> i32;
        pub fn aia_close(handle: Handle);
        pub fn aia_line(
            handle: Handle,
            text: *const u8,
            length: usize,
            answer: *mut u8,
            room: usize,
            written: *mut usize,
        ) -> i32;
        pub fn aia_text(
            handle: Handle,
            text: *const u8,
            length: usize,
            answer: *mut u8,
            room: usize,
            written: *mut usize,
        ) -> i32;
        pub fn aia_code_name(code: i32, name: *mut u8, room: usize, written: *mut usize) -> i32;
        pub fn aia_replay(
            handle: Handle,
            script: *const u8,
            length: usize,
            taken: *mut usize,
            answers: *mut u8,
            room: usize,
            written: *mut usize,
        ) -> i32;
        pub fn aia_machine(handle: Handle, harts: u64, guests: u64, n: u64, sources: u64) -> i32;
        pub fn aia_vm(handle: Handle, vcpus: u64, mask: u64, hart: u64) -> i32;
        pub fn aia_wire(handle: Handle, source: u64, level: bool) -> i32;
        pub fn aia_store(handle: Handle, addr: u64, value: u32) -> i32;
        pub fn aia_load(handle: Handle, addr: u64, value: *mut u32) -> i32;
        pub fn aia_pins(handle: Handle, hart: u64, pins: *mut u32) -> i32;
        pub fn aia_hgeip(handle: Handle, hart: u64, value: *mut u64) -> i32;
        pub fn aia_signals(handle: Handle, hart: u64, pins: *mut u32, hgeip: *mut u64) -> i32;
        pub fn aia_csr(
            handle: Handle,
            hart: u64,
            csr: u32,
            op: u32,
            operand: u64,
            value: *mut u64,
        ) -> i32;
        pub fn aia_msi(handle: Handle, vm: u64, addr: u64, value: u32) -> i32;
        pub fn aia_send(handle: Handle, vm: u64, addr: u64, value: u32) -> i32;
        pub fn aia_land(handle: Handle, vm: u64, k: u64) -> i32;
        pub fn aia_refetch(handle: Handle, vm: u64, vcpu: u64) -> i32;
        pub fn aia_pass(handle: Handle, source: u64, vm: u64, vcpu: u64, identity: u64) -> i32;
        pub fn aia_guest_csr(
            handle: Handle,
            vm: u64,
            vcpu: u64,
            csr: u32,
            op: u32,
            operand: u64,
            value: *mut u64,
        ) -> i32;
        pub fn aia_ipi(handle: Handle, vm: u64, vcpu: u64, to: u64, value: u32) -> i32;
        pub fn aia_inject(handle: Handle, vm: u64, vcpu: u64, bit: u64, level: bool) -> i32;
        pub fn aia_hvictl(handle: Handle, vm: u64, vcpu: u64, value: u64) -> i32;
        pub fn aia_hviprio(handle: Handle, vm: u64, vcpu: u64, value: u64) -> i32;
        pub fn aia_save(
            handle: Handle,
            vm: u64,
            vcpu: u64,
            k: u64,
            kind: *mut u32,
            first: *mut u64,
            second: *mut u64,
            third: *mut u64,
            fourth: *mut u64,
            fifth: *mut u64,
        ) -> i32;
        pub fn aia_load_part(
            handle: Handle,
            vm: u64,
            vcpu: u64,
            kind: u32,
            first: u64,
            second: u64,
            third: u64,
            fourth: u64,
            fifth: u64,
        ) -> i32;
        pub fn aia_entry(
            handle: Handle,
            w0: u64,
            w1: u64,
            kind: *mut u32,
            first: *mut u64,
            second: *mut u64,
            third: *mut u64,
        ) -> i32;
        pub fn aia_arrive(handle: Handle, vm: u64, vcpu: u64, hart: u64) -> i32;
        pub fn aia_leave(handle: Handle, vm: u64, vcpu: u64) -> i32;
        pub fn aia_shift(handle: Handle, vm: u64, vcpu: u64, hart: u64) -> i32;
        pub fn aia_begin_arrive(handle: Handle, vm: u64, vcpu: u64, hart: u64) -> i32;
        pub fn aia_begin_leave(handle: Handle, vm: u64, vcpu: u64) -> i32;
        pub fn aia_begin_shift(handle: Handle, vm: u64, vcpu: u64, hart: u64) -> i32;
        pub fn aia_step(handle: Handle, vm: u64, vcpu: u64) -> i32;
        pub fn aia_enter(handle: Handle, vm: u64, vcpu: u64) -> i32;
        pub fn aia_exit(handle: Handle, vm: u64, vcpu: u64) -> i32;
    }
}

/// Gives the version of the library: 10000 is 1.0.0.
pub fn version() -> u32 {
    unsafe { ffi::aia_version() }
}

/// One model. It may go to another thread, and no two threads use it at once.
#[derive(Debug)]
pub struct Model {
    handle: *mut ffi::Aia,
}

unsafe impl Send for Model {}

impl Drop for Model {
    fn drop(&mut self) {
        unsafe { ffi::aia_close(&mut self.handle) }
    }
}

/// Gives `Ok` of the code of a call that did what its line says.
fn done(code: i32) -> Answer<()> {
    match Code::of(code) {
        Code::Done => Ok(()),
        other => Err(other),
    }
}

impl Model {
    /// Opens a model with no machine; `NoMemory`.
    pub fn new() -> Answer<Model> {
        let mut model = Model {
            handle: ptr::null_mut(),
        };
        done(unsafe { ffi::aia_open(&mut model.handle) })?;
        Ok(model)
    }

    /// Makes the model as new, with no machine.
    pub fn reset(&mut self) -> Answer<()> {
        done(unsafe { ffi::aia_reset(&mut self.handle) })
    }

    // ---- texts

    /// Answers one line, given without its LF; gives the answer with its LF, or nothing of an empty
    /// line or a comment. A refusal is an answer here.
    pub fn line(&mut self, text: &str) -> Answer<String> {
        let (code, answer) = self.answered(ffi::aia_line, text);
        done(code).map(|()| answer)
    }

    /// Answers one line; `Err` has the code of the answer, if that is no value.
    pub fn text(&mut self, text: &str) -> Answer<String> {
        let (code, answer) = self.answered(ffi::aia_text, text);
        done(code).map(|()| answer)
    }

    /// Answers one line by either call; gives the code, and what was written.
    fn answered(&mut self, call: ffi::Answering, text: &str) -> (i32, String) {
        let (mut answer, mut written) = ([0; ANSWER], 0);
        let code = unsafe {
            call(
                &mut self.handle,
                text.as_ptr(),
                text.len(),
                answer.as_mut_ptr(),
                answer.len(),
                &mut written,
            )
        };
        (
            code,
            String::from_utf8_lossy(&answer[..written]).into_owned(),
        )
    }

    /// Answers the lines of a script, the last of which may lack its LF; gives the answers. What
    /// comes in pieces is cut after an LF.
    pub fn replay(&mut self, script: &[u8]) -> Answer<Vec<u8>> {
        let (mut answers, mut rest, mut room) = (Vec::new(), script, vec![0; 1 << 16]);
        loop {
            let (mut taken, mut written) = (0, 0);
            let code = unsafe {
                ffi::aia_replay(
                    &mut self.handle,
                    rest.as_ptr(),
                    rest.len(),
                    &mut taken,
                    room.as_mut_ptr(),
                    room.len(),
                    &mut written,
                )
            };
            answers.extend_from_slice(&room[..written]);
            rest = &rest[taken..];
            match Code::of(code) {
                Code::Done => return Ok(answers),
                Code::NoRoom => {}
                other => return Err(other),
            }
        }
    }

    // ---- the machine

    /// `machine H G N S`: makes the machine.
    pub fn machine(&mut self, harts: u64, guests: u64, n: u64, sources: u64) -> Answer<()> {
        done(unsafe { ffi::aia_machine(&mut self.handle, harts, guests, n, sources) })
    }

    /// `vm C MASK HART`: makes the next VM.
    pub fn vm(&mut self, vcpus: u64, mask: u64, hart: u64) -> Answer<()> {
        done(unsafe { ffi::aia_vm(&mut self.handle, vcpus, mask, hart) })
    }

    /// `wire S L`: drives a wired source.
    pub fn wire(&mut self, source: u64, level: bool) -> Answer<()> {
        done(unsafe { ffi::aia_wire(&mut self.handle, source, level) })
    }

    /// `st A V`: stores 32 bits.
    pub fn store(&mut self, addr: u64, value: u32) -> Answer<()> {
        done(unsafe { ffi::aia_store(&mut self.handle, addr, value) })
    }

    /// `ld A`: loads 32 bits.
    pub fn load(&mut self, addr: u64) -> Answer<u32> {
        let mut value = 0;
        done(unsafe { ffi::aia_load(&mut self.handle, addr, &mut value) })?;
        Ok(value)
    }

    /// `h H csrr CSR`, `m H csrr CSR` and their kin: gives what the CSR had.
    pub fn csr(&mut self, hart: u64, csr: Csr, op: Op) -> Answer<u64> {
        let (mut value, (number, operand)) = (0, op.parts());
        done(unsafe {
            ffi::aia_csr(
                &mut self.handle,
                hart,
                csr as u32,
                number,
                operand,
                &mut value,
            )
        })?;
        Ok(value)
    }

    /// `pins H`: bit 0 is the first of its four digits.
    pub fn pins(&mut self, hart: u64) -> Answer<u32> {
        let mut pins = 0;
        done(unsafe { ffi::aia_pins(&mut self.handle, hart, &mut pins) })?;
        Ok(pins)
    }

    /// `h H hgeip`.
    pub fn hgeip(&mut self, hart: u64) -> Answer<u64> {
        let mut value = 0;
        done(unsafe { ffi::aia_hgeip(&mut self.handle, hart, &mut value) })?;
        Ok(value)
    }

    /// `pins H` and `h H hgeip` in one call.
    pub fn signals(&mut self, hart: u64) -> Answer<Signals> {
        let (mut pins, mut hgeip) = (0, 0);
        done(unsafe { ffi::aia_signals(&mut self.handle, hart, &mut pins, &mut hgeip) })?;
        Ok(Signals { pins, hgeip })
    }

    // ---- devices of VMs

    /// `msi VM A D`: a device stores 32 bits.
    pub fn msi(&mut self, vm: u64, addr: u64, value: u32) -> Answer<()> {
        done(unsafe { ffi::aia_msi(&mut self.handle, vm, addr, value) })
    }

    /// `send VM A D`: a device sends such a store, which lands later.
    pub fn send(&mut self, vm: u64, addr: u64, value: u32) -> Answer<()> {
        done(unsafe { ffi::aia_send(&mut self.handle, vm, addr, value) })
    }

    /// `land VM K`: store k in flight lands.
    pub fn land(&mut self, vm: u64, k: u64) -> Answer<()> {
        done(unsafe { ffi::aia_land(&mut self.handle, vm, k) })
    }

    /// `refetch VM C`: the IOMMU reads an entry again.
    pub fn refetch(&mut self, vm: u64, vcpu: u64) -> Answer<()> {
        done(unsafe { ffi::aia_refetch(&mut self.handle, vm, vcpu) })
    }

    /// `pass S VM C I`: a wired source is passed to a virtual hart.
    pub fn pass(&mut self, source: u64, vm: u64, vcpu: u64, identity: u64) -> Answer<()> {
        done(unsafe { ffi::aia_pass(&mut self.handle, source, vm, vcpu, identity) })
    }

    // ---- virtual harts

    /// `g VM C csrr CSR` and its kin: gives what the CSR had.
    pub fn guest_csr(&mut self, vm: u64, vcpu: u64, csr: Csr, op: Op) -> Answer<u64> {
        let (mut value, (number, operand)) = (0, op.parts());
        done(unsafe {
            ffi::aia_guest_csr(
                &mut self.handle,
                vm,
                vcpu,
                csr as u32,
                number,
                operand,
                &mut value,
            )
        })?;
        Ok(value)
    }

    /// `g VM C ipi C2 D`: a virtual hart stores to the file of another one.
    pub fn ipi(&mut self, vm: u64, vcpu: u64, to: u64, value: u32) -> Answer<()> {
        done(unsafe { ffi::aia_ipi(&mut self.handle, vm, vcpu, to, value) })
    }

    /// `inject VM C BIT L`: the hypervisor injects a major interrupt.
    pub fn inject(&mut self, vm: u64, vcpu: u64, bit: u64, level: bool) -> Answer<()> {
        done(unsafe { ffi::aia_inject(&mut self.handle, vm, vcpu, bit, level) })
    }

    /// `hvictl VM C V`.
    pub fn hvictl(&mut self, vm: u64, vcpu: u64, value: u64) -> Answer<()> {
        done(unsafe { ffi::aia_hvictl(&mut self.handle, vm, vcpu, value) })
    }

    /// `hviprio VM C V`.
    pub fn hviprio(&mut self, vm: u64, vcpu: u64, value: u64) -> Answer<()> {
        done(unsafe { ffi::aia_hviprio(&mut self.handle, vm, vcpu, value) })
    }

    /// `save VM C K`: gives part k of the image of a virtual hart.
    pub fn save(&mut self, vm: u64, vcpu: u64, k: u64) -> Answer<Part> {
        let (mut kind, mut n) = (0, [0; 5]);
        let [first, second, third, fourth, fifth] = &mut n;
        done(unsafe {
            ffi::aia_save(
                &mut self.handle,
                vm,
                vcpu,
                k,
                &mut kind,
                first,
                second,
                third,
                fourth,
                fifth,
            )
        })?;
        Ok(match kind {
            1 => Part::Image {
                version: n[0] as u32,
                identities: n[1] as u32,
                delivery: n[2] != 0,
                threshold: n[3] as u32,
                select: n[4],
            },
            2 => Part::Majors {
                injected: n[0],
                enabled: n[1],
            },
            3 => Part::Prio {
                hviprio1: n[0],
                hvictl: n[1],
            },
            _ => Part::Word {
                word: n[0],
                pending: n[1],
                enabled: n[2],
            },
        })
    }

    /// `load VM C PART`: loads a part of an image into a virtual hart.
    pub fn load_part(&mut self, vm: u64, vcpu: u64, part: Part) -> Answer<()> {
        let (kind, n) = match part {
            Part::Image {
                version,
                identities,
                delivery,
                threshold,
                select,
            } => {
                let numbers = [version.into(), identities.into(), delivery.into()];
                (
                    1,
                    [numbers[0], numbers[1], numbers[2], threshold.into(), select],
                )
            }
            Part::Majors { injected, enabled } => (2, [injected, enabled, 0, 0, 0]),
            Part::Prio { hviprio1, hvictl } => (3, [hviprio1, hvictl, 0, 0, 0]),
            Part::Word {
                word,
                pending,
                enabled,
            } => (4, [word, pending, enabled, 0, 0]),
        };
        done(unsafe {
            ffi::aia_load_part(
                &mut self.handle,
                vm,
                vcpu,
                kind,
                n[0],
                n[1],
                n[2],
                n[3],
                n[4],
            )
        })
    }

    /// `entry W0 W1`: gives what an entry of an MSI table says.
    pub fn entry(&mut self, w0: u64, w1: u64) -> Answer<Entry> {
        let (mut kind, mut n) = (0, [0; 3]);
        let [first, second, third] = &mut n;
        done(unsafe { ffi::aia_entry(&mut self.handle, w0, w1, &mut kind, first, second, third) })?;
        Ok(match kind {
            1 => Entry::Basic { page: n[0] },
            2 => Entry::Mrif {
                addr: n[0],
                page: n[1],
                identity: n[2],
            },
            3 => Entry::NotValid,
            4 => Entry::Custom,
            _ => Entry::Misconfigured,
        })
    }

    // ---- moves

    /// `arrive VM C H`: a virtual hart gets a guest file of a hart.
    pub fn arrive(&mut self, vm: u64, vcpu: u64, hart: u64) -> Answer<()> {
        done(unsafe { ffi::aia_arrive(&mut self.handle, vm, vcpu, hart) })
    }

    /// `leave VM C`: it gives its guest file back, and its interrupts rest in memory.
    pub fn leave(&mut self, vm: u64, vcpu: u64) -> Answer<()> {
        done(unsafe { ffi::aia_leave(&mut self.handle, vm, vcpu) })
    }

    /// `shift VM C H`: it goes to a guest file of another hart.
    pub fn shift(&mut self, vm: u64, vcpu: u64, hart: u64) -> Answer<()> {
        done(unsafe { ffi::aia_shift(&mut self.handle, vm, vcpu, hart) })
    }

    /// `begin arrive VM C H`: the same by steps.
    pub fn begin_arrive(&mut self, vm: u64, vcpu: u64, hart: u64) -> Answer<()> {
        done(unsafe { ffi::aia_begin_arrive(&mut self.handle, vm, vcpu, hart) })
    }

    /// `begin leave VM C`.
    pub fn begin_leave(&mut self, vm: u64, vcpu: u64) -> Answer<()> {
        done(unsafe { ffi::aia_begin_leave(&mut self.handle, vm, vcpu) })
    }

    /// `begin shift VM C H`.
    pub fn begin_shift(&mut self, vm: u64, vcpu: u64, hart: u64) -> Answer<()> {
        done(unsafe { ffi::aia_begin_shift(&mut self.handle, vm, vcpu, hart) })
    }

    /// `step VM C`: makes the next step of a move; tells whether the move goes on.
    pub fn step(&mut self, vm: u64, vcpu: u64) -> Answer<bool> {
        match Code::of(unsafe { ffi::aia_step(&mut self.handle, vm, vcpu) }) {
            Code::Done => Ok(false),
            Code::Moving => Ok(true),
            other => Err(other),
        }
    }

    /// `enter VM C`: it begins to run from memory.
    pub fn enter(&mut self, vm: u64, vcpu: u64) -> Answer<()> {
        done(unsafe { ffi::aia_enter(&mut self.handle, vm, vcpu) })
    }

    /// `exit VM C`: it ceases to run from memory.
    pub fn exit(&mut self, vm: u64, vcpu: u64) -> Answer<()> {
        done(unsafe { ffi::aia_exit(&mut self.handle, vm, vcpu) })
    }
}
