// SPDX-License-Identifier: Apache-2.0

//! The library from Rust, by the wrapper in `bindings/rust`: texts, calls without text, a model
//! that goes to another thread, and a virtual hart that is carried to another model.
//! `examples/check-library` builds it with rustc.

#[path = "../bindings/rust/src/lib.rs"]
#[allow(dead_code)]
mod aia;

use aia::{Answer, Code, Csr, Model, Op};

fn main() -> Answer<()> {
    let mut model = Model::new()?;
    println!("{:?} {}", model.store(0x2800_0000, 5), Code::NoMachine);
    for line in [
        "machine 1 0 63 1",
        "h 0 csrrw siselect 0x70",
        "h 0 csrrw sireg 1",
    ] {
        print!("{}", model.line(line)?);
    }
    model.csr(0, Csr::Siselect, Op::Write(0xc0))?;
    model.csr(0, Csr::Sireg, Op::Write(0x20))?;
    model.store(0x2800_0000, 5)?;
    println!("{:?} {:?}", model.signals(0)?, model.signals(1));
    let thread = std::thread::spawn(move || {
        let claimed = model.csr(0, Csr::Stopei, Op::Write(0));
        (claimed, model.reset(), model.text("pins 0"))
    });
    let (claimed, reset, none) = thread.join().expect("a thread");
    println!("{:#x} {reset:?} {none:?}", claimed?);
    carry()
}

/// Saves a virtual hart in one model, and loads it into another.
fn carry() -> Answer<()> {
    let (mut old, mut new) = (Model::new()?, Model::new()?);
    for model in [&mut old, &mut new] {
        model.machine(1, 1, 63, 1)?;
        model.vm(1, 0x8, 0)?;
    }
    old.arrive(0, 0, 0)?;
    old.guest_csr(0, 0, Csr::Siselect, Op::Write(0xc0))?;
    old.guest_csr(0, 0, Csr::Sireg, Op::Write(0x28))?;
    old.msi(0, 0x2800_0000, 5)?;
    old.leave(0, 0)?;
    for k in 0..4 {
        let part = old.save(0, 0, k)?;
        println!("{part:?}");
        new.load_part(0, 0, part)?;
    }
    new.arrive(0, 0, 0)?;
    println!("{:#x}", new.guest_csr(0, 0, Csr::Stopei, Op::Write(0))?);
    Ok(())
}
