//! A table in safe Rust: a region borrows it, so no table ends and no region is exited too early. It makes the calls
//! that a compiler would make its runtime do for
//!
//! ```c
//! double a[4] = {1, 2, 3, 4}, b[2] = {0, 0};
//! #pragma acc data copy(a[0:4])
//! {
//!     #pragma acc parallel present(a)
//!     reverse(a, 4);
//!     #pragma acc data copyout(b[0:2]) async(3)
//!     ..
//! }
//! ```

use lamwiest::{Async, Clause, Directive, Limits, Refused, Span, Table};
use std::panic::{self, AssertUnwindSafe};
use std::process::ExitCode;

fn run() -> Result<(), Refused> {
    let mut table = Table::new(Limits { devices: 2, ..Limits::default() })?;
    let a = table.array::<f64>(4)?;
    let b = table.array::<u32>(2)?;
    table.write(a, &[1.0, 2.0, 3.0, 4.0])?;
    table.write(b, &[7, 8])?;

    let mut region = table.region(1, &[a.item(Clause::Copy)])?;
    let sum = region.run(a, |a| {
        a.reverse();
        a.iter().sum::<f64>()
    })?;
    println!("sum {sum}");
    print!("{}", region.report()?);
    let mut inner = region.region(1, &[b.item(Clause::Copy)])?;
    inner.run(b.part(1, 1), |b| b[0] += 1)?;
    println!("on the device {:?}", inner.read_device(1, b)?);
    inner.exit()?;
    region.update(1, &[a.part(0, 1).item(Clause::ToSelf)], false, Async::Queue(3))?;
    println!("copies made: {}", region.wait(1, Some(3))?);
    region.exit()?;

    if let Err(refused) = table.region(0, &[a.item(Clause::Present)]) {
        println!("refused {refused}, {}", refused.name());
    }
    let update = Directive::Update { if_present: false, asynchronous: Async::Sync };
    for (name, directive, clause) in [("data", Directive::Data, Clause::Copy), ("update", update, Clause::ToSelf)] {
        tell(&format!("judged {name}"), table.judge(0, directive, &[a.item(clause)]));
    }
    println!("copies made: {}", table.carry_out(1, Directive::Wait(None), &[])?);
    println!("{:?} {:?}", table.read(a)?, table.read(b)?);
    print!("{}", table.report()?);
    println!("events folded: {}", table.rebase()?);
    let mut copy = table.try_clone()?;
    print!("the same: {}", copy.is_same_as(&mut table)?);
    copy.write(b, &[1, 2])?;
    println!(", and then: {}", copy.is_same_as(&mut table)?);
    let script = format!("array a 64\n{}", "show a\n".repeat(100));
    let (printed, ended) = lamwiest::run_script(Limits::default(), &script);
    println!("printed: {} bytes, {ended:?}", printed.len());
    let small = Limits { host: 16, ..Limits::default() };
    if let (printed, Err(fault)) = lamwiest::run_script(small, "array a 2\nshow a\narray b 1") {
        println!("printed: {printed}{fault}");
    }
    Ok(())
}

fn tell<T>(what: &str, made: Result<T, Refused>) {
    match made {
        Ok(_) => println!("{what}: done"),
        Err(refused) => println!("{what}: refused {refused}"),
    }
}

/// Sections that are not in host memory, however far behind it.
fn far_sections() -> Result<(), Refused> {
    let mut table = Table::new(Limits::default())?;
    let a = table.array::<f64>(4)?;
    tell("part that wraps", table.region(0, &[a.part(usize::MAX / 8 + 1, 1).item(Clause::Copy)]));
    tell("part of the last address", table.region(0, &[a.part(usize::MAX, 1).item(Clause::Copy)]));
    for count in [8_192, 8_193, 1 << 44, usize::MAX] {
        let section = Span::<u64>::at(a.start(), count);
        tell(&format!("read {count}"), table.read(section));
        tell(&format!("on the device {count}"), table.read_device(0, section));
    }
    Ok(())
}

/// A kernel runs only where there is room for both its events. What it leaves lent comes back.
fn lent_blocks() -> Result<(), Refused> {
    let mut table = Table::new(Limits { trace_cap: 2, ..Limits::default() })?;
    let a = table.array::<u8>(1)?;
    let mut region = table.region(0, &[a.item(Clause::Copy)])?;
    let mut kernels = 0;
    tell("kernel with room for one event", region.run(a, |_| kernels += 1));
    println!("kernels: {kernels}, events folded: {}", region.rebase()?);
    tell("kernel with room for two", region.run(a, |a| a[0] = 7));
    println!("events folded: {}", region.rebase()?);
    let panicked = panic::catch_unwind(AssertUnwindSafe(|| {
        region.run(a, |a| {
            a[0] += 1;
            panic::resume_unwind(Box::new("no message"));
        })
    }));
    println!("panicked: {}", panicked.is_err());
    tell("copy", region.try_clone());
    println!("events folded: {}", region.rebase()?);
    tell("exit", region.exit());
    println!("{:?}", table.read(a)?);

    let mut table = Table::new(Limits { tickets: 2, ..Limits::default() })?;
    let a = table.array::<u8>(1)?;
    let mut region = table.region(0, &[a.item(Clause::Copy)])?;
    tell("kernel with one ticket", region.run(a, |a| a[0] = 7));
    tell("exit", region.exit());
    println!("{:?}", table.read(a)?);
    table.reset()?;
    println!("begun anew: {}", table.array::<u8>(1)?.start() == a.start());
    Ok(())
}

fn main() -> ExitCode {
    match run().and_then(|()| far_sections()).and_then(|()| lent_blocks()) {
        Ok(()) => ExitCode::SUCCESS,
        Err(refused) => {
            eprintln!("safe: refused {refused}");
            ExitCode::FAILURE
        }
    }
}
