//! Makes each call on a case file from standard input, and generates a load, in a thread whose stack has the module's
//! size for it. Where a size is too small, the system ends the program.

use causes::sizes::LOAD_BYTES;
use causes::{lent, stack, Case, Refusal};
use std::io::{self, Read};
use std::process::ExitCode;
use std::thread;

/// What `call` answers in a thread with `bytes` bytes of stack.
fn in_thread<R: Send>(bytes: usize, call: impl FnOnce() -> R + Send) -> io::Result<R> {
    thread::scope(|scope| {
        let running = thread::Builder::new().stack_size(bytes).spawn_scoped(scope, call)?;
        Ok(running.join().expect("a call that ends"))
    })
}

/// Makes the six calls on `file`, and generates a load of most atoms and clauses; the length of the file's report.
fn calls(file: &[u8]) -> io::Result<Result<usize, Refusal>> {
    let case = match in_thread(stack::READ, || Case::read(file))? {
        Ok(case) => case,
        Err(refusal) => return Ok(Err(refusal)),
    };
    let last = case.settings() - 1;
    let settled = in_thread(stack::SETTLE, || case.settle(last))?;
    let answer = in_thread(stack::QUESTION, || case.question())?;
    let layers = in_thread(stack::LAYERS, || lent::layers(case.record(), case.tables()))?;
    let text = in_thread(stack::WRITE, || case.write())?;
    let report = in_thread(stack::REPORT, || causes::report(file))?;
    let mut out = [0; LOAD_BYTES];
    let load = in_thread(stack::GENERATE, || causes::generate(1, 64, 256, &mut out))?;
    println!("{} rounds, the last setting {:?}", answer.rounds, settled.map(|s| s.rounds));
    println!("{} decided atoms, the last setting {:?}", answer.decided, settled.map(|s| s.decided));
    println!("{} cents for the cheapest explanation", answer.cost);
    println!("layered: {:?}", layers.map(|l| l.numbers().is_some()));
    println!("written back in {:?} bytes", text.map(|t| t.len()));
    println!("a load of {load:?} bytes");
    Ok(report.map(|text| text.len()))
}

fn main() -> ExitCode {
    let mut file = Vec::new();
    let read = io::stdin().read_to_end(&mut file);
    match read.and_then(|_| calls(&file)) {
        Ok(Ok(bytes)) => {
            println!("a report of {bytes} bytes");
            ExitCode::SUCCESS
        }
        Ok(Err(refusal)) => {
            println!("{refusal}");
            ExitCode::FAILURE
        }
        Err(fault) => {
            println!("{fault}");
            ExitCode::FAILURE
        }
    }
}
