//! The stack that is stated is enough. On one that is too small a call ends the program at the guard page: the
//! library touches every page of its stack in order, and so cannot pass over the guard.

use std::env;
use std::os::unix::process::ExitStatusExt;
use std::process::{Command, Output};
use std::thread;

use havtsulen::STACK_BYTES;

/// Set in the process that makes the calls: the bytes of the stack.
const STACK: &str = "HAVTSULEN_TEST_STACK";
/// The test that makes them there.
const CALLING: &str = "calls_on_a_stack_of_their_own";
/// What the thread itself and the frames of the wrapper take.
const OWN_BYTES: usize = 16384;
const SIGABRT: i32 = 6;

/// The two calls that take the most.
fn call() {
    let file = b"[Cell]\nSerial=A 17\n";
    let table = havtsulen::Table::read(file).unwrap();
    assert_eq!(table.entries().count(), 1);
    assert_eq!(havtsulen::normal(file).unwrap(), file);
}

#[test]
fn calls_on_a_stack_of_their_own() {
    let Ok(stack) = env::var(STACK) else {
        return;
    };
    let thread = thread::Builder::new().stack_size(stack.parse().unwrap());
    thread.spawn(call).unwrap().join().unwrap();
}

/// Makes the calls in a process of its own, on a stack of so many bytes.
fn call_with(stack: usize) -> Output {
    Command::new(env::current_exe().unwrap())
        .args(["--exact", CALLING, "--nocapture"])
        .env(STACK, stack.to_string())
        .output()
        .unwrap()
}

#[test]
fn the_stated_stack_is_enough() {
    let output = call_with(STACK_BYTES + OWN_BYTES);
    assert!(output.status.success(), "{output:?}");
}

#[test]
fn a_small_stack_ends_at_its_guard_page() {
    for stack in [32768, 49152, 65536] {
        let output = call_with(stack);
        assert_eq!(output.status.signal(), Some(SIGABRT), "{output:?}");
        let told = String::from_utf8_lossy(&output.stderr);
        assert!(told.contains("has overflowed its stack"), "{told}");
    }
}
