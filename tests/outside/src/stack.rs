//! The stack on which a call of the library is made.

use crate::calls;
use crate::tally::Call;
use std::thread;

#[derive(Clone, Copy)]
pub enum Stack {
    /// That of the tests.
    Ample,
    /// A thread's of its own, no larger than what the header says that a call may need.
    Least,
}

impl Stack {
    /// A call that needs more ends the process, with the function's name on the standard error.
    pub fn make<T: Send>(self, call: Call, body: impl FnOnce() -> T + Send) -> T {
        match self {
            Stack::Ample => body(),
            Stack::Least => thread::scope(|scope| {
                let thread = thread::Builder::new().name(call.name().into()).stack_size(calls::STACK);
                let thread = thread.spawn_scoped(scope, body).expect("a thread");
                thread.join().expect("a call that does not panic")
            }),
        }
    }
}
