//! The library through its C interface (include/cue_risk.h).

/// The functions of a build but for its runs, by its symbols for `cue_sheet_report` and `cue_open`.
macro_rules! build {
    ($report:literal, $open:literal) => {
        use crate::formula::Table;
        use crate::run::{Answer, Limits};
        use crate::tree::Tree;

        extern "C" {
            #[link_name = $report]
            fn cue_sheet_report(
                sheet: *const u8,
                len: usize,
                space: *mut u8,
                room: usize,
            ) -> Answer;
            #[link_name = $open]
            fn cue_open(
                tree: *mut Tree,
                weights: *const u32,
                faults: usize,
                present: *const u64,
                presents: usize,
                absent: *const u64,
                absents: usize,
            ) -> Answer;
        }

        /// The report of a sheet at the front of the space; its length.
        pub fn report(sheet: &[u8], space: &mut [u8]) -> usize {
            // Sound: both are lent for the call, with their lengths.
            let answer = unsafe {
                cue_sheet_report(sheet.as_ptr(), sheet.len(), space.as_mut_ptr(), space.len())
            };
            assert_eq!(answer.number, 0);
            answer.count as usize
        }

        pub fn open(tree: &mut Tree, table: &Table) -> Answer {
            // Sound: the tree has the header's layout, and all is lent for the call, with its lengths.
            unsafe {
                cue_open(
                    tree,
                    table.weights.as_ptr(),
                    table.weights.len(),
                    table.present.as_ptr(),
                    table.present.len(),
                    table.absent.as_ptr(),
                    table.absent.len(),
                )
            }
        }
    };
}

/// A run of a build, by its symbol for `cue_run`: with the mode behind the budget, or without.
macro_rules! run {
    ($symbol:literal, $name:ident $(, $mode:ident)?) => {
        pub fn $name(tree: &mut Tree, table: &Table, limits: Limits) -> Answer {
            extern "C" {
                #[link_name = $symbol]
                fn cue_run(
                    tree: *mut Tree,
                    weights: *const u32,
                    faults: usize,
                    present: *const u64,
                    presents: usize,
                    absent: *const u64,
                    absents: usize,
                    allowance: u64,
                    budget: u64,
                    $($mode: u64,)?
                ) -> Answer;
            }
            // Sound: the tree has the header's layout, and all is lent for the call, with its lengths.
            unsafe {
                cue_run(
                    tree,
                    table.weights.as_ptr(),
                    table.weights.len(),
                    table.present.as_ptr(),
                    table.present.len(),
                    table.absent.as_ptr(),
                    table.absent.len(),
                    limits.allowance,
                    limits.budget,
                    $(limits.$mode,)?
                )
            }
        }
    };
}

build!("cue_sheet_report", "cue_open");
run!("cue_run", run, mode);

// Not of every build: another one may be older than these.
extern "C" {
    fn cue_csv_import(text: *const u8, len: usize, space: *mut u8, room: usize) -> Answer;
    fn cue_csv_export(sheet: *const u8, len: usize, space: *mut u8, room: usize) -> Answer;
}

pub fn import(text: &[u8], space: &mut [u8]) -> Answer {
    // Sound: both are lent for the call, with their lengths.
    unsafe { cue_csv_import(text.as_ptr(), text.len(), space.as_mut_ptr(), space.len()) }
}

pub fn export(sheet: &[u8], space: &mut [u8]) -> Answer {
    // Sound: as above.
    unsafe { cue_csv_export(sheet.as_ptr(), sheet.len(), space.as_mut_ptr(), space.len()) }
}

/// Another build, linked by `tests/bench.sh beside` alone. Its symbol for runs has one of two types, as its version tells.
#[cfg(beside)]
#[allow(clashing_extern_declarations)]
pub mod other {
    build!("other_cue_sheet_report", "other_cue_open");
    run!("other_cue_run", run_in_a_mode, mode);
    run!("other_cue_run", run_by_distance);

    extern "C" {
        #[link_name = "other_cue_version"]
        fn cue_version() -> u64;
    }

    /// The first version whose runs take a mode.
    const WITH_MODES: u64 = 6;

    /// Its runs. Where they take no mode, none by share may be asked for.
    pub fn run() -> fn(&mut Tree, &Table, Limits) -> Answer {
        // Sound: it takes nothing.
        match unsafe { cue_version() } {
            WITH_MODES.. => run_in_a_mode,
            _ => run_by_distance,
        }
    }
}

// Logs

#[repr(C)]
struct Fraction {
    number: u64,
    discarded: u64,
    judged: u64,
}

extern "C" {
    fn cue_log(log: *const u8, len: usize) -> Fraction;
}

/// The fraction of a log; none if it is refused.
pub fn count(log: &[u8]) -> Option<(u64, u64)> {
    // Sound: the log is lent for the call, with its length.
    let answer = unsafe { cue_log(log.as_ptr(), log.len()) };
    (answer.number == 0).then_some((answer.discarded, answer.judged))
}
