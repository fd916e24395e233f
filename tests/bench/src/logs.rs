//! Logs of sequence bytes, with the library's own loop: packet by packet, both counts held to the limit. And the logs that are measured.

/// A fraction: the packets discarded of those judged.
pub type Fraction = (u64, u64);

const LIMIT: u64 = 4_000_000_000;

/// A log while it is heard.
#[derive(Clone, Copy)]
struct Log {
    heard: bool,
    last: u8,
    discarded: u64,
    judged: u64,
}

fn is_discarded(last: u8, new: u8) -> bool {
    let difference = new.wrapping_sub(last) as i8;
    difference <= 0 && -20 < difference
}

fn is_full(log: Log) -> bool {
    log.judged > LIMIT || log.discarded > LIMIT
}

fn hear(log: Log, new: u8) -> Log {
    if !log.heard {
        return Log {
            heard: true,
            last: new,
            ..log
        };
    }
    let judged = log.judged + 1;
    if is_discarded(log.last, new) {
        return Log {
            discarded: log.discarded + 1,
            judged,
            ..log
        };
    }
    Log {
        last: new,
        judged,
        ..log
    }
}

/// The fraction of a log; none if it is too long.
pub fn count(bytes: &[u8]) -> Option<Fraction> {
    let mut log = Log {
        heard: false,
        last: 0,
        discarded: 0,
        judged: 0,
    };
    for &new in bytes {
        if is_full(log) {
            return None;
        }
        log = hear(log, new);
    }
    (!is_full(log) && log.discarded <= log.judged).then_some((log.discarded, log.judged))
}

/// Logs of so many packets, each with a name.
pub fn samples(packets: usize) -> Vec<(&'static str, Vec<u8>)> {
    let mut state: u64 = 88_172_645_463_325_252;
    let mut draw = move || {
        state ^= state << 13;
        state ^= state >> 7;
        state ^= state << 17;
        (state >> 32) as usize
    };
    let in_order: Vec<u8> = (0..packets).map(|i| i as u8).collect();
    let mut late = in_order.clone();
    for i in 0..packets - 10 {
        if draw() % 50 == 0 {
            let to = i + 1 + draw() % 9;
            late.swap(i, to);
        }
    }
    let drawn = (0..packets).map(|_| draw() as u8).collect();
    vec![
        ("in order", in_order),
        ("one in fifty exchanged with a later one", late),
        ("drawn", drawn),
        ("the same packet again", vec![7; packets]),
    ]
}
