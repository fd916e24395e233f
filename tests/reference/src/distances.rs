//! The allowance is a distance: runs C1 to C11 with figures typed by hand, each of which some wrong reading gets wrong, and for
//! each run the sheet of one cue that asks for it, with what the program prints.

use crate::figures::Figures;
use crate::paper::{p3, p4, p8};
use crate::report::told_of_one_cue;
use crate::scripts::Call;
use crate::sheet::{of_one_cue, Sheet};
use crate::{by_distance, Limits, Table, DONE, MET, NONE, S, SPENT};

/// A run on an opened table: what it is asked for, then number, low, high, count, verdict and figure.
pub struct Case {
    name: &'static str,
    table: Table,
    root: (u64, u64),
    limits: Limits,
    answer: [u64; 6],
}

impl Case {
    pub fn figures(self) -> Figures {
        let run = (Call::Run(self.limits), self.answer);
        (self.name, self.table, self.root, vec![run])
    }

    /// Its name, its sheet and the text of that.
    pub fn printed(self) -> (&'static str, Sheet, String) {
        let sheet = of_one_cue(self.table, self.limits);
        (self.name, sheet, told_of_one_cue(self.answer))
    }
}

/// C1 to C11.
pub fn cases() -> Vec<Case> {
    let case = |name, table, root, (allowance, budget), answer| Case {
        name,
        table,
        root,
        limits: by_distance(allowance, budget),
        answer,
    };
    let of_p3 = |name, limits, answer| case(name, p3(), (111_111_110, 111_111_111), limits, answer);
    let of_p4 = |name, limits, answer| case(name, p4(), (250_000_000, 350_000_000), limits, answer);
    let of_p8 = |name, limits, answer| case(name, p8(), (555_555_555, 666_666_666), limits, answer);
    let (third, whole) = (
        111_111_110,
        [0, 250_000_000, 350_000_000, 0, MET, 300_000_000],
    );
    vec![
        of_p3(
            "C1: a width of 1",
            (0, 255),
            [0, third, third + 1, 0, DONE, third],
        ),
        of_p3(
            "C2: half of it is 0",
            (1, 255),
            [0, third, third + 1, 0, MET, third],
        ),
        of_p8(
            "C3: twice and 1 more",
            (55_555_555, 255),
            [0, 555_555_555, 555_555_556, 1, MET, 555_555_555],
        ),
        of_p8(
            "C4: twice less 1",
            (55_555_556, 255),
            [0, 555_555_555, 666_666_666, 0, MET, 611_111_110],
        ),
        of_p4(
            "C5: two steps",
            (24_999_999, 255),
            [0, 300_000_000, 300_000_000, 2, MET, 300_000_000],
        ),
        of_p4(
            "C6: one step",
            (25_000_000, 255),
            [0, 300_000_000, 350_000_000, 1, MET, 325_000_000],
        ),
        of_p4("C7: no step", (50_000_000, 255), whole),
        of_p4(
            "C8: a figure though spent",
            (49_999_999, 0),
            [0, 250_000_000, 350_000_000, 0, SPENT, 300_000_000],
        ),
        of_p4("C9: met before spent", (50_000_000, 0), whole),
        of_p4("C10: the largest allowance", (S, 255), whole),
        of_p4(
            "C11: 14, and no figure",
            (S + 1, 255),
            [14, 0, S, 0, NONE, 0],
        ),
    ]
}
