//! Scripts with the answers that they must give: the input of the library's test program
//! and the lines it is held to. Nothing of the library is asked; small tables are counted
//! over all assignments, and the rules' figures stand in `paper` and `scripts`.

use crate::paper::{cases, limits, orders};
use crate::run::run;
use crate::scripts::{scripts, Call, Damage, Line, Script};
use crate::shares::is_near;
use crate::table::{Count, MOST_COUNTED};
use crate::tree::{open, refine_by_hand, Entry, State};
use crate::{Act, Answer, Limits, Table, Tree, LONGEST_PLACE, MET};

/// The test program has room for a place of so many steps.
const MOST_STEPS: usize = LONGEST_PLACE + 6;

/// What the test program reads, and what it must write.
pub struct Vectors {
    pub input: String,
    pub expected: String,
}

/// The input: how many scripts, then for each a line with 1 if its table is opened or 0 if
/// the tree of the script before is handed on, the lengths of the three lists, the
/// weights, the present and the absent words and how many lines follow. A line is a call: 0,
/// the length of the place, its steps, 0 for independence, 1 for a fault or 2 for the common part, and
/// the fault, 0 where there is none; or 1, allowance, budget and mode. Or it is 2, the record, the field and
/// what is added there, and a call; or 3, all places; or 4 and a call, with all places then and the
/// tree kept as it was. The expected lines: number, low, high and count, and a run's verdict and figure;
/// of a place 1 for a leaf, 2 for independence, 3 for a fault, 4 for the common part, the fault, 1 for an
/// open leaf, low and high, a node before those below it, left before right. Panics where an answer
/// breaks the rules.
pub fn vectors() -> Vectors {
    check_paper();
    let scripts = scripts();
    let mut vectors = Vectors {
        input: format!("{}\n", scripts.len()),
        expected: String::new(),
    };
    let mut tree = Tree::default();
    for script in &scripts {
        vectors.add(script, &mut tree);
    }
    vectors
}

impl Vectors {
    /// Adds a script, and its answers on the tree that it is handed.
    fn add(&mut self, script: &Script, tree: &mut Tree) {
        let Script {
            opens,
            table,
            lines,
        } = script;
        let mut head = vec![u64::from(*opens)];
        head.extend(table_numbers(table));
        head.push(lines.len() as u64);
        self.input.push_str(&text(&head));
        let counted = Counted::new(table);
        if *opens {
            let (answer, opened) = open(table);
            *tree = opened;
            counted.check(&answer);
            self.expected.push_str(&text(&figures(&answer)));
        }
        for line in lines {
            self.input.push_str(&text(&line_numbers(line)));
            self.answer(&counted, tree, line);
        }
    }

    /// Adds what a line must print, and brings the tree where it leads.
    fn answer(&mut self, counted: &Counted, tree: &mut Tree, line: &Line) {
        let table = counted.table;
        match line {
            Line::Call(call) => self.tell(counted, call, make(table, tree, call)),
            Line::Damaged(damage, call) => {
                let answer = make_damaged(table, tree, *damage, call);
                self.tell(counted, call, answer);
            }
            Line::Show => self.show(counted, tree),
            Line::Try(call) => {
                let mut tried = tree.clone();
                self.tell(counted, call, make(table, &mut tried, call));
                self.show(counted, &tried);
            }
        }
    }

    fn tell(&mut self, counted: &Counted, call: &Call, answer: Answer) {
        counted.check(&answer);
        let mut told = figures(&answer).to_vec();
        if let Call::Run(limits) = call {
            counted.check_near(&answer, *limits);
            told.extend([answer.verdict, answer.figure]);
        }
        self.expected.push_str(&text(&told));
    }

    fn show(&mut self, counted: &Counted, tree: &Tree) {
        for entry in tree.places(counted.table) {
            counted.check_place(&entry);
            let (kind, fault, open) = match entry.state {
                State::Closed => (1, 0, 0),
                State::Open => (1, 0, 1),
                State::Refined(Act::Independence) => (2, 0, 0),
                State::Refined(Act::Fault(fault)) => (3, fault, 0),
                State::Refined(Act::Common) => (4, 0, 0),
            };
            let interval = entry.interval;
            let told = [kind, fault, open, interval.low, interval.high];
            self.expected.push_str(&text(&told));
        }
    }
}

/// Makes a call on a tree.
pub fn make(table: &Table, tree: &mut Tree, call: &Call) -> Answer {
    match call {
        Call::Hand(place, act) => refine_by_hand(table, tree, place, *act),
        Call::Run(limits) => run(table, tree, *limits),
    }
}

/// Makes a call on a tree with a damage. A changed number leaves no tree that 16 spares (`damages`
/// says why), so the answer is that for a tree without nodes, and the tree stays as it was.
fn make_damaged(table: &Table, tree: &mut Tree, damage: Damage, call: &Call) -> Answer {
    if damage.by == 0 {
        make(table, tree, call)
    } else {
        make(table, &mut Tree::default(), call)
    }
}

fn table_numbers(table: &Table) -> Vec<u64> {
    let lengths = [table.faults(), table.present.len(), table.absent.len()];
    let lengths = lengths.iter().map(|&length| length as u64);
    let weights = table.weights.iter().map(|&weight| u64::from(weight));
    let words = table.present.iter().chain(&table.absent).copied();
    lengths.chain(weights).chain(words).collect()
}

fn line_numbers(line: &Line) -> Vec<u64> {
    let (mut numbers, call) = match line {
        Line::Call(call) => (vec![], Some(call)),
        Line::Damaged(Damage { record, field, by }, call) => {
            (vec![2, *record, *field, *by], Some(call))
        }
        Line::Show => (vec![3], None),
        Line::Try(call) => (vec![4], Some(call)),
    };
    numbers.extend(call.into_iter().flat_map(call_numbers));
    numbers
}

/// Panics at a place that the test program has no room for.
fn call_numbers(call: &Call) -> Vec<u64> {
    match call {
        Call::Hand(place, act) => {
            assert!(place.len() <= MOST_STEPS, "no room: {call:?}");
            let mut numbers = vec![0, place.len() as u64];
            numbers.extend(place.iter().map(|&step| u64::from(step)));
            match *act {
                Act::Independence => numbers.extend([0, 0]),
                Act::Fault(fault) => numbers.extend([1, fault]),
                Act::Common => numbers.extend([2, 0]),
            }
            numbers
        }
        Call::Run(limits) => vec![1, limits.allowance, limits.budget, limits.mode],
    }
}

fn figures(answer: &Answer) -> [u64; 4] {
    [answer.number, answer.low, answer.high, answer.count]
}

fn text(numbers: &[u64]) -> String {
    let words: Vec<String> = numbers.iter().map(u64::to_string).collect();
    words.join(" ") + "\n"
}

/// A table with its count over all assignments, if it is an accepted one that is small enough.
struct Counted<'a> {
    table: &'a Table,
    count: Option<Count>,
}

impl Counted<'_> {
    fn new(table: &Table) -> Counted<'_> {
        let small = table.table_number() == 0 && table.faults() <= MOST_COUNTED;
        let count = small.then(|| Count::new(&table.weights));
        Counted { table, count }
    }

    /// An accepted call's interval encloses the table's chance.
    fn check(&self, answer: &Answer) {
        let Some(count) = &self.count else { return };
        if answer.number == 0 {
            let encloses = count.encloses(answer.low, answer.high, &self.table.ways());
            assert!(encloses, "{answer:?} does not enclose: {:?}", self.table);
        }
    }

    /// At met the chance is within the allowance of the figure, or by share both ends of the range within the share of it.
    fn check_near(&self, answer: &Answer, limits: Limits) {
        let Some(count) = &self.count else { return };
        if answer.verdict == MET {
            let sum = count.exact_sum(&self.table.ways());
            let near = is_near(count, &sum, answer, limits);
            assert!(near, "{answer:?} is not near: {:?}", self.table);
        }
    }

    /// A place's interval encloses the chance of its remaining ways, which is that of all before any was left out.
    fn check_place(&self, entry: &Entry) {
        let Some(count) = &self.count else { return };
        let sum = count.exact_sum(&entry.ways);
        assert!(sum == count.exact_sum(&entry.before), "{entry:?}");
        let encloses = count.encloses_sum(entry.interval.low, entry.interval.high, &sum);
        assert!(encloses, "{entry:?} does not enclose: {:?}", self.table);
    }
}

/// The rules' own figures: P1 to P9, and the numbers at the limits and in their order.
fn check_paper() {
    for case in cases() {
        let (answer, mut tree) = open(&case.table);
        let root = [0, case.root.0, case.root.1, 0];
        assert_eq!(figures(&answer), root, "{}", case.name);
        for (place, act, after) in &case.hand {
            let answer = refine_by_hand(&case.table, &mut tree, place, *act);
            assert_eq!(figures(&answer), [0, after.0, after.1, 1], "{}", case.name);
        }
    }
    for (number, table) in limits().into_iter().chain(orders()) {
        assert_eq!(open(&table).0.number, number, "{table:?}");
    }
}
