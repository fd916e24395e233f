//! The sample show, written out a second time: the stored sheet is what this implementation encodes, the stored text what
//! it exports, the figures that samples/README.md tells are its report, and a count over all assignments stands beside them.

use reference::csv::{joined, table};
use reference::files::{stored, stored_text};
use reference::report::{enclosing_lines, report};
use reference::run::run;
use reference::sheet::{encode, Sheet};
use reference::tree::open;
use reference::{by_distance, Limits, Table};

// The faults by number; in a way, !f names fault f absent.
const DROPPED: i64 = 0;
const SPARE_OFF: i64 = 1;
const RESENT_LATE: i64 = 2;
const SOUND_LATE: i64 = 3;
const DIMMER_SLOW: i64 = 4;
const PRESSED_TWICE: i64 = 5;
const HEADSET_DEAD: i64 = 6;
const LAMP_STUCK: i64 = 7;
const FOG_COLD: i64 = 8;
const WRONG_MARK: i64 = 9;

/// The chance of each fault.
const CHANCES: [f64; 10] = [
    0.0175, 0.1, 0.25, 0.04, 0.03, 0.0085, 0.0125, 0.035, 0.06, 0.075,
];

const HOUSE_LIGHTS: &[&[i64]] = &[&[DROPPED, RESENT_LATE]];
const THUNDER: &[&[i64]] = &[
    &[SOUND_LATE, !DIMMER_SLOW],
    &[DIMMER_SLOW, !SOUND_LATE],
    &[PRESSED_TWICE],
];
const FOG: &[&[i64]] = &[
    &[FOG_COLD],
    &[DROPPED, SPARE_OFF, RESENT_LATE],
    &[PRESSED_TWICE, HEADSET_DEAD],
];
const LAMPS: &[&[i64]] = &[
    &[DROPPED, SPARE_OFF],
    &[DROPPED, RESENT_LATE],
    &[LAMP_STUCK, WRONG_MARK],
    &[LAMP_STUCK, !DIMMER_SLOW],
];
const FINALE: &[&[i64]] = &[
    &[DROPPED, SPARE_OFF],
    &[DROPPED, RESENT_LATE],
    &[SOUND_LATE, !DIMMER_SLOW],
    &[DIMMER_SLOW, !SOUND_LATE],
    &[PRESSED_TWICE, HEADSET_DEAD],
    &[LAMP_STUCK, WRONG_MARK],
    &[FOG_COLD, SOUND_LATE],
    &[FOG_COLD, LAMP_STUCK],
    &[PRESSED_TWICE, DROPPED],
];
const CUES: [(u16, &[&[i64]]); 6] = [
    (1, HOUSE_LIGHTS),
    (2, THUNDER),
    (3, FOG),
    (5, &[]),
    (8, LAMPS),
    (12, FINALE),
];

/// The limits of samples/show.sheet: equal ends.
const SHOW: Limits = by_distance(0, 8);

/// The limits of samples/near.sheet: within a thousandth, above or below.
const NEAR: Limits = by_distance(1_000_000, 20);

/// The show's sheet with these limits.
fn show(limits: Limits) -> Sheet {
    let weights = CHANCES.map(|chance| (chance * 1e9).round() as u32);
    let mut sheet = Sheet {
        weights: weights.to_vec(),
        allowance: limits.allowance,
        budget: limits.budget,
        mode: limits.mode,
        ..Sheet::default()
    };
    for (cue, ways) in CUES {
        let table = Table::of(&weights, ways);
        sheet.cues.push(cue);
        sheet.counts.push(ways.len() as u16);
        sheet.present.extend(table.present);
        sheet.absent.extend(table.absent);
    }
    sheet
}

#[test]
fn the_stored_sheet_is_the_show() {
    let bytes = encode(&show(SHOW));
    assert_eq!(stored("samples/show.sheet"), bytes);
    assert_eq!(stored("crates/show_sheet/stdout"), bytes);
    assert_eq!(stored("crates/cue_import/stdout"), bytes);
    assert_eq!(stored("crates/cue_export/stdin"), bytes);
    assert_eq!(stored("samples/near.sheet"), encode(&show(NEAR)));
}

#[test]
fn the_stored_text_is_the_shows() {
    let text = joined(&table(&show(SHOW)));
    assert_eq!(stored("samples/show.csv"), text);
    assert_eq!(stored("crates/cue_import/stdin"), text);
    assert_eq!(stored("crates/cue_export/stdout"), text);
}

/// Both texts, of the two stored sheets, the finale's figure, and every chance.
#[test]
fn the_page_tells_the_shows_figures() {
    let page = stored_text("samples/README.md");
    assert!(page.contains(&report(&encode(&show(SHOW)))));
    let near = show(NEAR);
    assert!(page.contains(&report(&encode(&near))));
    // The middle of 75598492 and 77573737, rounded down.
    let finale = Table::of(&near.weights, FINALE);
    let (_, mut tree) = open(&finale);
    let figure = run(&finale, &mut tree, NEAR).figure;
    assert_eq!(figure, 76_586_114);
    assert!(page.contains(&format!("about {figure} billionths")));
    for (fault, chance) in CHANCES.iter().enumerate() {
        let row = |line: &str| {
            line.starts_with(&format!("| {fault} |")) && line.ends_with(&format!("| {chance} |"))
        };
        assert!(page.lines().any(row), "fault {fault}");
    }
}

#[test]
fn every_interval_encloses_the_count_over_all_assignments() {
    for sheet in [show(SHOW), show(NEAR)] {
        let bytes = encode(&sheet);
        assert_eq!(enclosing_lines(&bytes, &report(&bytes)), Ok(CUES.len()));
    }
}
