//! An optimized list as text for a person: what was done in all, the list before with what becomes of
//! each operation, and the list after; and a refusal in words.

use midvokt::{PendingOperation, PendingOptimizationStats, Refusal};

use crate::figures;
use crate::lanes::Style;
use crate::line::visible;
use crate::list::{self, List, Queued};
use crate::optimizing::{self, Optimization};
use crate::places::Replay;
use crate::text::told_notes;

/// The most characters of an operation that the list before shows beside what becomes of it.
const MOST_BESIDE: usize = 40;
/// The most characters of a refused line that are shown.
const MOST_REPEATED: usize = 80;

/// The list's name and size.
fn heading(name: &str, list: &List, columns: usize) -> String {
    let kept = match list.kept.len() as u64 {
        0 => String::new(),
        lines => format!(", {}", figures::count(lines, "line 'keep'", "lines 'keep'")),
    };
    let size = format!(
        "width {}, {}{kept}",
        list.width,
        figures::count(list.operations.len() as u64, "operation", "operations")
    );
    format!("{name}\n{}", figures::wrapped("", &size, columns))
}

/// How many rotations were fused.
fn fused(stats: &PendingOptimizationStats) -> String {
    let pairs = figures::count(stats.fused_rotations as u64, "pair", "pairs");
    let cancelled = match (stats.fused_rotations, stats.cancelled_rotations) {
        (0, _) => return "no rotation".to_owned(),
        (_, 0) => "none cancels".to_owned(),
        (_, 1) => "1 cancels".to_owned(),
        (_, more) => format!("{} cancel", figures::whole(more as u64)),
    };
    format!("{pairs} of rotations about one Pauli; {cancelled}")
}

/// How many measurements moved where that is known, and how many pairs there are of one and a
/// rotation that it passed.
fn moved(stats: &PendingOptimizationStats, replay: Option<&Replay>) -> String {
    if stats.measurement_left_swaps == 0 {
        return "no measurement".to_owned();
    }
    let count = |number: usize, one, more| figures::count(number as u64, one, more);
    let pairs = count(stats.measurement_left_swaps, "pair", "pairs");
    let moved = match replay.map(|replay| replay.moves.len()) {
        Some(moved) => count(moved, "measurement", "measurements"),
        None => "measurements".to_owned(),
    };
    format!("{moved}: {pairs} of one and a rotation that it passed")
}

/// Whether something changed, and how much.
fn summary(view: &Optimization<'_>, columns: usize) -> String {
    let stats = &view.optimized.stats;
    if let Some(line) = view.expectation_line() {
        let words = format!("line {line} takes an expectation value, so the list stays as it is");
        return figures::wrapped("UNCHANGED: ", &words, columns);
    }
    if stats.fused_rotations + stats.measurement_left_swaps == 0 {
        let words = "no rotation fuses, and no measurement moves";
        return figures::wrapped("UNCHANGED: ", words, columns);
    }
    let before = figures::count(stats.input_operations as u64, "operation", "operations");
    let after = figures::whole(stats.output_operations as u64);
    let words = format!("{before} before, {after} after");
    let (fused, moved) = (fused(stats), moved(stats, view.replay.as_ref()));
    figures::wrapped("OPTIMIZED: ", &words, columns)
        + &figures::wrapped("  fused    ", &fused, columns)
        + &figures::wrapped("  moved    ", &moved, columns)
}

/// What becomes of the operation at a place.
fn outcome(replay: &Replay, place: usize) -> String {
    let mut parts = Vec::new();
    let pairs = || replay.pairs.iter();
    let taken = pairs().filter(|pair| pair.later == place && !pair.cancelled);
    let taken: Vec<_> = taken.map(|pair| pair.earlier).collect();
    match taken.len() {
        0 => {}
        1 => parts.push(format!("{} fuses into it", taken[0])),
        _ => parts.push(format!("{} fuse into it", figures::list(&taken))),
    }
    let then = if taken.is_empty() { "" } else { "then " };
    for pair in pairs().filter(|pair| pair.earlier == place || pair.later == place) {
        match (pair.cancelled, pair.earlier == place) {
            (true, true) => parts.push(format!("{then}cancels with {}", pair.later)),
            (true, false) => parts.push(format!("{then}cancels with {}", pair.earlier)),
            (false, true) => parts.push(format!("{then}fuses into {}", pair.later)),
            (false, false) => {}
        }
    }
    let mut moves = replay.moves.iter();
    if let Some(moved) = moves.find(|moved| moved.measurement == place) {
        parts.push(format!(
            "moves in front of {}",
            figures::list(&moved.passed)
        ));
    }
    let now = replay.order.iter().position(|&left| left == place);
    parts.extend(now.map(|now| format!("now {now}")));
    parts.join(", ")
}

/// The boundaries that are kept, each once and in order, with the first line of each.
fn boundaries(list: &List) -> Vec<(usize, usize)> {
    let kept = list.kept.iter();
    let mut found: Vec<_> = kept.map(|kept| (kept.prefix as usize, kept.line)).collect();
    found.sort_unstable();
    found.dedup_by_key(|(prefix, _)| *prefix);
    // Where nothing is judged, one may lie behind the list's end.
    found.retain(|(prefix, _)| *prefix <= list.operations.len());
    found
}

/// How many characters a text has.
fn length(text: &str) -> usize {
    text.chars().count()
}

/// An operation in words that are read as that operation again: in its own, where they fit on one
/// line of so many characters, or are no longer than with masks and each has room; else with
/// masks.
fn fitted(own: &str, operation: &PendingOperation, room: usize) -> String {
    let masked = list::masked(operation);
    let has_room = own.split(' ').all(|word| length(word) <= room);
    let is_short = length(own) <= length(&masked) && has_room;
    match length(own) <= room || is_short {
        true => own.to_owned(),
        false => masked,
    }
}

/// A row of the list before: what stands in front of the operation, the operation, and what
/// becomes of it; that stands below where the operation is longer than its column.
fn row(first: &str, queued: &Queued, widest: usize, told: &str, columns: usize) -> String {
    let own = &queued.text;
    if length(own) <= widest {
        let line = figures::wrapped(&format!("{first}{own:<widest$}  "), told, columns);
        return format!("{}\n", line.trim_end());
    }
    let indent = length(first);
    let words = fitted(own, &queued.operation, columns.saturating_sub(indent));
    let below = match told {
        "" => String::new(),
        _ => {
            let first = format!("{:1$}", "", indent + widest + 2);
            figures::wrapped(&first, told, columns)
        }
    };
    figures::wrapped(first, &words, columns) + &below
}

/// The list as it is given, with what becomes of each operation.
fn before(view: &Optimization<'_>, columns: usize) -> String {
    let most = MOST_BESIDE.min(columns * 2 / 5);
    let lengths = view.list.operations.iter().map(|q| length(&q.text));
    let beside = lengths.filter(|&length| length <= most);
    let widest = beside.fold("operation".len(), usize::max);
    let told = match view.replay {
        Some(_) => "what becomes of it",
        None => "",
    };
    let first = format!("  {:>4}  {:>4}  {:<widest$}  ", "no.", "line", "operation");
    let title = figures::wrapped(&first, told, columns);
    let mut text = format!("Before\n{}\n", title.trim_end());
    let mut kept = boundaries(view.list).into_iter().peekable();
    let mut add_kept = |text: &mut String, place: usize| {
        while let Some((prefix, line)) = kept.next_if(|(prefix, _)| *prefix == place) {
            let now = view.optimized.stats.prefix_remap[prefix];
            let words = format!("{prefix} before it, now {now}");
            let first = format!("  {:>4}  {line:>4}  {:<widest$}  ", "-", "keep");
            *text += &figures::wrapped(&first, &words, columns);
        }
    };
    for (place, queued) in view.list.operations.iter().enumerate() {
        add_kept(&mut text, place);
        let told = view.replay.as_ref().map(|replay| outcome(replay, place));
        let first = format!("  {place:>4}  {:>4}  ", queued.line);
        text += &row(&first, queued, widest, &told.unwrap_or_default(), columns);
    }
    add_kept(&mut text, view.list.operations.len());
    text
}

/// An operation that is left: as its line has it, or written anew where others were fused into it.
pub fn left(view: &Optimization<'_>, number: usize) -> String {
    let operation = &view.optimized.operations[number];
    let replay = view.replay.as_ref();
    let place = replay.map(|replay| replay.order[number]);
    let queued = place.map(|place| &view.list.operations[place]);
    match queued.filter(|queued| queued.operation.to_words() == operation.to_words()) {
        Some(queued) => queued.text.clone(),
        None => list::text(operation),
    }
}

/// The list that is left, each operation with the place that it had.
fn after(view: &Optimization<'_>, columns: usize) -> String {
    let told = if view.replay.is_some() { "from" } else { "" };
    let mut text = format!("After\n  {:>4}  {told:>4}  operation\n", "no.");
    let remap = &view.optimized.stats.prefix_remap;
    let kept = boundaries(view.list).into_iter();
    let mut kept = kept.map(|(prefix, _)| remap[prefix] as usize).peekable();
    for number in 0..=view.optimized.operations.len() {
        while kept.next_if_eq(&number).is_some() {
            text += &format!("  {:>4}  {:>4}  keep\n", "-", "");
        }
        if number == view.optimized.operations.len() {
            break;
        }
        let place = view.replay.as_ref().map(|replay| replay.order[number]);
        let from = place.map_or(String::new(), |place| place.to_string());
        let first = format!("  {number:>4}  {from:>4}  ");
        let room = columns.saturating_sub(length(&first));
        let operation = &view.optimized.operations[number];
        let words = fitted(&left(view, number), operation, room);
        text += &commented(&first, &words, together(view, place), columns);
    }
    text
}

/// An operation behind a first part, with a comment in its line where both fit there, and else
/// with the comment below.
fn commented(first: &str, words: &str, comment: Option<String>, columns: usize) -> String {
    let alone = figures::wrapped(first, words, columns);
    let Some(comment) = comment else {
        return alone;
    };
    let both = format!("{first}{words} # {comment}\n");
    if length(both.trim_end()) <= columns {
        return both;
    }
    let first = format!("{:1$}# ", "", length(first));
    let comment = figures::wrapped("", &comment, columns.saturating_sub(length(&first)));
    let lines = comment.lines().map(|line| format!("{first}{line}\n"));
    alone + &lines.collect::<String>()
}

/// The places that became one at a place, if others were fused into it.
fn together(view: &Optimization<'_>, place: Option<usize>) -> Option<String> {
    let place = place?;
    let mut places = view.replay.as_ref()?.fused_into(place);
    if places.is_empty() {
        return None;
    }
    places.push(place);
    Some(format!("{} in one", figures::list(&places)))
}

/// The whole view of an optimized list.
pub fn optimized(view: &Optimization<'_>, style: &Style) -> String {
    let columns = style.columns;
    let mut parts = vec![
        heading(&visible(view.name), view.list, columns),
        summary(view, columns),
        told_notes(optimizing::notes(view.list), columns),
    ];
    if !view.list.operations.is_empty() || !view.list.kept.is_empty() {
        parts.push(before(view, columns));
        parts.push(after(view, columns));
    }
    if view.replay.is_none() {
        let words = "What becomes of each operation is not told: what the viewer works out of it \
                     does not come to the library's list. The library's list counts.";
        parts.push(figures::wrapped("", words, columns));
    }
    parts.retain(|part| !part.is_empty());
    parts.join("\n")
}

/// A refusal in words, with the line that it is about.
pub fn refusal(name: &str, list: &List, refusal: &Refusal, style: &Style) -> String {
    let wrapped = |words: &str| figures::wrapped("  ", words, style.columns);
    let why = optimizing::why(list, refusal);
    let place = match (why.line, refusal.is_of_operation()) {
        (Some(line), true) => {
            let index = refusal.index;
            format!(" at operation {index} (the first is 0), on line {line}")
        }
        (Some(line), false) => format!(", on line {line}"),
        (None, _) => " of the whole list".to_owned(),
    };
    let about = format!("refusal {}{place}", refusal.number());
    let mut text = heading(name, list, style.columns) + "\n";
    text += &figures::wrapped("REFUSED: ", &about, style.columns);
    text += &wrapped(&why.words);
    let mut queued = list.operations.iter();
    if let Some(queued) = queued.find(|queued| Some(queued.line) == why.line) {
        let line = figures::cut(&queued.text, MOST_REPEATED.min(style.columns));
        text += &wrapped(&format!("{name}:{}: {line}", queued.line));
    }
    text
}

#[cfg(test)]
mod tests {
    use super::*;
    use crate::options;

    const STYLE: Style = Style {
        columns: 80,
        ascii: false,
    };
    const LIST: &str = "width 3\nrotate X0 0.5\nrecord s1\nrotate X0 pi\nrotate -X0 0.25\n\
                        keep\nrotate Z1 1\nrotate Z1 -1\nrotate Z0 1\nmeasure Z0 if s10\nkeep 1\n";

    /// What is told of a list, and of it where the replay does not agree.
    fn told(text: &str, is_replayed: bool) -> String {
        let list = list::parse(text.as_bytes()).unwrap();
        let mut view = Optimization::of("-", &list).unwrap();
        assert!(view.replay.is_some());
        if !is_replayed {
            view.replay = None;
        }
        optimized(&view, &STYLE)
    }

    #[test]
    fn what_becomes_of_each_operation_is_told() {
        let found = told(LIST, true);
        let wanted = "\
OPTIMIZED: 8 operations before, 5 after
  fused    2 pairs of rotations about one Pauli; 1 cancels
  moved    1 measurement: 1 pair of one and a rotation that it passed

Before
   no.  line  operation          what becomes of it
     0     2  rotate X0 0.5      now 0
     -    11  keep               1 before it, now 1
     1     3  record s1          now 1
     2     4  rotate X0 pi       fuses into 3
     3     5  rotate -X0 0.25    2 fuses into it, now 2
     -     6  keep               4 before it, now 3
     4     7  rotate Z1 1        cancels with 5
     5     8  rotate Z1 -1       cancels with 4
     6     9  rotate Z0 1        now 4
     7    10  measure Z0 if s10  moves in front of 6, now 3

After
   no.  from  operation
     0     0  rotate X0 0.5
     -        keep
     1     1  record s1
     2     3  rotate X0 -2.891592653589793 if 1 # 2 3 in one
     -        keep
     3     7  measure Z0 if s10
     4     6  rotate Z0 1
";
        assert!(found.ends_with(wanted), "{found}");
    }

    #[test]
    fn no_line_is_longer_than_the_text_is_wide() {
        let all = (0..64).map(|place| format!("Y{place}"));
        let product = all.collect::<Vec<_>>().join("*");
        let text =
            format!("width 64\nrotate {product} 0.1\nmeasure X0 as s1\nrotate {product} 0.2\n");
        let list = list::parse(text.as_bytes()).unwrap();
        let view = Optimization::of("-", &list).unwrap();
        for columns in [40, 60, 80] {
            let style = Style {
                columns,
                ascii: false,
            };
            let found = optimized(&view, &style);
            assert!(
                found.lines().all(|line| line.chars().count() <= columns),
                "{found}"
            );
        }
    }

    /// The operation on a line behind a width of 64.
    fn operation(line: &str) -> PendingOperation {
        let list = list::parse(format!("width 64\n{line}").as_bytes()).unwrap();
        list.operations[0].operation.clone()
    }

    #[test]
    fn an_operation_that_is_too_long_is_written_with_masks() {
        let wide = format!("rotate {} 0.1", "X".repeat(64));
        let said = |own: &str, room| fitted(own, &operation(own), room);
        assert_eq!(said(&wide, 75), wide);
        let masked = "rotate x=0xffffffffffffffff z=0x0 phase=0 0.1";
        assert_eq!(said(&wide, 74), masked);
        assert_eq!(said(&wide, 26), masked);
        // No more than with masks, and no word without room.
        assert_eq!(said("measure Z0*Z1 as s7", 18), "measure Z0*Z1 as s7");
        let product = "rotate X1*X2*X3*X4*X5*X6 1";
        assert_eq!(said(product, 17), product);
        assert_eq!(said(product, 16), "rotate x=0x7e z=0x0 phase=0 1");
    }

    #[test]
    fn a_comment_that_makes_a_line_too_long_stands_below() {
        let said = |columns| {
            let comment = Some("0 1 2 in one".to_owned());
            commented("  0  ", "rotate X0 1", comment, columns)
        };
        assert_eq!(said(31), "  0  rotate X0 1 # 0 1 2 in one\n");
        assert_eq!(said(30), "  0  rotate X0 1\n     # 0 1 2 in one\n");
        assert_eq!(said(18), "  0  rotate X0 1\n     # 0 1 2 in\n     # one\n");
    }

    /// From so many columns on every operation that is left stands on one line.
    const ENOUGH: usize = 223;

    #[test]
    fn the_longest_operations_need_so_many_columns() {
        let symbols: Vec<_> = (0..8).map(|back| format!("s{}", i32::MAX - back)).collect();
        let masks = format!("x={0:#x} z={0:#x} phase=3", u64::MAX);
        let (number, sign) = (i32::MAX, format!("not {}", symbols.join("^")));
        let tail = format!("record {number} as s{number} if {sign}");
        let least = -f64::MIN_POSITIVE / 3.0;
        let lines = [
            format!("expect {masks} value {number} {tail}"),
            format!("measure {masks} {tail}"),
            format!("rotate {masks} {least:?} if {sign}"),
            format!("record {sign} to {number} as s{number}"),
        ];
        let list = list::parse(format!("width 64\n{}", lines.join("\n")).as_bytes()).unwrap();
        let view = Optimization::of("-", &list).unwrap();
        let rows = |columns| after(&view, columns).lines().count();
        assert_eq!(rows(ENOUGH), 2 + lines.len());
        assert_eq!(rows(ENOUGH - 1), 3 + lines.len());
        assert!(options::HELP.contains(&format!("{ENOUGH} columns")));
    }

    #[test]
    fn a_replay_that_does_not_agree_is_not_told() {
        let found = told(LIST, false);
        for hidden in [
            "cancels with",
            "moves in front",
            "fuses into",
            "from",
            "in one",
        ] {
            assert!(!found.contains(hidden), "{hidden}: {found}");
        }
        let words = "What becomes of each operation is not told";
        assert!(found.contains(words), "{found}");
        assert!(
            found.contains("OPTIMIZED: 8 operations before, "),
            "{found}"
        );
    }
}
