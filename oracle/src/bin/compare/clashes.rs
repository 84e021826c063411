//! Lists of offers to tables with a clash and without: clashes only go, and what the others are answered where some
//! offers are struck.

use crate::Tally;
use crate::tables::{Guarded, try_add_edge};
use oracle::clashes::{KINDS, Kind, at_fault, clash, clashes, first, kept, list, one};
use oracle::clashes::{pairs, size, strike, strikings, telling_drop};
use oracle::numbers::Random;
use oracle::tables::{Answer, Pair, Table, Way, offer, refusal, way};

/// An offer that both sides answer alike, and how its pair stood before.
struct Step {
    answer: Answer,
    code: u64,
    way: Option<Way>,
    kept: bool,
    clash: bool,
}

/// A list that was run on both sides, and the table that each leaves.
struct Both {
    steps: Vec<Step>,
    proved: Table,
    source: Table,
}

impl Both {
    fn codes(&self) -> Vec<u64> {
        self.steps.iter().map(|s| s.code).collect()
    }

    fn answers(&self) -> Vec<Answer> {
        self.steps.iter().map(|s| s.answer).collect()
    }
}

/// Makes the offers on both sides and compares answer, counter and every byte after each. Then each clash that the
/// proved code leaves must be one before the offer, one in the first table, and of no offer that was kept. None where
/// something differs.
fn run_both(part: &mut Tally, first: &Table, pairs: &[Pair]) -> Option<Both> {
    let (mut proved, mut source) = (first.clone(), first.clone());
    let mut coloring = Guarded::new(&first.coloring);
    let mut edge_matrix = Guarded::new(&first.edge_matrix);
    let (mut steps, mut apart) = (Vec::new(), Vec::new());
    for (place, &p) in pairs.iter().enumerate() {
        let way = refusal(&source, p).is_none().then(|| way(&source, p));
        let (was_kept, was_clash) = (kept(&source, p), clash(&source, p));
        let code = try_add_edge(coloring.part(), edge_matrix.part(), p);
        let answer = offer(&mut source, p);
        let agree = code == answer.code()
            && coloring.is(&source.coloring)
            && edge_matrix.is(&source.edge_matrix);
        part.note(agree, || {
            format!("offer {place} of {pairs:?} to {first:?}: {answer:?}, proved {code:#x}")
        });
        let before = proved;
        proved =
            Table { coloring: coloring.part().to_vec(), edge_matrix: edge_matrix.part().to_vec() };
        if let Answer::Kept(_) = answer {
            apart.push((p.0.max(p.1), p.0.min(p.1)));
        }
        let old = |c: Pair| clash(&before, c) && clash(first, c) && !apart.contains(&c);
        let go = clashes(&proved).into_iter().all(old);
        part.note(go, || format!("a clash comes, offer {place} of {pairs:?} to {first:?}"));
        if !agree || !go {
            return None;
        }
        steps.push(Step { answer, code, way, kept: was_kept, clash: was_clash });
    }
    Some(Both { steps, proved, source })
}

/// The classes, and which of the three kinds of lists have them.
const ROWS: [(&str, [bool; 3]); 26] = [
    ("a clash at first: all stay", [true; 3]),
    ("a clash at first: some go", [true; 3]),
    ("a clash at first: all go", [true; 3]),
    ("no clash at first", [true; 3]),
    ("a table at fault", [true; 3]),
    ("64 splines", [true; 3]),
    ("kept, colours differ", [true; 3]),
    ("kept, a free colour", [true; 3]),
    ("kept by a walk at 0", [true; 3]),
    ("kept by a walk at 1 to 15", [true; 3]),
    ("declined at 16", [true; 3]),
    ("declined at 17", [true; 3]),
    ("refused 4", [true; 3]),
    ("refused 8", [true; 3]),
    ("refused 10", [true; 3]),
    ("not kept before", [true; 3]),
    ("kept before, no clash", [false, true, true]),
    ("a clash, offer kept", [false, false, true]),
    ("a clash, dropped", [false, false, true]),
    ("struck: declined", [true; 3]),
    ("struck: refused", [true; 3]),
    ("struck: declined and refused", [true; 3]),
    ("struck: a clash's offer is kept", [false, false, true]),
    ("struck drop: an answer differs", [false, false, true]),
    ("struck drop: only the table", [false, false, true]),
    ("struck drop: its pair at most", [false, false, true]),
];

/// How often each class was met, by the kind of the list, and each counter of a walk that is kept.
#[derive(Default)]
struct Classes {
    counts: [[u64; 3]; ROWS.len()],
    counters: [u64; 16],
}

impl Classes {
    fn note(&mut self, kind: Kind, name: &str) {
        let row = ROWS.iter().position(|(row, _)| *row == name).unwrap();
        assert!(ROWS[row].1[kind as usize], "no such list: {kind:?}, {name}");
        self.counts[row][kind as usize] += 1;
    }

    fn note_list(&mut self, kind: Kind, first: &Table, whole: &Both) {
        let (before, after) = (clashes(first).len(), clashes(&whole.source).len());
        let name = match after {
            _ if refusal(first, (0, 1)).is_some() => "a table at fault",
            _ if before == 0 => "no clash at first",
            0 => "a clash at first: all go",
            _ if after < before => "a clash at first: some go",
            _ => "a clash at first: all stay",
        };
        self.note(kind, name);
        if first.n() == 64 {
            self.note(kind, "64 splines");
        }
        for step in &whole.steps {
            self.note_step(kind, step);
        }
    }

    fn note_step(&mut self, kind: Kind, step: &Step) {
        let name = match (step.answer, step.way) {
            (Answer::Kept(_), Some(Way::ColorsDiffer)) => "kept, colours differ",
            (Answer::Kept(_), Some(Way::FreeColor)) => "kept, a free colour",
            (Answer::Kept(0), _) => "kept by a walk at 0",
            (Answer::Kept(_), _) => "kept by a walk at 1 to 15",
            (Answer::Declined(16), _) => "declined at 16",
            (Answer::Declined(_), _) => "declined at 17",
            (Answer::Refused(4), _) => "refused 4",
            (Answer::Refused(8), _) => "refused 8",
            (Answer::Refused(_), _) => "refused 10",
        };
        self.note(kind, name);
        if let (Answer::Kept(counter), Some(Way::Walk)) = (step.answer, step.way) {
            self.counters[counter as usize] += 1;
        }
        if step.way.is_none() {
            return;
        }
        let name = match step.answer {
            _ if !step.kept => "not kept before",
            _ if !step.clash => "kept before, no clash",
            Answer::Kept(_) => "a clash, offer kept",
            _ => "a clash, dropped",
        };
        self.note(kind, name);
    }

    fn print(&self, all: &mut Tally) {
        println!("{:32}{:>12}{:>12}{:>12}", "offered are pairs", "not kept", "no clash", "any");
        for ((name, has), counts) in ROWS.iter().zip(self.counts) {
            let shown = |k: usize| if has[k] { counts[k].to_string() } else { "-".into() };
            println!("{name:32}{:>12}{:>12}{:>12}", shown(0), shown(1), shown(2));
            for k in (0..3).filter(|&k| has[k]) {
                all.met(counts[k], || format!("{name}, {:?}", KINDS[k]));
            }
        }
        println!("kept by a walk at each of 0 to 15: {:?}", self.counters);
        for (counter, count) in self.counters.iter().enumerate() {
            all.met(*count, || format!("a list with a walk kept at {counter}"));
        }
    }
}

/// Strikes some declined and refused offers: the others' answers and the table must be those of the whole list, on
/// either side.
fn struck(part: &mut Tally, first: &Table, pairs: &[Pair], whole: &Both, marks: &[bool]) {
    let Some(rest) = run_both(part, first, &strike(marks, pairs)) else { return };
    let proved = rest.codes() == strike(marks, &whole.codes()) && rest.proved == whole.proved;
    let source = rest.answers() == strike(marks, &whole.answers()) && rest.source == whole.source;
    part.note(proved, || format!("proved code, {marks:?} struck of {pairs:?} to {first:?}"));
    part.note(source, || format!("source, {marks:?} struck of {pairs:?} to {first:?}"));
}

/// Which of the declined and refused offers are struck.
fn struck_class(answers: &[Answer], marks: &[bool]) -> &'static str {
    let struck = || answers.iter().zip(marks).filter(|(_, struck)| **struck).map(|(a, _)| a);
    let declined = struck().any(|a| matches!(a, Answer::Declined(_)));
    let refused = struck().any(|a| matches!(a, Answer::Refused(_)));
    match (declined, refused) {
        (true, false) => "struck: declined",
        (true, true) => "struck: declined and refused",
        _ => "struck: refused",
    }
}

/// Strikes an offer that dropped its pair. The sides must agree; what differs from the whole list then is its class.
fn struck_drop(
    part: &mut Tally,
    first: &Table,
    pairs: &[Pair],
    whole: &Both,
    drop: usize,
) -> Option<&'static str> {
    let marks = one(pairs.len(), drop);
    let mut rest = run_both(part, first, &strike(&marks, pairs))?;
    let answers = rest.answers() == strike(&marks, &whole.answers());
    let ((a, b), n) = (pairs[drop], first.n());
    for at in [a * n + b, b * n + a] {
        rest.source.edge_matrix[at] = whole.source.edge_matrix[at];
    }
    Some(match answers {
        false => "struck drop: an answer differs",
        true if rest.source != whole.source => "struck drop: only the table",
        true => "struck drop: its pair at most",
    })
}

/// The places of the offers that dropped their pair.
fn drops(whole: &Both) -> Vec<usize> {
    let drops = |s: &Step| s.clash && matches!(s.answer, Answer::Declined(_));
    (0..whole.steps.len()).filter(|&k| drops(&whole.steps[k])).collect()
}

pub fn compare(all: &mut Tally) {
    let mut part = Tally::default();
    let mut classes = Classes::default();
    let r = &mut Random(203);
    for number in 0..4800 {
        let kind = KINDS[number % 3];
        let n = size(r);
        let fault = number / 3 % 16 == 0;
        let t = if fault { at_fault(r, n) } else { first(r, n) };
        let length = 1 + r.below(2 * n as u64 + 12) as usize;
        let pairs = list(r, &t, kind, length);
        let Some(whole) = run_both(&mut part, &t, &pairs) else { continue };
        classes.note_list(kind, &t, &whole);
        let drops = drops(&whole);
        for &drop in drops.iter().take(4) {
            let class = struck_drop(&mut part, &t, &pairs, &whole, drop);
            class.inspect(|name| classes.note(kind, name));
        }
        if !drops.is_empty() {
            continue;
        }
        for marks in strikings(r, &whole.answers()) {
            struck(&mut part, &t, &pairs, &whole, &marks);
            classes.note(kind, struck_class(&whole.answers(), &marks));
            if !fault && whole.steps.iter().any(|s| s.clash) {
                classes.note(kind, "struck: a clash's offer is kept");
            }
        }
    }
    // rare: the answers stay, and the table alone is another
    for _ in 0..12 {
        let (run, drop) = telling_drop(r, false);
        let (t, pairs) = (&run.before, pairs(&run));
        let Some(whole) = run_both(&mut part, t, &pairs) else { continue };
        classes.note_list(Kind::Any, t, &whole);
        let class = struck_drop(&mut part, t, &pairs, &whole, drop);
        class.inspect(|name| classes.note(Kind::Any, name));
    }
    classes.print(all);
    all.close("lists with clashes", part);
}
