// Compares the calls of the library with the reference on fresh random cases: ours (cases.rs), of one tree and of several, and the reference's own; and on every small
// sheet, table and pair of lines.
//   compare SEED CASES FOLDER: a share of the calls goes to FOLDER/share for the Python reference, a difference to FOLDER.
mod oracle;
use oracle::{ours, sweep};
use oracle::reference::cases::{every_pair, every_small_table, every_table, far_pairs, Case, Cases, Change};
use oracle::reference::{reference_width, Reference};
use std::fs;
use std::io::Write;

struct Run {
    seed: u64,
    folder: String,
    reference: Reference,
    share: fs::File,
    sharing: bool,
    calls: u64,
    shared: u64,
    differences: u64,
    good: u64,
    unclear: u64,
    answers: [[u64; 32]; CALLS.len()],
}

/// The calls whose answers are counted; checks of sheets with many level lines, of ones whose lines cross and touch, of every small sheet, of several trees, of
/// nodes put on lines and of long lines, draws and wide draws of several trees, calls on every small table, and comparisons of every pair of lines on small
/// grids or far apart, by themselves.
const CALLS: [&str; 23] = [
    "draw", "wide", "check", "stroke", "check of level lines", "check of every small sheet", "hang", "cut", "hold", "hang held", "draw of every small table",
    "hang of every small table", "cut of every small table", "hold of every small table", "hang held of every small table",
    "check of tangled sheets", "compare", "compare of every pair", "draw of several trees", "wide of several trees", "check of several trees",
    "check of nodes put on lines", "check of long lines",
];
const DRAW: usize = 0;
const WIDE: usize = 1;
const CHECK: usize = 2;
const STROKE: usize = 3;
const LEVEL: usize = 4;
const EVERY: usize = 5;
const HANG: usize = 6;
const CUT: usize = 7;
const HOLD: usize = 8;
const HELD: usize = 9;
const SMALL_DRAW: usize = 10;
const TANGLED: usize = 15;
const COMPARE: usize = 16;
const EVERY_PAIR: usize = 17;
const TREES_DRAW: usize = 18;
const TREES_WIDE: usize = 19;
const TREES_CHECK: usize = 20;
const ON_LINES: usize = 21;
const LONG: usize = 22;

/// A hang, a cut or a half of a hang of every small table is counted so many places behind HANG, CUT, HOLD or HELD.
const SMALL: usize = 5;

/// Where the lifts and the draws of strokes are counted; all other answers are counted by their number.
const LIFTS: usize = 30;
const DRAWS: usize = 31;

fn bytes_of(places: &[u16]) -> Vec<u8> {
    places.iter().flat_map(|x| x.to_le_bytes()).collect()
}

/// What the second half of a hang must answer, given a record, where the first half would now answer so.
fn second_half(first: u32, record: u16) -> u32 {
    if first & 0xffff != 0 { first & 0xffff } else if first >> 16 == record as u32 { 0 } else { 11 }
}

impl Run {
    /// A random case of the reference's own. For the other reference: the lengths, the case and our result (reference/cases.md).
    fn any(&mut self, seed: u64) {
        let a = self.reference.any(seed);
        if self.sharing {
            let mut v = vec![b'a'];
            v.extend_from_slice(&(a.case.len() as u32).to_le_bytes());
            v.extend_from_slice(&(a.ours.len() as u32).to_le_bytes());
            v.extend_from_slice(&a.case);
            v.extend_from_slice(&a.ours);
            self.share.write_all(&v).unwrap();
            self.shared += 1;
        }
        self.judge(a.ours == a.theirs, a.told, &a.table, &a.places);
    }

    /// A call for the other reference: which, the lengths, the table, the placements before, our answer, and more by the call.
    fn to_share(&mut self, which: u8, table: &[u8], before: &[u16], answer: u64, more: &[u8]) {
        if !self.sharing {
            return;
        }
        let mut v = vec![which];
        v.extend_from_slice(&(table.len() as u32).to_le_bytes());
        v.extend_from_slice(&(before.len() as u32).to_le_bytes());
        v.extend_from_slice(table);
        v.extend(bytes_of(before));
        v.extend_from_slice(&answer.to_le_bytes());
        v.extend_from_slice(more);
        self.share.write_all(&v).unwrap();
        self.shared += 1;
    }

    /// A call has been answered: the same by both, or not.
    fn judge(&mut self, same: bool, what: String, table: &[u8], before: &[u16]) {
        self.calls += 1;
        self.must(same, what, table, before);
    }

    /// What must be, of calls that have been counted.
    fn must(&mut self, holds: bool, what: String, table: &[u8], before: &[u16]) {
        if holds {
            return;
        }
        self.differences += 1;
        let stem = format!("{}/difference-{}-{}-{}", self.folder, self.seed, self.calls, self.differences);
        fs::write(format!("{stem}.table"), table).unwrap();
        fs::write(format!("{stem}.places"), bytes_of(before)).unwrap();
        fs::write(format!("{stem}.txt"), format!("{what}\n")).unwrap();
        println!("DIFFERENCE: {what}; saved as {stem}.*");
    }

    /// Draws, plain or wide. The refusal.
    fn draw(&mut self, call: usize, table: &[u8], places: &mut [u16]) -> u64 {
        let before = places.to_vec();
        let mut theirs = before.clone();
        let wide = call == WIDE || call == TREES_WIDE;
        let (a, b) = if wide {
            (ours::draw_wide(table, places), self.reference.draw_wide(table, &mut theirs))
        } else {
            (ours::draw(table, places), self.reference.draw(table, &mut theirs))
        };
        self.answers[call][(b & 31) as usize] += 1;
        self.to_share(if wide { b'w' } else { b'd' }, table, &before, a, &bytes_of(places));
        let told = format!("{}: ours {a:#x}, reference {b:#x}, placements {}", CALLS[call], if *places == theirs { "equal" } else { "differ" });
        self.judge(a == b && *places == theirs, told, table, &before);
        b & 0xffff
    }

    /// A wide drawing with columns and rows exchanged is good for the table with left and right exchanged.
    fn turned(&mut self, table: &[u8], places: &[u16]) {
        if let Some((table, places)) = self.reference.turned(table, places) {
            let (a, b) = (ours::check(&table, &places), self.reference.check(&table, &places));
            self.judge(a == 0 && b == 0, format!("check of a wide drawing, turned: ours {a}, reference {b}"), &table, &places);
        }
    }

    fn check(&mut self, call: usize, table: &[u8], places: &[u16]) {
        let a = ours::check(table, places);
        let b = self.reference.check(table, places);
        self.answers[call][b as usize] += 1;
        self.to_share(b'c', table, places, a as u64, &[]);
        self.judge(a == b, format!("check: ours {a}, reference {b}"), table, places);
        if b == 0 || b >= 21 {
            self.sweep(table, places, b);
        }
    }

    /// Does the sweep over neighbours clear a good sheet? It need not; but it never clears one whose lines clash.
    fn sweep(&mut self, table: &[u8], places: &[u16], verdict: u32) {
        let clear = sweep::clears(&mut self.reference.lines(table, places));
        self.good += (verdict == 0) as u64;
        self.unclear += (verdict == 0 && !clear) as u64;
        self.must(!clear || verdict != 23 && verdict != 25, format!("sweep: clear, reference {verdict}"), table, places);
    }

    /// Two lines compared. For the other reference: their ends, for placements.
    fn compare(&mut self, call: usize, ends: [u16; 8]) {
        let (a, b) = (ours::compare(ends), self.reference.compare(ends));
        self.answers[call][(b & 31) as usize] += 1;
        self.to_share(b'l', &[], &ends, a as u64, &[]);
        self.judge(a == b, format!("compare of {ends:?}: ours {a}, reference {b}"), &[], &ends);
    }

    /// Every pair of lines on grids of 3 by 3 and of 4 by 4, and between points far apart.
    fn every_pair(&mut self) {
        for (i, ends) in every_pair(3).chain(far_pairs()).chain(every_pair(4)).enumerate() {
            self.sharing = i % 5 == 0;
            self.compare(EVERY_PAIR, ends);
        }
    }

    /// A stroke, with a point of so many floats, which hold marks before. For the other reference: pitch, floats, number, and the floats afterwards.
    fn stroke(&mut self, table: &[u8], places: &[u16], pitch: u8, number: u64, floats: usize) {
        let mut point: Vec<f64> = (0..floats).map(|i| -1.0 - i as f64).collect();
        let mut theirs = point.clone();
        let a = ours::stroke(table, places, pitch, number, &mut point);
        let b = self.reference.stroke(table, places, pitch, number, &mut theirs);
        self.answers[STROKE][match b >> 16 { 1 => LIFTS, 2 => DRAWS, _ => b as usize }] += 1;
        let mut more = vec![pitch, floats as u8];
        more.extend_from_slice(&number.to_le_bytes());
        more.extend(point.iter().flat_map(|x| x.to_bits().to_le_bytes()));
        self.to_share(b's', table, places, a as u64, &more);
        let same = a == b && point.iter().zip(&theirs).all(|(x, y)| x.to_bits() == y.to_bits());
        self.judge(same, format!("stroke {number} with pitch {pitch}: ours {a:#x} {point:?}, reference {b:#x} {theirs:?}"), table, places);
    }

    /// A few strokes of a sheet.
    fn strokes(&mut self, cases: &mut Cases, table: &[u8], places: &[u16]) {
        for _ in 0..2 {
            let (pitch, number, floats) = (cases.pitch(), cases.number(table.len() / 8), cases.below(4));
            self.stroke(table, places, pitch, number, floats);
        }
    }

    /// The first half of a hang, counted so many places behind. For the other reference: what is asked.
    fn hold(&mut self, behind: usize, table: &[u8], parent: u16, side: u8) -> u32 {
        let (a, b) = (ours::hold(table, parent, side), self.reference.hold(table, parent, side));
        self.answers[HOLD + behind][(b & 31) as usize] += 1;
        self.to_share(b'o', table, &[], a as u64, &[parent.to_le_bytes(), [side, 0]].concat());
        self.judge(a == b, format!("hold of parent {parent}, side {side}: ours {a:#x}, reference {b:#x}"), table, &[]);
        a
    }

    /// A call that changes a table, counted so many places behind; every byte of the table afterwards is compared. For the other reference: what is asked, and that table.
    fn change(&mut self, behind: usize, table: &mut [u8], change: Change) -> u32 {
        let before = table.to_vec();
        let mut theirs = before.clone();
        let (call, which, mut more, a, b) = match change {
            Change::Hang(parent, side, tag) => {
                let asked = [parent.to_le_bytes(), tag.to_le_bytes(), [side, 0]].concat();
                (HANG, b'h', asked, ours::hang(table, parent, side, tag), self.reference.hang(&mut theirs, parent, side, tag))
            }
            Change::Cut(node) => (CUT, b'k', node.to_le_bytes().to_vec(), ours::cut(table, node), self.reference.cut(&mut theirs, node)),
            Change::Held(parent, side, tag, record) => {
                let asked = [parent.to_le_bytes(), tag.to_le_bytes(), [side, 0], record.to_le_bytes()].concat();
                (HELD, b'e', asked, ours::hang_held(table, parent, side, tag, record), self.reference.hang_held(&mut theirs, parent, side, tag, record))
            }
        };
        self.answers[call + behind][(b & 31) as usize] += 1;
        more.extend_from_slice(table);
        self.to_share(which, &before, &[], a as u64, &more);
        let told = format!("{} {change:?}: ours {a:#x}, reference {b:#x}, tables {}", CALLS[call], if *table == theirs { "equal" } else { "differ" });
        self.judge(a == b && *table == theirs, told, &before, &[]);
        a
    }

    /// The halves of a hang that has been answered and has left a table. The first half says what it said; the second, given that record, leaves the same bytes,
    /// and given another keeps the table.
    fn halves(&mut self, cases: &mut Cases, before: &[u8], (parent, side, tag): (u16, u8, u16), answer: u32, left: &[u8]) {
        let named = self.hold(0, before, parent, side);
        self.must(named == answer, format!("hold of parent {parent}, side {side}: {named:#x}, hang {answer:#x}"), before, &[]);
        let record = cases.record(before, (named >> 16) as u16);
        let (change, mut table) = (Change::Held(parent, side, tag, record), before.to_vec());
        let held = self.change(0, &mut table, change);
        let holds = held == second_half(named, record) && table == if held == 0 { left } else { before };
        self.must(holds, format!("{change:?} after hold {named:#x}: {held}"), before, &[]);
    }

    /// A call, and at times the cut of what it has just hung, which restores every byte; a hang by its halves as well.
    fn step(&mut self, cases: &mut Cases, table: &mut [u8]) {
        let (before, change) = (table.to_vec(), cases.change(table));
        let answer = self.change(0, table, change);
        if let Change::Hang(parent, side, tag) = change {
            self.halves(cases, &before, (parent, side, tag), answer, table);
        }
        let record = (answer >> 16) as u16;
        if record != 0 && cases.below(3) == 0 {
            let answer = self.change(0, table, Change::Cut(record));
            self.must(answer == 0 && *table == *before, format!("cut of {record}, just hung by {change:?}: {answer}"), &before, &[]);
        }
    }

    /// A few calls one after the other. A place is held before them, and hung after them with the record that was named, if it would still be used.
    fn changes(&mut self, cases: &mut Cases, table: &[u8]) {
        let mut table = table.to_vec();
        let (parent, side) = cases.place(&table);
        let record = (self.hold(0, &table, parent, side) >> 16) as u16;
        for _ in 0..cases.below(7) {
            self.step(cases, &mut table);
        }
        let (change, before) = (Change::Held(parent, side, cases.tag(), record), table.clone());
        let named = self.hold(0, &table, parent, side);
        let held = self.change(0, &mut table, change);
        let holds = held == second_half(named, record) && (held == 0 || table == before);
        self.must(holds, format!("{change:?} after hold {named:#x}: {held}"), &before, &[]);
    }

    /// A free chain of n records, all of them hung, half of them by halves, and cut off again.
    fn grown(&mut self, cases: &mut Cases, n: usize) {
        let (mut table, calls) = cases.grown(n);
        for mut change in calls {
            if let Change::Hang(parent, side, tag) = change {
                if cases.below(2) == 0 {
                    change = Change::Held(parent, side, tag, (self.hold(0, &table, parent, side) >> 16) as u16);
                }
            }
            let answer = self.change(0, &mut table, change);
            self.must(answer & 0xffff == 0, format!("{change:?}, of a chain of {n}: refused {answer}"), &table, &[]);
        }
    }

    /// Several trees of n nodes, all cut off, the head's root last.
    fn cut_down(&mut self, cases: &mut Cases, n: usize) {
        let (mut table, calls) = cases.cut_down(n);
        for (change, says) in calls {
            let answer = self.change(0, &mut table, change);
            self.must(answer == says, format!("{change:?}, of {n} nodes in several trees: {answer}, not {says}"), &table, &[]);
        }
        self.must(table[..4] == [0; 4], format!("{n} nodes in several trees, all cut off"), &table, &[]);
    }

    /// Every call on a case: its table drawn wide, and that turned, drawn, and its placements checked and plotted, as drawn, as given, with nodes put on lines and with
    /// nodes moved; and changed.
    fn case(&mut self, cases: &mut Cases, mut case: Case) {
        let (draw, wide, check) = if case.several { (TREES_DRAW, TREES_WIDE, TREES_CHECK) } else { (DRAW, WIDE, CHECK) };
        let mut places = case.places.clone();
        self.draw(wide, &case.table, &mut places);
        self.turned(&case.table, &places);
        let refusal = self.draw(draw, &case.table, &mut case.places);
        self.check(check, &case.table, &case.places);
        self.strokes(cases, &case.table, &case.places);
        self.check(if case.level { LEVEL } else { check }, &case.table, &case.points);
        for sheet in [&case.places, &case.points] {
            if let (0, true) = (refusal, case.several) {
                if let Some(places) = cases.on_lines(&case.table, sheet) {
                    self.check(ON_LINES, &case.table, &places);
                }
            }
        }
        let records = case.places.len() / 2;
        if records > 0 {
            for _ in 0..1 + cases.below(2) {
                let record = cases.below(records);
                cases.move_node(&mut case.places, record, records);
            }
        }
        self.check(check, &case.table, &case.places);
        self.strokes(cases, &case.table, &case.places);
        self.changes(cases, &case.table);
        let (table, places) = cases.tangled(case.several);
        self.check(TANGLED, &table, &places);
    }

    /// The halves of a hang of a small table, the second one given each of these records.
    fn small_halves(&mut self, table: &[u8], place: u16, records: std::ops::Range<u16>) {
        let (parent, side) = (place / 2, place as u8 % 2);
        self.hold(SMALL, table, parent, side);
        for record in records {
            self.change(SMALL, &mut table.to_vec(), Change::Held(parent, side, 5, record));
        }
    }

    /// Every small table: drawn, a node hung at each place, and each record cut; and the halves of a hang: on an accepted one at each place with each of the records
    /// 0 to 3, on half of the refused ones at one place with one record.
    fn every_small_table(&mut self, cases: &mut Cases) {
        for (i, table) in every_small_table().enumerate() {
            self.sharing = i % 61 == 0;
            let refusal = self.draw(SMALL_DRAW, &table, &mut [7; 6]);
            for place in 0..6 {
                self.change(SMALL, &mut table.clone(), Change::Hang(place / 2, place as u8 % 2, 5));
                if refusal == 0 {
                    self.small_halves(&table, place, 0..4);
                }
            }
            for node in 0..3 {
                self.change(SMALL, &mut table.clone(), Change::Cut(node));
            }
            if refusal != 0 && cases.below(2) == 0 {
                let (place, record) = (cases.below(6) as u16, cases.below(4) as u16);
                self.small_halves(&table, place, record..record + 1);
            }
        }
    }

    /// Every sheet of n nodes, in one tree or several, on a grid of 3 by 3.
    fn every_sheet(&mut self, n: usize) {
        for table in every_table(n) {
            for sheet in 0..9usize.pow(n as u32) {
                let point = |k: usize| sheet / 9usize.pow(k as u32) % 9;
                let points = (0..n).flat_map(|k| [point(k) as u16 % 3, point(k) as u16 / 3]);
                let places: Vec<u16> = [9, 9].into_iter().chain(points).collect();
                self.sharing = sheet % 11 == 0;
                self.check(EVERY, &table, &places);
            }
        }
    }

    fn width(&mut self, n: u64) {
        let (a, b) = (ours::width(n), reference_width(n));
        self.judge(a == b, format!("width of {n}: ours {a}, reference {b}"), &[], &[]);
    }
}

fn main() {
    let args: Vec<String> = std::env::args().collect();
    let seed: u64 = args[1].parse().expect("a seed");
    let count: u64 = args[2].parse().expect("a number of cases");
    let folder = args[3].clone();
    println!("seed {seed}");
    let share = fs::File::create(format!("{folder}/share")).unwrap();
    let mut run = Run {
        seed, folder, reference: Reference::new(), share,
        sharing: false, calls: 0, shared: 0, differences: 0, good: 0, unclear: 0, answers: [[0; 32]; CALLS.len()],
    };
    let mut cases = Cases::new(seed);
    for i in 0..count {
        run.sharing = i % 12 == 0;
        for case in [cases.next(), cases.next_forest()] {
            run.case(&mut cases, case);
        }
        for _ in 0..6 {
            run.compare(COMPARE, cases.pair());
        }
        run.any(cases.seed());
        if i % 20 == 0 {
            let (table, places) = cases.long_lines();
            run.check(LONG, &table, &places);
        }
    }
    for n in [1, 2, 3, 10, 30, 100, 1000, 4096] {
        run.sharing = n < 100;
        run.grown(&mut cases, n);
        run.cut_down(&mut cases, n);
    }
    run.every_small_table(&mut cases);
    for n in 1..=4 {
        run.every_sheet(n);
    }
    run.every_pair();
    run.sharing = false;
    for n in (0..5000).chain((0..64).map(|k| 1 << k)).chain((0..64).map(|k| (1 << k) - 1)) {
        run.width(n);
    }
    println!("{} calls beside racksheet.rs, {} differences; answers", run.calls, run.differences);
    for (call, answers) in CALLS.iter().zip(run.answers) {
        let name = |k: usize| match k { LIFTS => "lift".to_string(), DRAWS => "draw".to_string(), _ => k.to_string() };
        let told: Vec<String> = (0..32).filter(|&k| answers[k] > 0).map(|k| format!("{}: {}", name(k), answers[k])).collect();
        println!("  {call} {}", told.join(", "));
    }
    println!("{} good sheets, of which the sweep over neighbours does not clear {}", run.good, run.unclear);
    println!("{} of them go to racksheet.py", run.shared);
    std::process::exit((run.differences > 0) as i32);
}
