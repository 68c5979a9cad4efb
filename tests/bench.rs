// Times draw, wide draw and check, of one tree and of several, strokes, hang, cut, the halves of a hang, the comparison of two lines and the whole program
// beside the Rust reference, and wide draw beside draw, in one run. An error if, at 4,096 nodes, a wide draw takes more than 1.5 times as long as our plain
// draw, or the check of a good sheet more than 8 times as long as the reference's.
//   bench PLAN REFERENCE FOLDER: the two programs, and a folder for the tables
mod oracle;
use oracle::reference::cases::{fault_shapes, sheet_shapes, timed_fault, timed_forest, timed_pairs, timed_room, timed_sheet, timed_table};
use oracle::reference::cases::{FAULTS, SHAPES, SHEETS};
use oracle::reference::Reference;
use oracle::{ours, UPTO};
use std::fs::File;
use std::hint::black_box;
use std::process::{Command, Stdio};
use std::time::Instant;

/// A wide draw of 4,096 nodes may take so many times as long as our plain draw.
const WIDE_ALLOWED: f64 = 1.5;

/// The check of a good sheet of 4,096 nodes may take so many times as long as the reference's.
const CHECK_ALLOWED: f64 = 8.0;

/// The bytes of a table of 4,096 nodes.
const LARGE: usize = 8 * 4097;

/// The greatest ratios so far at 4,096 nodes: of our wide draw to our draw, and of our check of a good sheet to the reference's.
struct Most {
    wide: f64,
    check: f64,
}

/// The least times of two things in microseconds, each run in turn for a while and thrice at least, often enough at a time to be measured.
/// By a steady clock: other work on the machine only adds.
fn two(mut f: impl FnMut(), mut g: impl FnMut()) -> (f64, f64) {
    let time = |h: &mut dyn FnMut(), times: usize| {
        let begun = Instant::now();
        for _ in 0..times {
            h();
        }
        begun.elapsed().as_secs_f64() * 1e6 / times as f64
    };
    let often = |h: &mut dyn FnMut()| {
        let first = time(h, 1);
        if first > 1000.0 { 1 } else { (100.0 / (0..9).map(|_| time(h, 1)).fold(100.0, f64::min)) as usize + 1 }
    };
    let (k, l) = (often(&mut f), often(&mut g));
    let (mut least, mut turns, begun) = ((f64::MAX, f64::MAX), 0, Instant::now());
    while turns < 3 || begun.elapsed().as_millis() < 800 {
        least.0 = least.0.min(time(&mut f, k));
        least.1 = least.1.min(time(&mut g, l));
        turns += 1;
    }
    least
}

fn run(program: &str, table: &str) {
    let status = Command::new(program).args(["plan", "--upto", UPTO.trim()]).stdin(File::open(table).unwrap()).stdout(Stdio::null()).status().unwrap();
    assert!(status.success());
}

fn row(what: &str, (a, b): (f64, f64)) -> String {
    format!(" | {what} {a:>8.1} {b:>8.1} {:>6.2}", a / b)
}

/// The pitch of the grid for strokes: 2.5 mm.
const PITCH: u8 = 10;

/// The times of all strokes of a sheet, one call each, of one of them in the mean, and of the last.
fn strokes(theirs: &mut Reference, table: &[u8], places: &[u16]) -> String {
    let count = 2 * (table.len() as u64 / 8 - 2);
    let (mut point, mut other) = ([0.0; 2], [0.0; 2]);
    for number in 0..=count {
        let (a, b) = (ours::stroke(table, places, PITCH, number, &mut point), theirs.stroke(table, places, PITCH, number, &mut other));
        assert_eq!((a, point.map(f64::to_bits)), (b, other.map(f64::to_bits)));
        assert_eq!(a, if number == count { 0 } else { 0x1_0000 << number % 2 });
    }
    let mut timed = |from: u64| two(
        || for number in from..count { black_box(ours::stroke(black_box(table), places, PITCH, number, &mut point)); },
        || for number in from..count { black_box(theirs.stroke(black_box(table), places, PITCH, number, &mut other)); });
    let (a, b) = timed(0);
    row("all strokes", (a, b)) + &row("mean", (a / count as f64, b / count as f64)) + &row("last", timed(count - 1))
}

/// The times of a hang, of the cut of what was hung, and of the halves of that hang; each but the first half with a copy of the table, on which it is done.
fn changes(theirs: &mut Reference, n: usize, free: usize) -> String {
    let (before, parent, side) = timed_room(n, free);
    let (mut a, mut b) = (before.clone(), before.clone());
    let (hung, other) = (ours::hang(&mut a, parent, side, 7), theirs.hang(&mut b, parent, side, 7));
    assert!(hung == other && hung >> 16 != 0 && a == b);
    let (after, record) = (a.clone(), (hung >> 16) as u16);
    assert_eq!((ours::cut(&mut a, record), theirs.cut(&mut b, record)), (0, 0));
    assert!(a == before && b == before);
    assert_eq!((ours::hold(&a, parent, side), theirs.hold(&b, parent, side)), (hung, hung));
    assert_eq!((ours::hang_held(&mut a, parent, side, 7, record), theirs.hang_held(&mut b, parent, side, 7, record)), (0, 0));
    assert!(a == after && b == after);
    let hangs = two(
        || { a.copy_from_slice(&before); black_box(ours::hang(black_box(&mut a), parent, side, 7)); },
        || { b.copy_from_slice(&before); black_box(theirs.hang(black_box(&mut b), parent, side, 7)); });
    let cuts = two(
        || { a.copy_from_slice(&after); black_box(ours::cut(black_box(&mut a), record)); },
        || { b.copy_from_slice(&after); black_box(theirs.cut(black_box(&mut b), record)); });
    let holds = two(
        || { black_box(ours::hold(black_box(&before), parent, side)); },
        || { black_box(theirs.hold(black_box(&before), parent, side)); });
    let helds = two(
        || { a.copy_from_slice(&before); black_box(ours::hang_held(black_box(&mut a), parent, side, 7, record)); },
        || { b.copy_from_slice(&before); black_box(theirs.hang_held(black_box(&mut b), parent, side, 7, record)); });
    row("hang", hangs) + &row("cut", cuts) + &row("hold", holds) + &row("hang held", helds)
}

/// The times of a check.
fn checks(theirs: &mut Reference, most: &mut Most, table: &[u8], places: &[u16], verdict: u32) -> String {
    assert_eq!((ours::check(table, places), theirs.check(table, places)), (verdict, verdict));
    let t = two(
        || { black_box(ours::check(black_box(table), places)); },
        || { black_box(theirs.check(black_box(table), places)); });
    if verdict == 0 && table.len() == LARGE {
        most.check = f64::max(most.check, t.0 / t.1);
    }
    row("check", t)
}

/// The times of a draw and a wide draw, and the drawing.
fn draws(theirs: &mut Reference, table: &[u8]) -> (String, Vec<u16>) {
    let mut places = vec![0u16; table.len() / 4];
    let (mut widely, mut other) = (places.clone(), places.clone());
    assert_eq!(ours::draw_wide(table, &mut widely), theirs.draw_wide(table, &mut other));
    assert_eq!(widely, other);
    assert_eq!(ours::draw(table, &mut places), theirs.draw(table, &mut other));
    assert_eq!(places, other);
    let drawn = places.clone();
    let plain = two(
        || { black_box(ours::draw(black_box(table), &mut places)); },
        || { black_box(theirs.draw(black_box(table), &mut other)); });
    let wide = two(
        || { black_box(ours::draw_wide(black_box(table), &mut widely)); },
        || { black_box(theirs.draw_wide(black_box(table), &mut other)); });
    (row("draw", plain) + &row("wide", wide), drawn)
}

/// The times of a draw and a wide draw of one tree, of our wide draw beside our draw, and of a check.
fn one_tree(theirs: &mut Reference, most: &mut Most, table: &[u8]) -> String {
    let (line, drawn) = draws(theirs, table);
    let (mut places, mut widely) = (drawn.clone(), drawn.clone());
    let t = two(
        || { black_box(ours::draw_wide(black_box(table), &mut widely)); },
        || { black_box(ours::draw(black_box(table), &mut places)); });
    if table.len() == LARGE {
        most.wide = f64::max(most.wide, t.0 / t.1);
    }
    line + &row("to draw", t) + &checks(theirs, most, table, &drawn, 0)
}

/// The times of the two programs on a table, which is put into a file.
fn programs(plan: &str, reference: &str, file: &str, table: &[u8]) -> String {
    std::fs::write(file, table).unwrap();
    row("program", two(|| run(plan, file), || run(reference, file)))
}

/// The times of a draw, a wide draw and a check of several trees, and of a check of them side by side.
fn forests(theirs: &mut Reference, most: &mut Most, n: usize, trees: usize) -> String {
    let (table, beside) = timed_forest(n, trees);
    let (line, drawn) = draws(theirs, &table);
    line + &checks(theirs, most, &table, &drawn, 0) + " side by side" + &checks(theirs, most, &table, &beside, 0)
}

/// Prints the times of checks of sheets that are not drawings of ours.
fn sheets(theirs: &mut Reference, most: &mut Most) {
    println!("sheets that the drawer did not make");
    for n in [64, 512, 4096] {
        for sheet in SHEETS {
            for shape in sheet_shapes(sheet) {
                let (table, places) = timed_sheet(sheet, shape, n);
                println!("{n:>4} {sheet:<18}{shape:<12}{}", checks(theirs, most, &table, &places, 0));
            }
        }
    }
    println!("sheets whose lines cross or touch");
    for n in [512, 4096] {
        for sheet in FAULTS {
            for shape in fault_shapes(sheet) {
                let (table, places, verdict) = timed_fault(sheet, shape, n);
                println!("{n:>4} {sheet:<18}{shape:<12}{}", checks(theirs, most, &table, &places, verdict));
            }
        }
    }
}

/// The times of a comparison of two lines, in nanoseconds, in the mean of a thousand.
fn comparisons(theirs: &Reference) -> String {
    let pairs = timed_pairs(1000);
    assert!(pairs.iter().all(|&ends| ours::compare(ends) == theirs.compare(ends)));
    row("compare", two(
        || for &ends in &pairs { black_box(ours::compare(black_box(ends))); },
        || for &ends in &pairs { black_box(theirs.compare(black_box(ends))); }))
}

fn main() {
    let args: Vec<String> = std::env::args().collect();
    let (plan, reference, folder) = (&args[1], &args[2], &args[3]);
    println!("least microseconds: ours, the Rust reference, and the ratio; to draw: our wide draw, our draw, and the ratio");
    let (mut theirs, mut most) = (Reference::new(), Most { wide: 0.0, check: 0.0 });
    for n in [64, 512, 4096] {
        for shape in SHAPES {
            let (table, file) = (timed_table(shape, n), format!("{folder}/{n}-{}.table", shape.replace(' ', "-")));
            let line = one_tree(&mut theirs, &mut most, &table) + &programs(plan, reference, &file, &table);
            println!("{n:>4} {shape:<12}{line}");
        }
    }
    println!("several trees");
    for n in [64, 512, 4096] {
        for trees in [n / 64, n / 8, n].into_iter().filter(|&trees| trees > 1) {
            println!("{n:>4} in {trees:>4} trees{}", forests(&mut theirs, &mut most, n, trees));
        }
    }
    println!("strokes of drawn sheets");
    for n in [64, 512, 4096] {
        for shape in SHAPES {
            let (table, mut places) = (timed_table(shape, n), vec![0u16; 2 * (n + 1)]);
            ours::draw(&table, &mut places);
            println!("{n:>4} {shape:<12}{}", strokes(&mut theirs, &table, &places));
        }
    }
    println!("hanging, cutting and hanging by halves at the end of the chain, in tables of so many records beside the head");
    for n in [64, 512, 4096] {
        for (what, free) in [("half of them free", n / 2), ("one of them free", 1)] {
            println!("{n:>4} {what:<18}{}", changes(&mut theirs, n, free));
        }
    }
    sheets(&mut theirs, &mut most);
    println!("two lines, least nanoseconds in the mean{}", comparisons(&theirs));
    println!("wide draw of 4096 nodes: up to {:.2} times our draw, allowed {WIDE_ALLOWED}", most.wide);
    println!("check of good sheets of 4096 nodes: up to {:.2} times the reference, allowed {CHECK_ALLOWED}", most.check);
    std::process::exit((most.wide > WIDE_ALLOWED || most.check > CHECK_ALLOWED) as i32);
}
