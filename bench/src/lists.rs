//! Lists: growth by points and the running box, held against the crate's growth by one point after the other,
//! and the common region, held against the sweep.

use crate::draw::{points, zones, Points, Rng, Zones};
use crate::ops::{add_all, add_one, add_valid};
use crate::records::{LatLng, Pieces, Rect, RectAnswer, Refused, RunningAnswer, EMPTY};
use crate::rows::{nothing, Row};
use crate::sweep;

/// How many lists a row has: few where they are long.
fn lists_of(n: usize) -> usize {
    if n > 64 {
        16
    } else {
        256
    }
}

extern "C" {
    fn sjurnabel_grow(a: Rect, points: *const f64, length: usize) -> RectAnswer;
    fn sjurnabel_running(a: Rect, points: *const f64, length: usize) -> RunningAnswer;
    fn sjurnabel_scan_point(b: *mut Rect, p: LatLng) -> Refused;
    fn sjurnabel_common_region(list: *const f64, length: usize, out: *mut f64, room: usize) -> Pieces;
}

/// Growth by a list, or the running box after it.
type Grow<A> = unsafe extern "C" fn(Rect, *const f64, usize) -> A;
type Scan = unsafe extern "C" fn(*mut Rect, LatLng) -> Refused;
type Common = unsafe extern "C" fn(*const f64, usize, *mut f64, usize) -> Pieces;

extern "C" fn their_growth(a: Rect, points: *const f64, length: usize) -> RectAnswer {
    add_all(a, unsafe { std::slice::from_raw_parts(points, length) })
}

extern "C" fn their_running(a: Rect, points: *const f64, length: usize) -> RunningAnswer {
    add_valid(a, unsafe { std::slice::from_raw_parts(points, length) })
}

extern "C" fn their_scan(b: *mut Rect, p: LatLng) -> Refused {
    let b = unsafe { &mut *b };
    *b = add_one(*b, p);
    Refused { refusal: 0 }
}

extern "C" fn their_common(list: *const f64, length: usize, out: *mut f64, room: usize) -> Pieces {
    unsafe {
        sweep::common_region(
            std::slice::from_raw_parts(list, length),
            std::slice::from_raw_parts_mut(out, room),
        )
    }
}

#[inline(never)]
fn run_growth<A>(call: Grow<A>, lists: &[Vec<f64>]) {
    let call = std::hint::black_box(call);
    for l in lists {
        std::hint::black_box(unsafe { call(EMPTY, l.as_ptr(), l.len()) });
    }
}

#[inline(never)]
fn run_scan(call: Scan, list: &[f64]) -> Rect {
    let call = std::hint::black_box(call);
    let mut b = EMPTY;
    for p in list.chunks_exact(2) {
        std::hint::black_box(unsafe { call(&mut b, LatLng { lat: p[0], lng: p[1] }) });
    }
    b
}

#[inline(never)]
fn run_common(call: Common, lists: &[Vec<f64>]) {
    let call = std::hint::black_box(call);
    let mut out = [0.0; 2048];
    for l in lists {
        std::hint::black_box(unsafe { call(l.as_ptr(), l.len(), out.as_mut_ptr(), out.len()) });
    }
}

/// A row of lists of 4,096 points, each grown by from the empty rectangle.
fn by_points<A: PartialEq + 'static>(
    group: &'static str,
    name: &str,
    limit: Option<f64>,
    lists: Vec<Vec<f64>>,
    ours: Grow<A>,
    theirs: Grow<A>,
) -> Row {
    let lists: &'static [Vec<f64>] = Vec::leak(lists);
    let answer = |call: Grow<A>, l: &Vec<f64>| unsafe { call(EMPTY, l.as_ptr(), l.len()) };
    Row {
        group,
        name: name.to_string(),
        limit,
        calls: lists.len(),
        differ: Box::new(move || lists.iter().filter(|l| answer(ours, l) != answer(theirs, l)).count()),
        ours: Box::new(move || run_growth(ours, lists)),
        theirs: Some(Box::new(move || run_growth(theirs, lists))),
        nothing: Box::new(move || run_growth::<A>(nothing(), lists)),
    }
}

const KINDS: [(&str, Points); 2] =
    [("4,096 points of a track", Points::Track), ("4,096 scattered points", Points::Scattered)];

fn drawn(kind: Points, g: &mut Rng) -> Vec<Vec<f64>> {
    (0..lists_of(4096)).map(|_| points(kind, 4096, g)).collect()
}

pub fn growth(rows: &mut Vec<Row>, g: &mut Rng) {
    for (name, kind) in KINDS {
        rows.push(by_points(
            "growth by a list",
            name,
            Some(1.0),
            drawn(kind, g),
            sjurnabel_grow,
            their_growth,
        ));
    }
}

/// The running box: the same kinds of lists, and tracks of which every 64th point is bad.
pub fn running(rows: &mut Vec<Row>, g: &mut Rng) {
    let group = "running box";
    for (name, kind) in KINDS {
        rows.push(by_points(group, name, None, drawn(kind, g), sjurnabel_running, their_running));
    }
    let mut lists = drawn(Points::Track, g);
    for list in &mut lists {
        list.iter_mut().skip(1).step_by(128).for_each(|lng| *lng = 4.0);
    }
    let name = "4,096 points of a track, every 64th bad";
    rows.push(by_points(group, name, None, lists, sjurnabel_running, their_running));
}

pub fn scan(rows: &mut Vec<Row>, g: &mut Rng) {
    let list: &'static [f64] = Vec::leak(points(Points::Track, 4096, g));
    let run = move |call: Scan| {
        std::hint::black_box(run_scan(call, list));
    };
    rows.push(Row {
        group: "scan worker",
        name: "a point of a track".to_string(),
        limit: None,
        calls: list.len() / 2,
        differ: Box::new(move || {
            (run_scan(sjurnabel_scan_point, list) != run_scan(their_scan, list)) as usize
        }),
        ours: Box::new(move || run(sjurnabel_scan_point)),
        theirs: Some(Box::new(move || run(their_scan))),
        nothing: Box::new(move || run(nothing())),
    });
}

/// The answer and every number of the output.
fn region(call: Common, list: &[f64]) -> (Pieces, Vec<f64>) {
    let mut out = vec![0.5; 2048];
    let answer = unsafe { call(list.as_ptr(), list.len(), out.as_mut_ptr(), out.len()) };
    (answer, out)
}

/// How many pieces the lists have, on average, with one decimal where that is not whole.
fn pieces(lists: &[Vec<f64>]) -> String {
    let all: usize = lists.iter().map(|l| region(their_common, l).0.count).sum();
    let (whole, tenth) = (all / lists.len(), all * 10 / lists.len() % 10);
    match (whole, tenth, all % lists.len()) {
        (1, _, 0) => "1 piece".to_string(),
        (_, _, 0) => format!("{whole} pieces"),
        _ => format!("{whole}.{tenth} pieces"),
    }
}

pub fn common(rows: &mut Vec<Row>, g: &mut Rng) {
    let kinds = [
        ("random zones", Zones::Random),
        ("zones around one place", Zones::Near),
        ("wide zones", Zones::Wide),
        ("a gap each, rising", Zones::Gaps),
        ("a gap each, falling", Zones::Falling),
        ("a gap each, shuffled", Zones::Shuffled),
    ];
    for n in [2, 16, 128, 512] {
        for (name, kind) in kinds {
            if n == 2 && (kind == Zones::Falling || kind == Zones::Shuffled) {
                continue;
            }
            let lists: &'static [Vec<f64>] = Vec::leak((0..lists_of(n)).map(|_| zones(kind, n, g)).collect());
            rows.push(Row {
                group: "common region",
                name: format!("n = {n}, {name}, {}", pieces(lists)),
                limit: Some(1.0),
                calls: lists.len(),
                differ: Box::new(move || {
                    lists
                        .iter()
                        .filter(|l| region(sjurnabel_common_region, l) != region(their_common, l))
                        .count()
                }),
                ours: Box::new(move || run_common(sjurnabel_common_region, lists)),
                theirs: Some(Box::new(move || run_common(their_common, lists))),
                nothing: Box::new(move || run_common(nothing(), lists)),
            });
        }
    }
}
