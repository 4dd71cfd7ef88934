//! Whole tracks through the running box: thousands of calls, across the seam and to the poles, bad points
//! among them. Of each track the box is asked for after several of its calls, from there on to the end, and
//! after the accepted calls alone; and the answers are held to what document 02 promises (T-04).

use std::f64::consts::{FRAC_PI_2, PI};

use super::draw::{negative_zeros, onto_circle};
use super::question::{bits, Question, Way, MOST_POINTS};
use crate::base::answer::ACCEPTED;
use crate::base::check::{Statements, Tried};
use crate::base::places::{held, place_of, telling_places};
use crate::base::rng::Rng;
use crate::base::roles::{is_negative_zero, plain, rect_is_valid, seam_as_pi, Point, Rect, Role, EMPTY};
use crate::base::words;
use crate::draw::{outside, rect};
use crate::kind::{Asked, Run};

pub const RUN: Run = Run { name: "tracks", questions, judged };

/// How many cuts are drawn beside the two ends and those around a refused call.
const CUTS: usize = 4;

struct Track {
    start: Rect,
    points: Vec<Point>,
    /// after how many calls the box is asked for: rising, the last one after all of them
    cuts: Vec<usize>,
}

/// What a door answered: how many calls were accepted, and the box.
#[derive(Clone, Copy)]
struct Ran {
    accepted: usize,
    rect: Rect,
}

/// What the tracks of a run had, for the eye.
#[derive(Default)]
struct Had {
    calls: usize,
    refused: usize,
    over_seam: usize,
    at_pole: usize,
}

fn is_valid(point: &Point) -> bool {
    Role::LatLng.fault(point) == ACCEPTED
}

/// `count` tracks of a seed, one after the other.
fn tracks(count: usize, seed: u64) -> impl Iterator<Item = Track> {
    let mut rng = Rng::new(seed, "tracks");
    (0..count).map(move |_| track(&mut rng))
}

fn track(rng: &mut Rng) -> Track {
    let count = MOST_POINTS / 4 + rng.below(3 * MOST_POINTS / 4 + 1);
    let mut points = path(rng, count);
    let start = start(rng, points[0]);
    let share = rng.below(5);
    for point in &mut points {
        if rng.percent(share) {
            let place = rng.below(2);
            point[place] = outside(rng, Role::LatLng, place);
        }
    }
    let refused = points.iter().position(|point| !is_valid(point));
    let mut cuts: Vec<usize> = (0..CUTS).map(|_| rng.below(count)).collect();
    cuts.extend(refused.into_iter().flat_map(|at| [at, at + 1]).chain([0, count]));
    cuts.sort_unstable();
    cuts.dedup();
    Track { start, points, cuts }
}

/// An empty start mostly; or the first point alone, or any; at times with a negative zero.
fn start(rng: &mut Rng, [lat, lng]: Point) -> Rect {
    let drawn = match rng.below(5) {
        0..=1 => EMPTY,
        2 => [0.5, -0.5, PI, -PI],
        3 => [lat, lat, seam_as_pi(lng), seam_as_pi(lng)],
        _ => rect::rect(rng, &[]),
    };
    if rng.percent(30) {
        negative_zeros(rng, drawn)
    } else {
        drawn
    }
}

/// Steps from a place on: round the globe, to and fro over the seam, or over a pole and back by the meridian
/// beyond it; or points anywhere.
fn path(rng: &mut Rng, count: usize) -> Vec<Point> {
    let way = rng.below(4);
    let either = |rng: &mut Rng| 2.0 * rng.unit() - 1.0;
    let [mut lat, mut lng] = [FRAC_PI_2 * either(rng), if way == 1 { PI } else { PI * either(rng) }];
    let [mut north, east] = [4.0, 10.0].map(|all| rng.pick(&[-1.0, 1.0]) * all / count as f64);
    let mut points = Vec::with_capacity(count);
    for _ in 0..count {
        points.push([lat, lng]);
        (lat, lng) = match way {
            0 => (lat + 0.05 * either(rng), lng + east * rng.unit()),
            1 => (lat + 0.02 * either(rng), lng + 0.02 * either(rng)),
            2 => (lat + north, lng + 0.001 * either(rng)),
            _ => (FRAC_PI_2 * either(rng), PI * either(rng)),
        };
        if lat.abs() > FRAC_PI_2 {
            lat = FRAC_PI_2.copysign(lat);
            north = -north;
            lng += PI;
        }
        lng = onto_circle(lng);
    }
    points
}

fn calls(start: Rect, points: &[Point]) -> Question {
    Question { way: Way::Running, start, numbers: points.concat() }
}

/// Whether every place that the first holds is held by the later one too.
fn stays(first: Rect, later: Rect) -> bool {
    telling_places(&[first, later]).iter().all(|at| !held(first, *at) || held(later, *at))
}

impl Track {
    fn accepted(&self) -> Vec<Point> {
        self.points.iter().copied().filter(is_valid).collect()
    }

    /// After each cut from the start; from each cut to the end; and the accepted calls alone.
    fn questions(&self) -> Vec<Question> {
        let firsts: Vec<Question> =
            self.cuts.iter().map(|at| calls(self.start, &self.points[..*at])).collect();
        let cuts = self.cuts.iter().zip(&firsts);
        let lasts: Vec<Question> =
            cuts.map(|(at, first)| calls(first.left().rect, &self.points[*at..])).collect();
        firsts.into_iter().chain(lasts).chain([calls(self.start, &self.accepted())]).collect()
    }

    /// What is promised, of a door's answers to these questions in their order.
    fn promises(&self, answers: &[Ran]) -> Statements {
        let (firsts, others) = answers.split_at(self.cuts.len());
        let (lasts, alone) = others.split_at(self.cuts.len());
        [self.over_places(firsts), self.over_calls(firsts), self.joined(firsts, lasts, alone[0])].concat()
    }

    /// Of the boxes after each cut: what they hold, and where the last one's edges come from.
    fn over_places(&self, firsts: &[Ran]) -> Statements {
        let rects: Vec<Rect> = firsts.iter().map(|ran| ran.rect).collect();
        let end = rects[rects.len() - 1];
        let accepted = self.accepted();
        let all_held = accepted.iter().all(|[lat, lng]| held(end, (*lat, place_of(*lng))));
        vec![
            ("once in, never out", rects.iter().all(|first| stays(*first, end))),
            ("each box holds the one before it", rects.windows(2).all(|two| stays(two[0], two[1]))),
            ("the start stays in", rects.iter().all(|rect| stays(self.start, *rect))),
            ("every accepted point is held", all_held),
            ("each edge comes from the start or an accepted point", self.edges(&accepted, end)),
            ("the box is valid", rects.iter().all(|rect| rect_is_valid(*rect))),
        ]
    }

    /// Of the same: which calls were accepted, and what the others left.
    fn over_calls(&self, firsts: &[Ran]) -> Statements {
        let counted = |(at, ran): (&usize, &Ran)| {
            ran.accepted == self.points[..*at].iter().filter(|point| is_valid(point)).count()
        };
        let unchanged = |at: usize| {
            let refused = self.cuts[at + 1] == self.cuts[at] + 1 && !is_valid(&self.points[self.cuts[at]]);
            !refused || bits(firsts[at].rect) == bits(firsts[at + 1].rect)
        };
        let no_minus = |ran: &Ran| !ran.rect.iter().any(|x| is_negative_zero(*x));
        let as_it_came = |ran: &Ran| bits(ran.rect) == bits(self.start);
        vec![
            ("the valid calls are the accepted ones", self.cuts.iter().zip(firsts).all(counted)),
            ("a refused call changes no bit", (0..self.cuts.len() - 1).all(unchanged)),
            (
                "an accepted call leaves no negative zero, and without one the start keeps its bits",
                firsts.iter().all(|ran| if ran.accepted == 0 { as_it_came(ran) } else { no_minus(ran) }),
            ),
        ]
    }

    /// Of the box after all calls: the same comes of two parts, and of the accepted calls alone.
    fn joined(&self, firsts: &[Ran], lasts: &[Ran], alone: Ran) -> Statements {
        let end = firsts[firsts.len() - 1];
        let is_end = |rect: Rect, accepted: usize| bits(rect) == bits(end.rect) && accepted == end.accepted;
        let parts = firsts.iter().zip(lasts);
        vec![
            (
                "the calls may be made in two parts",
                parts.into_iter().all(|(first, last)| is_end(last.rect, first.accepted + last.accepted)),
            ),
            ("leaving out the refused calls changes nothing", is_end(alone.rect, alone.accepted)),
        ]
    }

    fn edges(&self, accepted: &[Point], rect: Rect) -> bool {
        let is_known = |place: usize| {
            let coordinate = |point: &Point| match place {
                0 | 1 => plain(point[0]),
                _ => seam_as_pi(plain(point[1])),
            };
            let edge = plain(rect[place]).to_bits();
            edge == plain(self.start[place]).to_bits()
                || accepted.iter().any(|point| coordinate(point).to_bits() == edge)
        };
        (0..4).all(is_known)
    }
}

impl Had {
    fn add(&mut self, track: &Track, end: Rect) {
        self.calls += track.points.len();
        self.refused += track.points.iter().filter(|point| !is_valid(point)).count();
        self.over_seam += usize::from(end[2] > end[3] || (end[2] == -PI && end[3] == PI));
        self.at_pole += usize::from(end[0] == -FRAC_PI_2 || end[1] == FRAC_PI_2);
    }
}

fn questions(count: usize, seed: u64, put: &mut dyn FnMut(&str)) {
    for track in tracks(count, seed) {
        track.questions().iter().for_each(|asked| put(&asked.line()));
    }
}

fn read(answer: &str) -> Option<Ran> {
    let words: Vec<&str> = answer.split(' ').collect();
    let [_, accepted, rect @ ..] = &words[..] else { return None };
    let rect: Vec<&[u8]> = rect.iter().map(|word| word.as_bytes()).collect();
    Some(Ran { accepted: accepted.parse().ok()?, rect: words::numbers(&rect)? })
}

/// Holds the answers of a door to those of the oracle and to the promises, and says what the tracks had.
fn judged(count: usize, seed: u64, next: &mut dyn FnMut() -> Option<String>) -> Tried {
    let (mut tried, mut had, mut asked) = (Tried::default(), Had::default(), 0);
    for track in tracks(count, seed) {
        let questions = track.questions();
        let expected: Vec<String> = questions.iter().map(|question| question.answer().text()).collect();
        let answers: Vec<String> = questions.iter().map(|_| next().unwrap_or_default()).collect();
        asked += questions.len();
        for (answer, expected) in answers.iter().zip(&expected) {
            tried.hold(answer == expected, "an answer", || format!("{answer:?}, expected {expected:?}"));
        }
        match answers.iter().map(|answer| read(answer)).collect::<Option<Vec<Ran>>>() {
            Some(answers) => tried.hold_all(track.promises(&answers), &track.start),
            None => tried.hold(false, "a track's answers", || "no running box"),
        }
        tried.cases += 1;
        had.add(&track, questions[track.cuts.len() - 1].left().rect);
    }
    tried.hold(next().is_none(), "the answers", || "more than were asked for");
    let Had { calls, refused, over_seam, at_pole } = had;
    println!("{count} tracks of {calls} calls, {refused} of them refused; {asked} questions");
    println!("{over_seam} boxes cross the seam or are full round, {at_pole} reach a pole");
    tried
}

/// The promises, of the oracle's own answers.
pub fn of_the_oracle() -> Tried {
    let (count, seed) = (100, 1);
    let answers: Vec<String> =
        tracks(count, seed).flat_map(|track| track.questions()).map(|asked| asked.answer().text()).collect();
    let mut answers = answers.into_iter();
    judged(count, seed, &mut || answers.next())
}
