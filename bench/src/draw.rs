//! The inputs: the same ones in every run. All are valid, so that the crate has an answer to compare with.

use std::f64::consts::{FRAC_PI_2, PI};

use crate::records::{Interval, LatLng, Rect};

/// xorshift64*, from a fixed start.
pub struct Rng(u64);

impl Rng {
    pub fn new() -> Self {
        Rng(0x9E37_79B9_7F4A_7C15)
    }

    fn next(&mut self) -> u64 {
        self.0 ^= self.0 << 13;
        self.0 ^= self.0 >> 7;
        self.0 ^= self.0 << 17;
        self.0.wrapping_mul(0x2545_F491_4F6C_DD1D)
    }

    /// From 0 up to 1.
    pub fn unit(&mut self) -> f64 {
        (self.next() >> 11) as f64 / (1u64 << 53) as f64
    }

    pub fn between(&mut self, lo: f64, hi: f64) -> f64 {
        lo + self.unit() * (hi - lo)
    }

    pub fn below(&mut self, n: usize) -> usize {
        (self.next() >> 33) as usize % n
    }

    /// A longitude, above -PI.
    pub fn longitude(&mut self) -> f64 {
        self.between(-3.14, 3.14)
    }

    pub fn latitude(&mut self) -> f64 {
        self.between(-1.57, 1.57)
    }

    pub fn line(&mut self) -> Interval {
        let (a, b) = (self.between(-10.0, 10.0), self.between(-10.0, 10.0));
        Interval { lo: a.min(b), hi: a.max(b) }
    }

    pub fn circle(&mut self) -> Interval {
        Interval { lo: self.longitude(), hi: self.longitude() }
    }

    pub fn rect(&mut self) -> Rect {
        let (a, b) = (self.latitude(), self.latitude());
        Rect { lat: Interval { lo: a.min(b), hi: a.max(b) }, lng: self.circle() }
    }

    pub fn point(&mut self) -> LatLng {
        LatLng { lat: self.latitude(), lng: self.longitude() }
    }

    pub fn margins(&mut self) -> LatLng {
        LatLng { lat: self.between(0.0, 0.2), lng: self.between(0.0, 0.2) }
    }
}

/// x on the circle.
fn around(x: f64) -> f64 {
    let y = x - (x / (2.0 * PI)).round() * 2.0 * PI;
    y.clamp(-PI, PI)
}

/// How the zones of a list lie.
#[derive(Clone, Copy, PartialEq)]
pub enum Zones {
    /// any two longitudes, any latitudes that overlap
    Random,
    /// around one place: one piece
    Near,
    /// each leaves out up to a quarter of the circle: a few pieces, or none where they are many
    Wide,
    /// each leaves out a gap of its own: as many pieces as zones, in rising order
    Gaps,
    /// the same in falling order
    Falling,
    /// the same in random order
    Shuffled,
}

pub fn zones(kind: Zones, n: usize, g: &mut Rng) -> Vec<f64> {
    let mut all: Vec<[f64; 4]> = (0..n)
        .map(|k| {
            let (south, north) = (g.between(-1.0, -0.5), g.between(0.5, 1.0));
            let (west, east) = match kind {
                Zones::Random => (g.longitude(), g.longitude()),
                Zones::Near => (around(0.9 - g.between(0.0, 2.5)), around(1.1 + g.between(0.0, 2.5))),
                Zones::Wide => {
                    let west = g.longitude();
                    (west, around(west - g.between(0.0, FRAC_PI_2)))
                }
                Zones::Gaps | Zones::Falling | Zones::Shuffled => {
                    let step = 2.0 * PI / n as f64;
                    let middle = -PI + (k as f64 + 0.5) * step;
                    (middle + 0.2 * step, middle - 0.2 * step)
                }
            };
            [south, north, west, east]
        })
        .collect();
    match kind {
        Zones::Falling => all.reverse(),
        Zones::Shuffled => (1..n).rev().for_each(|i| all.swap(i, g.below(i + 1))),
        _ => {}
    }
    all.concat()
}

/// How the points of a list lie.
#[derive(Clone, Copy, PartialEq)]
pub enum Points {
    /// a ship's track: each near the one before it
    Track,
    /// anywhere
    Scattered,
}

pub fn points(kind: Points, n: usize, g: &mut Rng) -> Vec<f64> {
    let (mut lat, mut lng) = (0.5, 3.0);
    let mut all = Vec::with_capacity(2 * n);
    for _ in 0..n {
        let p = match kind {
            Points::Track => {
                lat = f64::clamp(lat + g.between(-0.01, 0.01), -1.5, 1.5);
                lng = around(lng + g.between(-0.01, 0.012));
                LatLng { lat, lng }
            }
            Points::Scattered => g.point(),
        };
        all.extend([p.lat, p.lng]);
    }
    all
}
