//! `remainder`: the crate's `src/consts.rs`, the remainder modulo 2 PI. The crate's function is one call of libm's
//! `remquo`, so the arms are those of that one for the modulus 2 PI, and every whole number n that can be taken
//! off.

use s2::consts::remainder;

use crate::base::check::{drawn, Check};
use crate::base::roles::{Role, TWO_PI};
use crate::draw;
use crate::kind::arms::Arms::{self, Each, First};
use crate::kind::op::{kinds, op, Gives, Op};
use crate::kind::worked::{written, Worked};
use crate::kind::Family;

pub const FAMILY: Family = Family { checks: CHECKS, ..Family::new(|| kinds(OPS), || written(WORKED)) };

const TAKES: &[Role] = &[Role::RemainderArgument];

const OPS: &[Op] = &[op("remainder", TAKES, Gives::Number(|n| remainder(n[0], TWO_PI))).arms(ARMS)];

const ARMS: &[Arms] = &[
    Each(&[
        ("zero", |n| n[0] == 0.0),
        ("subnormal", |n| n[0].is_subnormal()),
        // remquo hands such an argument back at once, by its exponent.
        ("under half of PI", |n| n[0].abs() < TWO_PI / 4.0),
    ]),
    // The n of x minus n times 2 PI. All bounds are exact doubles, 3 PI too.
    First(&[
        ("n 0", |n| n[0].abs() <= TWO_PI / 2.0),
        ("n 1", |n| n[0] > 0.0 && n[0] < 1.5 * TWO_PI),
        ("n -1", |n| n[0] < 0.0 && n[0] > -1.5 * TWO_PI),
        ("n 2", |n| n[0] > 0.0),
        ("n -2", |_| true),
    ]),
    Each(&[
        ("tie, n stays 0", |n| n[0].abs() == TWO_PI / 2.0),
        ("tie, n goes to 2", |n| n[0].abs() == 1.5 * TWO_PI),
        ("a multiple of 2 PI", |n| [TWO_PI, 2.0 * TWO_PI].contains(&n[0].abs())),
    ]),
];

const WORKED: Worked = &[
    // ties to even, no negative zero, 4 PI is taken and the next double is not
    ("remainder 4022D97C7F3321D2", "0 -PI"),
    ("remainder C022D97C7F3321D2", "0 PI"),
    ("remainder PI", "0 PI"),
    ("remainder C01921FB54442D18", "0 0.0"),
    ("remainder 402921FB54442D18", "0 0.0"),
    ("remainder 402921FB54442D19", "4 0.0"),
    ("remainder C02921FB54442D19", "4 0.0"),
    ("remainder 7FF8000000000000", "4 0.0"),
    // on either side of a bound between two multiples
    ("remainder 400921FB54442D17", "0 400921FB54442D17"),
    ("remainder 400921FB54442D19", "0 C00921FB54442D17"),
    ("remainder C00921FB54442D17", "0 C00921FB54442D17"),
    ("remainder C00921FB54442D19", "0 400921FB54442D17"),
    ("remainder 4022D97C7F3321D1", "0 400921FB54442D14"),
    ("remainder 4022D97C7F3321D3", "0 C00921FB54442D14"),
    ("remainder C022D97C7F3321D1", "0 C00921FB54442D14"),
    ("remainder C022D97C7F3321D3", "0 400921FB54442D14"),
    // no questions
    ("", "?"),
    ("remainder", "?"),
    ("remainder  400921FB54442D18", "?"),
    ("remainder 400921FB54442D18 ", "?"),
    ("remainder 400921FB54442D18\r", "?"),
    ("remainder 400921FB54442D1", "?"),
    ("remainder 400921FB54442D1G", "?"),
];

const CHECKS: &[Check] = &[("exact remainders", || {
    drawn("exact remainder", 1_000_000, |rng, tried| {
        let x = draw::numbers(rng, TAKES, true)[0];
        let (got, exact) = (remainder(x, TWO_PI), exact_remainder(x));
        tried.hold(got == exact, "remainder", || format!("{x:e}: the crate {got:e}, exactly {exact:e}"));
    })
})];

/// x minus n times 2 PI in exact whole numbers, n the nearest whole number, a tie to even n. Doubles
/// from PI up to 4 PI are whole multiples of 2^-51, and so is 2 PI; below PI nothing is taken off.
fn exact_remainder(x: f64) -> f64 {
    let unit = (1u64 << 51) as f64;
    if x.abs() <= TWO_PI / 2.0 {
        return x;
    }
    let (whole, modulus) = ((x * unit) as i64, (TWO_PI * unit) as i64);
    let (below, rest) = (whole.div_euclid(modulus), whole.rem_euclid(modulus));
    let up = 2 * rest > modulus || (2 * rest == modulus && below % 2 != 0);
    (if up { rest - modulus } else { rest }) as f64 / unit
}
