//! Arms: what a question can reach, so that an agreement means something. Of a Rust function they are told from
//! its own branch conditions, without a call of it.

/// An arm by its name and the part that it concerns ("": no part).
#[derive(Clone, Copy, PartialEq, Eq, PartialOrd, Ord)]
pub struct Arm {
    pub part: &'static str,
    pub name: &'static str,
}

impl Arm {
    pub const fn of(name: &'static str) -> Arm {
        Arm { part: "", name }
    }
}

impl std::fmt::Display for Arm {
    fn fmt(&self, f: &mut std::fmt::Formatter) -> std::fmt::Result {
        let colon = if self.part.is_empty() { "" } else { ": " };
        write!(f, "{}{colon}{}", self.part, self.name)
    }
}

/// A name, and whether the arm is reached.
pub type Row<T> = (&'static str, fn(&T) -> bool);

/// The arms of these rows.
pub fn named<T: ?Sized>(rows: &[Row<T>]) -> impl Iterator<Item = Arm> + '_ {
    rows.iter().map(|(name, _)| Arm::of(name))
}

/// Those of them that are reached.
pub fn hits<T: ?Sized>(rows: &[Row<T>], seen: &T) -> Vec<Arm> {
    rows.iter().filter(|(_, test)| test(seen)).map(|(name, _)| Arm::of(name)).collect()
}

/// The numbers that a function is called with, or None if it is not called.
pub type Part = fn(&[f64]) -> Option<Vec<f64>>;

/// Arms of a Rust function of doubles.
#[derive(Clone, Copy)]
pub enum Arms {
    /// Of these the first that is met: a chain of conditions.
    First(&'static [Row<[f64]>]),
    /// Each of these that is met.
    Each(&'static [Row<[f64]>]),
    /// Those of a function that is called with these numbers.
    Of(&'static [Arms], Part),
}

/// The names of all arms.
pub fn names(arms: &[Arms]) -> Vec<&'static str> {
    let of_one = |arms: &Arms| match arms {
        Arms::First(rows) | Arms::Each(rows) => rows.iter().map(|(name, _)| *name).collect(),
        Arms::Of(arms, _) => names(arms),
    };
    arms.iter().flat_map(of_one).collect()
}

/// The names of those that the numbers reach.
pub fn reached(arms: &[Arms], numbers: &[f64]) -> Vec<&'static str> {
    let met = |row: &&Row<[f64]>| (row.1)(numbers);
    let of_one = |arms: &Arms| match arms {
        Arms::First(rows) => rows.iter().find(met).into_iter().map(|row| row.0).collect(),
        Arms::Each(rows) => rows.iter().filter(met).map(|row| row.0).collect(),
        Arms::Of(arms, part) => part(numbers).map_or(Vec::new(), |numbers| reached(arms, &numbers)),
    };
    arms.iter().flat_map(of_one).collect()
}
