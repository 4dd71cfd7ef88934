//! The text of a bbox array. Reading goes down the productions of RFC 8259, one function each, with the
//! four numbers of RFC 7946's array and as many digits as document 02 takes:
//!
//! ```text
//! JSON-text       = ws array ws
//! array           = begin-array number 3( value-separator number ) end-array
//! begin-array     = ws "[" ws
//! value-separator = ws "," ws
//! end-array       = ws "]" ws
//! number          = [ "-" ] int [ frac ]
//! int             = "0" / ( digit1-9 *DIGIT )        at most three digits
//! frac            = "." 1*DIGIT                      at most seven digits after the point
//! ws              = *( %x20 / %x09 / %x0A / %x0D )
//! ```

use super::bounds::{Bounds, DEGREE};

const MOST_INT: usize = 3;
const MOST_FRAC: usize = 7;

/// Where a text leaves the productions.
#[derive(Clone, Copy, Debug, PartialEq)]
pub enum Fault {
    NoBeginArray,
    NoDigit,
    LongInt,
    NoDecimal,
    LongFrac,
    NoSeparator,
    NoEndArray,
    TextAfter,
}

/// A text that is no array: its first fault, and the numbers before it.
#[derive(Debug)]
pub struct Failed {
    pub fault: Fault,
    pub numbers: Vec<i64>,
}

/// The four numbers of a text in ten-millionths, whatever their size.
pub fn array(text: &[u8]) -> Result<Bounds, Failed> {
    let mut reader = Reader { rest: text, numbers: Vec::new() };
    match reader.json_text() {
        Ok(()) => Ok(reader.numbers.try_into().expect("four numbers")),
        Err(fault) => Err(Failed { fault, numbers: reader.numbers }),
    }
}

/// What is still to be read, and the numbers read so far.
struct Reader<'a> {
    rest: &'a [u8],
    numbers: Vec<i64>,
}

impl Reader<'_> {
    fn json_text(&mut self) -> Result<(), Fault> {
        self.ws();
        self.array()?;
        self.ws();
        if self.rest.is_empty() {
            Ok(())
        } else {
            Err(Fault::TextAfter)
        }
    }

    fn array(&mut self) -> Result<(), Fault> {
        self.structural(b'[', Fault::NoBeginArray)?;
        self.number()?;
        for _ in 0..3 {
            self.structural(b',', Fault::NoSeparator)?;
            self.number()?;
        }
        self.structural(b']', Fault::NoEndArray)
    }

    /// A bracket or a comma, with spaces around it.
    fn structural(&mut self, sign: u8, otherwise: Fault) -> Result<(), Fault> {
        self.ws();
        if !self.takes(sign) {
            return Err(otherwise);
        }
        self.ws();
        Ok(())
    }

    fn number(&mut self) -> Result<(), Fault> {
        let minus = self.takes(b'-');
        let whole = self.int()? * DEGREE + self.frac()?;
        self.numbers.push(if minus { -whole } else { whole });
        Ok(())
    }

    /// The number's degrees. After a zero no digit is taken: what follows is for the next production.
    fn int(&mut self) -> Result<i64, Fault> {
        if self.takes(b'0') {
            return Ok(0);
        }
        let digits = self.digits();
        match digits.len() {
            0 => Err(Fault::NoDigit),
            1..=MOST_INT => Ok(value(digits)),
            _ => Err(Fault::LongInt),
        }
    }

    /// The number's ten-millionths: none where there is no point.
    fn frac(&mut self) -> Result<i64, Fault> {
        if !self.takes(b'.') {
            return Ok(0);
        }
        let digits = self.digits();
        match digits.len() {
            0 => Err(Fault::NoDecimal),
            1..=MOST_FRAC => Ok(value(digits) * 10_i64.pow((MOST_FRAC - digits.len()) as u32)),
            _ => Err(Fault::LongFrac),
        }
    }

    fn ws(&mut self) {
        self.while_true(|byte| [0x20, 0x09, 0x0A, 0x0D].contains(&byte));
    }

    fn digits(&mut self) -> &[u8] {
        self.while_true(|byte| (0x30..=0x39).contains(&byte))
    }

    /// Takes one byte if it is this one.
    fn takes(&mut self, sign: u8) -> bool {
        match self.rest.split_first() {
            Some((first, rest)) if *first == sign => {
                self.rest = rest;
                true
            }
            _ => false,
        }
    }

    fn while_true(&mut self, test: impl Fn(u8) -> bool) -> &[u8] {
        let count = self.rest.iter().take_while(|byte| test(**byte)).count();
        let (taken, rest) = self.rest.split_at(count);
        self.rest = rest;
        taken
    }
}

/// At most seven digits as a number.
fn value(digits: &[u8]) -> i64 {
    digits.iter().fold(0, |number, digit| 10 * number + i64::from(digit - b'0'))
}

/// "The writer uses the fewest digits, no spaces and never "-0"."
pub fn write(bounds: Bounds) -> String {
    format!("[{}]", bounds.map(number).join(","))
}

pub fn number(number: i64) -> String {
    let minus = if number < 0 { "-" } else { "" };
    let (degrees, rest) = (number.abs() / DEGREE, number.abs() % DEGREE);
    let decimals = format!("{rest:07}");
    match decimals.trim_end_matches('0') {
        "" => format!("{minus}{degrees}"),
        decimals => format!("{minus}{degrees}.{decimals}"),
    }
}
