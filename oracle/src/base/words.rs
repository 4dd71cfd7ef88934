//! The words of the protocol's lines (docs/ASK.md): how they are read, and how they are written.

/// A line of more bytes than this is no question.
pub const LONGEST_LINE: usize = 200_000;

/// No list of any question may have more numbers than this.
pub const LONGEST_LIST: usize = 8_194;

/// A double: its bit pattern in 16 digits.
pub fn number(word: &[u8]) -> Option<f64> {
    digits(word, 16).map(f64::from_bits)
}

/// Just so many doubles.
pub fn numbers<const COUNT: usize>(words: &[&[u8]]) -> Option<[f64; COUNT]> {
    let numbers: Vec<f64> = words.iter().map(|word| number(word)).collect::<Option<_>>()?;
    numbers.try_into().ok()
}

/// The bar and the numbers of a list, up to so many: the rest of a line.
pub fn list(words: &[&[u8]], most: usize) -> Option<Vec<f64>> {
    match words {
        [b"|", rest @ ..] if rest.len() <= most => rest.iter().map(|word| number(word)).collect(),
        _ => None,
    }
}

/// A whole number in just so many hexadecimal digits of either case.
pub fn digits(word: &[u8], count: usize) -> Option<u64> {
    let add = |whole: u64, byte: &u8| Some(whole << 4 | u64::from((*byte as char).to_digit(16)?));
    if word.len() == count {
        word.iter().try_fold(0, add)
    } else {
        None
    }
}

/// Pairs of hexadecimal digits of either case; a lone minus is no byte at all.
pub fn bytes(word: &[u8]) -> Option<Vec<u8>> {
    match word {
        b"-" => Some(Vec::new()),
        b"" => None,
        _ => word.chunks(2).map(|pair| digits(pair, 2).map(|byte| byte as u8)).collect(),
    }
}

/// A decimal whole number without a sign or a needless zero, up to the most.
pub fn whole(word: &[u8], most: usize) -> Option<usize> {
    if !is_whole(word) || word.len() > 9 {
        return None;
    }
    let whole = word.iter().fold(0, |whole, digit| 10 * whole + usize::from(digit - b'0'));
    (whole <= most).then_some(whole)
}

/// Whether these are the digits of a whole number, with no needless zero before them.
pub fn is_whole(digits: &[u8]) -> bool {
    let needless_zero = digits.len() > 1 && digits[0] == b'0';
    !digits.is_empty() && !needless_zero && digits.iter().all(u8::is_ascii_digit)
}

/// A question's doubles, each in 16 upper-case digits with a space before.
pub fn asked(numbers: &[f64]) -> String {
    numbers.iter().map(|x| format!(" {:016X}", x.to_bits())).collect()
}

/// The same in an answer, where every NaN is written alike.
pub fn answered(numbers: &[f64]) -> String {
    asked(&numbers.iter().map(|x| if x.is_nan() { NAN } else { *x }).collect::<Vec<_>>())
}

const NAN: f64 = f64::from_bits(0x7FF8_0000_0000_0000);

/// A question's bytes, as pairs of upper-case digits.
pub fn hex(bytes: &[u8]) -> String {
    match bytes {
        [] => "-".to_string(),
        _ => bytes.iter().map(|byte| format!("{byte:02X}")).collect(),
    }
}
