//! Worked answers: questions whose answers follow from document 01 and the protocol, by hand. A number may be
//! spelled for the reader: with a point, or as PI.

use std::f64::consts::PI;

/// Questions and their answers.
pub type Worked = &'static [(&'static str, &'static str)];

/// The questions and answers as the protocol writes them.
pub fn written(worked: Worked) -> Vec<(String, String)> {
    worked.iter().map(|(asked, expected)| (words(asked), words(expected))).collect()
}

/// A text with every spelled number as its bit pattern.
pub fn words(text: &str) -> String {
    let word = |word: &str| value(word).map_or(word.to_string(), |x| format!("{:016X}", x.to_bits()));
    text.split(' ').map(word).collect::<Vec<_>>().join(" ")
}

fn value(word: &str) -> Option<f64> {
    match word {
        "PI" => Some(PI),
        "-PI" => Some(-PI),
        "PI/2" => Some(PI / 2.0),
        "-PI/2" => Some(-PI / 2.0),
        _ if word.contains('.') => word.parse().ok(),
        _ => None,
    }
}
