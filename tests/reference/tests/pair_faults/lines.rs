//! Faults that only a line has: what is read as pairs, and what is printed.

use reference::pairs::Pair;
use reference::sheet::{self, Form};

#[derive(Clone, Copy, PartialEq, Debug)]
pub enum LineFault {
    None,

    // What is printed.
    PrintsTheStations,
    PrintsOneFewer,
    PrintsOneMore,
    PrintsTheLastStation,
    PrintsTheFirstPair,
    PrintsThePairs,
    PrintsOnePairAsSingle,
    PrintsSingleAsOnePair,
    PrintsNothingElse,

    // What is read that is none of the forms, or not read that is one.
    NoPairs,
    OnePairRefused,
    SinglesRefused,
    MoreThanSixteenRefused,
    MoreThanFortyRefused,
    EmptyPairs,
    HalfPairs,
    ThirdNumbers,
    BareNumbers,
    BareFirstPair,
    NoSpaces,
    TwoSpaces,
    SpacesBeforeClosing,
    SpacesBehindOpening,
    SpaceBehindTheLine,
    NestedPairs,
    MissingBracket,
    LeadingZeros,
    Pluses,
    MinusZero,
    StationsOfThreeDigits,
    FiguresWrap,
    OtherCase,
}

#[rustfmt::skip]
pub const LINE_FAULTS: [LineFault; 32] = {
    use LineFault::*;
    [
        PrintsTheStations, PrintsOneFewer, PrintsOneMore, PrintsTheLastStation, PrintsTheFirstPair, PrintsThePairs,
        PrintsOnePairAsSingle, PrintsSingleAsOnePair, PrintsNothingElse, NoPairs, OnePairRefused, SinglesRefused,
        MoreThanSixteenRefused, MoreThanFortyRefused, EmptyPairs, HalfPairs, ThirdNumbers, BareNumbers, BareFirstPair, NoSpaces,
        TwoSpaces, SpacesBeforeClosing, SpacesBehindOpening, SpaceBehindTheLine, NestedPairs, MissingBracket, LeadingZeros,
        Pluses, MinusZero, StationsOfThreeDigits, FiguresWrap, OtherCase,
    ]
};

/// The line's words with a change for each: brackets and spaces stay.
fn each_word(line: &str, change: impl Fn(&str) -> String) -> String {
    let mut out = String::new();
    for part in line.split_inclusive([' ', '(', ')']) {
        let end = part.trim_end_matches([' ', '(', ')']);
        out.push_str(&change(end));
        out.push_str(&part[end.len()..]);
    }
    out
}

fn figure(word: &str) -> String {
    word.parse::<i64>().map_or(word.to_string(), |value| (value as i32).to_string())
}

/// One pair of a line that has pairs, as words.
fn each_pair(line: &str, change: impl Fn(&[&str]) -> Option<String>) -> Option<String> {
    let inside = line.strip_prefix("(propose (")?.strip_suffix("))")?;
    let all = inside.split(") (").filter_map(|pair| change(&pair.split(' ').collect::<Vec<_>>()));
    Some(format!("(propose {})", all.collect::<Vec<_>>().join(" ")))
}

/// Numbers that stand between the pairs are left out.
fn without_bare(line: &str) -> String {
    let mut depth = 0;
    let kept = line.split(' ').filter(|word| {
        let bare = depth == 1 && word.parse::<i32>().is_ok();
        depth += word.matches('(').count() as i32 - word.matches(')').count() as i32;
        !bare
    });
    kept.collect::<Vec<_>>().join(" ")
}

impl LineFault {
    /// The line that it is taken for.
    fn taken_for(self, line: &str) -> Option<String> {
        let zeros = |word: &str| word.trim_start_matches('0').to_string();
        let unpadded = |word: &str| if zeros(word).is_empty() && !word.is_empty() { "0".into() } else { zeros(word) };
        let taken = match self {
            LineFault::EmptyPairs => line.replace(" ()", ""),
            LineFault::HalfPairs => each_pair(line, |words| match words {
                [station] => Some(format!("({station} 0)")),
                _ => Some(format!("({})", words.join(" "))),
            })?,
            LineFault::ThirdNumbers => {
                each_pair(line, |words| Some(format!("({})", words[..words.len().min(2)].join(" "))))?
            }
            LineFault::BareNumbers => without_bare(line),
            LineFault::BareFirstPair => {
                let (first, rest) = line.strip_prefix("(propose ")?.split_once(" (")?;
                format!("(propose ({first}) ({rest}")
            }
            LineFault::NoSpaces => line.replace(")(", ") (").replace("propose(", "propose ("),
            LineFault::TwoSpaces => line.replace("  ", " "),
            LineFault::SpacesBeforeClosing => line.replace(" )", ")"),
            LineFault::SpacesBehindOpening => line.replace("( ", "("),
            LineFault::SpaceBehindTheLine => line.trim_end().to_string(),
            LineFault::NestedPairs => line.replace("((", "(").replace(")))", "))"),
            LineFault::MissingBracket => format!("{line})"),
            LineFault::LeadingZeros => each_word(line, unpadded),
            LineFault::Pluses => each_word(line, |word| word.trim_start_matches('+').to_string()),
            LineFault::MinusZero => each_word(line, |word| if word == "-0" { "0".into() } else { word.to_string() }),
            LineFault::StationsOfThreeDigits => each_pair(line, |words| match words {
                [station, figure] if (100..256).contains(&station.parse().unwrap_or(0)) => {
                    Some(format!("(99 {figure})"))
                }
                _ => Some(format!("({})", words.join(" "))),
            })?,
            LineFault::FiguresWrap => each_word(line, figure),
            LineFault::OtherCase => line.to_ascii_lowercase(),
            _ => return None,
        };
        Some(taken)
    }

    /// The pairs of a line, where it is read as such. `Err` has what it prints in place of being read rightly.
    pub fn read(self, line: &[u8]) -> Result<Option<Vec<Pair>>, &'static str> {
        let refused = Err("(refused 4)");
        let pairs = match (sheet::read(line), self) {
            (Ok(Form::Propose(..)), LineFault::SinglesRefused) => return refused,
            (Ok(Form::ProposeAll(pairs)), LineFault::OnePairRefused) if pairs.len() == 1 => return refused,
            (Ok(Form::ProposeAll(pairs)), LineFault::MoreThanSixteenRefused) if pairs.len() > 16 => return refused,
            (Ok(Form::ProposeAll(pairs)), LineFault::MoreThanFortyRefused) if pairs.len() > 40 => return refused,
            (Ok(Form::ProposeAll(pairs)), _) => Some(pairs),
            (Err(_), LineFault::NoPairs) if line == b"(propose)" => Some(vec![]),
            (Err(_), _) if line.len() <= sheet::LONGEST_LINE => {
                let taken = std::str::from_utf8(line).ok().and_then(|line| self.taken_for(line)).unwrap_or_default();
                if let Ok(Form::ProposeAll(pairs)) = sheet::read(taken.as_bytes()) {
                    Some(pairs)
                } else {
                    None
                }
            }
            _ => None,
        };
        Ok(pairs)
    }

    /// What pairs print that were put in.
    pub fn printed(self, n: u8, pairs: &[Pair]) -> String {
        let told = match self {
            LineFault::PrintsTheStations => n.to_string(),
            LineFault::PrintsOneFewer => (pairs.len() - 1).to_string(),
            LineFault::PrintsOneMore => (pairs.len() + 1).to_string(),
            LineFault::PrintsTheLastStation => pairs[pairs.len() - 1].0.to_string(),
            LineFault::PrintsTheFirstPair => format!("{} {}", pairs[0].0, pairs[0].1),
            LineFault::PrintsOnePairAsSingle if pairs.len() == 1 => format!("{} {}", pairs[0].0, pairs[0].1),
            LineFault::PrintsThePairs => {
                pairs.iter().map(|(station, figure)| format!("({station} {figure})")).collect::<Vec<_>>().join(" ")
            }
            LineFault::PrintsNothingElse => return "(proposed)".to_string(),
            _ => pairs.len().to_string(),
        };
        format!("(proposed {told})")
    }

    /// What a single proposal prints.
    pub fn printed_single(self, printed: String) -> String {
        if self == LineFault::PrintsSingleAsOnePair && printed.starts_with("(proposed ") {
            "(proposed 1)".into()
        } else {
            printed
        }
    }
}
