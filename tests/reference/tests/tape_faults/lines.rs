//! Faults of whoever reads a tape: where its lines end, and which of them are step answers. What is right goes byte by byte
//! through a line, where the second implementation takes its words apart and writes them again.

use std::ops::RangeInclusive;

#[derive(Clone, Copy, PartialEq, Debug)]
pub enum LineFault {
    Right,

    // Where lines end.
    LastWithoutLfDropped,
    LastWithoutLfRefused,
    FinalLfBeginsALine,
    EmptyTapeRefused,
    CarriageReturnsEndLines,

    // Lines that pass, though they are no step answers.
    EmptyLines,
    CarriageReturns,
    SpacesBehind,
    SpacesBefore,
    SpacesInBrackets,
    TwoSpaces,
    Tabs,
    OtherCase,
    NoClosingBracket,
    AnythingBehind,
    LeadingZeros,
    MinusZero,
    Pluses,
    SmallNumbersWrap,
    FiguresWrap,
    FieldsOfWrote,
    ReadWithoutField,
    NoTotals,
    MoreFields,
    Refused,
    Standings,
    OtherWords,
    Station100,
    Island100,
    Total100,
    Read2,
    Marked0,
    Marked3,
    FigureAbove,
    FigureBelow,
    NegativeStations,
    NegativeIslands,
    NegativeTotals,
    NegativeReads,
    AllPass,

    // Step answers that do not pass.
    Station0Refused,
    StationsTo16,
    Station99Refused,
    IslandsTo63,
    Island99Refused,
    Total0Refused,
    TotalsTo16,
    Total99Refused,
    HighestFigureRefused,
    LowestFigureRefused,
    NegativesRefused,
    KindRefused(&'static str),
}

use LineFault::*;

#[rustfmt::skip]
pub const LINE_FAULTS: [LineFault; 58] = [
    LastWithoutLfDropped, LastWithoutLfRefused, FinalLfBeginsALine, EmptyTapeRefused, CarriageReturnsEndLines,
    EmptyLines, CarriageReturns, SpacesBehind, SpacesBefore, SpacesInBrackets, TwoSpaces, Tabs, OtherCase,
    NoClosingBracket, AnythingBehind, LeadingZeros, MinusZero, Pluses, SmallNumbersWrap, FiguresWrap, FieldsOfWrote,
    ReadWithoutField, NoTotals, MoreFields, Refused, Standings, OtherWords, Station100, Island100, Total100, Read2,
    Marked0, Marked3, FigureAbove, FigureBelow, NegativeStations, NegativeIslands, NegativeTotals, NegativeReads,
    AllPass, Station0Refused, StationsTo16, Station99Refused, IslandsTo63, Island99Refused, Total0Refused, TotalsTo16,
    Total99Refused, HighestFigureRefused, LowestFigureRefused, NegativesRefused, KindRefused("wrote"),
    KindRefused("read"), KindRefused("went"), KindRefused("marked"), KindRefused("adopted"), KindRefused("decided"),
    KindRefused("spent"),
];

/// Which numbers may stand where.
struct Ranges {
    station: RangeInclusive<i64>,
    filled: RangeInclusive<i64>,
    flag: RangeInclusive<i64>,
    island: RangeInclusive<i64>,
    figure: RangeInclusive<i64>,
    total: RangeInclusive<i64>,
}

const LOWEST: i64 = i32::MIN as i64;
const HIGHEST: i64 = i32::MAX as i64;

impl LineFault {
    fn ranges(self) -> Ranges {
        let mut r = Ranges {
            station: 0..=99,
            filled: 0..=1,
            flag: 1..=2,
            island: 0..=99,
            figure: LOWEST..=HIGHEST,
            total: 0..=99,
        };
        match self {
            Station100 => r.station = 0..=100,
            Island100 => r.island = 0..=100,
            Total100 => r.total = 0..=100,
            Read2 => r.filled = 0..=2,
            Marked0 => r.flag = 0..=2,
            Marked3 => r.flag = 1..=3,
            FigureAbove => r.figure = LOWEST..=HIGHEST + 1,
            FigureBelow => r.figure = LOWEST - 1..=HIGHEST,
            NegativeStations => r.station = -99..=99,
            NegativeIslands => r.island = -99..=99,
            NegativeTotals => r.total = -99..=99,
            NegativeReads => r.filled = -1..=1,
            Station0Refused => r.station = 1..=99,
            StationsTo16 => r.station = 0..=16,
            Station99Refused => r.station = 0..=98,
            IslandsTo63 => r.island = 0..=63,
            Island99Refused => r.island = 0..=98,
            Total0Refused => r.total = 1..=99,
            TotalsTo16 => r.total = 0..=16,
            Total99Refused => r.total = 0..=98,
            HighestFigureRefused => r.figure = LOWEST..=HIGHEST - 1,
            LowestFigureRefused => r.figure = LOWEST + 1..=HIGHEST,
            NegativesRefused => r.figure = 0..=HIGHEST,
            _ => {}
        }
        r
    }

    pub fn lines(self, tape: &[u8]) -> Vec<&[u8]> {
        let ends = |b: &u8| *b == b'\n' || self == CarriageReturnsEndLines && *b == b'\r';
        let mut lines: Vec<&[u8]> = tape.split(ends).collect();
        let last = lines.pop().unwrap_or_default();
        let kept = match self {
            FinalLfBeginsALine => !tape.is_empty(),
            LastWithoutLfDropped => false,
            EmptyTapeRefused => tape.is_empty() || !last.is_empty(),
            _ => !last.is_empty(),
        };
        lines.extend(kept.then_some(last));
        if self == LastWithoutLfRefused && !last.is_empty() {
            lines.push(b"");
        }
        lines
    }

    /// Whether the line passes for a step answer.
    pub fn passes(self, line: &[u8]) -> bool {
        let line = self.mended(line);
        if self == AllPass || self == EmptyLines && line.is_empty() {
            return true;
        }
        self.answers(&line).is_some()
    }

    /// The line as a lax reader takes it.
    fn mended(self, line: &[u8]) -> Vec<u8> {
        let text = || String::from_utf8_lossy(line).into_owned();
        let words = |change: &dyn Fn(&str) -> String| text().split(' ').map(change).collect::<Vec<_>>().join(" ");
        let mended = match self {
            CarriageReturns => text().trim_end_matches('\r').to_string(),
            SpacesBehind => text().trim_end_matches(' ').to_string(),
            SpacesBefore => text().trim_start_matches(' ').to_string(),
            SpacesInBrackets => text().replace("( ", "(").replace(" )", ")"),
            TwoSpaces => text().replace("  ", " "),
            Tabs => text().replace('\t', " "),
            OtherCase => text().to_lowercase(),
            NoClosingBracket if !line.ends_with(b")") => text() + ")",
            AnythingBehind => text().split_inclusive(')').next().unwrap_or_default().to_string(),
            LeadingZeros => words(&|word| {
                bare(word, |digits| {
                    let rest = digits.trim_start_matches('0');
                    if rest.is_empty() && !digits.is_empty() { "0" } else { rest }.to_string()
                })
            }),
            MinusZero => words(&|word| if word == "-0" { "0".into() } else { word.into() }),
            Pluses => words(&|word| word.replacen('+', "", 1)),
            SmallNumbersWrap => {
                words(&|word| bare(word, |digits| if digits.len() == 3 { wrapped(digits, 256) } else { digits.into() }))
            }
            FiguresWrap => words(&|word| bare(word, |digits| wrapped(digits, 1 << 32))),
            FieldsOfWrote if text().contains(" wrote ") => words(&|word| word.into()).replace(" wrote ", " wrote) "),
            ReadWithoutField => text().replace(" read)", " read 1)"),
            Refused if text().contains(" refused ") => "(1 wrote)".into(),
            Standings if text().contains(" idle)") || text().contains(" going ") => "(1 wrote)".into(),
            OtherWords => {
                ["laid", "moved", "halted", "played"].iter().fold(text(), |text, word| text.replace(word, "went"))
            }
            _ => return line.to_vec(),
        };
        let cut =
            if self == FieldsOfWrote { mended.find(") ").map_or(mended.len(), |at| at + 1) } else { mended.len() };
        mended.as_bytes()[..cut].to_vec()
    }

    fn answers(self, line: &[u8]) -> Option<()> {
        let ranges = self.ranges();
        let mut rest = line.strip_prefix(b"(")?;
        number(&mut rest, &ranges.station)?;
        rest = rest.strip_prefix(b" ")?;
        let end = rest.iter().position(|b| !b.is_ascii_lowercase()).unwrap_or(rest.len());
        let (kind, mut rest) = rest.split_at(end);
        if matches!(self, KindRefused(refused) if refused.as_bytes() == kind) {
            return None;
        }
        let all = match kind {
            b"wrote" => vec![],
            b"read" => vec![&ranges.filled],
            b"marked" => vec![&ranges.flag, &ranges.figure, &ranges.total],
            b"went" | b"adopted" | b"decided" | b"spent" => vec![&ranges.island, &ranges.figure, &ranges.total],
            _ => return None,
        };
        for (at, range) in all.into_iter().enumerate() {
            if self == NoTotals && at == 2 && rest == b")" {
                break;
            }
            rest = rest.strip_prefix(b" ")?;
            number(&mut rest, range)?;
        }
        while self == MoreFields && rest.starts_with(b" ") {
            rest = &rest[1..];
            number(&mut rest, &(LOWEST..=HIGHEST))?;
        }
        (rest == b")").then_some(())
    }
}

/// A number from the front of the text, without a plus, a leading zero or −0, and within its range.
fn number(rest: &mut &[u8], range: &RangeInclusive<i64>) -> Option<()> {
    let negative = rest.starts_with(b"-");
    let digits = &rest[negative as usize..];
    let count = digits.iter().position(|b| !b.is_ascii_digit()).unwrap_or(digits.len());
    let (digits, behind) = digits.split_at(count);
    let plain = match digits {
        [] => false,
        [b'0'] => !negative,
        [first, ..] => *first != b'0',
    };
    let value = digits.iter().take(12).fold(0, |value: i64, digit| value * 10 + (digit - b'0') as i64);
    *rest = behind;
    (plain && range.contains(&if negative { -value } else { value })).then_some(())
}

/// A word of digits, perhaps behind a bracket or a minus and before brackets, with other digits.
fn bare(word: &str, change: impl Fn(&str) -> String) -> String {
    let start = word.len() - word.trim_start_matches(['(', '-']).len();
    let end = word.trim_end_matches(')').len().max(start);
    let digits = &word[start..end];
    if digits.is_empty() || !digits.bytes().all(|b| b.is_ascii_digit()) {
        return word.to_string();
    }
    format!("{}{}{}", &word[..start], change(digits), &word[end..])
}

/// Digits as a counter shows them that starts again at this number. What has a leading zero stays as it is.
fn wrapped(digits: &str, at: u64) -> String {
    if digits.starts_with('0') {
        return digits.to_string();
    }
    digits.bytes().fold(0, |value: u64, digit| (value * 10 + (digit - b'0') as u64) % at).to_string()
}
