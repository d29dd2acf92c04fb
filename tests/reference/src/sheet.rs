//! The run sheet: a line is first read as a tree of words and brackets, and only then held against the forms.

use crate::bytes::length;
use crate::calls;
use crate::halts::Halts;
use crate::pairs::Pair;
use crate::refusal::Refusal;

pub const LONGEST_SHEET: usize = 32_768;
pub const LONGEST_LINE: usize = 255;
pub const DEEPEST: i64 = 8;

/// The words that name a form. `times` names an item.
pub const WORDS: [&[u8]; 5] = [b"board", b"propose", b"steps", b"rounds", b"show"];

#[derive(Clone, PartialEq, Eq, Debug)]
pub enum Form {
    Board(u8, u8),
    Propose(u8, i32),
    ProposeAll(Vec<Pair>),
    Steps(Vec<Item>),
    Rounds(Halts),
    Show,
}

#[derive(Clone, PartialEq, Eq, Debug)]
pub enum Item {
    Station(u8),
    Times(u32, Vec<Item>),
}

/// A line's shape before it is held against the forms.
enum Tree<'a> {
    Word(&'a [u8]),
    List(Vec<Tree<'a>>),
}

use Tree::{List, Word};

/// A tree from the front of the text, and the rest of the text.
fn tree(text: &[u8]) -> Option<(Tree<'_>, &[u8])> {
    let Some(inside) = text.strip_prefix(b"(") else {
        let end = text.iter().position(|b| b" ()".contains(b)).unwrap_or(text.len());
        return (end > 0).then(|| (Word(&text[..end]), &text[end..]));
    };
    if let Some(rest) = inside.strip_prefix(b")") {
        return Some((List(vec![]), rest));
    }
    let (first, mut rest) = tree(inside)?;
    let mut list = vec![first];
    while let Some(after) = rest.strip_prefix(b" ") {
        let (next, left) = tree(after)?;
        list.push(next);
        rest = left;
    }
    Some((List(list), rest.strip_prefix(b")")?))
}

/// "Numbers have no plus, no leading zero, no −0", and stand within their range.
fn number(tree: &Tree, low: i64, high: i64) -> Option<i64> {
    let Word(word) = tree else { return None };
    let digits = word.strip_prefix(b"-").unwrap_or(word);
    let plain = digits.first()? != &b'0' || *word == b"0";
    if !plain || !digits.iter().all(u8::is_ascii_digit) {
        return None;
    }
    // A word that has too many digits for 64 bits is outside every range.
    let value: i64 = std::str::from_utf8(word).ok()?.parse().ok()?;
    (low..=high).contains(&value).then_some(value)
}

fn small(tree: &Tree) -> Option<u8> {
    number(tree, 0, 99).map(|v| v as u8)
}

fn figure(tree: &Tree) -> Option<i32> {
    number(tree, i32::MIN as i64, i32::MAX as i64).map(|v| v as i32)
}

fn pair(tree: &Tree) -> Option<Pair> {
    let List(list) = tree else { return None };
    let [station, value] = list.as_slice() else { return None };
    Some((small(station)?, figure(value)?))
}

fn item(tree: &Tree) -> Option<Item> {
    let List(list) = tree else { return small(tree).map(Item::Station) };
    match list.as_slice() {
        [Word(b"times"), count, inner @ ..] if !inner.is_empty() => {
            let count = number(count, 1, 99_999)? as u32;
            Some(Item::Times(count, items(inner)?))
        }
        _ => None,
    }
}

fn items(trees: &[Tree]) -> Option<Vec<Item>> {
    trees.iter().map(item).collect()
}

/// The stations that a round names: numbers by the grammar, whether or not there are such stations.
fn round(tree: &Tree) -> Option<Vec<u8>> {
    let List(list) = tree else { return None };
    list.iter().map(small).collect()
}

fn form(line: &[u8]) -> Option<Form> {
    let (List(list), []) = tree(line)? else { return None };
    match list.as_slice() {
        [Word(b"board"), n, k] => Some(Form::Board(small(n)?, small(k)?)),
        [Word(b"propose"), i @ Word(_), v] => Some(Form::Propose(small(i)?, figure(v)?)),
        [Word(b"propose"), pairs @ ..] if !pairs.is_empty() => {
            Some(Form::ProposeAll(pairs.iter().map(pair).collect::<Option<_>>()?))
        }
        [Word(b"steps"), list @ ..] => Some(Form::Steps(items(list)?)),
        [Word(b"rounds"), most, list @ ..] => {
            let rounds = list.iter().map(round).collect::<Option<_>>()?;
            Some(Form::Rounds(Halts { most: small(most)?, rounds }))
        }
        [Word(b"show")] => Some(Form::Show),
        _ => None,
    }
}

/// "At some byte, opening brackets exceed closing ones by more than 8."
fn too_deep(line: &[u8]) -> bool {
    let mut depth = 0i64;
    line.iter().any(|b| {
        depth += (*b == b'(') as i64 - (*b == b')') as i64;
        depth > DEEPEST
    })
}

/// Refusals 2 to 4.
pub fn read(line: &[u8]) -> Result<Form, Refusal> {
    if line.len() > LONGEST_LINE {
        return Err(Refusal::LineTooLong);
    }
    if too_deep(line) {
        return Err(Refusal::TooDeep);
    }
    form(line).ok_or(Refusal::NoForm)
}

/// How many steps the items expand to. Nested counts can pass any machine word, so the sum stops at the top.
pub fn expansion(items: &[Item]) -> u128 {
    let sizes = items.iter().map(|item| match item {
        Item::Station(_) => 1,
        Item::Times(count, inner) => expansion(inner).saturating_mul(*count as u128),
    });
    sizes.fold(0, u128::saturating_add)
}

/// The station numbers of the steps, in order; only for an expansion of a size that is allowed.
pub fn expanded(items: &[Item]) -> Vec<u8> {
    let mut out = Vec::new();
    for item in items {
        match item {
            Item::Station(s) => out.push(*s),
            Item::Times(count, inner) => out.extend(expanded(inner).repeat(*count as usize)),
        }
    }
    out
}

/// "The word that names a form": the part of the line that it occupies, as start and length. With no word the
/// length is 0.
pub fn word(line: &[u8]) -> (usize, usize) {
    let Some(text) = line.strip_prefix(b"(") else { return (0, 0) };
    let end = text.iter().position(|b| b" ()".contains(b)).unwrap_or(text.len());
    if WORDS.contains(&&text[..end]) {
        (1, end)
    } else {
        (1, 0)
    }
}

/// Plays a line on lent memory of which the first `laid` bytes are the board, all of it where it has fewer; with 0 there
/// is none yet. Answers what is printed, without its LF, and how much is laid afterwards.
pub fn play_line(line: &[u8], laid: usize, memory: &mut [u8]) -> (String, usize) {
    match accepted(line, laid, memory) {
        Ok(done) => done,
        Err(refusal) => (format!("(refused {})", refusal.number()), laid),
    }
}

fn accepted(line: &[u8], laid: usize, memory: &mut [u8]) -> Result<(String, usize), Refusal> {
    let form = read(line)?;
    if let Form::Board(n, k) = form {
        let whole = memory.len();
        let size = length(n, k);
        calls::lay(&mut memory[..size.min(whole)], n, k)?;
        return Ok((format!("(laid {n} {k})"), size));
    }
    if laid == 0 {
        return Err(Refusal::NoBoardYet);
    }
    let whole = memory.len();
    Ok((called(form, &mut memory[..laid.min(whole)])?, laid))
}

fn called(form: Form, board: &mut [u8]) -> Result<String, Refusal> {
    match form {
        Form::Propose(i, v) => {
            calls::propose(board, i, v)?;
            Ok(format!("(proposed {i} {v})"))
        }
        Form::ProposeAll(pairs) => {
            calls::propose_all(board, &pairs)?;
            Ok(format!("(proposed {})", pairs.len()))
        }
        Form::Steps(items) => {
            if expansion(&items) > calls::MOST_STEPS as u128 {
                return Err(Refusal::TooManySteps);
            }
            let (taken, passed) = calls::run(board, &expanded(&items))?;
            Ok(format!("(ran {taken} {passed})"))
        }
        Form::Rounds(halts) => {
            let (played, decided) = calls::rounds(board, &halts)?;
            Ok(format!("(played {played} {decided})"))
        }
        Form::Show => calls::show(board),
        Form::Board(..) => unreachable!("laying needs no earlier board"),
    }
}

/// The lines of a sheet: "the last may lack it, and nothing after a final LF is no line".
pub fn lines(sheet: &[u8]) -> Vec<&[u8]> {
    let mut lines: Vec<&[u8]> = sheet.split(|b| *b == b'\n').collect();
    if lines.last() == Some(&&b""[..]) {
        lines.pop();
    }
    lines
}

/// A whole sheet to all that it prints.
pub fn play(sheet: &[u8]) -> Vec<u8> {
    if sheet.len() > LONGEST_SHEET {
        return b"(refused 1)\n".to_vec();
    }
    let mut memory = vec![0; length(16, 64)];
    let mut laid = 0;
    let mut out = Vec::new();
    for line in lines(sheet) {
        let (printed, after) = play_line(line, laid, &mut memory);
        laid = after;
        out.extend(printed.as_bytes());
        out.push(b'\n');
    }
    out
}
