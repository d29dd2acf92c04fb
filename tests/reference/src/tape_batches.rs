//! Which tapes are compared, by both calls that are lent a sheet and two of them: made ones, every line of short ones changed,
//! every text of a line that stands at an edge, far lines, the longest sheets, and lists of every length for the answer. Of
//! what is lent nothing may be altered but the first two numbers of such a list.

use crate::compare::Compare;
use crate::edges;
use crate::engine::{put_found, put_part};
use crate::lent::Lent;
use crate::made_tapes::{another, any, short_sheet, two};
use crate::random::Random;
use crate::sheets;
use crate::tape_edges::{self, far_sheet, texts, ALONE, CIRCLING, SAMPLES};
use crate::tapes::{culprit, own, text, Taped};

/// So much of a text that a reader can go by it.
fn told(text: &[u8]) -> String {
    let most = 300.min(text.len());
    format!("{} bytes \"{}\"{}", text.len(), text[..most].escape_ascii(), if most < text.len() { ".." } else { "" })
}

impl Compare<'_> {
    /// Both calls on a sheet and two tapes, which they are lent to read only. The list for the answer has two numbers as a
    /// rule, now and then fewer or more.
    pub fn tapes(&mut self, seed: u64, sheet: &[u8], first: &[u8], second: &[u8]) {
        let r = &mut self.patterns;
        let rooms = [(); 2].map(|()| if r.below(8) > 0 { 2 } else { r.below(9) });
        self.tapes_in(seed, [sheet, first, second], rooms);
    }

    /// Both calls, each with a list of so many numbers.
    fn tapes_in(&mut self, seed: u64, read: [&[u8]; 3], rooms: [usize; 2]) {
        if self.told_enough() {
            return;
        }
        let found = culprit(read[0], read[1], read[2]);
        self.counts.tapes.count(found);
        let lent = read.map(|content| Lent::holding(&mut self.patterns, content));
        for (name, room) in ["compare", "culprit"].into_iter().zip(rooms) {
            let mut after = lent.clone();
            let [sheet, first, second] = after.each_mut().map(Lent::content_mut);
            let mut ours = Lent::of_size(&mut self.patterns, room);
            let mut theirs = ours.clone();
            let (our_list, list) = (ours.content_mut(), theirs.content_mut());
            let (expected, got) = if name == "compare" {
                (put_found(found, our_list), self.engine.compare(sheet, first, second, list))
            } else {
                (put_part(found, our_list), self.engine.culprit(sheet, first, second, list))
            };
            self.verdict(got == expected && ours == theirs && after == lent, || {
                let answers = format!("the engine answers {got}, the reference {expected}");
                let lists = format!("lists {:?} and {:?}", theirs.content(), ours.content());
                let altered: Vec<_> = lent.iter().zip(&after).map(|(a, b)| a.difference(b)).collect();
                let altered = format!("altered {altered:?}, differing number {:?}", ours.difference(&theirs));
                let [sheet, first, second] = read.map(told);
                format!("seed {seed}: {name}: {answers}, {lists}, {altered}; sheet {sheet}, tapes {first} and {second}")
            });
        }
    }

    /// Every answer with lists of no number up to ten, and one of many.
    pub fn each_room(&mut self, seed: u64) {
        let sheet = ALONE.as_bytes();
        let [right, wrong] = [&b"(1 wrote)\n(1 went 0 -9 1)\n"[..], b"(1 wrote)\n(1 read 1)"];
        let long = b"\n".repeat(32_769);
        for room in (0..=10).chain([300]) {
            for (sheet, first, second) in [
                (sheet, right, right),
                (sheet, right, wrong),
                (sheet, wrong, right),
                (sheet, right, b"\n"),
                (&long, right, wrong),
            ] {
                self.tapes_in(seed, [sheet, first, second], [room; 2]);
            }
        }
    }

    /// A sheet of few lines, and tapes near its own.
    pub fn made_tapes(&mut self, seed: u64) {
        let mut r = Random::new(seed);
        let sheet = short_sheet(&mut r, seed);
        let own = own(&sheet, usize::MAX);
        for _ in 0..if own.len() > 2000 { 4 } else { 24 } {
            let [first, second] = two(&mut r, &own);
            self.tapes(seed, &sheet, &first, &second);
        }
    }

    /// A whole sheet, of which the tape may be long.
    pub fn long_tapes(&mut self, seed: u64) {
        let mut r = Random::new(seed);
        let sheet = sheets::sheet(seed);
        let own = own(&sheet, usize::MAX);
        for _ in 0..6 {
            let [first, second] = two(&mut r, &own);
            self.tapes(seed, &sheet, &first, &second);
        }
    }

    /// One line changed, dropped or put in, or the tape ended there: in the first tape, in the second, beside a tape that has
    /// another line there, and beside one that has the other line twice.
    fn line_changed(&mut self, seed: u64, r: &mut Random, sheet: &[u8], own: &[Taped], at: usize) {
        let right = text(own);
        let with = |line: &[Taped], from: usize| text(&[&own[..at], line, &own[from.min(own.len())..]].concat());
        let there = own.get(at).copied().unwrap_or_else(|| any(r));
        let other = another(r, there);
        let third = another(r, other);
        let alike = with(&[other, other], at);
        for tape in [with(&[other], at + 1), with(&[], at + 1), with(&[other], at), with(&[], usize::MAX)] {
            self.tapes(seed, sheet, &right, &tape);
            self.tapes(seed, sheet, &tape, &right);
            self.tapes(seed, sheet, &tape, &with(&[third], at + 1));
            self.tapes(seed, sheet, &tape, &alike);
        }
    }

    /// Every line of a tape changed in turn, and one behind its end.
    pub fn each_line(&mut self, seed: u64, sheet: &[u8], most: usize) {
        let mut r = Random::new(seed);
        let own = own(sheet, usize::MAX);
        let apart = own.len().div_ceil(most).max(1);
        for at in (0..own.len()).step_by(apart).chain([own.len()]) {
            if self.told_enough() {
                break;
            }
            self.line_changed(seed, &mut r, sheet, &own, at);
        }
    }

    /// Every line changed of every sheet whose own tape is easily got wrong.
    pub fn edge_tapes(&mut self, seed: u64) {
        tape_edges::sheets().iter().for_each(|edge| self.each_line(seed, &edge.sheet, 400));
    }

    /// Every sheet that stands at an edge of the run sheet, too long ones too: the last line of its tape changed, and one
    /// behind it; and with a tape that says nothing.
    pub fn edge_sheets(&mut self, seed: u64) {
        let mut r = Random::new(seed);
        for edge in edges::edges() {
            let own = own(&edge.sheet, usize::MAX);
            let right = text(&own);
            let behind = [&right, &b"(1 wrote)\n"[..]].concat();
            let last = own.last().copied().unwrap_or_else(|| any(&mut r));
            let changed = text(&[&own[..own.len().saturating_sub(1)], &[another(&mut r, last)]].concat());
            self.tapes(seed, &edge.sheet, &right, &changed);
            self.tapes(seed, &edge.sheet, &changed, &right);
            self.tapes(seed, &edge.sheet, &behind, &[&right, &b"(2 wrote)"[..]].concat());
            self.tapes(seed, &edge.sheet, &behind, &[&right, &b"(1 wrote"[..]].concat());
        }
    }

    /// Every text of a line: alone, in either tape or both; where the algorithm has another line, and none; behind a
    /// difference, and beyond the other's end; with its LF and without.
    pub fn each_text(&mut self, seed: u64) {
        let sheet = ALONE.as_bytes();
        let right = text(&own(sheet, usize::MAX));
        let four = text(&own(sheet, 4));
        let other = [&right, &b"(1 wrote)\n"[..]].concat();
        for line in texts() {
            if self.told_enough() {
                break;
            }
            let alone = [&line, &b"\n"[..]].concat();
            let [amid, behind] = [&four, &right].map(|before| [&before[..], &line].concat());
            let apart = [b"(2 read 1)\n", &line[..]].concat();
            for (one, two) in [(&alone[..], &b""[..]), (&amid, &right), (&behind, &other), (&apart, &right)] {
                self.tapes(seed, sheet, one, two);
                self.tapes(seed, sheet, two, one);
            }
            self.tapes(seed, sheet, &alone, &alone);
        }
    }

    /// Every byte at every place of a line of each kind, in place of what stands there and before it; and each byte left out.
    pub fn each_byte_of_lines(&mut self, seed: u64) {
        let right = text(&own(ALONE.as_bytes(), usize::MAX));
        for sample in SAMPLES.map(str::as_bytes) {
            for at in 0..=sample.len() {
                let (before, behind) = sample.split_at(at);
                let without = &behind[1.min(behind.len())..];
                self.tapes(seed, ALONE.as_bytes(), &[before, without].concat(), &right);
                for byte in 0..=255 {
                    self.tapes(seed, ALONE.as_bytes(), &[before, &[byte], without, b"\n"].concat(), &right);
                    self.tapes(seed, ALONE.as_bytes(), &right, &[before, &[byte], behind].concat());
                }
            }
        }
    }

    /// Lines whose number needs 16 bits and more, up to the algorithm's last and behind it, and bytes that stand as far.
    pub fn far_lines(&mut self, seed: u64) {
        let mut r = Random::new(seed);
        let sheet = far_sheet(2);
        let own = own(&sheet, usize::MAX);
        let right = text(&own);
        for at in [254, 255, 52_224, 65_534, 65_535, own.len() - 1] {
            let mut tape = own.clone();
            tape[at] = another(&mut r, tape[at]);
            let mut tapes = [&right, &text(&tape)];
            tapes.rotate_left(r.below(2));
            self.tapes(seed, &sheet, tapes[0], tapes[1]);
        }
        let last = [&right, &b"(1 wrote)\n"[..]].concat();
        self.tapes(seed, &sheet, &last, &[&right, &b"(1 read 1)"[..]].concat());
        self.tapes(seed, &sheet, &last, &[&last, &b"(1 read 2)"[..]].concat());
    }

    /// A line that stands behind as many bytes as 24 bits count.
    pub fn farthest_line(&mut self, seed: u64) {
        let many = b"(1 wrote)\n".repeat(1_700_000);
        let [first, second] = [b"(1 read 1)", b"(1 read 0)"].map(|line| [&many, &line[..]].concat());
        self.tapes(seed, ALONE.as_bytes(), &first, &second);
    }

    /// As many steps as a sheet can ask for, as many rounds, and tapes that differ at once or behind all of that.
    pub fn longest_sheets(&mut self, seed: u64) {
        let steps = format!("(board 3 2)\n{}", "(steps (times 65536 1))\n".repeat(1364));
        let rounds = format!("{CIRCLING}{}", format!("(rounds 0{})\n", " ()".repeat(81)).repeat(128));
        for sheet in [&steps, &rounds, &"(steps 1)\n".repeat(3276), &"\n".repeat(32_768), &"\n".repeat(32_769)] {
            let right = text(&own(sheet.as_bytes(), usize::MAX));
            let [first, second] = [b"(1 wrote)", b"(2 wrote)"].map(|line| [&right, &line[..]].concat());
            self.tapes(seed, sheet.as_bytes(), &first, &second);
            self.tapes(seed, sheet.as_bytes(), b"\n", b"(2 read 1)\n");
            if !right.is_empty() {
                self.tapes(seed, sheet.as_bytes(), b"(1 wrote)\n", b"(2 read 1)\n");
            }
        }
    }

    /// Bytes of any content, and pieces of lines, in place of a tape, of both and of the sheet.
    pub fn garbage(&mut self, seed: u64) {
        let mut r = Random::new(seed);
        let right = text(&own(CIRCLING.as_bytes(), usize::MAX));
        let any: Vec<u8> = (0..r.below(4000)).map(|_| r.byte()).collect();
        let pieces = ["(1 wrote)\n", "(1 ", "read", " 1", ")", "\n", "(", "went 0 5 1)\n", " ", "9", "-", "\r\n"];
        let mixed: String = (0..r.below(60)).map(|_| r.pick(&pieces)).collect();
        for tape in [&any[..], mixed.as_bytes(), &b"\n".repeat(r.below(300)), &b"\0".repeat(r.below(300))] {
            self.tapes(seed, CIRCLING.as_bytes(), tape, &right);
            self.tapes(seed, CIRCLING.as_bytes(), &right, tape);
            self.tapes(seed, tape, &right, &right[10..]);
            self.tapes(seed, tape, tape, tape);
        }
    }

    /// One batch of everything. It follows from its seed alone, the bytes around every buffer included.
    pub fn tape_batch(&mut self, seed: u64) {
        self.patterns = Random::new(!seed);
        for part in 0..4 {
            self.made_tapes(seed.wrapping_mul(64) + part);
        }
        self.garbage(seed);
        if seed % 16 == 0 {
            self.long_tapes(seed);
        }
        if seed % 256 == 0 {
            self.edge_tapes(seed);
            self.edge_sheets(seed);
            self.each_text(seed);
            self.each_byte_of_lines(seed);
            self.far_lines(seed);
            self.farthest_line(seed);
            self.longest_sheets(seed);
            self.each_room(seed);
        }
    }
}
