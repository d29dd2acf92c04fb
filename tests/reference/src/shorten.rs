//! A failing sheet with as few lines as still fail.

/// Drops lines, many at a time and then fewer, while `fails` still holds of what is left.
pub fn shorten(lines: Vec<Vec<u8>>, fails: impl Fn(&[u8]) -> bool) -> Vec<Vec<u8>> {
    let mut kept = lines;
    let mut width = (kept.len() / 2).max(1);
    loop {
        let mut at = 0;
        let mut dropped = false;
        while at < kept.len() {
            let end = (at + width).min(kept.len());
            let mut fewer = kept.clone();
            fewer.drain(at..end);
            if fails(&joined(&fewer)) {
                kept = fewer;
                dropped = true;
            } else {
                at = end;
            }
        }
        if width == 1 && !dropped {
            return kept;
        }
        width = (width / 2).max(1);
    }
}

pub fn joined(lines: &[Vec<u8>]) -> Vec<u8> {
    lines.iter().flat_map(|l| l.iter().copied().chain([b'\n'])).collect()
}

#[test]
fn only_what_fails_is_kept() {
    let lines: Vec<Vec<u8>> = (0..100u32).map(|i| i.to_string().into_bytes()).collect();
    let fails = |sheet: &[u8]| {
        let has = |word: &[u8]| sheet.split(|b| *b == b'\n').any(|l| l == word);
        has(b"17") && has(b"83")
    };
    assert_eq!(shorten(lines, fails), vec![b"17".to_vec(), b"83".to_vec()]);
}
