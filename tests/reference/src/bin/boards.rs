//! boards COUNT SEED: every call of the linked engine beside the reference, on made boards, and every byte that it was
//! lent; first every run of two stations from a few starts, and every text near a word in lines. A count of 0 goes on for ever,
//! with a line per thousand batches.
//! Where 256 batches or more are asked for, every refusal must have been met, and a station that is left alone and spent where
//! no island is left.

use reference::compare::Compare;
use reference::left_running::Ends;
use reference::linked::Linked;
use reference::word_edges;

fn print(compare: &Compare) {
    let c = &compare.counts;
    println!("{} calls, {} of them standings; {} lines, {} words compared", c.calls, c.standings, c.lines, c.words);
    println!(
        "steps compared: {} single, {} in runs; rounds: {}; pairs: {}; totals counted once more: {}",
        c.single_steps, c.run_steps, c.rounds, c.pairs, c.totals
    );
    print_ends(&c.ends);
    println!("runs and boards of two stations: {} with a decision, {} without", c.two_decided, c.two_undecided);
    let by: Vec<String> =
        (7..c.refusals.len()).filter(|r| *r != 21).map(|r| format!("{r}: {}", c.refusals[r])).collect();
    println!("accepted {}; refused 6: {}, {}", c.refusals[0], c.refusals[6], by.join(", "));
}

fn print_ends(ends: &Ends) {
    println!(
        "left alone: {} decide with an island left, {} before any step; with none left {} decide, {} are spent; \
         {} of one figure",
        ends.within, ends.untouched, ends.decided_anyway, ends.spent, ends.of_one_figure
    );
    let longest: Vec<String> = (1..17).map(|n| format!("{n}: {}", ends.longest[n])).collect();
    println!("the most steps alone with an island left, by stations: {}", longest.join(", "));
}

/// Every board of one or two stations, and every run of two from a start.
fn small_boards(compare: &mut Compare) {
    let ends = [i32::MAX, i32::MIN];
    for (k, figures) in [(2, &[3][..]), (2, &[3, 7]), (2, &ends), (2, &[5, 5]), (2, &[5, -5]), (3, &[3, 7])] {
        compare.reached(k, figures);
    }
    println!("every board of one or two stations: {} passed, {} failed", compare.passed, compare.failed);
    for (k, figures) in [(2, [7, 3]), (2, [3, 7]), (2, ends), (2, [5, 5]), (2, [-5, 5]), (3, [7, 3]), (8, [3, 7])] {
        compare.every_run_of_two(k, figures);
    }
    println!("every run of two stations from a start: {} passed, {} failed", compare.passed, compare.failed);
}

/// Every text near a word where a line has its word, and lines that print every word.
fn words(compare: &mut Compare) {
    let (passed, failed, texts) = (compare.passed, compare.failed, word_edges::texts());
    compare.texts_in_lines(0, &texts);
    compare.printed_words(0);
    let [passed, failed] = [compare.passed - passed, compare.failed - failed];
    println!("{} texts in the places of a line's words: {passed} passed, {failed} failed", texts.len());
}

fn main() {
    let arguments: Vec<String> = std::env::args().collect();
    let [_, count, seed] = arguments.as_slice() else {
        eprintln!("boards COUNT SEED");
        std::process::exit(2);
    };
    let (count, first): (u64, u64) = (count.parse().expect("a number"), seed.parse().expect("a number"));
    println!("seeds from {first}");
    let mut compare = Compare::new(&Linked);
    small_boards(&mut compare);
    words(&mut compare);
    let mut told = 0;
    for at in 0.. {
        if count != 0 && at == count {
            break;
        }
        compare.batch(first.wrapping_add(at));
        for line in &compare.told[told..] {
            println!("{line}");
        }
        told = compare.told.len();
        if count == 0 && (at + 1) % 1000 == 0 {
            println!("to seed {}: {} failed", first.wrapping_add(at), compare.failed);
        }
    }
    print(&compare);
    // The longest runs, and so 6, come once in 256 batches.
    let unmet = if count < 256 { vec![] } else { compare.counts.unmet() };
    unmet.iter().for_each(|number| println!("no call was refused with {number}"));
    compare.failed += unmet.len() as u64;
    if count >= 256 && compare.counts.ends.spent == 0 {
        println!("no station left alone was spent");
        compare.failed += 1;
    }
    println!("{} passed, {} failed", compare.passed, compare.failed);
    std::process::exit((compare.failed > 0) as i32);
}
