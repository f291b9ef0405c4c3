//! Cases by hand: worked views, faults that have happened, and what random views hit rarely.

mod second;

use pirkunna::{Refusal, Verdict, View, calls};
use second::forms;
use std::thread;

fn parsed(notation: &str) -> View {
    View::parse(notation.as_bytes()).unwrap_or_else(|why| panic!("{notation}: {why}"))
}

fn assert_shows(view: &View, source: &str, look: &str) {
    assert_eq!(view.show(source.as_bytes()), Ok(look.as_bytes().to_vec()), "{source}");
}

fn assert_makes(view: &View, look: &str, source: &str) {
    assert_eq!(view.make(look.as_bytes()), Ok(source.as_bytes().to_vec()), "{look}");
}

fn assert_puts(view: &View, look: &str, source: &str, new: &str) {
    assert_eq!(view.put(source.as_bytes(), look.as_bytes()), Ok(new.as_bytes().to_vec()), "{look} into {source}");
}

#[test]
fn a_number_and_a_hidden_letter() {
    let view = parsed("copy ('0'..'9')* hide 'a'..'z' new \"x\"");
    assert_eq!(view.row(), [12, 10, 4, 1, 48, 57, 11, 1, 97, 122, 0, 1, 120]);
    assert_eq!(view.judge(), Verdict::Plain);
    assert_shows(&view, "12a", "12");
    assert_puts(&view, "1", "12a", "1a");
    assert_makes(&view, "1", "1x");
    assert_eq!(view.show(b"12"), Err(Refusal::NoSource));
    assert_eq!(view.make(b"1a"), Err(Refusal::NoLook));
    assert_eq!(view.put(b"12", b"1a"), Err(Refusal::NoSource));
    assert_eq!(view.put(b"12a", b"1a"), Err(Refusal::NoLook));
}

#[test]
fn parts_go_together_in_order() {
    let view = parsed("each (copy '0'..'9' hide 'a'..'z' new \"x\")");
    assert_shows(&view, "1a2b", "12");
    assert_puts(&view, "132", "1a2b", "1a3b2x");
    assert_puts(&view, "1", "1a2b", "1a");
    assert_puts(&view, "", "1a2b", "");
    let dots = parsed("each (hide 'a'..'z' as \".\" new \"x\")");
    assert_shows(&dots, "ab", "..");
    assert_puts(&dots, "...", "ab", "abx");
}

#[test]
fn swapped_parts() {
    let view = parsed("swap (copy '0'..'9') (copy 'a'..'z')");
    assert_shows(&view, "1a", "a1");
    assert_puts(&view, "b2", "1a", "2b");
    let nested =
        parsed("swap (swap (copy '0'..'9' hide 'x' new \"x\") copy 'a'..'z') (swap copy 'A'..'Z' hide 'y'* as \"-\" new \"\")");
    assert_shows(&nested, "1xaByy", "-Ba1");
    assert_puts(&nested, "-Cb2", "1xaByy", "2xbCyy");
    assert_makes(&nested, "-Cb2", "2xbC");
}

#[test]
fn a_look_of_the_other_one_is_made() {
    let view = parsed("hide 'a' as \"A\" new \"a\" | hide 'b'* as \"B\" new \"b\"");
    assert_shows(&view, "a", "A");
    assert_puts(&view, "B", "a", "b");
    assert_puts(&view, "B", "bbb", "bbb");
    assert_puts(&view, "A", "bbb", "a");
    assert_puts(&view, "A", "", "a");
}

/// Rows with what is to be said of them: worked views, and faults that were found by hand.
#[test]
fn verdicts() {
    let cases: &[(&[u8], Verdict)] = &[
        // a* a*, and a | a
        (&[12, 10, 4, 1, 97, 97, 10, 4, 1, 97, 97], Verdict::Unclear),
        (&[14, 10, 1, 97, 97, 10, 1, 97, 97], Verdict::Unclear),
        // a* b*; (a|b)* b; (a|b)* b*
        (&[12, 10, 4, 1, 97, 97, 10, 4, 1, 98, 98], Verdict::Plain),
        (&[12, 10, 4, 3, 1, 97, 97, 1, 98, 98, 10, 1, 98, 98], Verdict::Plain),
        (&[12, 10, 4, 3, 1, 97, 97, 1, 98, 98, 10, 4, 1, 98, 98], Verdict::Unclear),
        // each of a part that shows nothing, or that can be empty
        (&[15, 11, 1, 97, 122, 0, 1, 120], Verdict::Unclear),
        (&[15, 10, 0], Verdict::Unclear),
        (&[15, 15, 10, 1, 97, 97], Verdict::Unclear),
        // a text for a new source that isn't of the form
        (&[11, 4, 1, 97, 97, 1, 110, 1, 98], Verdict::Unclear),
        // swap: many a and many a; a b that is shown as an a, or not at all, behind many a
        (&[13, 10, 4, 1, 97, 97, 10, 4, 1, 97, 97], Verdict::Unclear),
        (&[13, 11, 1, 98, 98, 1, 97, 1, 98, 10, 4, 1, 97, 97], Verdict::Plain),
        (&[13, 11, 1, 98, 98, 0, 1, 98, 10, 4, 1, 97, 97], Verdict::Plain),
        // an either whose looks overlap
        (&[14, 11, 1, 97, 97, 1, 120, 1, 97, 11, 1, 98, 98, 1, 120, 1, 98], Verdict::Unclear),
        // two sources, then two looks, that are both empty; nothing behind nothing
        (&[14, 10, 0, 11, 0, 1, 98, 0], Verdict::Unclear),
        (&[14, 10, 0, 11, 1, 97, 97, 0, 1, 97], Verdict::Unclear),
        (&[12, 10, 0, 10, 0], Verdict::Plain),
        // a field that may be empty between two marks, of which one is left out
        (&[12, 10, 4, 1, 97, 97, 12, 10, 3, 1, 59, 59, 0, 10, 4, 1, 97, 97], Verdict::Unclear),
    ];
    for (row, verdict) in cases {
        let view = forms::View::from_row(row).expect("a view");
        assert_eq!(view.is_clear(), *verdict == Verdict::Plain, "the second decision on {row:?}");
        assert_eq!(View::from_row(*row).expect("a view").judge(), *verdict, "{row:?}");
    }
}

/// The parts of swap are cut in one order as sources and in the other as looks: x and y keep the sources apart, and the looks
/// are a or ab, and c or bc, of which abc can be cut in two ways, and nothing the other way round.
#[test]
fn swap_is_judged_in_the_order_of_its_looks() {
    let (first, second) = ("(hide 'x' new \"x\" copy ('a' | \"ab\"))", "(hide 'y' new \"y\" copy ('c' | \"bc\"))");
    assert_eq!(parsed(&format!("{first} {second}")).judge(), Verdict::Unclear);
    assert_eq!(parsed(&format!("swap {second} {first}")).judge(), Verdict::Unclear);
    assert_eq!(parsed(&format!("{second} {first}")).judge(), Verdict::Plain);
    let view = parsed(&format!("swap {first} {second}"));
    assert_eq!(view.judge(), Verdict::Plain);
    assert_shows(&view, "xabybc", "bcab");
    assert_puts(&view, "ca", "xabybc", "xayc");
}

#[test]
fn rows_that_say_no_view() {
    let long = [&[10][..], &[4; 1023], &[0]].concat();
    assert_eq!(long.len(), 1025);
    let cases: &[&[u8]] = &[
        &[],
        &[0],
        &[9],
        &[16],
        &[10],
        &[10, 5],
        &[10, 1, 98, 97],
        &[10, 1, 98],
        &[10, 0, 0],
        &[11, 0, 1],
        &[11, 0, 1, 97],
        &[11, 0, 2, 97, 1],
        &[12, 10, 0],
        &[15],
        &long,
    ];
    for row in cases {
        assert_eq!(View::from_row(*row), Err(Refusal::NoSuch), "{row:?}");
    }
}

/// As deep as rows can nest, on the 2 MiB of stack that a thread has.
#[test]
fn deep_views() {
    let form_ends = |tag: u8, depth: usize| [&[10][..], &vec![tag; depth], &[0]].concat();
    let twos = |tag: u8, depth: usize, leaf: &[u8]| [vec![tag; depth], leaf.repeat(depth + 1)].concat();
    let rows = [
        form_ends(4, 1022),
        [&[10][..], &twos(2, 511, &[0])].concat(),
        [&[10][..], &twos(3, 511, &[0])].concat(),
        twos(12, 340, &[10, 0]),
        twos(13, 340, &[10, 0]),
    ];
    for row in rows {
        let view = View::from_row(row.clone()).expect("a view");
        assert_eq!(view.judge(), Verdict::Plain, "{row:?}");
        assert_eq!(view.show(b""), Ok(vec![]), "{row:?}");
        assert_eq!(view.make(b""), Ok(vec![]), "{row:?}");
        assert_eq!(view.put(b"", b""), Ok(vec![]), "{row:?}");
        assert_eq!(view.show(b"a"), Err(Refusal::NoSource), "{row:?}");
    }
    for row in [[vec![15; 1020], vec![10, 1, 97, 97]].concat(), twos(14, 340, &[10, 0])] {
        assert_eq!(View::from_row(row).expect("a view").judge(), Verdict::Unclear);
    }
}

/// What is hidden can be much shorter than what is shown for it.
#[test]
fn a_look_much_longer_than_its_source() {
    let shown = "x".repeat(255);
    let view = parsed(&format!("each (hide 'a' as \"{shown}\" new \"a\")"));
    let source = vec![b'a'; 600];
    let look = view.show(&source).expect("a source");
    assert!(look == shown.repeat(600).into_bytes());
    assert_eq!(view.make(&look), Ok(source.clone()));
    assert_eq!(view.put(&source, &look), Ok(source));
}

#[test]
fn faults_of_notation_have_a_place() {
    let cases = [
        ("", 1, 1, "expected a view: copy, hide, swap, each, a text in quotes or ("),
        ("copy 'a'\n  hide 'b'", 2, 11, "expected new, and a text in quotes: what stands where there was no source"),
        ("copy 'b'..'a'", 1, 11, "this range is upside down: the first byte is above the second"),
        ("copy \"\\q\"", 1, 7, "unknown escape: there are \\n \\t \\r \\\\ \\' \\\" and \\x with two hex digits"),
        ("name 'a'", 1, 1, "unknown word: names for parts are not part of the notation yet"),
    ];
    for (text, line, column, message) in cases {
        let Err(Refusal::Notation(fault)) = View::parse(text.as_bytes()) else {
            panic!("{text} says a view");
        };
        assert_eq!((fault.line, fault.column, &*fault.message), (line, column, message), "{text}");
    }
}

/// The message is cut off where its bytes end, and a row that doesn't fit is refused: nothing is written then.
#[test]
fn notation_in_few_bytes() {
    let mut message = [7; 9];
    let mut row = [9; 4];
    let said = calls::parse(b"copy", &mut row, &mut message[..8]);
    assert_eq!(said, calls::Parsed::NoView { line: 1, column: 5, told: 8 });
    assert_eq!(&message, b"expected\x07");
    assert_eq!(calls::parse(b"copy 'a'", &mut row[..3], &mut []), calls::Parsed::Full);
    assert_eq!(row, [9; 4]);
    assert_eq!(calls::parse(b"copy 'a'", &mut row, &mut []), calls::Parsed::Done(4));
    assert_eq!(row, [10, 1, 97, 97]);
}

#[test]
fn floors() {
    assert_eq!(calls::judge_words(0), 4096);
    assert_eq!(calls::judge_words(1024), 4096 + 1024 * 1024);
    assert_eq!(calls::judge_words(usize::MAX), 4096 + 1025 * 1025);
    assert_eq!(calls::words(2, 7), Some(4096 + 4 + 64 + 3));
    assert_eq!(calls::words(8, usize::MAX), None);
    assert_eq!(calls::words(usize::MAX, usize::MAX), None);
}

/// Calls share nothing, so views can be used by several threads at once.
#[test]
fn many_threads() {
    let view = parsed("each (copy ('0'..'9')+ hide (\";\" (not \"\\n\")*) new \";\" \"\\n\")");
    thread::scope(|scope| {
        for n in 0..8 {
            let view = &view;
            scope.spawn(move || {
                let source = format!("{n};x\n").repeat(2000);
                let look = format!("{n}\n").repeat(2000);
                for _ in 0..5 {
                    assert_shows(view, &source, &look);
                    assert_puts(view, &look, &source, &source);
                }
            });
        }
    });
}
