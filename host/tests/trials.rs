//! Random views and texts: what the calls answer against a second implementation that tries all cuts and decides clearness in
//! another way. Refusals are compared too, and nothing outside of what is lent may change.

mod second;

use pirkunna::Refusal;
use pirkunna::calls::{Judged, Made, exported};
use second::derivatives::is_member;
use second::forms::{Form, Text, View};
use second::lent::Lent;
use second::random::Random;
use std::collections::BTreeSet;

/// What was met in a run, so that a run that tries nothing fails.
#[derive(Debug, Default)]
struct Tally {
    clear: usize,
    unclear: usize,
    refuted: usize,
    no_views: usize,
    shown: usize,
    made: usize,
    put: usize,
    no_source: usize,
    no_look: usize,
    /// Sources of more than 100 bytes.
    long: usize,
    /// Clear views with each of these.
    hides: usize,
    hides_showing_nothing: usize,
    thens: usize,
    swaps: usize,
    eithers: usize,
    eaches: usize,
    nullable_bodies: usize,
}

/// A call on lent memory, with guards around everything and the count set to a number that no call writes.
struct Call<'a> {
    view: &'a [u8],
    texts: &'a [&'a [u8]],
    out: usize,
    words: usize,
}

#[derive(Clone, Copy, Debug)]
enum Kind {
    Show,
    Make,
    Put,
}

const UNTOUCHED: usize = usize::MAX - 7;

impl Call<'_> {
    /// What is answered, and what is written.
    fn run(&self, kind: Kind) -> (Made, Text) {
        let view = Lent::new(self.view, 0xa5);
        let texts = self.texts.iter().map(|text| Lent::new(text, 0x5a)).collect::<Vec<_>>();
        let before = (0..self.out).map(|i| (i * 37 + 11) as u8).collect::<Vec<_>>();
        let mut out = Lent::new(&before, 0xc3);
        let mut work = Lent::new(&vec![0x1234_5678; self.words], 0xdead_beef);
        let mut written = UNTOUCHED;
        let (v, t) = (view.contents(), texts[0].contents());
        let (o, w) = (out.contents_mut(), work.contents_mut());
        let number = unsafe {
            match kind {
                Kind::Show => exported::views_show(
                    v.as_ptr(),
                    v.len(),
                    t.as_ptr(),
                    t.len(),
                    o.as_mut_ptr(),
                    o.len(),
                    w.as_mut_ptr(),
                    w.len(),
                    &mut written,
                ),
                Kind::Make => exported::views_make(
                    v.as_ptr(),
                    v.len(),
                    t.as_ptr(),
                    t.len(),
                    o.as_mut_ptr(),
                    o.len(),
                    w.as_mut_ptr(),
                    w.len(),
                    &mut written,
                ),
                Kind::Put => {
                    let look = texts[1].contents();
                    exported::views_put(
                        v.as_ptr(),
                        v.len(),
                        t.as_ptr(),
                        t.len(),
                        look.as_ptr(),
                        look.len(),
                        o.as_mut_ptr(),
                        o.len(),
                        w.as_mut_ptr(),
                        w.len(),
                        &mut written,
                    )
                }
            }
        };
        assert!(view.is_guarded() && out.is_guarded() && work.is_guarded(), "written outside of what was lent");
        assert!(view.contents() == self.view, "the view was changed");
        for (lent, text) in texts.iter().zip(self.texts) {
            assert!(lent.is_guarded() && lent.contents() == *text, "a text was changed");
        }
        let made = match number {
            0 => Made::Done(written),
            1 => Made::Muddy,
            2 => Made::NoSuch,
            3 => Made::NoSource,
            4 => Made::NoLook,
            5 => Made::Full,
            6 => Made::Small,
            _ => panic!("{kind:?} gave the number {number}"),
        };
        let len = if let Made::Done(len) = made { len } else { 0 };
        assert!(number == 0 || written == UNTOUCHED, "a refusal changed the count");
        assert!(out.contents()[len..] == before[len..], "bytes behind the result were changed");
        (made, out.contents()[..len].to_vec())
    }
}

/// The floor as it is defined.
fn floor(view: usize, texts: usize) -> usize {
    let n = view.min(1025);
    4096 + n * n + 64 + (1 + n) * (1 + texts) / 8
}

fn judge(row: &[u8], words: usize) -> Judged {
    let view = Lent::new(row, 0xa5);
    let mut work = Lent::new(&vec![0x1234_5678; words], 0xdead_beef);
    let number = unsafe {
        let (v, w) = (view.contents(), work.contents_mut());
        exported::views_judge(v.as_ptr(), v.len(), w.as_mut_ptr(), w.len())
    };
    assert!(view.is_guarded() && view.contents() == row && work.is_guarded(), "written outside of what was lent");
    [Judged::Plain, Judged::Unclear, Judged::NoView, Judged::Few][number as usize]
}

/// Compares a call, at the edges of the room and of the work words, with the set of what the definition allows.
fn compare(kind: Kind, view: &View, is_clear: bool, texts: &[&[u8]], allowed: impl Fn() -> Result<BTreeSet<Text>, Made>) {
    let row = view.row();
    let room = floor(row.len(), texts.iter().map(|text| text.len()).sum());
    let call = |out, words| Call { view: &row, texts, out, words }.run(kind);
    assert_eq!(call(64, room - 1).0, Made::Small, "{kind:?} {view:?} {texts:?}");
    if !is_clear {
        assert_eq!(call(64, room).0, Made::Muddy, "{kind:?} {view:?} {texts:?}");
        return;
    }
    match allowed() {
        Err(refusal) => assert_eq!(call(64, room).0, refusal, "{kind:?} {view:?} {texts:?}"),
        Ok(results) => {
            assert_eq!(results.len(), 1, "a clear view gives one result: {kind:?} {view:?} {texts:?} {results:?}");
            let result = results.first().expect("there is one");
            let done = (Made::Done(result.len()), result.clone());
            assert_eq!(call(result.len(), room), done, "{kind:?} {view:?} {texts:?}");
            assert_eq!(call(result.len() + 9, room + 5), done, "{kind:?} {view:?} {texts:?}");
            if !result.is_empty() {
                assert_eq!(call(result.len() - 1, room).0, Made::Full, "{kind:?} {view:?} {texts:?}");
            }
        }
    }
}

/// Tries one view, with rows that are nearly its own, and so many texts.
fn try_view(random: &mut Random, texts: usize, tally: &mut Tally) {
    let view = random.view(3);
    let row = view.row();
    if row.len() > 1024 {
        return;
    }
    assert_eq!(View::from_row(&row).as_ref(), Some(&view));
    let is_clear = view.is_clear();
    let words = 4096 + row.len() * row.len();
    assert_eq!(judge(&row, words - 1), Judged::Few, "{view:?}");
    assert_eq!(judge(&row, words), if is_clear { Judged::Plain } else { Judged::Unclear }, "{view:?}");
    if view.is_refuted() {
        assert!(!is_clear, "a short text shows that it is unclear: {view:?}");
        tally.refuted += 1;
    }
    if is_clear {
        tally.clear += 1;
        note_kinds(&view, tally);
    } else {
        tally.unclear += 1;
    }
    try_near_rows(random, &row, tally);
    if is_clear {
        try_long_texts(random, &view, tally);
    }

    let (sources, looks) = (view.sources(), view.looks());
    for _ in 0..texts {
        let (source, look) = (text_near(random, &sources), text_near(random, &looks));
        let (is_source, is_look) = (sources.matches(&source), looks.matches(&look));
        compare(
            Kind::Show,
            &view,
            is_clear,
            &[&source],
            || {
                if is_source { Ok(view.shows(&source)) } else { Err(Made::NoSource) }
            },
        );
        compare(Kind::Make, &view, is_clear, &[&look], || if is_look { Ok(view.makes(&look)) } else { Err(Made::NoLook) });
        compare(Kind::Put, &view, is_clear, &[&source, &look], || match (is_source, is_look) {
            (false, _) => Err(Made::NoSource),
            (true, false) => Err(Made::NoLook),
            (true, true) => Ok(view.puts(&look, &source)),
        });
        if is_clear {
            tally.no_source += usize::from(!is_source);
            tally.no_look += usize::from(!is_look);
            tally.shown += usize::from(is_source);
            tally.made += usize::from(is_look);
            tally.put += usize::from(is_source && is_look);
            laws(&row, is_source.then_some(&source), is_look.then_some(&look));
        }
    }
}

/// Texts that are long enough for steps to come again: too long for all cuts, so membership is asked of the derivatives, and the
/// laws hold of what is a source or a look.
fn try_long_texts(random: &mut Random, view: &View, tally: &mut Tally) {
    let row = view.row();
    let host = pirkunna::View::from_row(row.clone()).expect("a view");
    let (sources, looks) = (view.sources(), view.looks());
    for _ in 0..2 {
        let [source, look] = [&sources, &looks].map(|form| {
            let mut text = random.text_of(form, 300);
            if random.once_in(3) {
                random.change(&mut text);
            }
            text
        });
        let (is_source, is_look) = (is_member(&sources, &source), is_member(&looks, &look));
        assert_eq!(host.show(&source).err(), (!is_source).then_some(Refusal::NoSource), "{view:?} {source:?}");
        assert_eq!(host.make(&look).err(), (!is_look).then_some(Refusal::NoLook), "{view:?} {look:?}");
        laws(&row, is_source.then_some(&source), is_look.then_some(&look));
        tally.long += usize::from(is_source && source.len() > 100);
    }
}

/// What is made shows the look; what is put back is what one then sees; putting back what one sees changes nothing.
fn laws(row: &[u8], source: Option<&Text>, look: Option<&Text>) {
    let view = pirkunna::View::from_row(row).expect("a view");
    if let Some(look) = look {
        let made = view.make(look).expect("a look");
        assert_eq!(view.show(&made).as_ref(), Ok(look));
    }
    if let Some(source) = source {
        let seen = view.show(source).expect("a source");
        assert_eq!(view.put(source, &seen).as_ref(), Ok(source));
        if let Some(look) = look {
            let new = view.put(source, look).expect("a source and a look");
            assert_eq!(view.show(&new).as_ref(), Ok(look));
        }
    }
}

/// A row with a byte changed may say no view, or another one.
fn try_near_rows(random: &mut Random, row: &[u8], tally: &mut Tally) {
    for _ in 0..4 {
        let mut near = row.to_vec();
        random.change(&mut near);
        let words = 4096 + near.len() * near.len();
        let expected = match View::from_row(&near) {
            None => Judged::NoView,
            Some(view) if view.is_clear() => Judged::Plain,
            Some(_) => Judged::Unclear,
        };
        assert_eq!(judge(&near, words), expected, "{near:?}");
        if expected == Judged::NoView {
            tally.no_views += 1;
            let call = Call { view: &near, texts: &[b"ab", b"ab"], out: 9, words: floor(near.len(), 4) };
            assert_eq!(call.run(Kind::Show).0, Made::NoSuch, "{near:?}");
            assert_eq!(call.run(Kind::Make).0, Made::NoSuch, "{near:?}");
            assert_eq!(call.run(Kind::Put).0, Made::NoSuch, "{near:?}");
        }
    }
}

/// A text of the form, or one that is nearly of it.
fn text_near(random: &mut Random, form: &Form) -> Text {
    let mut text = random.text_of(form, 8);
    text.truncate(14);
    if random.once_in(4) {
        random.change(&mut text);
    }
    text
}

fn note_kinds(view: &View, tally: &mut Tally) {
    tally.nullable_bodies += usize::from(has_nullable_body(&view.sources()));
    let mut todo = vec![view];
    while let Some(view) = todo.pop() {
        match view {
            View::Copy(_) => {}
            View::Hide(_, v, _) => {
                tally.hides += 1;
                tally.hides_showing_nothing += usize::from(v.is_empty());
            }
            View::Then(k, l) | View::Swap(k, l) | View::Either(k, l) => {
                match view {
                    View::Then(..) => tally.thens += 1,
                    View::Swap(..) => tally.swaps += 1,
                    _ => tally.eithers += 1,
                }
                todo.extend([&**k, l]);
            }
            View::Each(l) => {
                tally.eaches += 1;
                todo.push(l);
            }
        }
    }
}

fn has_nullable_body(form: &Form) -> bool {
    match form {
        Form::Empty | Form::One(..) => false,
        Form::Seq(f, g) | Form::Or(f, g) => has_nullable_body(f) || has_nullable_body(g),
        Form::Many(f) => f.matches(b"") || has_nullable_body(f),
    }
}

/// Tries so many views, each from a seed of its own, and asks that each kind was common.
fn run(views: usize) {
    let mut tally = Tally::default();
    for seed in 0..views {
        try_view(&mut Random::new(seed as u64), 20, &mut tally);
    }
    println!("{tally:#?}");
    assert!(tally.clear * 3 >= views, "{tally:?}");
    assert!(tally.unclear * 10 >= views && tally.refuted * 2 >= tally.unclear, "{tally:?}");
    let kinds = [tally.hides, tally.thens, tally.swaps, tally.eithers, tally.eaches, tally.nullable_bodies, tally.long];
    assert!(kinds.into_iter().chain([tally.hides_showing_nothing]).all(|count| count * 15 >= views), "{tally:?}");
    let calls = [tally.shown, tally.made, tally.put, tally.no_source, tally.no_look, tally.no_views];
    assert!(calls.into_iter().all(|count| count >= views), "{tally:?}");
}

#[test]
fn random_views() {
    run(2000);
}

/// Some minutes.
#[test]
#[ignore = "long"]
fn many_random_views() {
    run(30_000);
}
