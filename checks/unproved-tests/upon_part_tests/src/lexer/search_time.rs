// What a search takes of processor time, beside a walk over the bytes: braces, and few bytes, are found nearly as fast.
// The limits are far from what is seen where checks stand in the place of proofs.
use std::alloc::{AllocError, Global};
use std::process::Abort;
use std::test::Fail;
use std::time::CpuClock;
use upon_delimiters::search::Searcher;
use upon_delimiters::syntax::Syntax;

// A text of 1 KiB, each byte the same: short, so that a search can end before another process takes the processor.
fn text_of(alloc: Global, part: char) -> Result<String, AllocError> {
    let mut text = String::new(alloc);
    for _ in 0..1_024 {
        text.push(part)?;
    }
    Ok(text)
}

// How often a byte is in a text.
fn count(text: &str, wanted: u8) -> usize {
    let bytes = text.as_bytes();
    let mut found = 0usize;
    for at in 0..bytes.len() {
        if bytes[at] == wanted {
            found = found.wrapping_add(1);
        }
    }
    found
}

// The microseconds that the thread has used so far.
fn now<C: CpuClock>(clock: &C) -> Result<u128, Fail> {
    match clock.thread_cpu_time() {
        Ok(time) => Ok(time.as_micros()),
        Err(_) => Err(Fail::new("no clock")),
    }
}

// How a text is searched.
#[derive(Clone, Copy)]
enum Way {
    // From its begin on.
    From,
    // At each of its offsets.
    At,
}

// Whether a delimiter is found.
fn finds(searcher: &Searcher, text: &str, way: Way) -> bool {
    if let Way::From = way {
        return searcher.find_at(text, 0).is_some();
    }
    let mut is_found = false;
    for at in 0..text.len() {
        is_found |= searcher.starts_with(text, at).is_some();
    }
    is_found
}

// The microseconds of a walk over a text, and of a search of it, each the least of a hundred.
fn least<C: CpuClock>(
    clock: &C,
    searcher: &Searcher,
    text: &str,
    way: Way,
) -> Result<(u128, u128), Fail> {
    let mut walk = u128::MAX;
    let mut search = u128::MAX;
    for _ in 0..100 {
        let begun = now(clock)?;
        let is_there = count(text, 0) > 0;
        let walked = now(clock)?;
        let is_found = finds(searcher, text, way);
        let ended = now(clock)?;
        if is_there || is_found {
            return Err(Fail::new("a delimiter is found"));
        }
        walk = walk.min(walked.saturating_sub(begun));
        search = search.min(ended.saturating_sub(walked));
    }
    Ok((walk, search))
}

// A search takes less than so many walks.
fn takes_less<C: Abort + CpuClock>(
    rt: &C,
    alloc: Global,
    searcher: &Searcher,
    way: Way,
    walks: u128,
) -> Result<(), Fail> {
    for part in ['x', '-'] {
        // A delimiter may begin at a hyphen.
        if part == '-' && matches!(way, Way::At) {
            continue;
        }
        let (walk, search) = least(rt, searcher, text_of(alloc, part)?.as_str(), way)?;
        assert!(rt; search < walk.saturating_mul(walks), "{search} of {part}, {walk}");
    }
    Ok(())
}

// It takes two walks; by marks it would take twenty-five.
#[test]
fn braces(rt: HostRuntime) -> Result<(), Fail> {
    takes_less(&rt, rt.alloc(), &Searcher::new(), Way::From, 8)
}

// So it is here.
#[test]
fn few_bytes(rt: HostRuntime) -> Result<(), Fail> {
    let alloc = rt.alloc();
    let mut builder = Syntax::builder();
    builder.expr("<?", "?>").block("<#", "#>");
    let searcher = Searcher::with_syntax(builder.build(alloc)?);
    takes_less(&rt, alloc, &searcher, Way::From, 8)
}

// It takes twenty-five walks; if each offset were looked at in the trie, it would take a hundred and forty.
#[test]
fn marks(rt: HostRuntime) -> Result<(), Fail> {
    let alloc = rt.alloc();
    let mut builder = Syntax::builder();
    builder.expr("echo(", ")").block("@[", "]");
    let searcher = Searcher::with_syntax(builder.build(alloc)?);
    takes_less(&rt, alloc, &searcher, Way::From, 65)
}

// An offset takes 37 walks over a byte; without a first look it would take 116.
#[test]
fn offsets(rt: HostRuntime) -> Result<(), Fail> {
    takes_less(&rt, rt.alloc(), &Searcher::new(), Way::At, 65)
}
