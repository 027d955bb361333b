//! A small sheet that still shows what a large one shows.

use std::time::{Duration, Instant};

use plain::sheet::{children, CONSTANT, MAIN, VARIABLE};
use plain::Sheet;

/// Tries smaller sheets as long as one still `shows` it, and gives up after some time.
pub fn shrink(sheet: &Sheet, time: Duration, shows: impl Fn(&Sheet) -> bool) -> Sheet {
    let mut best = sheet.clone();
    let start = Instant::now();
    loop {
        let smaller = candidates(&best).into_iter().find_map(|make| {
            if start.elapsed() > time {
                return None;
            }
            let candidate = swept(&make(&best));
            if weight(&candidate) >= weight(&best) {
                return None;
            }
            shows(&candidate).then_some(candidate)
        });
        match smaller {
            Some(sheet) => best = sheet,
            None => return best,
        }
    }
}

/// What is to become smaller: the length, then the words.
fn weight(sheet: &Sheet) -> (usize, u64) {
    let words = sheet.encode();
    (words.len(), words.iter().map(|&w| u64::from(w)).sum())
}

type Step = Box<dyn Fn(&Sheet) -> Sheet>;

fn candidates(sheet: &Sheet) -> Vec<Step> {
    let mut steps: Vec<Step> = vec![];
    for (at, length) in pieces(sheet.constraints.len()) {
        steps.push(Box::new(move |s| {
            edited(s, |s| drop(s.constraints.drain(at..at + length)))
        }));
    }
    for (at, length) in pieces(sheet.interactions.len()) {
        steps.push(Box::new(move |s| {
            edited(s, |s| drop(s.interactions.drain(at..at + length)))
        }));
    }
    for (k, x) in sheet.interactions.iter().enumerate() {
        for (at, length) in pieces(x.message.len()) {
            steps.push(Box::new(move |s| {
                edited(s, |s| {
                    drop(s.interactions[k].message.drain(at..at + length))
                })
            }));
        }
    }
    // A record gives way to a leaf, or everything that names it names its child.
    for (k, record) in sheet.records.iter().enumerate().rev() {
        for leaf in [[CONSTANT, 0, 0, 0, 0], [VARIABLE, MAIN, 0, 0, 0]] {
            if !children(record).is_empty() {
                steps.push(Box::new(move |s| edited(s, |s| s.records[k] = leaf)));
            }
        }
        for &child in children(record) {
            steps.push(Box::new(move |s| {
                renamed(s, |r| if r == k as u32 { child } else { r })
            }));
        }
        for word in 1..5 {
            let named = (1..=children(record).len()).contains(&word);
            if record[word] != 0 && !named && !(record[0] == VARIABLE && word == 1) {
                steps.push(Box::new(move |s| edited(s, |s| s.records[k][word] = 0)));
            }
        }
    }
    steps
}

/// Pieces of a list to leave out: all, halves, quarters, down to single ones.
fn pieces(length: usize) -> Vec<(usize, usize)> {
    let mut pieces = vec![];
    let mut size = length;
    while size > 0 {
        pieces.extend(
            (0..length)
                .step_by(size)
                .map(|at| (at, size.min(length - at))),
        );
        size /= 2;
    }
    pieces
}

fn edited(sheet: &Sheet, edit: impl FnOnce(&mut Sheet)) -> Sheet {
    let mut sheet = sheet.clone();
    edit(&mut sheet);
    sheet
}

/// Every name of a record, in records, constraints and interactions, as another.
fn renamed(sheet: &Sheet, to: impl Fn(u32) -> u32) -> Sheet {
    edited(sheet, |s| {
        for record in &mut s.records {
            let count = children(record).len();
            record[1..=count].iter_mut().for_each(|c| *c = to(*c));
        }
        s.constraints.iter_mut().for_each(|c| *c = to(*c));
        for x in &mut s.interactions {
            x.count = to(x.count);
            x.message.iter_mut().for_each(|c| *c = to(*c));
        }
    })
}

/// Without the records that nothing names, from the last to the first.
fn swept(sheet: &Sheet) -> Sheet {
    let mut named = vec![false; sheet.records.len()];
    let interactions = sheet.interactions.iter();
    let roots = interactions.flat_map(|x| x.message.iter().chain([&x.count]));
    for &root in sheet.constraints.iter().chain(roots) {
        named[root as usize] = true;
    }
    for (k, record) in sheet.records.iter().enumerate().rev() {
        if named[k] {
            children(record)
                .iter()
                .for_each(|&c| named[c as usize] = true);
        }
    }
    let mut numbers = vec![0; sheet.records.len()];
    let mut next = 0;
    for (k, named) in named.iter().enumerate() {
        numbers[k] = next;
        next += u32::from(*named);
    }
    let mut swept = renamed(sheet, |r| numbers[r as usize]);
    let mut keep = named.iter();
    swept
        .records
        .retain(|_| *keep.next().expect("a mark for each"));
    swept
}
