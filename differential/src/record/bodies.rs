//! Bodies: tag u8, span u32, length u16, accepted u8, count u16, ranks u8, selects u8, from u16,
//! room u16, items u16; then the body, the ranks (position u32, ordinal u32), the selects (ordinal
//! u16, position u32), and what a walk from `from` puts into an output of so much room, as
//! items from base 0. 4,294,967,295 stands for nothing.

use super::{List, item_bytes, items};
use crate::index::original::Accepted;
use crate::plain::BITMAP;
use crate::random::Random;
use crate::reading::{Reading, for_each, questions};
use std::collections::BTreeMap;

const NOTHING: u32 = u32::MAX;

/// Bodies of one tag that are alike in being accepted, in being trimmed, and in size.
type Class = (u8, bool, bool, Size);

#[derive(Clone, Copy, PartialEq, Eq, PartialOrd, Ord)]
enum Size {
    Short,
    Middle,
    Long,
    TooLong,
}

/// Takes from all the bodies that readers are compared on a few of each class, evenly spread.
pub(super) fn record(list: &mut List) -> Result<(), String> {
    let mut all: BTreeMap<Class, usize> = BTreeMap::new();
    for_each(&mut |reading| {
        *all.entry(class(reading)).or_default() += 1;
        Ok(())
    })?;
    let mut random = Random::new(12);
    let mut met: BTreeMap<Class, usize> = BTreeMap::new();
    for_each(&mut |reading| {
        let class = class(reading);
        let (all, met) = (all[&class], met.entry(class).or_default());
        let share = wanted(class).min(all);
        if *met * share / all < (*met + 1) * share / all {
            list.body(&recorded(&mut random, reading));
        }
        *met += 1;
        Ok(())
    })
}

fn class(reading: &Reading) -> Class {
    let Reading { tag, span, body } = reading;
    let size = match body.len() {
        0..=40 => Size::Short,
        41..=500 => Size::Middle,
        501..=4_000 => Size::Long,
        _ => Size::TooLong,
    };
    let trimmed = *tag == BITMAP && body.get(2) == Some(&1);
    (*tag, Accepted::new(*tag, *span, body).is_some(), trimmed, size)
}

/// How many of a class are taken, if there are so many.
fn wanted((_, accepted, _, size): Class) -> usize {
    match (accepted, size) {
        (true, Size::Short) => 45,
        (false, Size::Short) => 70,
        (true, Size::Middle) => 12,
        (false, Size::Middle) => 6,
        (true, Size::Long) => 1,
        (false, Size::Long) | (_, Size::TooLong) => 0,
    }
}

fn recorded(random: &mut Random, reading: &Reading) -> Vec<u8> {
    let Reading { tag, span, body } = reading;
    let set = Accepted::new(*tag, *span, body);
    let count = set.map_or(0, Accepted::count);
    let ranks = ranks(random, set, *span);
    let selects = selects(random, set);
    let (from, room, walked) = walk(random, set);
    let mut out = vec![*tag];
    out.extend(span.to_le_bytes());
    out.extend((body.len() as u16).to_le_bytes());
    out.push(u8::from(set.is_some()));
    out.extend(count.to_le_bytes());
    out.extend([ranks.len() as u8, selects.len() as u8]);
    out.extend(from.to_le_bytes());
    out.extend(room.to_le_bytes());
    out.extend((walked.len() as u16).to_le_bytes());
    out.extend(body);
    out.extend(ranks.iter().flatten().flat_map(|number| number.to_le_bytes()));
    for (ordinal, position) in selects {
        out.extend(ordinal.to_le_bytes());
        out.extend(position.to_le_bytes());
    }
    out.extend(item_bytes(&walked));
    out
}

/// Up to five of the positions worth asking for, and one of a body that is refused.
fn ranks(random: &mut Random, set: Option<Accepted>, span: u32) -> Vec<[u32; 2]> {
    let Some(set) = set else {
        return vec![[0, NOTHING]];
    };
    let list: Vec<u64> = set.positions().map(u64::from).collect();
    let questions = questions(&list, span);
    let asked = (0..5).map(|_| questions[random.below(questions.len() as u64) as usize]);
    asked.map(|position| [position, set.rank(position).map_or(NOTHING, u32::from)]).collect()
}

fn selects(random: &mut Random, set: Option<Accepted>) -> Vec<(u16, u32)> {
    let Some(set) = set else {
        return vec![(0, NOTHING)];
    };
    let inside = random.below(u64::from(set.count())) as u16;
    let asked = [inside, set.count() - 1, set.count()];
    asked.map(|ordinal| (ordinal, set.select(ordinal).unwrap_or(NOTHING))).to_vec()
}

/// The whole walk where it is told in few items, and a part of it elsewhere.
fn walk(random: &mut Random, set: Option<Accepted>) -> (u16, u16, Vec<(u16, u16)>) {
    let Some(set) = set else {
        return (0, 1, Vec::new());
    };
    let walked = |from: u16, room: u16| {
        let rows = set.positions().skip(usize::from(from)).take(usize::from(room));
        (from, room, items(0, rows.map(u64::from)))
    };
    let whole = walked(0, u16::MAX);
    if whole.2.len() <= 6 {
        return whole;
    }
    walked(random.below(u64::from(set.count())) as u16, random.below(9) as u16)
}
