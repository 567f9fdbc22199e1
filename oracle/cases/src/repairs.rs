//! What repair of any tape is asked. A tape that passes for one in order is the reading of a text that the edit was made in,
//! except where no old entry can be kept: document 01 says nothing of other repairs.
use crate::edits::{self, Edit};
use crate::laid;
use crate::random::Random;
use crate::tapes::{self, PAST_64_BITS, WIDTH};

pub struct Repair {
    pub count: u64,
    pub old_length: u64,
    pub from: u64,
    pub to: u64,
    pub new: Vec<u8>,
    pub tape: Vec<u32>,
}

const EDGES: &[u64] = &[65_536, 65_537, (1 << 32) - 1, 1 << 32, PAST_64_BITS, 1 << 63, u64::MAX - 1, u64::MAX];

/// Most are of a text's reading; one in eight of them has no repair (23), and three in sixteen have a wrong gap, which is 23 too.
pub fn any(r: &mut Random) -> Repair {
    match r.below(16) {
        0 => of_whole_text(r),
        1 => of_no_entries(r),
        _ => {
            let (mut repair, old) = of_reading(r);
            match r.below(16) {
                0 | 1 => unfit(r, &mut repair),
                2..=4 => unfit_gap(r, &mut repair, &old),
                _ => {}
            }
            repair
        }
    }
}

/// A repair, and the text that its tape is the reading of.
fn of_reading(r: &mut Random) -> (Repair, Vec<u8>) {
    let entries = match r.below(400) {
        0 => r.from(100, 3_000),
        1..=40 => r.below(2),
        _ => r.below(14),
    };
    let laid = laid::text(r, entries);
    let count = laid.tape.len() / WIDTH;
    let edit = edits::of_text(r, laid.text);
    let mut tape = laid.tape;
    more_room(r, &mut tape);
    (of_edit(&edit, count, tape), edit.text)
}

fn of_edit(edit: &Edit, count: usize, tape: Vec<u32>) -> Repair {
    Repair {
        count: count as u64,
        old_length: edit.text.len() as u64,
        from: edit.from as u64,
        to: edit.to as u64,
        new: edit.edited(),
        tape,
    }
}

/// Numbers behind the entries: none, a few, or entries' worth; often what could be taken for entries.
fn more_room(r: &mut Random, tape: &mut Vec<u32>) {
    let more = match r.below(9) {
        0 => 0,
        1 => r.below(2 * WIDTH),
        2 => WIDTH,
        3 => WIDTH * r.below(6),
        _ => WIDTH * r.from(4, 12) + r.below(WIDTH),
    };
    let last = tape.last_chunk::<WIDTH>().map_or(0, |row| row[2]);
    for n in 0..more {
        let number = match r.below(3) {
            0 => u32::MAX,
            1 => r.below(18) as u32,
            _ => last + (n / WIDTH) as u32,
        };
        tape.push(number);
    }
}

/// All of the old text is cut, so nothing is kept: any entries in order.
fn of_whole_text(r: &mut Random) -> Repair {
    let kinds: Vec<u32> = (0..r.below(6)).map(|_| r.from(1, 16) as u32).collect();
    let mut tape = tapes::laid(r, &kinds);
    let least = tape.last_chunk::<WIDTH>().map_or(0, |row| u64::from(row[2]));
    let old_length = match r.below(3) {
        0 => least,
        1 => least + r.below(4) as u64,
        _ => r.number(EDGES).max(least),
    };
    more_room(r, &mut tape);
    let new = edits::any(r).edited();
    let mut repair = Repair { count: kinds.len() as u64, old_length, from: 0, to: old_length, new, tape };
    if r.once_in(5) {
        unfit_gap(r, &mut repair, &[]);
    }
    repair
}

/// There is no old entry to keep: any cut.
fn of_no_entries(r: &mut Random) -> Repair {
    let new = edits::any(r).edited();
    let from = r.below(new.len() + 1);
    let behind = r.below(new.len() - from + 1);
    let cut = match r.below(4) {
        0 => r.number(EDGES) - (from + behind) as u64 % 65_536,
        _ => r.below(5) as u64,
    };
    let cut = cut.min(u64::MAX - (from + behind) as u64);
    let mut tape = Vec::new();
    more_room(r, &mut tape);
    Repair {
        count: 0,
        old_length: from as u64 + cut + behind as u64,
        from: from as u64,
        to: from as u64 + cut,
        new,
        tape,
    }
}

/// One cause of 23, often by one only.
fn unfit(r: &mut Random, repair: &mut Repair) {
    let entries = repair.count as usize;
    match r.below(9) {
        0 => repair.from = more(r, repair.to),
        1 => repair.to = more(r, repair.old_length),
        2 => repair.old_length = more(r, repair.new.len() as u64 + repair.to - repair.from),
        3 => repair.count = more(r, (repair.tape.len() / WIDTH) as u64),
        4 if entries > 0 => repair.tape.truncate(r.below(WIDTH * entries)),
        _ if entries == 0 => repair.count = more(r, (repair.tape.len() / WIDTH) as u64),
        5 => unfit_last(r, repair, entries - 1),
        _ => {
            let entry = r.below(entries);
            unfit_entry(r, &mut repair.tape[..WIDTH * (entry + 1)], entry);
            if entry + 1 < entries {
                mend_gap(&mut repair.tape, entry + 1);
            }
        }
    }
}

/// The gap behind an entry whose end was changed, so that nothing else is wrong.
fn mend_gap(tape: &mut [u32], entry: usize) {
    let former_end = tape[WIDTH * entry - WIDTH + 2];
    let row = tapes::row(tape, entry);
    row[4] = row[1] - former_end;
}

/// One gap that is not the distance.
fn unfit_gap(r: &mut Random, repair: &mut Repair, old: &[u8]) {
    if repair.count > 0 {
        let entry = tapes::one_of(r, repair.count as usize);
        let row = tapes::row(&mut repair.tape, entry);
        tapes::wrong_gap(r, row, line_start(old, row[1] as usize) as u32);
    }
}

/// Where the line of a place begins.
fn line_start(text: &[u8], place: usize) -> usize {
    (1..=place).rev().find(|at| text.get(at - 1) == Some(&b'\n')).unwrap_or(0)
}

fn more(r: &mut Random, than: u64) -> u64 {
    match r.below(3) {
        0 => r.number(EDGES).max(than + 1),
        1 => than + 1 + r.below(4) as u64,
        _ => than + 1,
    }
}

/// The last entry ends behind the old text, or the old text before it; then its cut is all of it.
fn unfit_last(r: &mut Random, repair: &mut Repair, last: usize) {
    let end = &mut repair.tape[WIDTH * last + 2];
    match r.below(3) {
        0 => *end = repair.old_length as u32 + 1 + r.below(3) as u32,
        1 => *end = u32::MAX,
        _ => {
            repair.old_length = u64::from(*end) - 1;
            repair.from = 0;
            repair.to = repair.old_length;
        }
    }
}

/// A kind that is none, an empty entry or one that ends before it starts, or a start before the former's end
/// behind a gap of none, or of as many bytes as 2^32 leave for it.
fn unfit_entry(r: &mut Random, tape: &mut [u32], entry: usize) {
    let (former, row) = tape.split_at_mut(WIDTH * entry);
    match (r.below(4), former) {
        (0, _) => row[0] = r.number(&[0, 17, 18, 256, u64::from(u32::MAX)]) as u32,
        (1, _) => row[2] = row[1],
        (2, [.., end, _, _]) => {
            row[1] = *end - 1;
            row[4] = r.number(&[0, u64::from(u32::MAX)]) as u32;
        }
        _ => row[2] = r.below(row[1] as usize + 1) as u32,
    }
}
