//! Mistakes about dead pixels: counted in windows, sums and stores that pass over them, let pass or refused in the wrong
//! place, and windows without a reading that answer, add, move, hold or balance something.

use crate::coarse::by_blocks;
use crate::fault::CHOSEN;
use crate::hollow::Call;
use sorting_filter::calls::Walked;
use sorting_filter::frame::{locate, number16, open, Frame, KIND_TABLE, NO_READING};
use sorting_filter::store::{balance_box, stores, ChainEntry, Stores, Way};
use sorting_filter::walk::{is_mark, plane, Walk, OFF_PICTURE};
use sorting_filter::window::{reach, Weighted, Window};
use sorting_filter::writer;

/// How the names of these mistakes begin; for another no window need be looked at again.
const NAMES: [&str; 2] = ["dead_", "empty_"];

fn chosen() -> Option<&'static str> {
    Some(CHOSEN.as_str()).filter(|chosen| NAMES.iter().any(|name| chosen.starts_with(name)))
}

/// The file as a library reads it that takes other numbers for no reading: written anew with what they stand for, or as
/// it is where that is no frame.
pub fn as_read(file: &[u8]) -> Vec<u8> {
    let read = |file: &[u8]| -> Option<Vec<u8>> {
        let (chosen, (settings, places)) = (chosen()?, locate(file).ok()?);
        let part = |place: usize| (0..settings.pixels()).map(|pixel| number16(file, place + 2 * pixel)).collect();
        let (mut values, mut guides): (Vec<u16>, Vec<u16>) = (part(places.values), part(places.guides));
        let first = values.iter().position(|&value| value == NO_READING);
        let dead_if = |values: &mut Vec<u16>, dead: fn(u16) -> bool| {
            values.iter_mut().filter(|value| dead(**value)).for_each(|value| *value = NO_READING);
        };
        match chosen {
            "dead_refused" => {
                let mut refused = file.to_vec();
                let place = places.values + 2 * first?;
                refused[place..place + 2].copy_from_slice(&settings.levels.to_be_bytes());
                return Some(refused);
            }
            "dead_as_level_zero" => replace(&mut values, 0),
            "dead_as_last_level" => replace(&mut values, settings.levels - 1),
            "dead_mark_passes" => dead_if(&mut values, |value| value == NO_READING - 1),
            "dead_by_sign" => dead_if(&mut values, |value| value >= 32_768),
            "dead_guide_passes" => replace(&mut guides, 0),
            _ => return None,
        }
        let table = places.table.map_or_else(Vec::new, |place| {
            (0..settings.table_weights()).map(|index| number16(file, place + 2 * index)).collect()
        });
        writer::write(&settings.asked(), &values, &guides, &table, usize::MAX).ok()
    };
    read(file).unwrap_or_else(|| file.to_vec())
}

fn replace(plane: &mut [u16], number: u16) {
    plane.iter_mut().filter(|value| **value == NO_READING).for_each(|value| *value = number);
}

/// The planes as a writer takes them that knows other numbers for no reading.
pub fn as_written(values: &[u16], guides: &[u16]) -> (Vec<u16>, Vec<u16>) {
    let (mut values, mut guides) = (values.to_vec(), guides.to_vec());
    match CHOSEN.as_str() {
        "dead_written_refused" => replace(&mut values, NO_READING - 1),
        "dead_written_as_zero" => replace(&mut values, 0),
        "dead_written_guide" => replace(&mut guides, 0),
        "dead_written_mark" => {
            values.iter_mut().filter(|value| **value == NO_READING - 1).for_each(|value| *value = NO_READING);
        }
        _ => {}
    }
    (values, guides)
}

/// The guides of the dead pixels among these.
fn dead_guides(frame: &Frame, pixels: impl Iterator<Item = (usize, usize)>) -> Vec<u16> {
    pixels.filter(|&(s, t)| frame.level(s, t).is_none()).map(|(s, t)| frame.guide(s, t)).collect()
}

/// The pixels of a window as the boards clip it, dead ones too.
fn around(frame: &Frame, (column, row): (usize, usize)) -> impl Iterator<Item = (usize, usize)> {
    let k = frame.settings;
    let columns = reach(column, k.radius, k.width);
    reach(row, k.radius, k.height).flat_map(move |t| columns.clone().map(move |s| (s, t)))
}

/// Kind 2's sums over a window.
struct Sums {
    n: i64,
    s: i64,
    q: i64,
}

impl Sums {
    fn of(guides: &[u16]) -> Sums {
        let sum = |term: fn(i64) -> i64| -> i64 { guides.iter().map(|&guide| term(guide.into())).sum() };
        Sums { n: sum(|_| 1), s: sum(|guide| guide), q: sum(|guide| guide * guide) }
    }

    fn weight(&self, smoothing: u16, centre: u16, guide: u16) -> i64 {
        let &Sums { n, s, q } = self;
        let from_mean = |guide: u16| n * i64::from(guide) - s;
        n * q - s * s + n * n * i64::from(smoothing) + from_mean(centre) * from_mean(guide)
    }
}

/// A window weighed with the mistake: dead pixels in n, S or Q, in T though at no level, or a dead centre whose guide is
/// taken as 0. An empty one stays empty.
pub fn window(mistake: &str, frame: &Frame, pixel: (usize, usize)) -> Window {
    let mut window = Window::at(frame, pixel.0, pixel.1);
    if window.empty() {
        return window;
    }
    let live: Vec<u16> = window.pixels.iter().map(|pixel| pixel.guide).collect();
    let dead = dead_guides(frame, around(frame, pixel));
    let (mut sums, all) = (Sums::of(&live), Sums::of(&[live, dead.clone()].concat()));
    let mut centre = frame.guide(pixel.0, pixel.1);
    match mistake {
        "dead_in_n" => sums.n = all.n,
        "dead_in_s" => sums.s = all.s,
        "dead_in_q" => sums.q = all.q,
        "dead_centre_guide_zero" if frame.level(pixel.0, pixel.1).is_none() => centre = 0,
        _ => {}
    }
    let k = frame.settings;
    let weight = |guide: u16| match k.kind {
        KIND_TABLE => i64::from(frame.table_weight(centre, guide)),
        _ => sums.weight(k.smoothing, centre, guide),
    };
    window.pixels.iter_mut().for_each(|pixel| pixel.own_weight = weight(pixel.guide));
    window.negative_at = [0, k.guides - 1].map(|end| weight(end) < 0);
    if mistake == "dead_in_total" {
        let beyond = |&guide: &u16| Weighted { level: NO_READING, guide, own_weight: weight(guide) };
        window.pixels.extend(dead.iter().map(beyond));
    }
    window
}

/// The lowest level at which the counted weights reach half, or the last where they never do: wrong ones may not.
fn half(window: &Window, last: u16) -> u16 {
    let mut sorted: Vec<(u16, i64)> = window.counted().collect();
    sorted.sort_by_key(|&(level, _)| level);
    let total = window.total();
    if total <= 0 && sorted[0].0 > 0 {
        return 0;
    }
    let mut cumulative = 0;
    for run in sorted.chunk_by(|one, other| one.0 == other.0) {
        cumulative += run.iter().map(|&(_, weight)| weight).sum::<i64>();
        if 2 * cumulative >= total {
            return run[0].0.min(last);
        }
    }
    last
}

/// What a window does in a walk.
struct Arrival {
    answer: u16,
    cut: u16,
    added: u16,
    blocks: u16,
}

/// A window without a reading, with the mistake.
fn arrive_empty(chosen: &str, cut: u16) -> Arrival {
    let right = Arrival { answer: NO_READING, cut, added: 0, blocks: 0 };
    match chosen {
        "empty_answers_zero" => Arrival { answer: 0, ..right },
        "empty_answers_cut" => Arrival { answer: cut, ..right },
        "empty_answers_mark" => Arrival { answer: OFF_PICTURE, ..right },
        "empty_moves_cut" => Arrival { cut: 0, ..right },
        "empty_adds" => Arrival { added: cut, ..right },
        "empty_adds_by_blocks" => Arrival { blocks: by_blocks(cut), ..right },
        // Half of no pixel is reached at once.
        "empty_as_hollow" => Arrival { answer: 0, cut: 0, added: cut, blocks: 0 },
        _ => right,
    }
}

/// The window at a pixel, with the mistake.
fn arrive(chosen: &str, frame: &Frame, pixel: (usize, usize), cut: u16) -> Arrival {
    let window = window(chosen, frame, pixel);
    if window.empty() {
        return arrive_empty(chosen, cut);
    }
    let level = half(&window, frame.settings.levels - 1);
    let (added, blocks) = if window.steady() { (level.abs_diff(cut), by_blocks(level)) } else { (level, level) };
    let right = Arrival { answer: level, cut: level, added, blocks };
    match chosen {
        "dead_centre_passed_over" if frame.level(pixel.0, pixel.1).is_none() => arrive_empty("", cut),
        "dead_centre_answers_none" if frame.level(pixel.0, pixel.1).is_none() => {
            Arrival { answer: NO_READING, ..right }
        }
        _ => right,
    }
}

/// The walk again with the mistake.
fn walk_wrongly(chosen: &str, frame: &Frame, walk: &mut Walk) {
    (walk.shifts, walk.coarse_shifts, walk.cut) = (0, 0, 0);
    let levels = walk.answers.iter_mut().filter(|answer| !is_mark(**answer));
    for (level, &pixel) in levels.zip(&walk.visited) {
        let arrival = arrive(chosen, frame, pixel, walk.cut);
        (*level, walk.cut) = (arrival.answer, arrival.cut);
        walk.shifts += u64::from(arrival.added);
        walk.coarse_shifts += u64::from(arrival.blocks);
    }
}

fn way_of(stores: &Stores) -> Way {
    match stores {
        Stores::Joint { .. } => Way::Joint,
        Stores::Columns { .. } => Way::Columns,
        Stores::Chain { .. } => Way::Chain,
        Stores::Coarse { .. } => Way::Coarse,
    }
}

/// Makes the mistake in what a call leaves after a walk, which `walk` makes again.
pub fn spoil(file: &[u8], call: Call, walked: &mut Walked, walk: impl FnOnce(&Frame) -> Walk) {
    let (Some(chosen), Ok(frame)) = (chosen(), open(file)) else { return };
    if !frame.values.contains(&NO_READING) {
        return;
    }
    let (mut walk, way) = (walk(&frame), way_of(&walked.stores));
    walk_wrongly(chosen, &frame, &mut walk);
    let answers = match call {
        Call::Walk => walk.answers.clone(),
        Call::Filter => plane(&frame, &walk),
    };
    *walked = Walked::of(&frame, way, &walk, answers);
    spoil_stores(chosen, &frame, walk.last(), walked);
    spoil_columns(chosen, &frame, walk.last(), walked);
    if Window::at(&frame, walk.last().0, walk.last().1).empty() {
        spoil_end(chosen, &frame, way, walk, walked);
    }
}

/// A dead pixel of the last window in the stores, at the last level.
fn spoil_stores(chosen: &str, frame: &Frame, last: (usize, usize), walked: &mut Walked) {
    let k = frame.settings;
    let (levels, guides, width) = (usize::from(k.levels), usize::from(k.guides), usize::from(k.width));
    let dead = dead_guides(frame, around(frame, last));
    let (Some(&first), level) = (dead.first(), levels - 1) else { return };
    match (&mut walked.stores, chosen) {
        (Stores::Joint { counts, .. }, "dead_in_counts") => counts[level * guides + usize::from(first)] += 1,
        (Stores::Coarse { counts, .. }, "dead_in_coarse_counts") => counts[level * guides + usize::from(first)] += 1,
        (Stores::Joint { words, .. }, "dead_in_words") => *words.last_mut().expect("a word") |= 1 << (first % 64),
        (Stores::Coarse { words, .. }, "dead_in_coarse_words") => {
            *words.last_mut().expect("a word") |= 1 << (first % 64)
        }
        (Stores::Joint { .. }, "dead_in_box") => walked.balance_box[usize::from(first)] -= 1,
        (Stores::Coarse { summary, .. }, "dead_in_summary") => {
            let right = Window::at(frame, last.0, last.1);
            let wrong = window("dead_in_total", frame, last);
            let more: i64 = wrong.pixels[right.pixels.len()..].iter().map(|pixel| pixel.own_weight).sum();
            *summary.last_mut().expect("a block") += more;
        }
        (Stores::Columns { numbers }, "dead_in_window_counts") => numbers[2 * width * levels + level] += 1,
        (Stores::Columns { numbers }, "dead_in_window_sums") => {
            numbers[2 * width * levels + levels + level] += u32::from(first);
        }
        (Stores::Chain { entries }, "dead_in_chain") => match entries.last_mut() {
            Some(entry) => entry.count += 1,
            None => entries.push(ChainEntry { level: 0, count: 1, guide_sum: first.into() }),
        },
        (Stores::Chain { entries }, "dead_in_chain_sums") => {
            entries.iter_mut().take(1).for_each(|entry| entry.guide_sum += u32::from(first));
        }
        _ => {}
    }
}

/// The dead pixels of the last window's rows in the columns of the window, beside it, or in all columns' sums.
fn spoil_columns(chosen: &str, frame: &Frame, last: (usize, usize), walked: &mut Walked) {
    let Stores::Columns { numbers } = &mut walked.stores else { return };
    let k = frame.settings;
    let (levels, width) = (usize::from(k.levels), usize::from(k.width));
    let (columns, rows, level) = (reach(last.0, k.radius, k.width), reach(last.1, k.radius, k.height), levels - 1);
    for (s, t) in rows.flat_map(|t| (0..width).map(move |s| (s, t))).filter(|&(s, t)| frame.level(s, t).is_none()) {
        match chosen {
            "dead_in_columns" if columns.contains(&s) => numbers[s * levels + level] += 1,
            "dead_in_columns_beside" if !columns.contains(&s) => numbers[s * levels + level] += 1,
            "dead_in_column_sums" => numbers[width * levels + s * levels + level] += u32::from(frame.guide(s, t)),
            _ => {}
        }
    }
}

/// What is left where the last window has no reading: something of the window before, or a node.
fn spoil_end(chosen: &str, frame: &Frame, way: Way, mut walk: Walk, walked: &mut Walked) {
    if walk.visited.len() > 1 {
        walk.visited.pop();
    }
    let left = match chosen {
        "empty_joint_left" => Way::Joint,
        "empty_columns_left" => Way::Columns,
        "empty_chain_left" => Way::Chain,
        "empty_coarse_left" => Way::Coarse,
        "empty_box_left" if way == Way::Joint => {
            walked.balance_box = balance_box(frame, &walk);
            return;
        }
        "empty_chain_node" if way == Way::Chain => {
            let entries = vec![ChainEntry { level: 0, count: 0, guide_sum: 0 }];
            walked.stores = Stores::Chain { entries };
            return;
        }
        "empty_cut_given" => {
            walked.cut = NO_READING;
            return;
        }
        _ => return,
    };
    if way == left {
        walked.stores = stores(frame, way, &walk);
    }
}

/// Makes the mistake in a balance.
pub fn in_balance(file: &[u8], pixel: (usize, usize), level: u32, balance: &mut i64) {
    let (Some(chosen), Ok(frame)) = (chosen(), open(file)) else { return };
    let empty = Window::at(&frame, pixel.0, pixel.1).empty();
    let level = level as u16;
    match chosen {
        "dead_balance_total" => *balance = window("dead_in_total", &frame, pixel).balance(level),
        "dead_balance_sums" => *balance = window("dead_in_n", &frame, pixel).balance(level),
        "dead_balance_centre" => *balance = window("dead_centre_guide_zero", &frame, pixel).balance(level),
        "empty_balance" if empty => *balance = -(around(&frame, pixel).count() as i64),
        _ => {}
    }
}
