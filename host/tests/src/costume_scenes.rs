//! Scenes with costumes: arbitrary bytes, animations that play, and deliberate limbs (limbs.rs).

use crate::calls::{self, Costume};
use crate::comparison::Comparison;
use crate::limbs;
use crate::rng::Rng;

/// A limb that is right for a stream of `stream` bytes; idle if there is none.
fn limb(r: &mut Rng, stream: usize) -> Vec<u8> {
    let mut limb = r.bytes(16);
    if r.once_in(3) || stream == 0 {
        limb[0] = 0;
        return limb;
    }
    let length = r.range(1, stream.min(128));
    let start = r.below(stream - length + 1);
    let place = start + if r.once_in(3) { length - 1 } else { r.below(length) };
    limb[0] = r.pick(&[1, 1, 2, 255]);
    limb[1..4].fill_with(|| r.pick(&[0, 0, 1, 1, 2, 255]));
    limb[5] = length as u8;
    limb[8..12].copy_from_slice(&(start as u32).to_le_bytes());
    limb[12..16].copy_from_slice(&(place as u32).to_le_bytes());
    limb
}

/// One field of one limb at an edge.
fn spoil(r: &mut Rng, limbs: &mut [u8], stream: usize) {
    let limb = &mut limbs[16 * r.below(16)..][..16];
    let start = u32::from_le_bytes(limb[8..12].try_into().unwrap());
    match r.below(4) {
        0 => limb[5] = r.pick(&[0, 1, 127, 128, 129, 255]),
        1 => {
            let start = r.pick(&[stream as u32, 0x8000_0000, 0xFFFF_FFFF, 0xFFFF_FF80, start.wrapping_sub(1), start.wrapping_add(1)]);
            limb[8..12].copy_from_slice(&start.to_le_bytes());
        }
        2 => {
            let end = start.wrapping_add(limb[5] as u32);
            let place = r.pick(&[start.wrapping_sub(1), end, end.wrapping_sub(1), 0, 0xFFFF_FFFF, stream as u32]);
            limb[12..16].copy_from_slice(&place.to_le_bytes());
        }
        _ => limb[0] = 1,
    }
}

pub fn arbitrary(b: &mut Comparison, r: &mut Rng) {
    for _ in 0..40 {
        let length = r.below(120);
        let payload = r.bytes(length);
        let end = length as u32 + 6;
        let command = if r.once_in(5) { r.pick(&[0, 5, 6, 7, end - 1, end, end + 1]) } else { 6 + r.below(length + 1) as u32 };
        let command = r.wild(command);
        let stream = (length + 6).saturating_sub(command as usize).min(length);
        let mut limbs: Vec<u8> = (0..16).flat_map(|_| limb(r, stream)).collect();
        match r.below(8) {
            0 => limbs = r.bytes(256),
            1 | 2 => spoil(r, &mut limbs, stream),
            3 => limbs.truncate(if r.once_in(2) { 255 } else { r.below(256) }),
            4 => limbs.extend(r.bytes(9)),
            _ => (),
        }
        let (table, count) = (r.below(length / 2 + 1) as u32, r.below(length / 4 + 2) as u32);
        let (table, count) = (r.wild(table), r.wild(count));
        let (chore, direction) = (r.below(count.clamp(1, 1000) as usize / 4 + 1) as u32, r.below(4) as u32);
        let (chore, direction) = (r.wild(chore), r.wild(direction));
        calls::start(b, &payload, &limbs, Costume { table, count, command }, chore, direction);
        calls::tick(b, &payload, &limbs, command);
        let which = r.below(16) as u32;
        let which = if r.once_in(8) { limbs::above(r) } else { which };
        calls::limb_draws(b, &limbs, which);
    }
}

/// Every question about every kind of limb, as any of the 16.
pub fn questions(b: &mut Comparison, r: &mut Rng) {
    for (kind, question) in limbs::cases() {
        let at = r.below(16);
        let limbs = kind.at(r, at);
        let (lent, which) = question.ask(r, &limbs, at);
        let number = calls::limb_draws(b, &lent, which);
        b.asked(kind, question, number);
    }
}

/// Commands and pictures.
fn stream(r: &mut Rng) -> Vec<u8> {
    (0..r.range(1, 300))
        .map(|_| match r.below(4) {
            0 => r.range(0x70, 0x7D) as u8,
            1 => r.pick(&[0x79, 0x7A]),
            _ => r.byte(),
        })
        .collect()
}

/// A limb's entry in a record: idle, or a window of a stream of `stream` bytes.
fn add_entry(r: &mut Rng, payload: &mut Vec<u8>, stream: usize) {
    if r.once_in(4) {
        payload.extend([0xFF, 0xFF]);
        return;
    }
    let length = r.range(1, stream.min(128));
    // Now and then a window that just passes the stream.
    let start = r.below(stream - length + 1) + if r.once_in(60) { stream - length + 1 } else { 0 };
    payload.extend((start as u16).to_le_bytes());
    payload.push((length - 1) as u8 | if r.once_in(2) { 0x80 } else { 0 });
}

/// The table's offset at byte `at`, and the record that it names, if it names one, at the payload's end.
fn add_record(r: &mut Rng, payload: &mut Vec<u8>, at: usize, stream: usize) {
    let mask = match r.below(6) {
        0 => 0,
        1 => 0xFFFF,
        2 => 1 << r.below(16),
        _ => r.next() as u16 & r.next() as u16,
    };
    let offset = match r.below(12) {
        0 => 0,
        1 => 0xFFFF,
        2 if r.once_in(3) => r.range(1, 7),
        _ => payload.len() + 6,
    };
    payload[at..at + 2].copy_from_slice(&(offset as u16).to_le_bytes());
    if offset != payload.len() + 6 {
        return;
    }
    payload.extend(mask.to_le_bytes());
    for _ in 0..mask.count_ones() {
        add_entry(r, payload, stream);
    }
}

/// A costume: table, records and stream in one payload.
struct Played {
    payload: Vec<u8>,
    table: usize,
    count: usize,
    command: u32,
    /// The stream's length.
    stream: usize,
}

impl Played {
    fn new(r: &mut Rng) -> Played {
        let stream = stream(r);
        let full = r.once_in(6);
        let count = if full { r.pick(&[976, 1024]) } else { 4 * r.range(1, 6) };
        let table = r.below(5);
        let mut payload = r.bytes(table + 2 * count);
        for record in 0..count {
            add_record(r, &mut payload, table + 2 * record, stream.len());
        }
        let last = r.once_in(4);
        let command = if last { 6 } else { payload.len() as u32 + 6 };
        if !last {
            payload.extend(&stream);
        }
        Played { payload, table, count, command, stream: stream.len() }
    }

    fn costume(&self, count: u32, command: u32) -> Costume {
        Costume { table: self.table as u32, count, command }
    }

    /// A start and some ticks, now and then with wrong limbs beside them: the limbs afterwards.
    fn turn(&self, b: &mut Comparison, r: &mut Rng, limbs: Vec<u8>) -> Vec<u8> {
        let (payload, command) = (&self.payload, self.command);
        let (chore, direction) = (r.below(self.count / 4) as u32, r.below(4) as u32);
        let (chore, direction) = if r.once_in(10) { (r.pick(&[243, 244, 255, chore]), r.below(5) as u32) } else { (chore, direction) };
        let (mut counted, mut lent) = (self.count as u32, limbs.clone());
        if r.once_in(12) {
            counted = r.pick(&[4 * chore + direction, 4 * chore + direction + 1, payload.len() as u32, 0xFFFF_FFFF]);
        }
        let costume = self.costume(counted, command);
        if r.once_in(12) {
            spoil(r, &mut lent, self.stream);
            calls::start(b, payload, &lent, costume, chore, direction);
            calls::tick(b, payload, &lent, command);
            calls::limb_draws(b, &lent, r.below(16) as u32);
        }
        let shown = if r.once_in(12) { &payload[..r.below(payload.len() + 1)] } else { &payload[..] };
        let mut limbs = calls::start(b, shown, &limbs, costume, chore, direction);
        for _ in 0..r.below(6) {
            limbs = calls::tick(b, payload, &limbs, command);
            for i in 0..4 {
                calls::limb_draws(b, &limbs, i * 5);
            }
        }
        limbs
    }
}

/// Costumes that play.
pub fn playing(b: &mut Comparison, r: &mut Rng) {
    let played = Played::new(r);
    let mut limbs = if r.once_in(2) { vec![0; 256] } else { (0..16).flat_map(|_| limb(r, played.stream)).collect() };
    let tail = r.below(4);
    limbs.extend(r.bytes(tail));
    for _ in 0..30 {
        limbs = played.turn(b, r, limbs);
    }
    // The record and the table end where the payload does.
    let costume = played.costume(played.count as u32, 6);
    for length in played.payload.len().saturating_sub(12)..played.payload.len() {
        calls::start(b, &played.payload[..length], &vec![0; 256], costume, 0, r.below(4) as u32);
    }
}
