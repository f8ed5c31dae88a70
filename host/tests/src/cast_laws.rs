//! What must hold of every accepted cast, asked of the library's own calls alone: the reference has no part in it (change request 7).

use crate::calls::Setting;
use crate::comparison::Comparison;
use crate::lent::Zeros;
use common::calls::{kg_cast, kg_stamp};
use reference::cast::{Record, RECORD};

/// The library's cast on copies: its number, and list and frame after it.
fn cast(list: &[Record], frame: &[u8], setting: &Setting) -> (u32, Vec<Record>, Vec<u8>) {
    let Setting { masks, pictures, sizes: [w, h, n], clear } = *setting;
    let (mut list, mut frame) = (list.to_vec(), frame.to_vec());
    let ((at, count), (to, f)) = ((list.as_mut_ptr().cast(), list.len()), (frame.as_mut_ptr(), frame.len()));
    let (m, p) = (masks.len(), pictures.len());
    let number = unsafe { kg_cast(at, count, to, f, masks.as_ptr(), m, pictures.as_ptr(), p, w, h, n, clear) };
    (number, list, frame)
}

/// The library's stamps of these records, one by one: the first refusal, or 0, and the frame after them.
fn stamps(list: &[Record], frame: &[u8], setting: &Setting) -> (u32, Vec<u8>) {
    let Setting { masks, pictures, sizes: [w, h, n], clear } = *setting;
    let mut frame = frame.to_vec();
    for record in list {
        let Record { left, top, width, height, clip, start, .. } = *record;
        let picture = pictures.get(start as usize..).unwrap_or_default();
        let (to, f, m, p) = (frame.as_mut_ptr(), frame.len(), masks.len(), picture.len());
        let number = unsafe { kg_stamp(to, f, masks.as_ptr(), m, picture.as_ptr(), p, w, h, n, width, height, left, top, clip, clear) };
        if number != 0 {
            return (number, frame);
        }
    }
    (0, frame)
}

/// Whether the second list is the first one in order. Each key's records, in the order they came in, are the same in both: so none is lost, none is
/// new, and those of "one id and one y keep the order they came in".
fn in_order(before: &[Record], after: &[Record]) -> bool {
    let key = |record: &Record| (i64::from(record.y), i64::from(record.id));
    let of = |list: &[Record], wanted: (i64, i64)| list.iter().filter(|record| key(record) == wanted).copied().collect::<Vec<Record>>();
    let rising = after.windows(2).all(|two| key(&two[0]) <= key(&two[1]));
    rising && before.len() == after.len() && before.iter().all(|record| of(before, key(record)) == of(after, key(record)))
}

/// The law that the library breaks on this input, which it must accept.
fn broken(list: &[Record], frame: &[u8], setting: &Setting) -> Option<&'static str> {
    let (number, sorted, painted) = cast(list, frame, setting);
    let alone = |record: &Record| {
        let (number, same, painted) = cast(&[*record], frame, setting);
        (number, painted) == stamps(&[*record], frame, setting) && same == [*record]
    };
    let laws = [
        ("is accepted once and refused once", number == 0),
        ("puts the list in another order", in_order(list, &sorted)),
        ("paints otherwise than the single stamps", stamps(&sorted, frame, setting) == (0, painted.clone())),
        ("does otherwise with a list in order", cast(&sorted, frame, setting) == (0, sorted.clone(), painted.clone())),
        ("paints one actor otherwise than the stamp", list.iter().all(alone)),
    ];
    laws.into_iter().find(|(_, holds)| !holds).map(|(law, _)| law)
}

/// Asks the laws about a cast that was accepted.
pub fn check(b: &mut Comparison, list: &[Record], frame: &[u8], setting: &Setting) {
    if let Some(law) = broken(list, frame, setting) {
        let [w, h, n] = setting.sizes;
        let text = format!("{w} by {h}, {n} planes, index {}, pictures of {} bytes: {list:?}", setting.clear, setting.pictures.len());
        b.differ("cast", law, &text);
    }
}

/// The library's number for so many records, all zero, which lie in memory that may not be written; all else is right.
pub fn number_of_many(count: usize) -> u32 {
    let (list, mut frame) = (Zeros::new(count * RECORD), [0; 8]);
    unsafe { kg_cast(list.at, count, frame.as_mut_ptr(), 8, [].as_ptr(), 0, [].as_ptr(), 0, 8, 1, 0, 255) }
}
