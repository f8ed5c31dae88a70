//! Casts worked out by hand (change request 7).

use crate::cast::{cast, Record, RECORD};

/// A record of id and y, its picture 2 by 1 at (left, 0), clip 0, from `start` on.
fn actor(id: u32, y: i32, left: i32, start: u32) -> Record {
    Record { id, y, left, top: 0, width: 2, height: 1, clip: 0, start }
}

/// A cast on a frame of 8 by 1 zeros without planes, 255 left out: the number, the starts of the records afterwards, and the frame.
fn painted(list: &[Record], pictures: &[u8]) -> (u32, Vec<u32>, [u8; 8]) {
    let (mut list, mut frame) = (list.to_vec(), [0; 8]);
    let number = cast(&mut list, &mut frame, &[], pictures, [8, 1, 0], 255);
    (number, list.iter().map(|record| record.start).collect(), frame)
}

#[test]
fn laid_out_as_said() {
    assert_eq!((size_of::<Record>(), align_of::<Record>()), (RECORD, 4));
    let record = Record { id: 0x0403_0201, y: -2, left: -3, top: 4, width: 5, height: 6, clip: 7, start: 0x0B0A_0908 };
    let words = [0x0403_0201u32, 0xFFFF_FFFE, 0xFFFF_FFFD, 4, 5, 6, 7, 0x0B0A_0908];
    let bytes: Vec<u8> = words.iter().flat_map(|word| word.to_ne_bytes()).collect();
    assert_eq!(record.bytes().as_slice(), bytes);
    assert_eq!(Record::read(&record.bytes()), record);
    assert_eq!(unsafe { std::mem::transmute::<Record, [u8; RECORD]>(record) }, record.bytes());
}

/// Three pictures of one buffer, each overlapping the next: the smallest y first, -1 before 0; of the same y the lower id; of both the first one.
#[test]
fn back_to_front() {
    let pictures = [1, 2, 3, 4, 5, 255];
    let by_y = [actor(1, 5, 1, 4), actor(2, 0, 2, 2), actor(3, -1, 3, 0)];
    assert_eq!(painted(&by_y, &pictures), (0, vec![0, 2, 4], [0, 5, 3, 4, 2, 0, 0, 0]));
    let by_id = [actor(0x8000_0000, 7, 1, 4), actor(9, 7, 2, 2), actor(10, 7, 3, 0)];
    assert_eq!(painted(&by_id, &pictures), (0, vec![2, 0, 4], [0, 5, 3, 1, 2, 0, 0, 0]));
    let equal = [actor(1, 7, 1, 4), actor(1, 7, 2, 2), actor(1, 7, 3, 0)];
    assert_eq!(painted(&equal, &pictures), (0, vec![4, 2, 0], [0, 5, 3, 1, 2, 0, 0, 0]));
    let ends = [actor(0, i32::MAX, 0, 0), actor(u32::MAX, i32::MIN, 0, 2), actor(0, 0, 0, 3)];
    assert_eq!(painted(&ends, &pictures), (0, vec![2, 3, 0], [1, 2, 0, 0, 0, 0, 0, 0]));
}

/// Each record's own clip level, and the caller's index: plane 1 hides the left half, plane 2 the right one.
#[test]
fn clip_and_index() {
    let (pictures, masks) = ([7, 1, 7, 1, 7, 1, 7, 1, 2, 2, 2, 2, 2, 2, 2, 2], [0xF0, 0x0F]);
    let record = |y: i32, clip: u32, start: u32| Record { id: 1, y, width: 8, height: 1, clip, start, ..Record::default() };
    let mut list = [record(2, 1, 0), record(1, 2, 8)];
    let mut frame = [0; 9];
    assert_eq!(cast(&mut list, &mut frame, &masks, &pictures, [8, 1, 2], 7), 0);
    assert_eq!((list, frame), ([record(1, 2, 8), record(2, 1, 0)], [2, 2, 2, 2, 0, 1, 0, 1, 0]));
    let mut list = [record(2, 3, 0), record(1, 0, 8)];
    assert_eq!(cast(&mut list, &mut frame, &masks, &pictures, [8, 1, 2], 1), 0);
    assert_eq!(frame, [7, 2, 7, 2, 7, 2, 7, 2, 0]);
}

/// 18, then 3 and 4 for frame and planes, then the first bad record's 3 or 4; a refused call leaves the list as it is.
#[test]
fn refusals_in_order() {
    let good = actor(2, 9, 0, 0);
    let (wide, past) = (Record { width: 129, start: u32::MAX, ..good }, Record { y: 3, start: 1, ..good });
    let answer = |list: &[Record], frame: usize, masks: usize, sizes: [u32; 3]| {
        let (mut after, mut frame) = (list.to_vec(), vec![5; frame]);
        let number = cast(&mut after, &mut frame, &vec![0; masks], &[1, 2], sizes, 255);
        assert!(number == 0 || after == list && frame.iter().all(|pixel| *pixel == 5), "refused with {number}, and something changed");
        number
    };
    assert_eq!([33, 34].map(|count| answer(&vec![wide; count], 0, 0, [7, 0, 5])), [18, 18]);
    assert_eq!(answer(&[good; 32], 8, 1, [8, 1, 1]), 0);
    for list in [&[][..], &[good], &[wide], &[past]] {
        assert_eq!([[7, 1, 0], [8, 0, 0], [8, 201, 0], [8, 1, 5]].map(|sizes| answer(list, 0, 0, sizes)), [3; 4]);
        assert_eq!([answer(list, 7, 1, [8, 1, 1]), answer(list, 8, 0, [8, 1, 1])], [4, 4]);
    }
    let first = |list: &[Record]| answer(list, 8, 0, [8, 1, 0]);
    assert_eq!([first(&[]), first(&[wide]), first(&[past])], [0, 3, 4]);
    assert_eq!([first(&[good, wide, past]), first(&[good, past, wide])], [3, 4], "the list as handed in");
}

/// A picture may end where the lent pictures end; what would wrap in 32 bits does not.
#[test]
fn ends_of_the_pictures() {
    let number = |width: u32, height: u32, start: u32, bytes: usize| {
        let record = Record { width, height, start, ..Record::default() };
        cast(&mut [record], &mut [0; 8], &[], &vec![1; bytes], [8, 1, 0], 255)
    };
    assert_eq!([number(1, 1, 0, 1), number(2, 3, 4, 10), number(128, 200, 1, 25_601)], [0, 0, 0]);
    assert_eq!([number(1, 1, 0, 0), number(2, 3, 4, 9), number(128, 200, 1, 25_600), number(1, 1, 1, 1)], [4, 4, 4, 4]);
    assert_eq!([number(1, 1, u32::MAX, 9), number(2, 2, u32::MAX - 3, 9), number(128, 200, u32::MAX, 30_000)], [4, 4, 4]);
    assert_eq!([number(0, 1, 0, 9), number(1, 0, 0, 9), number(129, 1, 0, 999), number(1, 201, 0, 999)], [3, 3, 3, 3]);
    assert_eq!([number(65_536, 65_536, 0, 9), number(1 << 31, 2, u32::MAX, 9)], [3, 3]);
}
