//! The whole report: the tree, the room's judgement, the objects' images.

use crate::objects::{self, Told};
use crate::{library, meaning, words};
use reference::block::LONGEST;
use reference::fault::Fault;
use reference::room::{judge, Room};
use reference::tree::{tree, Entry};
use reference::{inspect, load};

pub struct Report {
    pub text: String,
    pub refused: bool,
    /// Where the library says otherwise.
    pub differences: Vec<String>,
}

/// The judgement of the room, as lines and with the same form as the images'.
fn refused(bytes: &[u8], tree: &[Entry], fault: &Fault) -> Told {
    let lines = words::lines(bytes, tree, fault, false);
    Told { refused: lines.clone(), lines, marks: vec![(fault.at, format!("refused {}", fault.number()))], differences: vec![] }
}

fn accepted(bytes: &[u8], tree: &[Entry], room: &Room) -> Told {
    let (w, h, n, objects) = (room.w, room.h, room.n, room.objects.len());
    let line = format!("accepted: {w} x {h}, planes {n}, objects {objects}, transparent {}", room.clear);
    let mut told = objects::tell(bytes, room, tree, &inspect::objects(bytes, room));
    told.lines.insert(0, line.clone());
    told.refused.insert(0, line);
    told
}

/// Where kg_record gives another number, or another record.
fn compare(bytes: &[u8], number: u32) -> Option<String> {
    let (library, record) = library::record(bytes);
    let mut own = [0; 16];
    let same = load::record(bytes, &mut own) == number && own == record;
    (library != number || !same)
        .then(|| format!("this program's places don't agree with the library's number {library} or its record; the library is right"))
}

fn length(bytes: &[u8]) -> String {
    match bytes.len() {
        1 => "1 byte".into(),
        length if length > LONGEST => "more than 1,048,576 bytes".into(),
        length => format!("{length} bytes"),
    }
}

/// What is told of the bytes of a file of this name.
pub fn report(name: &str, bytes: &[u8], quiet: bool) -> Report {
    let (tree, judged) = (tree(bytes), judge(bytes, |_| true));
    let number = judged.as_ref().map_or_else(Fault::number, |_| 0);
    let told = match &judged {
        Ok(painted) => accepted(bytes, &tree, &painted.room),
        Err(fault) => refused(bytes, &tree, fault),
    };
    let mut lines = vec![];
    if !quiet {
        lines.push(format!("{}: {}", name.replace(char::is_control, "?"), length(bytes)));
        lines.extend(if tree.is_empty() { vec![] } else { meaning::lines(bytes, &tree, &told.marks) });
    }
    lines.extend(if quiet { told.refused.clone() } else { told.lines });
    let differences = compare(bytes, number).into_iter().chain(told.differences).collect();
    Report { text: lines.join("\n") + "\n", refused: number != 0 || told.refused.len() > 1, differences }
}

#[cfg(test)]
mod tests {
    use super::*;

    const CELLAR: &[u8] = include_bytes!("../../../rooms/cellar.room");
    const SMALL: &[u8] = include_bytes!("../../../rooms/bad/image-strip-cut.room");

    fn told(bytes: &[u8]) {
        let report = report("room", bytes, false);
        assert!(report.differences.is_empty(), "{:?}", report.differences);
        assert!(report.text.contains(if report.refused { "refused " } else { "\naccepted: " }));
    }

    /// Any bytes are told something of, and the library agrees: a small room with each byte changed, and cut at each byte.
    #[test]
    fn any_bytes() {
        for (at, byte) in SMALL.iter().enumerate() {
            for change in [0, 1, 8, 0x7F, 0xFF, byte ^ 1, byte ^ 0x80] {
                let mut changed = SMALL.to_vec();
                changed[at] = change;
                told(&changed);
            }
        }
        for end in 0..SMALL.len() {
            let mut cut = SMALL[..end].to_vec();
            told(&cut);
            if end >= 8 {
                cut[4..8].copy_from_slice(&(end as u32).to_be_bytes());
                told(&cut);
            }
        }
    }

    /// A number that the library doesn't give is told.
    #[test]
    fn other_numbers() {
        assert!(compare(SMALL, 0).is_none() && compare(&SMALL[1..], 1).is_none());
        assert!(compare(SMALL, 7).is_some_and(|text| text.contains("the library's number 0")));
        assert!(compare(&SMALL[1..], 0).is_some_and(|text| text.contains("the library's number 1")));
    }

    #[test]
    fn good_room() {
        let report = report("cellar", CELLAR, true);
        assert_eq!((report.text.as_str(), report.refused), ("accepted: 320 x 144, planes 1, objects 3, transparent 255\n", false));
    }
}
