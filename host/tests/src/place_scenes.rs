//! Where the reference's judgement with places (host/reference: room::judge, inspect::objects) is held: every record and load that is refused, draws in a
//! fresh session that are refused for their image, and rooms all of whose images are judged. Its number is the library's in each; places.rs has the laws.

use crate::calls::{self, Turn};
use crate::comparison::Comparison;
use crate::rng::Rng;
use crate::{place_count, places, stages};
use reference::fault::Fault;
use reference::inspect::{self, Verdict};
use reference::room;

fn wrong(b: &mut Comparison, call: &str, law: &str, text: String) {
    b.differ(call, &format!("has a fault whose place is told wrong: {law}"), &text);
}

/// A fault that the reference tells, of a room or an object's image: counted if its place is right.
fn told(b: &mut Comparison, call: &str, bytes: &[u8], fault: &Fault, image: bool) {
    match places::holds(bytes, fault) {
        Ok(()) => b.places.reached(place_count::case(fault, image)),
        Err(law) => wrong(b, call, law, format!("{} bytes: {fault:?}", bytes.len())),
    }
}

/// A room that was recorded or loaded. 4 has no place.
pub fn judged(b: &mut Comparison, call: &str, bytes: &[u8], judged: Result<(), Fault>) {
    match judged {
        Err(fault) if fault.number() == reference::SHORT => (),
        Err(fault) => told(b, call, bytes, &fault, false),
        Ok(()) if call == "record" => {
            if let Err(law) = places::whole(bytes) {
                wrong(b, call, law, format!("the tree of {} bytes", bytes.len()));
            }
        }
        Ok(()) => (),
    }
}

/// Whether the judgement of a draw's image has its number, and its place where there is one.
fn image(b: &mut Comparison, turn: Turn, bytes: &[u8], verdict: &Verdict, number: u32) {
    let (own, corner) = verdict.numbers();
    let judged = if matches!(turn, Turn::DrawLast { .. }) { own } else { corner };
    if judged != number {
        b.differ(turn.name(), "judges an image otherwise", &format!("{turn:?}: {number}, judged {judged}"));
    }
    if let Verdict::Read { fault: Some(fault), .. } = verdict {
        told(b, turn.name(), bytes, fault, true);
    }
}

/// A draw in a fresh session that is refused with 2 or 5 to 8: for the room, or for the object's image, wherever it was to be drawn.
pub fn drawn(b: &mut Comparison, turn: Turn, bytes: &[u8], session: &[u8], number: u32) {
    let (Turn::DrawLast { object, state } | Turn::DrawAt { object, state, .. }) = turn else { return };
    if !matches!(number, 2 | 5..=8) || !session.starts_with(&[0, 0]) {
        return;
    }
    let judged = match room::judge(bytes, |_| true) {
        Err(fault) => return told(b, turn.name(), bytes, &fault, false),
        Ok(painted) => inspect::objects(bytes, &painted.room),
    };
    let states = judged.iter().filter(|found| found.object == object as usize).flat_map(|found| &found.states);
    match states.into_iter().find(|found| found.state == state as usize) {
        Some(found) => image(b, turn, bytes, &found.verdict, number),
        None => b.differ(turn.name(), "refuses an image that isn't judged", &format!("{turn:?}: {number}")),
    }
}

/// The room's fault, or that of the first of its images that has one.
pub fn first_fault(bytes: &[u8]) -> Option<Fault> {
    let painted = match room::judge(bytes, |_| true) {
        Err(fault) => return Some(fault),
        Ok(painted) => painted,
    };
    let states = inspect::objects(bytes, &painted.room).into_iter().flat_map(|found| found.states);
    states.filter_map(|found| if let Verdict::Read { fault, .. } = found.verdict { fault } else { None }).next()
}

/// A room whose objects' images are spoilt here and there: all of them judged, and each drawn in a fresh session.
pub fn images(b: &mut Comparison, r: &mut Rng) {
    let plan = stages::stage(r);
    let bytes = plan.root.write();
    let Ok(painted) = room::judge(&bytes, |_| true) else {
        return b.differ("record", "refuses a room that was made to be good", "a stage");
    };
    let lent = [vec![0; 450], vec![2; painted.room.pixels()], vec![3; painted.room.masks()]];
    for found in inspect::objects(&bytes, &painted.room).iter().take(12) {
        for judged in &found.states {
            let (object, state) = (found.object as u32, judged.state as u32);
            for turn in [Turn::DrawLast { object, state }, Turn::DrawAt { object, state, a: 0, b: 0 }] {
                let (number, _) = calls::turn(b, turn, &bytes, &lent);
                image(b, turn, &bytes, &judged.verdict, number);
            }
        }
    }
}
