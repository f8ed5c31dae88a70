//! Which cases of change request 9 are planned: TRNS blocks, faults beside them, strips with the index, and stamps. A full run that leaves one out fails
//! (comparison.rs).

use crate::clear_blocks::{self, Blocks};
use crate::clear_calls::{Call, CALLS};
use crate::clear_faults::{self, Fault};
use crate::clear_images::{looks, Index, Look, INDEXES};
use crate::comparison::Place;
use crate::pairs::codes;
use crate::planned;

/// What a full run must have done.
#[derive(Clone, Copy, Debug, PartialEq, Eq, PartialOrd, Ord)]
pub enum Case {
    /// A call on a room with these blocks.
    Asked { blocks: Blocks, call: Call },
    /// A call with a fault, and an empty or a good TRNS block beside it.
    Refused { fault: Fault, call: Call, empty: bool },
    /// A strip painted, as a part of a background or of an object's image.
    Painted { look: Look, place: Place },
    /// A room of this index, painted with all colours.
    Coloured { clear: u8 },
    /// A stamp without this index, some of it hidden or none.
    Stamped { clear: u8, hidden: bool },
}

impl planned::Case for Case {
    const GROUPS: &'static [&'static str] = &[
        "one TRNS block or none, each call",
        "two TRNS blocks, each call",
        "TRNS blocks elsewhere, each call",
        "tags a bit away from TRNS, each call",
        "faults beside an empty TRNS block",
        "faults beside a good TRNS block",
        "strips with the index, in background",
        "strips with the index, in image",
        "all colours, each index",
        "stamps without each index",
    ];
    const ALL: &'static str = "cases with a transparent index";

    fn group(&self) -> usize {
        match self {
            Case::Asked { blocks: Blocks::None | Blocks::One { .. }, .. } => 0,
            Case::Asked { blocks: Blocks::Two { .. }, .. } => 1,
            Case::Asked { blocks: Blocks::Inside { .. }, .. } => 2,
            Case::Asked { blocks: Blocks::Near { .. }, .. } => 3,
            Case::Refused { empty, .. } => 4 + usize::from(!empty),
            Case::Painted { place, .. } => 6 + *place as usize,
            Case::Coloured { .. } => 8,
            Case::Stamped { .. } => 9,
        }
    }

    fn name(&self) -> String {
        format!("{self:?}")
    }
}

/// A planned scene: the cases of one room, fault or index.
#[derive(Clone, Copy, Debug)]
pub enum Scene {
    Asked(Blocks),
    Refused(Fault),
    Painted(Index, u8),
    Coloured(u8),
    Stamped(u8),
}

/// Every scene, in an order that stays: its seed is its place here.
pub fn scenes() -> Vec<Scene> {
    let mut scenes: Vec<Scene> = clear_blocks::planned().into_iter().map(Scene::Asked).collect();
    scenes.extend(clear_faults::planned().into_iter().map(Scene::Refused));
    scenes.extend(INDEXES.iter().flat_map(|index| codes().into_iter().map(|code| Scene::Painted(*index, code))));
    scenes.extend((0..=255).map(Scene::Coloured));
    scenes.extend((0..=255).map(Scene::Stamped));
    scenes
}

/// Both values of a bool.
const BOTH: [bool; 2] = [false, true];

fn cases(scene: Scene) -> Vec<Case> {
    match scene {
        Scene::Asked(blocks) => CALLS.map(|call| Case::Asked { blocks, call }).to_vec(),
        Scene::Refused(fault) => {
            let case = |call: Call| BOTH.map(|empty| Case::Refused { fault, call, empty });
            fault.calls().into_iter().flat_map(case).collect()
        }
        Scene::Painted(index, code) => {
            let case = |look: Look| [Place::Background, Place::Image].map(|place| Case::Painted { look, place });
            looks(index, code).into_iter().flat_map(case).collect()
        }
        Scene::Coloured(clear) => vec![Case::Coloured { clear }],
        Scene::Stamped(clear) => BOTH.map(|hidden| Case::Stamped { clear, hidden }).to_vec(),
    }
}

pub fn planned() -> Vec<Case> {
    scenes().into_iter().flat_map(cases).collect()
}
