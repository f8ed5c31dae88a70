//! The library beside another one, as one that was built before a change: how many times as long its loads, tests, steps, stamps and writers take. Both are
//! shared objects of the same kind, opened in one run, so that neither is melted into the loop that calls it. Where the machine's code lies moves some of
//! these times by a tenth and more, so each library comes four times, 16 bytes further each time, and its shortest time counts.

use crate::calls::{Stage, Turn};
use crate::class::Class;
use crate::clock::{best, timed, Effort};
use crate::loads::{spec, PLANES, SIZES};
use crate::partners::{plane_bound, smap_bound};
use crate::picture::{plane, shape, Picture, PICTURES};
use crate::room::{Room, Spec, METHODS};
use crate::steps::{draw, ROOMS, STEPS};
use std::cell::RefCell;
use std::ffi::{c_char, c_int, c_void, CStr, CString};

extern "C" {
    fn dlopen(file: *const c_char, mode: c_int) -> *mut c_void;
    fn dlsym(library: *mut c_void, name: *const c_char) -> *mut c_void;
    fn dlerror() -> *const c_char;
}

const NOW: c_int = 2;

/// How often a library comes.
pub const PLACES: usize = 4;

type Record = unsafe extern "C" fn(*const u8, usize, *mut u8, usize) -> u32;
type Load = unsafe extern "C" fn(*const u8, usize, *mut u8, usize, *mut u8, usize, *mut u8, usize) -> u32;
type DrawAt = unsafe extern "C" fn(*const u8, usize, *mut u8, usize, *mut u8, usize, *mut u8, usize, u32, u32, u32, u32) -> u32;
type Hide = unsafe extern "C" fn(*const u8, usize, *mut u8, usize, *mut u8, usize, *mut u8, usize, u32) -> u32;
type Stamp = unsafe extern "C" fn(*mut u8, usize, *const u8, usize, *const u8, usize, u32, u32, u32, u32, u32, i32, i32, u32, u8) -> u32;
type Smap = unsafe extern "C" fn(*const u8, usize, *mut u8, usize, u32, u32) -> u64;
type Plane = unsafe extern "C" fn(*const u8, usize, *mut u8, usize, u32, u32, u32) -> u64;

/// The calls of a shared object.
struct Library {
    record: Record,
    load: Load,
    draw_at: DrawAt,
    hide: Hide,
    take_back: Load,
    stamp: Stamp,
    smap: Smap,
    plane: Plane,
}

/// The function of that name, which has the type that include/kildegrom.h declares.
unsafe fn symbol<F: Copy>(library: *mut c_void, name: &str) -> F {
    let name = CString::new(name).expect("a name");
    let found = dlsym(library, name.as_ptr());
    assert!(!found.is_null(), "the library has no {name:?}");
    std::mem::transmute_copy(&found)
}

impl Library {
    fn open(file: &str) -> Result<Library, String> {
        let name = CString::new(file).map_err(|_| format!("{file}: a name with a NUL"))?;
        unsafe {
            let library = dlopen(name.as_ptr(), NOW);
            if library.is_null() {
                return Err(CStr::from_ptr(dlerror()).to_string_lossy().into_owned());
            }
            Ok(Library {
                record: symbol(library, "kg_record"),
                load: symbol(library, "kg_load"),
                draw_at: symbol(library, "kg_draw_at"),
                hide: symbol(library, "kg_hide"),
                take_back: symbol(library, "kg_take_back"),
                stamp: symbol(library, "kg_stamp"),
                smap: symbol(library, "kg_write_smap"),
                plane: symbol(library, "kg_write_plane"),
            })
        }
    }

    fn test(&self, room: &Room) -> [u8; 16] {
        let (bytes, mut out) = (room.bytes(), [0; 16]);
        assert_eq!(unsafe { (self.record)(bytes.as_ptr(), bytes.len(), out.as_mut_ptr(), out.len()) }, 0, "a record was refused");
        out
    }

    /// A turn that must be accepted.
    fn turn(&self, turn: Turn, room: &Room, stage: &mut Stage) {
        let Stage { session, pixels, masks } = stage;
        let ((r, rn), (sn, pn, mn)) = ((room.bytes().as_ptr(), room.bytes().len()), (session.len(), pixels.len(), masks.len()));
        let (s, p, m) = (session.as_mut_ptr(), pixels.as_mut_ptr(), masks.as_mut_ptr());
        let number = unsafe {
            match turn {
                Turn::Load => (self.load)(r, rn, s, sn, p, pn, m, mn),
                Turn::DrawAt([object, state, a, b]) => (self.draw_at)(r, rn, s, sn, p, pn, m, mn, object, state, a, b),
                Turn::Hide(object) => (self.hide)(r, rn, s, sn, p, pn, m, mn, object),
                Turn::TakeBack => (self.take_back)(r, rn, s, sn, p, pn, m, mn),
            }
        };
        assert_eq!(number, 0, "a call was refused");
    }

    fn loaded(&self, room: &Room) -> Stage {
        let mut stage = Stage::new(room);
        self.turn(Turn::Load, room, &mut stage);
        stage
    }
}

/// A library at each of its places, here and there.
type Sides<'a> = [&'a [Library; PLACES]; 2];

/// The ratios of a kind of call: what it is, and of each case its name and the time here as a multiple of the time there.
struct Ratios {
    call: &'static str,
    found: Vec<(f64, String)>,
}

impl Ratios {
    fn of(call: &'static str) -> Ratios {
        Ratios { call, found: vec![] }
    }

    /// Times `run`, which times itself, with each library of both sides.
    fn see(&mut self, effort: Effort, [here, there]: Sides, case: String, run: &dyn Fn(&Library) -> f64) {
        let mut runs = [here, there].map(|side| side.each_ref().map(|library| move |_: usize| run(library)));
        let [[a, b, c, d], [e, f, g, h]] = &mut runs;
        let (times, []) = best::<8, 0>(effort, 1, [a, b, c, d, e, f, g, h], []);
        let shortest = |times: &[f64]| times.iter().copied().fold(f64::MAX, f64::min);
        self.found.push((shortest(&times[..PLACES]) / shortest(&times[PLACES..]), case));
    }

    fn print(mut self) {
        self.found.sort_by(|(one, _), (other, _)| one.total_cmp(other));
        let last = self.found.len() - 1;
        let [low, middle, high] = [0, last / 2, last].map(|i| self.found[i].0);
        println!("{:<12} {:>5}  {low:>6.3} {middle:>6.3} {high:>6.3}  {}", self.call, last + 1, self.found[last].1);
    }
}

/// Loads and whole tests of rooms of every size, method and kind of picture.
fn loads(effort: Effort, sides: Sides) {
    let [here, there] = sides.map(|side| &side[0]);
    let (mut load, mut test) = (Ratios::of("load"), Ratios::of("test"));
    for (size, n) in SIZES.iter().flat_map(|size| PLANES.map(|n| (*size, n))) {
        for (method, picture) in METHODS.iter().flat_map(|method| PICTURES.map(|picture| (*method, picture))) {
            let rooms = &Class::of(spec(size, n, picture, method), effort).rooms;
            for room in rooms {
                assert!(
                    here.loaded(room) == there.loaded(room) && here.test(room) == there.test(room),
                    "the libraries load a room differently"
                );
            }
            let stage = &RefCell::new(Stage::new(&rooms[0]));
            let loads = |side: &Library| timed(|| rooms.iter().for_each(|room| side.turn(Turn::Load, room, &mut stage.borrow_mut())));
            let tests = |side: &Library| timed(|| rooms.iter().for_each(|room| (side.test(room), ()).1));
            let case = || format!("{}x{}, {n} planes, {}, {}", size.0, size.1, method.name(), picture.name());
            load.see(effort, sides, case(), &loads);
            test.see(effort, sides, case(), &tests);
        }
    }
    load.print();
    test.print();
}

/// Rooms, and how many draws are made before the step that is timed: a few, and all but one that a history takes, each of another object.
fn dressed() -> Vec<(Spec, usize)> {
    let few = ROOMS.map(|(w, h, n, objects)| (Spec::furnished(w, h, n, objects), STEPS));
    let many = (Spec { image: (8, 8), ..Spec::furnished(640, 200, 1, 64) }, 63);
    few.into_iter().chain([many]).collect()
}

/// A draw, a hide and a take-back after some draws.
fn steps(effort: Effort, sides: Sides) {
    let [here, there] = sides.map(|side| &side[0]);
    let mut ratios = [Ratios::of("draw"), Ratios::of("hide"), Ratios::of("take_back")];
    for (spec, draws) in dressed() {
        let case = format!("{}x{}, {} planes, {draws} draws", spec.w, spec.h, spec.n);
        let room = &spec.make();
        let before = &mut there.loaded(room);
        (0..draws).for_each(|i| there.turn(draw(room, i), room, before));
        for (what, ratios) in [draw(room, draws), Turn::Hide(1), Turn::TakeBack].into_iter().zip(&mut ratios) {
            let after = |side: &Library| {
                let mut stage = before.clone();
                side.turn(what, room, &mut stage);
                stage
            };
            let stage = &RefCell::new(after(there));
            assert!(*stage.borrow() == after(here), "the libraries take a step differently");
            let side = |side: &Library| {
                let stage = &mut stage.borrow_mut();
                stage.become_like(before);
                timed(|| side.turn(what, room, stage))
            };
            ratios.see(effort, sides, case.clone(), &side);
        }
    }
    ratios.into_iter().for_each(Ratios::print);
}

/// Stamps of narrow and wide pictures at both kinds of clip levels, each at many places.
fn stamps(effort: Effort, sides: Sides) {
    let [here, there] = sides.map(|side| &side[0]);
    let mut ratios = Ratios::of("stamp");
    let room = &Spec::furnished(320, 144, 4, 12).make();
    let stage = &there.loaded(room);
    for ((width, height), clip) in
        [(5, 40), (24, 40), (64, 100), (128, 144)].iter().flat_map(|size: &(u32, u32)| [0, 1].map(|clip| (*size, clip)))
    {
        let picture = &shape(width as usize, height as usize, 7, 255);
        let stamped = |side: &Library, frame: &mut [u8]| {
            for i in 0..64 {
                let (x, y) = (37 * i % 400 - 40, 11 * i % 200 - 28);
                let ((f, m), (p, pn)) = ((frame.as_mut_ptr(), stage.masks.as_ptr()), (picture.as_ptr(), picture.len()));
                let number =
                    unsafe { (side.stamp)(f, frame.len(), m, stage.masks.len(), p, pn, 320, 144, 4, width, height, x, y, clip, 255) };
                assert_eq!(number, 0, "a stamp was refused");
            }
        };
        let [one, other] = [here, there].map(|side| {
            let mut frame = stage.pixels.clone();
            stamped(side, &mut frame);
            frame
        });
        assert!(one == other, "the libraries stamp differently");
        let frame = &RefCell::new(other);
        let side = |side: &Library| timed(|| stamped(side, &mut frame.borrow_mut()));
        ratios.see(effort, sides, format!("{width}x{height}, clip level {clip}"), &side);
    }
    ratios.print();
}

/// Both writers, into a target that is long enough for anything and into one of the block's own length.
fn writers(effort: Effort, sides: Sides) {
    let [here, there] = sides.map(|side| &side[0]);
    let mut ratios = [Ratios::of("write_smap"), Ratios::of("write_plane")];
    for (w, h) in SIZES {
        let planes = [plane(1, w, h), vec![0; w / 8 * h]];
        let pictures = PICTURES.map(|picture| picture.pixels(w, h, 1));
        let sources =
            pictures.iter().map(|rows| (0, rows, smap_bound((w, h)))).chain(planes.iter().map(|rows| (1, rows, plane_bound((w, h)))));
        for (i, (kind, rows, bound)) in sources.enumerate() {
            let write = |side: &Library, out: &mut [u8]| {
                let ((r, rn), (o, on)) = ((rows.as_ptr(), rows.len()), (out.as_mut_ptr(), out.len()));
                let answer = unsafe {
                    if kind == 0 {
                        (side.smap)(r, rn, o, on, w as u32, h as u32)
                    } else {
                        (side.plane)(r, rn, o, on, w as u32, h as u32, 1)
                    }
                };
                assert_eq!(answer as u32, 0, "a writer refused");
                (answer >> 32) as usize
            };
            let [(one, length), (other, _)] = [here, there].map(|side| {
                let mut out = vec![77; bound];
                let length = write(side, &mut out);
                (out, length)
            });
            assert!(one == other, "the libraries write different blocks");
            for size in [bound, length] {
                let out = &RefCell::new(vec![0; size]);
                let side = |side: &Library| timed(|| write(side, &mut out.borrow_mut()));
                let names = PICTURES.map(Picture::name).into_iter().chain(["posts", "empty"]);
                let case = format!("{w}x{h}, {}, a target of {size}", names.into_iter().nth(i).expect("a name"));
                ratios[kind].see(effort, sides, case, &side);
            }
        }
    }
    ratios.into_iter().for_each(Ratios::print);
}

/// The table, of the places of this library and those of the other one.
pub fn table(files: &[&str; 2 * PLACES]) -> Result<(), String> {
    let opened = files.iter().map(|file| Library::open(file)).collect::<Result<Vec<Library>, String>>()?;
    let (here, there) = opened.split_at(PLACES);
    let (effort, sides) = (Effort::Full, [here, there].map(|side| <&[Library; PLACES]>::try_from(side).expect("each place")));
    println!("How many times as long the library's calls take as those of the other one. Results are compared first, byte by byte.\n");
    println!("{:<12} {:>5}  {:>6} {:>6} {:>6}  the case that takes most", "call", "cases", "least", "median", "most");
    loads(effort, sides);
    steps(effort, sides);
    stamps(effort, sides);
    writers(effort, sides);
    Ok(())
}
