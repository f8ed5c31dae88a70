//! The partners in plain C (partners/*.c), which host/bench holds the library against. None of them tests anything: they trust what they are given.

use crate::pass::child;
use crate::room::Room;
use reference::actor::Actor;

/// What compiled them.
pub const COMPILER: &str = env!("PARTNERS_COMPILER");

#[repr(C)]
struct Picture {
    pixels: *const u8,
    width: i32,
    height: i32,
    x: i32,
    y: i32,
    clear: u8,
}

extern "C" {
    fn plain_background(smap: *const u8, pixels: *mut u8, w: u32, h: u32);
    fn plain_plane(block: *const u8, masks: *mut u8, w: u32, h: u32);
    fn encode_smap(rows: *const u8, out: *mut u8, w: u32, h: u32) -> usize;
    fn encode_plane(rows: *const u8, out: *mut u8, w: u32, h: u32, k: u32) -> usize;
    fn loop_stamp(frame: *mut u8, plane: *const u8, w: i32, h: i32, picture: *const Picture);
}

/// One pass of the plain decoder over a room's background and planes. The room must be one of `Spec::make`: it has all its planes, and spare bytes
/// behind it.
pub fn plain(room: &Room, pixels: &mut [u8], masks: &mut [u8]) {
    let (w, h) = (room.spec.w, room.spec.h);
    assert!(pixels.len() == room.pixels() && masks.len() == room.masks(), "other surfaces than the room's");
    unsafe {
        let image = child(child(room.bytes().as_ptr(), b"RMIM"), b"IM00");
        plain_background(child(image, b"SMAP"), pixels.as_mut_ptr(), w as u32, h as u32);
        for (k, plane) in masks.chunks_mut(w / 8 * h).enumerate() {
            plain_plane(child(image, &[b'Z', b'P', b'0', b'1' + k as u8]), plane.as_mut_ptr(), w as u32, h as u32);
        }
    }
}

/// The block SMAP of W × H pixels: its length. The target must be long enough for any picture.
pub fn smap(rows: &[u8], out: &mut [u8], (w, h): (usize, usize)) -> usize {
    assert!(rows.len() == w * h && out.len() >= smap_bound((w, h)), "a target that may be too short");
    unsafe { encode_smap(rows.as_ptr(), out.as_mut_ptr(), w as u32, h as u32) }
}

/// The block ZP0k of a plane's rows: its length. The target must be long enough for any plane.
pub fn plane(rows: &[u8], out: &mut [u8], (w, h): (usize, usize), k: usize) -> usize {
    assert!(rows.len() == w / 8 * h && out.len() >= plane_bound((w, h)), "a target that may be too short");
    unsafe { encode_plane(rows.as_ptr(), out.as_mut_ptr(), w as u32, h as u32, k as u32) }
}

/// As `kg_smap_bound` of include/kildegrom.h.
pub fn smap_bound((w, h): (usize, usize)) -> usize {
    8 + w / 8 * (10 * h + 5)
}

/// As `kg_plane_bound`.
pub fn plane_bound((w, h): (usize, usize)) -> usize {
    8 + w / 8 * (2 + h + h.div_ceil(3))
}

/// The stamp pixel by pixel, behind the plane that the clip level names.
pub fn stamp(room: &Room, frame: &mut [u8], masks: &[u8], a: &Actor) {
    let (w, h, size) = (room.spec.w, room.spec.h, room.spec.w / 8 * room.spec.h);
    assert!(frame.len() == w * h && a.picture.len() == (a.width * a.height) as usize, "another frame or picture than said");
    let (width, height) = (a.width as i32, a.height as i32);
    let picture = Picture { pixels: a.picture.as_ptr(), width, height, x: a.x, y: a.y, clear: a.clear };
    let plane = match a.clip as usize {
        clip if (1..=room.spec.n).contains(&clip) => masks[(clip - 1) * size..clip * size].as_ptr(),
        _ => std::ptr::null(),
    };
    unsafe { loop_stamp(frame.as_mut_ptr(), plane, w as i32, h as i32, &picture) }
}
