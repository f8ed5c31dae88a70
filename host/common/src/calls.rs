//! The C interface, as include/kildegrom.h declares it. Nothing checks one against the other but the tests that call it.

use std::ffi::c_void;

extern "C" {
    pub fn kg_record(room: *const u8, room_size: usize, record: *mut u8, record_size: usize) -> u32;
    pub fn kg_load(
        room: *const u8,
        room_size: usize,
        session: *mut u8,
        session_size: usize,
        pixels: *mut u8,
        pixels_size: usize,
        masks: *mut u8,
        masks_size: usize,
    ) -> u32;
    pub fn kg_draw_last(
        room: *const u8,
        room_size: usize,
        session: *mut u8,
        session_size: usize,
        pixels: *mut u8,
        pixels_size: usize,
        masks: *mut u8,
        masks_size: usize,
        object: u32,
        state: u32,
    ) -> u32;
    pub fn kg_draw_at(
        room: *const u8,
        room_size: usize,
        session: *mut u8,
        session_size: usize,
        pixels: *mut u8,
        pixels_size: usize,
        masks: *mut u8,
        masks_size: usize,
        object: u32,
        state: u32,
        a: u32,
        b: u32,
    ) -> u32;
    pub fn kg_hide(
        room: *const u8,
        room_size: usize,
        session: *mut u8,
        session_size: usize,
        pixels: *mut u8,
        pixels_size: usize,
        masks: *mut u8,
        masks_size: usize,
        object: u32,
    ) -> u32;
    pub fn kg_take_back(
        room: *const u8,
        room_size: usize,
        session: *mut u8,
        session_size: usize,
        pixels: *mut u8,
        pixels_size: usize,
        masks: *mut u8,
        masks_size: usize,
    ) -> u32;
    pub fn kg_object_at(
        room: *const u8,
        room_size: usize,
        session: *const u8,
        session_size: usize,
        flags: *const u8,
        flags_size: usize,
        x: u32,
        y: u32,
    ) -> u64;
    pub fn kg_list(room: *const u8, room_size: usize, record: *mut u8, record_size: usize, rows: *mut u8, rows_size: usize) -> u32;
    pub fn kg_header(room: *const u8, room_size: usize, header: *mut u8, header_size: usize, object: u32) -> u32;
    pub fn kg_name(room: *const u8, room_size: usize, object: u32) -> u64;
    pub fn kg_name_number(room: *const u8, room_size: usize, object: u32) -> u32;
    pub fn kg_hidden(masks: *const u8, masks_size: usize, w: u32, h: u32, n: u32, clip: u32, x: u32, y: u32) -> u64;
    pub fn kg_stamp(
        frame: *mut u8,
        frame_size: usize,
        masks: *const u8,
        masks_size: usize,
        picture: *const u8,
        picture_size: usize,
        w: u32,
        h: u32,
        n: u32,
        width: u32,
        height: u32,
        x: i32,
        y: i32,
        clip: u32,
        clear: u8,
    ) -> u32;
    /// `cast` is a list of struct kg_actor, 32 bytes each, at a multiple of 4; `count` counts them.
    pub fn kg_cast(
        cast: *mut c_void,
        count: usize,
        frame: *mut u8,
        frame_size: usize,
        masks: *const u8,
        masks_size: usize,
        pictures: *const u8,
        pictures_size: usize,
        w: u32,
        h: u32,
        n: u32,
        clear: u8,
    ) -> u32;
    pub fn kg_start(
        payload: *const u8,
        payload_size: usize,
        limbs: *mut u8,
        limbs_size: usize,
        table: u32,
        count: u32,
        command: u32,
        chore: u32,
        direction: u32,
    ) -> u64;
    pub fn kg_tick(payload: *const u8, payload_size: usize, limbs: *mut u8, limbs_size: usize, command: u32) -> u32;
    pub fn kg_limb_draws(limbs: *const u8, limbs_size: usize, limb: u32) -> u64;
    pub fn kg_compare(a: *const u8, a_size: usize, b: *const u8, b_size: usize, list: *mut u8, list_size: usize) -> u64;
    pub fn kg_write_smap(rows: *const u8, rows_size: usize, out: *mut u8, out_size: usize, w: u32, h: u32) -> u64;
    pub fn kg_write_plane(rows: *const u8, rows_size: usize, out: *mut u8, out_size: usize, w: u32, h: u32, k: u32) -> u64;
}
