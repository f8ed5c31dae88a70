//! Objects with their images (document 01, "Blocks" and "Sessions"; source 003 for CDHD and IMHD).

use crate::block::{children, first, Block};
use crate::fault::Fault;
use crate::room::{needed, Room};
use crate::{mask, strip, u16_at};

/// An object: CDHD's bytes and, "the first OBIM of equal id, if any", its image.
pub struct Object<'a> {
    pub cdhd: &'a [u8],
    pub image: Option<Image<'a>>,
}

/// An OBIM block with the first 16 bytes of its IMHD, whose numbers are unsigned.
#[derive(Clone, Copy)]
pub struct Image<'a> {
    imhd: &'a [u8],
    pub obim: Block,
}

impl Image<'_> {
    pub fn place(&self) -> (usize, usize) {
        (u16_at(self.imhd, 8), u16_at(self.imhd, 10))
    }

    pub fn size(&self) -> (usize, usize) {
        (u16_at(self.imhd, 12), u16_at(self.imhd, 14))
    }

    /// numImages.
    pub fn images(&self) -> usize {
        u16_at(self.imhd, 2)
    }

    /// "state s (1 to 9, up to numImages, block IM0s present, else 11)": that block.
    pub fn state(&self, bytes: &[u8], s: usize) -> Option<Block> {
        let known = (1..=9).contains(&s) && s <= self.images();
        known.then(|| first(bytes, self.obim, format!("IM0{s}").as_bytes())).flatten()
    }
}

/// A strip of an image: its pixels by rows, `None` for a transparent one, and its rows in planes 1 to N. Zeros stand where it has no chunk
/// or offset 0: replaced or joined, they do what the rule says of both.
pub struct Strip {
    pub pixels: Vec<Option<u8>>,
    pub planes: Vec<Vec<u8>>,
}

/// The objects of a tested room, in OBCD order.
pub fn objects<'a>(bytes: &'a [u8], room: &Room) -> Vec<Object<'a>> {
    let root = Block { start: 0, end: bytes.len() };
    let header = |block: Block, tag: &[u8]| first(bytes, block, tag).expect("a tested room").payload(bytes);
    let images: Vec<Image> = children(bytes, root, b"OBIM").into_iter().map(|obim| Image { imhd: header(obim, b"IMHD"), obim }).collect();
    let object = |obcd: &Block| {
        let cdhd = header(*obcd, b"CDHD");
        Object { cdhd, image: images.iter().find(|image| u16_at(image.imhd, 0) == u16_at(cdhd, 0)).copied() }
    };
    room.objects.iter().map(object).collect()
}

/// One state's strips, `im` being its IM0s block: "2 and 5 to 8 for an object's image, SMAP before its planes as for the room".
pub fn read(bytes: &[u8], room: &Room, im: Block, (width, height): (usize, usize)) -> Result<Vec<Strip>, Fault> {
    let smap = needed(bytes, im, b"SMAP", 0)?;
    let mut strips = Vec::new();
    for (code, pixels) in strip::strips(bytes, smap, width / 8, height)? {
        // "An entry's pixel is transparent if its code is a transparent one and its value is" the room's transparent index, which "replaces 255 in
        // document 01's painting rule" (change request 9).
        let shows = |pixel: u8| !strip::is_transparent(code) || pixel != room.clear;
        let pixels = pixels.into_iter().map(|pixel| shows(pixel).then_some(pixel)).collect();
        strips.push(Strip { pixels, planes: vec![] });
    }
    for k in 1..=room.n {
        let plane = match first(bytes, im, format!("ZP0{k}").as_bytes()) {
            Some(block) => mask::plane(bytes, block, width / 8, height)?,
            None => vec![0; width / 8 * height],
        };
        for (s, strip) in strips.iter_mut().enumerate() {
            strip.planes.push((0..height).map(|y| plane[y * (width / 8) + s]).collect());
        }
    }
    Ok(strips)
}

/// The same with the number alone.
pub fn strips(bytes: &[u8], room: &Room, im: Block, size: (usize, usize)) -> Result<Vec<Strip>, u32> {
    read(bytes, room, im, size).map_err(|fault| fault.number())
}
