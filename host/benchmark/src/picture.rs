//! What the measured rooms show: five kinds of pictures, four planes, and the objects' shapes. All of it is computed, nothing is drawn
//! by chance, so every run measures the same bytes. A kind has many pictures, counted by `number`.

/// Looks random and is always the same.
fn noise(a: usize, b: usize) -> usize {
    let n = (a as u32).wrapping_mul(0x9E37_79B1) ^ (b as u32).wrapping_mul(0x85EB_CA77);
    let n = (n ^ (n >> 15)).wrapping_mul(0x2C1B_3C6D);
    ((n ^ (n >> 12)) >> 4) as usize
}

/// Changes slowly from place to place, 0 to 255: noise at the corners of cells of this size, and between them on the line.
fn soft(x: usize, y: usize, cell: usize, number: usize) -> usize {
    let corner = |i: usize, j: usize| noise(x / cell + i, 1000 * number + y / cell + j) % 256;
    let (right, down) = (x % cell, y % cell);
    let row = |j: usize| corner(0, j) * (cell - right) + corner(1, j) * right;
    (row(0) * (cell - down) + row(1) * down) / (cell * cell)
}

/// Gradient: shading that climbs by one every few pixels, with a grain in one pixel of eight. Dither: a noise of three colours, two of
/// them neighbours. Flat: large areas of one colour. Textured: a wall of bricks with the same grain in each, so that its operations repeat.
/// Painting: areas with soft edges, each with a shading of its own that changes slowly, and a grain over all.
#[derive(Clone, Copy, PartialEq)]
pub enum Picture {
    Gradient,
    Dither,
    Flat,
    Textured,
    Painting,
}

pub const PICTURES: [Picture; 5] = [Picture::Gradient, Picture::Dither, Picture::Flat, Picture::Textured, Picture::Painting];

impl Picture {
    pub fn name(self) -> &'static str {
        match self {
            Picture::Gradient => "gradient",
            Picture::Dither => "dither",
            Picture::Flat => "flat",
            Picture::Textured => "textured",
            Picture::Painting => "painting",
        }
    }

    fn pixel(self, x: usize, y: usize, number: usize) -> u8 {
        let (x, y) = (x + 1031 * number, y + 53 * number);
        let colour = match self {
            Picture::Gradient => x / 6 + y / 4 + usize::from(noise(x, y).is_multiple_of(8)),
            Picture::Dither => 16 * (y / 32) + [0, 0, 1, 9][noise(x, y) % 4],
            Picture::Flat => [40, 41, 96, 200][(x / 50 + y / 40) % 4],
            Picture::Textured => walled(x, y, number),
            Picture::Painting => painted(x, y),
        };
        colour as u8
    }

    /// W × H pixels by rows, the kind's picture number so and so.
    pub fn pixels(self, w: usize, h: usize, number: usize) -> Vec<u8> {
        (0..w * h).map(|i| self.pixel(i % w, i / w, number)).collect()
    }
}

/// Bricks of 16 by 6 in three neighbouring shades, with joints in two other colours; every second row is moved by half a brick.
fn walled(x: usize, y: usize, number: usize) -> usize {
    match ((x + 8 * (y / 6 % 2)) % 16, y % 6) {
        (_, 5) => 90,
        (15, _) => 91,
        (brick_x, brick_y) => 40 + noise(brick_x + 16 * brick_y, number) % 3,
    }
}

/// Five areas of 24 shades. At an edge the pixels of both areas mix; so do those of two shades, and one pixel of 24 is lighter.
fn painted(x: usize, y: usize) -> usize {
    let grain = noise(x, y);
    let area = (soft(x, y, 96, 1) + grain % 16) / 55;
    let shade = 3 * soft(x, y, 64, 2 + area) / 4 + soft(x, y, 12, 9) / 4;
    16 + 40 * area + (shade + grain / 16 % 10) / 11 + 2 * usize::from(grain.is_multiple_of(24))
}

/// Whether plane k has its bit at (x, y): leaning posts with frayed edges, standing on the floor. Many strips are empty or full.
fn covered(k: usize, x: usize, y: usize, h: usize) -> bool {
    (x + noise(y, k) % 5 + y / 9 + 20 * k) % 96 < 44 && y + noise(x / 8, k) % 17 > h / 4
}

/// A plane's S × H bytes, strip s, row y at y × S + s; bit 7 is the leftmost pixel.
pub fn plane(k: usize, w: usize, h: usize) -> Vec<u8> {
    let strips = w / 8;
    let bits = |i: usize| (0..8).fold(0, |byte, x| 2 * byte + u8::from(covered(k, i % strips * 8 + x, i / strips, h)));
    (0..strips * h).map(bits).collect()
}

/// A plane in which hardly two rows are alike.
pub fn grain(k: usize, w: usize, h: usize) -> Vec<u8> {
    (0..w / 8 * h).map(|i| noise(i, k) as u8).collect()
}

/// An object or actor of this size: a grained ellipse, the transparent index around it and nowhere in it.
pub fn shape(width: usize, height: usize, colour: usize, clear: u8) -> Vec<u8> {
    let inside = |x: usize, y: usize| {
        let (dx, dy) = ((2 * x + 1).abs_diff(width) * height, (2 * y + 1).abs_diff(height) * width);
        dx * dx + dy * dy <= (width * height) * (width * height)
    };
    let grained = |x: usize, y: usize| match ((colour + y / 4 + noise(x, y) % 3) % 250) as u8 {
        pixel if pixel == clear => 251,
        pixel => pixel,
    };
    let pixel = |x: usize, y: usize| if inside(x, y) { grained(x, y) } else { clear };
    (0..width * height).map(|i| pixel(i % width, i / width)).collect()
}
