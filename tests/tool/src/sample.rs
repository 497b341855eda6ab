//! A sample load over a map with a hole, and the files of it that a user has.

use crate::desk::Desk;
use second::cases::run_lines::File;
use second::sbs;

/// Two regions, 12,288 bytes of memory.
pub const MAP: &str = "# base length\n0x1000 0x1000\n0x100000 8192\n";
/// EAX 1, ECX 2; the four results.
pub const TABLE: &str = "1 2 0xf0 0x11 0x22 0x33\n";

pub const BLOCK: usize = 96;
pub const HEADER: usize = 68;
pub const SIGNATURE: usize = 8;

/// Five commands: two that store, a check, one to be skipped, the entry.
pub fn file() -> File {
    File::new()
        .write(0x1ff0, &[0x5a; 16])
        .fill(0x100000, 300, 0xaa)
        .check([2, 1, 0x30, 0x30], 0, Some(5))
        .command(60_001, b"vendor")
        .entry(0x100010)
}

/// The image of a file, by the second program.
pub fn image(file: &[u8]) -> Vec<u8> {
    let (ids, block, signature) = ([2, 0, 0, 0], BLOCK as u64, SIGNATURE as u64);
    let sizes = sbs::Packing::judge(file.len(), ids, block, signature).unwrap();
    let mut image = vec![0; sizes.length as usize];
    assert_eq!(sbs::pack(file, ids, block, signature, &mut image), 0);
    image
}

/// Where block k of an image, from 1, begins.
pub fn block_start(k: usize) -> usize {
    HEADER + SIGNATURE + (k - 1) * BLOCK
}

/// A folder with `file`, `image`, `header`, `map` and `table`.
pub fn desk() -> Desk {
    let desk = Desk::new();
    let file = file().0;
    let image = image(&file);
    desk.put("file", file);
    desk.put("header", &image[..HEADER]);
    desk.put("image", image);
    desk.put("map", MAP);
    desk.put("table", TABLE);
    desk
}
