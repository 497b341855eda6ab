//! Every refusal in words: the number, the one cause that applies, the place, the command there, its address.

use second::cases::run_lines::File;
use second::sbs::{chain, field};
use std::collections::BTreeSet;
use std::fs;
use tool::desk::Desk;
use tool::json::Value;
use tool::sample::{self, block_start, BLOCK, HEADER, SIGNATURE};

/// The refusals met so far, and the folder that the next one is met in.
struct Refusals {
    desk: Desk,
    met: BTreeSet<u64>,
}

impl Refusals {
    fn new() -> Refusals {
        Refusals {
            desk: sample::desk(),
            met: BTreeSet::new(),
        }
    }

    /// Holds the one line of a refusal to its words after "refused: ": in text, in JSON and on standard error.
    fn refused(&mut self, words: &str, line: &str) {
        let line = format!("refused: {line}");
        let said = self.desk.run(words);
        let json = self.desk.run(&format!("{words} --json")).json();
        assert_eq!(json["words"].text(), line, "{words}");
        assert!(said.out.contains(&format!("{line}\n")), "{said:?}");
        let code = json["code"].number();
        let operand = words.split_whitespace().nth(1).unwrap();
        let whose = match code {
            2 | 3 => String::new(), // the words name the file
            _ => format!("{operand}: "),
        };
        assert_eq!(said.err, format!("runnelpin: {whose}{line}\n"));
        assert_eq!(said.status, 1);
        self.met.insert(code);
    }

    /// A refusal of the sample with other commands in it.
    fn run(&mut self, file: File, line: &str) {
        self.desk.put("file", file.0);
        self.refused("run file --map map --cpuid table", line);
    }

    /// A refusal of the sample with another value in a field of the approved header.
    fn header(&mut self, which: field::Field, value: u64, line: &str) {
        self.desk = sample::desk();
        let mut image = self.desk.get("image");
        field::set(&mut image, which, value);
        self.desk.put("header", &image[..HEADER]);
        self.desk.put("image", image);
        self.refused("load image --header header --map map", line);
    }
}

fn notes(json: &Value) -> Vec<&str> {
    json["notes"].list().iter().map(Value::text).collect()
}

/// At 2^30 bytes the cause is the true one, and the header of a larger image is shown.
#[test]
fn what_is_over_the_limit() {
    large_inputs(&mut Refusals::new());
}

#[test]
fn a_wrong_file_is_no_bad_argument() {
    files(&mut Refusals::new());
}

#[test]
fn every_code_has_its_words() {
    let mut r = Refusals::new();
    for group in [
        arguments,
        maps,
        tables,
        approved_headers,
        hashes,
        header_fields,
        blocks,
        files,
        commands,
        ranges,
        checks,
        packing,
    ] {
        r.desk = sample::desk();
        group(&mut r);
    }
    let all: Vec<u64> = r.met.into_iter().collect();
    assert_eq!(all, (1..29).collect::<Vec<_>>());
}

fn arguments(r: &mut Refusals) {
    let load = "load image --header header --map map";
    for (number, shown) in [("0", "0"), ("4097", "4097"), ("0x100000008", "4294967304")] {
        let line = format!("1, argument: the signature length is {shown}, but must be 1 to 4096");
        r.refused(&format!("{load} --signature {number}"), &line);
        r.refused(&format!("pack file -o out --signature {number}"), &line);
    }
}

/// At 2^30 bytes: an image that was read no further is not said to have no signature, and a file that can
/// be packed but for its image's length isn't said to be over the limit.
fn large_inputs(r: &mut Refusals) {
    let image = r.desk.get("image");
    r.desk.put("large", &image);
    let large = fs::File::options().write(true).open(r.desk.path("large"));
    let large = large.unwrap();
    large.set_len((1 << 30) + 1).unwrap();
    for words in [
        "load large --header header --map map",
        "open large --header header -o out",
        "signature large --header header -o out",
        "header large -o out",
        "show large",
    ] {
        r.refused(
            words,
            "1, argument: the image is over the limit of 2^30 bytes",
        );
    }
    for words in [
        "run large --map map",
        "pack large -o out",
        "copy large -o out",
    ] {
        r.refused(
            words,
            "1, argument: the file is over the limit of 2^30 bytes",
        );
    }
    let json = r.desk.run("show large --json").json();
    assert_eq!(json["kind"].text(), "image");
    assert_eq!(json["header"]["block_count"].number(), 4);
    assert!(json.get("length").is_none(), "it is not known: {json:?}");
    large.set_len(1 << 30).unwrap();
    let line = "1, argument: its image would have 1074856548 bytes, over the limit of 2^30";
    r.refused("pack large -o out", line);
}

fn maps(r: &mut Refusals) {
    r.desk.put("three", "abc");
    for (map, line) in [
        (
            "# none\n",
            "unit.map has no regions, but needs at least one",
        ),
        (
            "0 1\n\n# second\n0x5 0x0\n",
            "unit.map, line 4: the region 0x5 0x0 has length 0",
        ),
        (
            "0 2\r\n1 1\r\n",
            "unit.map, line 2: the region 0x1 0x1 begins below 0x2, where the one before it ends",
        ),
        (
            "0xfffffffffffff 2",
            "unit.map, line 1: the region 0xfffffffffffff 0x2 ends above 2^52",
        ),
        (
            "0xffffffffffffffff 2",
            "unit.map, line 1: the region 0xffffffffffffffff 0x2 ends above 2^52",
        ),
        (
            "0 0x100000000\n0x100000000 1\n",
            "the regions of unit.map have 4294967297 bytes together, over the limit of 2^32",
        ),
        (
            "0 1\n",
            "three has 3 bytes, but the regions of unit.map have 1",
        ),
    ] {
        r.desk.put("unit.map", map);
        let line = format!("2, map: {line}");
        r.refused("run file --map unit.map --memory three", &line);
        r.refused(
            "load image --header header --map unit.map --memory three",
            &line,
        );
    }
    let many: String = (0..17).map(|i| format!("{i} 1\n")).collect();
    r.desk.put("unit.map", many);
    let line = "2, map: unit.map has 17 regions, but at most 16 are allowed";
    r.refused("run file --map unit.map", line);
    r.refused("show file --map unit.map", line);
    r.desk.put("one", "a");
    let line = "2, map: one has 1 byte, but the regions of map have 12288";
    r.refused("run file --map map --memory one", line);
    let large = fs::File::create(r.desk.path("large")).unwrap();
    large.set_len((1 << 32) + 5).unwrap();
    let line = "2, map: large has over 2^32 bytes, but the regions of map have 12288";
    r.refused("run file --map map --memory large", line);
}

fn tables(r: &mut Refusals) {
    let words = "run file --map map --cpuid unit.cpuid";
    r.desk
        .put("unit.cpuid", "# two\n1 0 0 0 0 0\n\n1 0 0 0 0 0\n");
    let line = "3, CPUID table: unit.cpuid, line 4: the inputs EAX 0x1, ECX 0x0 must be above those of the \
                record before, EAX 0x1, ECX 0x0";
    r.refused(words, line);
    let many: String = (0..65).map(|i| format!("{i} 0 0 0 0 0\n")).collect();
    r.desk.put("unit.cpuid", many);
    let line = "3, CPUID table: unit.cpuid has 65 records, but at most 64 are allowed";
    r.refused(words, line);
}

fn approved_headers(r: &mut Refusals) {
    let image = r.desk.get("image");
    let give = "; give the header that was approved for this image";
    r.desk.put("bad", &image[..1]);
    let line = "4, approved header: bad has 1 byte, but a header has at least 36";
    r.refused("open image --header bad -o out", &format!("{line}{give}"));
    r.desk.put("bad", [&image[..], b"more"].concat());
    let line = "4, approved header: bad has 464 bytes, but the image only 460";
    r.refused("open image --header bad -o out", &format!("{line}{give}"));
    r.desk.put("cut", &image[..HEADER - 1]);
    let line =
        "4, approved header: header has 68 bytes, but the image only 67; the image is cut off";
    r.refused("open cut --header header -o out", line);
    let mut header = r.desk.get("header");
    header[30] ^= 1;
    r.desk.put("bad", header);
    let line = "4, approved header: byte 30 is 00 in the image, but 01 in bad; \
                wrong header, or the image was changed";
    r.refused("open image --header bad -o out", line);
    r.desk.put("cut", &image[..35]);
    let line =
        "4, approved header: the image has only 35 bytes, but a header alone has at least 36";
    r.refused("header cut -o out", line);
    r.refused("show cut", line);
    let line = "8, header size: the approved header has 460 bytes, but its size field says 68; \
                did you pass the image?";
    r.refused("open image --header image -o out", line);
    r.desk.put("bad", &image[..HEADER + 2]);
    let line = "8, header size: the approved header has 70 bytes, but its size field says 68; \
                give the header and nothing else";
    r.refused("signature image --header bad -o out", line);
    r.desk.put("cut", &image[..50]);
    let line = "8, header size: it is 68, but the image has only 50 bytes";
    r.refused("header cut -o out", line);
    r.refused("show cut", line);
}

fn hashes(r: &mut Refusals) {
    let none =
        "6, hash: hash 1 is none, but the first must be a hash (2 sha256, 3 sha384, 4 sha512)";
    r.header(field::IDS[0], 0, none);
    r.refused("pack file -o out --hash none,sha256", none);
    let line = "6, hash: hash 1 has ID 9, which is not known (2 sha256, 3 sha384, 4 sha512)";
    r.header(field::IDS[0], 9, line);
    for (i, id) in [(1, 1), (2, 5), (3, 65535)] {
        let line = format!(
            "6, hash: hash {} has ID {id}, which is not known (0 none, 2 sha256, 3 sha384, 4 sha512)",
            i + 1
        );
        r.header(field::IDS[i], id, &line);
    }
    let line =
        "7, hashsum length: it is 32, but must be 96 for the hashes in the header (sha256, sha512)";
    r.header(field::IDS[2], 4, line);
    let line = "7, hashsum length: it is 33, but must be 32 for the hashes in the header (sha256)";
    r.header(field::SUM, 33, line);
}

fn header_fields(r: &mut Refusals) {
    for (which, value, line) in [
        (
            field::MAGIC,
            1,
            "5, header magic: it begins with 01 00 00 00 instead of 98 95 01 e6",
        ),
        (
            field::HEADER_SIZE,
            69,
            "8, header size: it is 69, but must be 68 (36 plus the hashsum length, 32)",
        ),
        (
            field::SCHEME,
            2,
            "9, signature scheme: it is 2, but only 1 is supported",
        ),
        (
            field::SIGNATURE,
            0,
            "10, signature length: it is 0, but must be 1 to 4096",
        ),
        (
            field::SIGNATURE,
            4097,
            "10, signature length: it is 4097, but must be 1 to 4096",
        ),
        (
            field::COUNT,
            0,
            "11, blocks: block count is 0, but an image has at least one block",
        ),
        (
            field::BLOCK_SIZE,
            32,
            "11, blocks: block size 32 is not above the hashsum length, 32",
        ),
        (
            field::BLOCK_SIZE,
            1_048_577,
            "11, blocks: block size 1048577 is over 1048576",
        ),
        (
            field::PADDING,
            64,
            "11, blocks: padding length 64 is not below the block data length, 64",
        ),
        (
            field::COUNT,
            9,
            "12, image length: it is 480 bytes too short: 460 instead of 940",
        ),
        (
            field::SIGNATURE,
            9,
            "12, image length: it is 1 byte too short: 460 instead of 461",
        ),
        (
            field::SIGNATURE,
            4,
            "12, image length: it is 4 bytes too long: 460 instead of 456",
        ),
    ] {
        r.header(which, value, line);
        r.refused("header image -o out", line);
        r.refused("show image", line);
    }
    r.desk = sample::desk();
    let line = "10, signature length: it is 8 in the header, but --signature says 9";
    r.refused("open image --header header --signature 9 -o out", line);
}

/// The sample with a byte of its image changed, and the hashes after it made to fit.
fn changed(at: usize) -> Desk {
    let desk = sample::desk();
    let mut image = desk.get("image");
    image[at] ^= 1;
    let (header, rest) = image.split_at_mut(HEADER);
    chain(header, &mut rest[SIGNATURE..], [2, 0, 0, 0], BLOCK);
    desk.put("header", &image[..HEADER]);
    desk.put("image", image);
    desk
}

fn blocks(r: &mut Refusals) {
    let mut image = r.desk.get("image");
    image[block_start(3) + 1] ^= 1;
    r.desk.put("image", image);
    let line = "13, block hashsum: it does not match, so the block is not the one that was packed; block 3 of 4, \
                at image offset 268; proved file bytes: 110 of 238; command 3, at file offset 88, is cut off there: \
                CPUID check with 88 bytes of data";
    let words = "load image --header header --map map --cpuid table";
    let done = "; commands done 2, bytes stored 316, entry 0";
    r.refused(words, &format!("{line}{done}"));
    r.refused("open image --header header -o out", line);
    r.refused("show image", line);
    r.desk = changed(block_start(1) + 32);
    let line = "14, block padding: it is not all zeros; block 1 of 4, at image offset 76; \
                proved file bytes: 0 of 238; commands done 0, bytes stored 0, entry 0";
    r.refused(words, line);
    r.desk = changed(block_start(4));
    let line =
        "15, last block: its hash field is not all zeros; block 4 of 4, at image offset 364; \
                proved file bytes: 174 of 238; command 3, at file offset 88, is cut off there: \
                CPUID check with 88 bytes of data";
    r.refused(words, &format!("{line}{done}"));
}

/// What is not the kind of file that it should be.
fn files(r: &mut Refusals) {
    let begins = "not a command file (one begins with 5e b6 8c 44 a2 5f dc 8a)";
    r.run(
        File(vec![1, 2, 3]),
        &format!("16, file magic: {begins}: it has only 3 bytes"),
    );
    r.run(
        File(Vec::new()),
        &format!("16, file magic: {begins}: it is empty"),
    );
    let line = format!("16, file magic: {begins}: it begins with ab ab ab ab ab ab ab ab");
    r.run(File(vec![0xab; 9]), &line);
    let line = format!("16, file magic: {begins}: it begins with 98 95 01 e6 04 00 00 00; ");
    r.refused(
        "run image --map map",
        &format!("{line}this is an image: use load"),
    );
    for (file, line) in [
        (&[0x11; 200][..], "it begins with 11 11 11 11 11 11 11 11"),
        (b"short", "it has only 5 bytes"),
    ] {
        let image = sample::image(file);
        r.desk.put("header", &image[..HEADER]);
        r.desk.put("image", image);
        let line = format!("16, file magic: the file in the image is {begins}: {line}");
        r.refused("load image --header header --map map", &line);
    }
    r.desk = sample::desk();
    let none = "not an image: it begins with 23 20 52 75 instead of 98 95 01 e6";
    r.desk
        .put("README.md", "# Runnelpin\n\nA boot loader for the desk\n");
    let read_me = r.desk.get("README.md");
    r.refused(
        "header README.md -o out",
        &format!("5, header magic: {none}"),
    );
    let said = r.desk.run("header README.md -o out").out;
    assert_eq!(said.lines().count(), 1, "no word of a header: {said}");
    r.refused(
        "open README.md --header README.md -o out",
        &format!("5, header magic: {none}"),
    );
    for words in [
        "open README.md --header header -o out",
        "signature README.md --header header -o out",
    ] {
        r.refused(words, &format!("4, approved header: {none}"));
    }
    let other = "not an image: it begins with 5e b6 8c 44 instead of 98 95 01 e6; \
                 this is a command file: use pack or run";
    r.refused("header file -o out", &format!("5, header magic: {other}"));
    let words = "load file --header header --map map";
    r.refused(words, &format!("4, approved header: {other}"));
    let either = "; not a command file either (one begins with 5e b6 8c 44 a2 5f dc 8a)";
    r.refused("show README.md", &format!("16, file magic: {none}{either}"));
    r.desk.put("README.md", &read_me[..20]);
    r.refused(
        "header README.md -o out",
        &format!("4, approved header: {none}"),
    );
    r.desk.put("README.md", &read_me[..1]);
    let none = "not an image: it has only 1 byte (an image begins with 98 95 01 e6)";
    r.refused(
        "header README.md -o out",
        &format!("4, approved header: {none}"),
    );
    r.refused("show README.md", &format!("16, file magic: {none}{either}"));
    r.desk.put("README.md", "");
    let none = "not an image: it is empty (an image begins with 98 95 01 e6)";
    r.refused("show README.md", &format!("16, file magic: {none}{either}"));
}

const NOTHING_DONE: &str = "; commands done 0, bytes stored 0, entry 0";

fn commands(r: &mut Refusals) {
    let mut short = File::new().entry(1);
    short.0.extend([0; 5]);
    let line = "17, command cut off: it runs past the end of the file; file offset 32: only 5 of the 16 bytes that a \
                command begins with; commands done 1, bytes stored 0, entry 0";
    r.run(short, line);
    for (file, line) in [
        (
            File::new().says(0, 100, &0x1000u64.to_le_bytes()),
            "17, command cut off: it runs 92 bytes past the end of the file; file offset 8: \
             write of 92 bytes at 0x1000",
        ),
        (
            File::new().says(2, 8, &[7; 7]),
            "17, command cut off: it runs 1 byte past the end of the file; file offset 8: entry with 8 bytes of data",
        ),
        (
            File::new().says(0, 100, &[7; 7]),
            "17, command cut off: it runs 93 bytes past the end of the file; file offset 8: write of 92 bytes",
        ),
        (
            File::new().command(4, &[0; 9]),
            "18, unknown command: there is no command with this number; file offset 8: command 4 with 9 bytes of data",
        ),
        (
            File::new().command(4, &[0]),
            "18, unknown command: there is no command with this number; file offset 8: command 4 with 1 byte of data",
        ),
        (
            File::new().command(1, &[0; 23]),
            "19, command length: its data length is 23, but must be 24; file offset 8: \
             fill with 23 bytes of data",
        ),
        (
            File::new().command(0, &[0; 7]),
            "19, command length: its data length is 7, but must be at least 8; file offset 8: \
             write with 7 bytes of data",
        ),
        (
            File::new().command(2, &[0; 9]),
            "19, command length: its data length is 9, but must be 8; file offset 8: \
             entry with 9 bytes of data",
        ),
        (
            File::new(),
            "27, no entry: the file ends after 0 commands, without an entry command; file length 8",
        ),
    ] {
        r.run(file, &format!("{line}{NOTHING_DONE}"));
    }
    let line =
        "27, no entry: the file ends after 1 command, without an entry command; file length 33; \
                commands done 1, bytes stored 1, entry 0";
    r.run(File::new().write(0x1000, &[1]), line);
}

fn ranges(r: &mut Refusals) {
    let file = File::new().write(0x1ff0, &[1; 16]).write(0x1ff0, &[2; 17]);
    let line =
        "21, not RAM: 0x2000 is in no region of map (range 0x1ff0 to 0x2000); file offset 48: \
                write of 17 bytes at 0x1ff0; commands done 1, bytes stored 16, entry 0";
    r.run(file, line);
    let line = "21, not RAM: 0x900000 is in no region of map; file offset 8: fill of 1 byte of 0x00 at 0x900000";
    r.run(
        File::new().fill(0x900000, 1, 0),
        &format!("{line}{NOTHING_DONE}"),
    );
    let of_64 =
        "20, not reachable: mode 64 reaches only addresses below 0x10000000000000; file offset 8: ";
    let entry = "entry at 0xffffffffffffffff";
    r.run(
        File::new().entry(u64::MAX),
        &format!("{of_64}{entry}{NOTHING_DONE}"),
    );
    let fill = "fill of 18446744073709551615 bytes of 0x07 at 0x1000";
    r.run(
        File::new().fill(0x1000, u64::MAX, 7),
        &format!("{of_64}{fill}{NOTHING_DONE}"),
    );
    let line = "20, not reachable: no mode reaches 0x10000000000000 and above; file offset 8: ";
    r.refused("show file", &format!("{line}{fill}"));
    let of_32 =
        "20, not reachable: mode 32 reaches only addresses below 0x100000000; file offset 8: ";
    let line = format!("{of_32}{fill}{NOTHING_DONE}");
    r.refused("run file --map map --mode 32", &line);
    let line = "20, not reachable: mode 32 reaches only addresses below 0x100000000 \
                (--mode 64: below 0x10000000000000); file offset 8: entry at 0x100000000";
    r.desk.put("file", File::new().entry(1 << 32).0);
    r.refused(
        "run file --map map --mode 32",
        &format!("{line}{NOTHING_DONE}"),
    );
}

fn checks(r: &mut Refusals) {
    let check = |words, register, zero| File::new().check(words, register, zero).entry(0);
    let of_eax = "; file offset 8: CPUID check of EAX 0x1, ECX 0x2: EAX & 0x30 = 0x30, ";
    let text = "\\xff".repeat(64);
    let line = format!("22, check text: it has no zero byte{of_eax}\"{text}\"{NOTHING_DONE}");
    r.run(check([2, 1, 0x30, 0x30], 0, None), &line);
    let line = "24, check register: it is 4, but must be 0 to 3, for EAX, EBX, ECX or EDX; file offset 8: \
                CPUID check of EAX 0x1, ECX 0x2: register 4 & 0x30 = 0x30, \"\"";
    r.run(
        check([2, 1, 0x30, 0x30], 4, Some(0)),
        &format!("{line}{NOTHING_DONE}"),
    );
    let line = "25, no CPUID record: table has no record with the inputs EAX 0x2, ECX 0x3; file offset 8: \
                CPUID check of EAX 0x2, ECX 0x3: EDX & 0x0 = 0x0, \"\"";
    r.run(
        check([3, 2, 0, 0], 3, Some(0)),
        &format!("{line}{NOTHING_DONE}"),
    );
    let line = "26, CPUID check failed: EAX is 0xf0, so EAX & 0x30 is 0x30 instead of 0xf0; file offset 8: \
                CPUID check of EAX 0x1, ECX 0x2: EAX & 0x30 = 0xf0, \"\\xff\"";
    r.run(
        check([2, 1, 0xf0, 0x30], 0, Some(1)),
        &format!("{line}{NOTHING_DONE}"),
    );
    r.desk.put("file", check([2, 1, 0x30, 0x30], 0, Some(0)).0);
    r.desk.put("none", "# no records\n");
    for (words, line) in [
        (
            "run file --map map",
            "which needs one: give --cpuid FILE or --cpuid host",
        ),
        ("run file --map map --cpuid none", "but none has no records"),
    ] {
        let line = format!(
            "23, no CPUID table: the command is a CPUID check, {line}{of_eax}\"\"{NOTHING_DONE}"
        );
        r.refused(words, &line);
    }
}

fn packing(r: &mut Refusals) {
    for (options, line) in [
        (
            "--block 64",
            "block size 64 is not above the hashsum length, 64; give a larger --block",
        ),
        (
            "--block 96 --hash sha256,sha512",
            "block size 96 is not above the hashsum length, 96; give a larger --block",
        ),
        (
            "--block 0x100001",
            "block size 1048577 is over 1048576; give a smaller --block",
        ),
    ] {
        let words = format!("pack file -o out {options}");
        r.refused(&words, &format!("11, blocks: {line}"));
    }
    r.desk.put("file", "");
    r.refused(
        "pack file -o out",
        "28, empty file: there is nothing to pack",
    );
}

/// Any file may be packed, but a slip is seen.
#[test]
fn a_packed_file_that_holds_no_commands_is_noted() {
    let desk = sample::desk();
    desk.put("other", "some other file");
    let note = "the file is not a command file (one begins with 5e b6 8c 44 a2 5f dc 8a): \
                it can be opened, but not loaded";
    for (words, is_noted) in [
        ("pack other -o out --json", true),
        ("pack file -o out --json", false),
    ] {
        let json = desk.run(words).json();
        assert_eq!(json["code"].number(), 0);
        assert_eq!(notes(&json).contains(&note), is_noted, "{json:?}");
    }
}

/// An entry where nothing is: the library takes it, since something may have been there before.
#[test]
fn an_entry_outside_the_map_is_noted() {
    let desk = sample::desk();
    let outside =
        "the entry 0x102000 is in no region of the map; the example stubs refuse to jump there";
    let bare = "no write or fill stores a byte at the entry 0x102000";
    let file = File::new().write(0x100000, &[1]).entry(0x102000);
    let image = sample::image(&file.0);
    desk.put("file", file.0);
    desk.put("header", &image[..HEADER]);
    desk.put("image", image);
    for (words, note) in [
        ("run file --map map --json", outside),
        ("load image --header header --map map --json", outside),
        ("show file --map map --json", outside),
        ("show image --map map --json", outside),
        ("show file --json", bare),
        ("show image --json", bare),
    ] {
        let json = desk.run(words).json();
        assert_eq!(json["code"].number(), 0);
        assert!(notes(&json).contains(&note), "{words}: {json:?}");
    }
    for file in [
        File::new().fill(0x101f00, 0x100, 0).entry(0x101fff),
        File::new().write(0x1000, &[1, 2]).entry(0x1001),
    ] {
        desk.put("file", file.0);
        for words in ["run file --map map", "show file --map map", "show file"] {
            let said = desk.run(words);
            assert!(
                said.status == 0 && !said.out.contains("the entry"),
                "{said:?}"
            );
        }
    }
}

#[test]
fn one_of_a_thing_is_not_several() {
    let desk = sample::desk();
    desk.put("file", File::new().entry(0x1000).0);
    let done = "done: 1 command, 0 bytes stored, entry 0x1000\n";
    assert_eq!(desk.run("run file --map map").out, done);
    assert!(desk
        .run("show file")
        .out
        .contains("done: 1 command, entry 0x1000\n"));
    desk.put("file", File::new().write(0x1000, &[1]).entry(0x1000).0);
    let done = "done: 2 commands, 1 byte stored, entry 0x1000\n";
    assert_eq!(desk.run("run file --map map").out, done);
    let said = desk.run("show file").out;
    assert!(said.contains(" write of 1 byte at 0x1000\n"), "{said}");
    desk.put("one", "a");
    desk.run("pack one -o image --signature 1");
    desk.run("header image -o header");
    let opened = desk.run("open image --header header -o out").out;
    assert!(
        opened.starts_with("done: a file of 1 byte, all"),
        "{opened}"
    );
    let field = desk.run("signature image --header header -o out").out;
    assert!(
        field.starts_with("done: a signature field of 1 byte, at"),
        "{field}"
    );
    assert_eq!(desk.run("copy one -o out").out, "done: 1 byte copied\n");
}

/// As some editors write them: a byte order mark, CR LF, 0X.
#[test]
fn maps_and_tables_of_other_editors_are_read() {
    let desk = sample::desk();
    desk.put("map", "\u{feff}0X1000 0X1000\r\n0X100000 8192\r\n");
    desk.put("table", "\u{feff}1 2 0XF0 0X11 0x22 0x33\r\n");
    let said = desk.run("run file --map map --cpuid table --mode 0X40");
    assert_eq!(said.status, 0, "{said:?}");
    desk.put("map", "0x1000 \u{feff}0x1000\n");
    let said = desk.run("run file --map map");
    assert!(
        said.err
            .contains("map, line 1: \"\\xef\\xbb\\xbf0x1000\" is not"),
        "{said:?}"
    );
}

/// A name that doesn't print is one line here, too.
#[test]
fn names_in_refusals_are_one_line() {
    let desk = sample::desk();
    let said = desk.shell(
        "printf '5 0\\n' >\"$(printf 'a\\nb')\"; runnelpin run file --map \"$(printf 'a\\nb')\"",
    );
    let line = "refused: 2, map: a?b, line 1: the region 0x5 0x0 has length 0\n";
    assert_eq!(said.out, line, "{said:?}");
    assert_eq!(said.err, format!("runnelpin: {line}"));
}
