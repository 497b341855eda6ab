//! `show`, on sound files and above all on damaged ones.

use second::cases::run_lines::File;
use second::sbs::field;
use tool::desk::Desk;
use tool::json::Value;
use tool::sample::{self, block_start, BLOCK, HEADER, SIGNATURE};

const DATA: usize = BLOCK - 32;

fn numbers<const N: usize>(json: &Value, keys: [&str; N]) -> [u64; N] {
    keys.map(|key| json[key].number())
}

fn notes(json: &Value) -> Vec<&str> {
    json["notes"].list().iter().map(Value::text).collect()
}

#[test]
fn a_sound_image() {
    let desk = sample::desk();
    let said = desk.run("show image --json");
    let json = said.json();
    let (file, image) = (desk.get("file"), desk.get("image"));
    assert_eq!((said.status, json["kind"].text()), (0, "image"));
    let header = &json["header"];
    let keys = [
        "block_count",
        "block_size",
        "signature_length",
        "header_size",
    ];
    let blocks = (image.len() - HEADER - SIGNATURE) / BLOCK;
    let expected = [blocks, BLOCK, SIGNATURE, HEADER].map(|n| n as u64);
    assert_eq!(numbers(header, keys), expected);
    assert_eq!(json["blocks"]["each"].text(), "1 to 4 proved");
    assert_eq!(
        numbers(header, ["hash_1", "hash_2", "hash_3", "hash_4"]),
        [2, 0, 0, 0]
    );
    let root: String = image[36..68].iter().map(|b| format!("{b:02x}")).collect();
    assert_eq!(header["root_hash"].text(), root);
    let keys = ["counted", "whole", "proved", "file_length", "file_proved"];
    let (count, length) = (blocks as u64, file.len() as u64);
    assert_eq!(
        numbers(&json["blocks"], keys),
        [count, count, count, length, length]
    );
    let all = format!("the file is good up to byte {length} of {length}");
    assert_eq!(
        notes(&json),
        [&all, "this is the image's own header, not an approved one"]
    );
}

#[test]
fn the_commands_of_image_and_file() {
    let desk = sample::desk();
    let text = desk.run("show file").out;
    for words in ["show image --json", "show file --json"] {
        let json = desk.run(words).json();
        let program = json["program"].list();
        let names: Vec<&str> = program.iter().map(|c| c["name"].text()).collect();
        assert_eq!(
            names,
            ["write", "fill", "CPUID check", "vendor command", "entry"]
        );
        let offsets: Vec<u64> = program.iter().map(|c| c["offset"].number()).collect();
        assert_eq!(offsets, [8, 48, 88, 192, 214]);
        assert_eq!(numbers(&program[0], ["address", "count"]), [0x1ff0, 16]);
        let keys = ["address", "count", "pattern"];
        assert_eq!(numbers(&program[1], keys), [0x100000, 300, 0xaa]);
        assert_eq!(program[4]["address"].number(), 0x100010);
        assert_eq!(
            numbers(&json, ["code", "commands", "entry"]),
            [0, 5, 0x100010]
        );
        for command in program {
            let words = command["words"].text();
            assert!(text.contains(&format!("{:<16}  {words}\n", command["offset"].number())));
        }
    }
}

#[test]
fn the_fields_of_a_check() {
    let desk = Desk::new();
    let words = [2u32, 1, 0x1234, 0xffff_ffff].map(u32::to_le_bytes);
    let mut data = words.concat();
    data.push(3);
    data.resize(24, 0);
    data.extend(b"say \"x\"\0\xff");
    data.resize(88, 0);
    desk.put("file", File::new().command(3, &data).entry(0).0);
    let json = desk.run("show file --json").json();
    let check = &json["program"].list()[0];
    let keys = ["eax", "ecx", "register", "mask", "value"];
    let expected = [1, 2, 3, 0xffff_ffff, 0x1234];
    assert_eq!(numbers(check, keys), expected);
    assert_eq!(check["text"].text(), "say \"x\"", "up to its zero byte");
    assert!(check.get("address").is_none() && check.get("pattern").is_none());
}

/// The first refusal that the file alone decides, its place, and the commands before it.
#[test]
fn damaged_command_files() {
    let sound = || File::new().write(0x1000, &[1; 4]);
    let mut magic = sound();
    magic.0[7] ^= 1;
    let mut short = sound();
    short.0.push(0);
    for (file, numbers_expected) in [
        (File(Vec::new()), [16, 0, 0]),
        (magic, [16, 0, 0]),
        (short, [17, 36, 1]),
        (sound().says(0, 1 << 60, &[0; 8]), [17, 36, 1]),
        (sound().command(59_999, &[]), [18, 36, 1]),
        (sound().command(2, &[]), [19, 36, 1]),
        (sound().entry(u64::MAX), [20, 36, 1]),
        (sound().write((1 << 52) - 1, &[0, 0]), [20, 36, 1]),
        (sound().fill(1, u64::MAX, 0), [20, 36, 1]),
        (sound().check([0; 4], 0, None), [22, 36, 1]),
        (sound().check([0; 4], 4, Some(0)), [24, 36, 1]),
        (sound(), [27, 36, 1]),
        (sound().write((1 << 52) - 2, &[0, 0]).entry(0), [0, 0, 3]),
    ] {
        let desk = Desk::new();
        desk.put("file", file.0);
        let said = desk.run("show file --json");
        let json = said.json();
        assert_eq!(
            numbers(&json, ["code", "place", "commands"]),
            numbers_expected,
            "{said:?}"
        );
        assert_eq!(said.status, i32::from(numbers_expected[0] != 0));
        let is_file = json["kind"].text() == "command file";
        assert_eq!(json.get("program").is_some(), is_file, "{said:?}");
        for command in json.get("program").map_or(&[][..], Value::list) {
            command["length"].number();
        }
    }
}

/// Up to where an image is good: the blocks before the one with a changed byte.
#[test]
fn every_byte_changed() {
    let desk = sample::desk();
    let image = desk.get("image");
    let padding = field::get(&image, field::PADDING) as usize;
    for at in 0..image.len() {
        let mut bad = image.clone();
        bad[at] ^= 0x40;
        desk.put("bad", &bad);
        let said = desk.run("show bad --json");
        let json = said.json();
        let is_free = (30..32).contains(&at) || (HEADER..HEADER + SIGNATURE).contains(&at);
        assert_eq!(said.status, i32::from(!is_free), "byte {at}: {said:?}");
        assert!(notes(&json).contains(&"this is the image's own header, not an approved one"));
        if at >= HEADER + SIGNATURE {
            let block = (at - HEADER - SIGNATURE) / BLOCK;
            let known = (block * DATA).saturating_sub(padding) as u64;
            let keys = ["proved", "refused_block", "refused_with", "file_proved"];
            let expected = [block as u64, block as u64 + 1, 13, known];
            assert_eq!(numbers(&json["blocks"], keys), expected, "byte {at}");
            let each = match block {
                0 => "1 refused, 2 to 4 not proved",
                1 => "1 proved, 2 refused, 3 to 4 not proved",
                2 => "1 to 2 proved, 3 refused, 4 not proved",
                _ => "1 to 3 proved, 4 refused",
            };
            assert_eq!(json["blocks"]["each"].text(), each, "byte {at}");
            assert_eq!(numbers(&json, ["code", "place"]), [13, block as u64 + 1]);
        } else if !is_free {
            let code = json["code"].number();
            assert!(matches!(code, 1 | 5..=13), "byte {at}: {said:?}");
        }
    }
}

/// An image cut short anywhere is good up to its last whole block.
#[test]
fn every_length() {
    let desk = sample::desk();
    let image = desk.get("image");
    let padding = field::get(&image, field::PADDING) as usize;
    for length in 0..image.len() {
        desk.put("cut", &image[..length]);
        let said = desk.run("show cut --json");
        let json = said.json();
        assert_eq!(said.status, 1, "{said:?}");
        let code = match length {
            0..2 => 16,
            2..36 => 4,
            36..HEADER => 8,
            _ => 12,
        };
        assert_eq!(json["code"].number(), code, "{length} bytes: {said:?}");
        if code == 12 {
            let whole = length.saturating_sub(HEADER + SIGNATURE) / BLOCK;
            let known = (whole * DATA).saturating_sub(padding) as u64;
            let keys = ["whole", "proved", "file_proved"];
            let expected = [whole as u64, whole as u64, known];
            assert_eq!(numbers(&json["blocks"], keys), expected, "{length} bytes");
        }
    }
    desk.put("long", [&image[..], b"more"].concat());
    let json = desk.run("show long --json").json();
    let count = field::get(&image, field::COUNT);
    assert_eq!(json["code"].number(), 12);
    assert_eq!(
        numbers(&json["blocks"], ["whole", "proved"]),
        [count, count]
    );
}

/// What is cut short may have a changed block besides.
#[test]
fn cut_and_changed() {
    let desk = sample::desk();
    let image = desk.get("image");
    for block in 1..4 {
        let mut bad = image[..block_start(4) + 1].to_vec();
        bad[block_start(block)] ^= 1;
        desk.put("bad", bad);
        let json = desk.run("show bad --json").json();
        let keys = ["whole", "proved", "refused_block", "refused_with"];
        let block = block as u64;
        assert_eq!(numbers(&json["blocks"], keys), [3, block - 1, block, 13]);
        let each = json["blocks"]["each"].text();
        assert!(each.ends_with(", 4 cut off"), "{each}");
        assert_eq!(json["code"].number(), 12);
    }
}

/// A refused command is met before a bad block behind it.
#[test]
fn what_is_wrong_first_is_the_answer() {
    let desk = sample::desk();
    let file = File::new().command(7, &[]).write(0x1000, &[0; 400]);
    let mut image = sample::image(&file.0);
    image[block_start(3)] ^= 1;
    desk.put("image", image);
    let json = desk.run("show image --json").json();
    assert_eq!(numbers(&json, ["code", "place", "commands"]), [18, 8, 0]);
    assert_eq!(
        numbers(&json["blocks"], ["proved", "refused_with"]),
        [2, 13]
    );
    assert_eq!(
        notes(&json)[0],
        format!("the file is good up to byte 8 of {}", file.0.len())
    );
}

#[test]
fn an_image_of_no_commands_and_what_is_no_image() {
    let desk = sample::desk();
    desk.put("image", sample::image(&[0x11; 200]));
    let said = desk.run("show image");
    assert_eq!(said.status, 1);
    assert!(said.out.contains("refused: 16, "), "{said:?}");
    assert!(said.out.contains("proved            4\n"), "{said:?}");
    for bytes in [&b""[..], b"x", b"#!/bin/sh\necho\n", &[0; 200], b"^..D._.."] {
        desk.put("other", bytes);
        let said = desk.run("show other");
        assert_eq!(said.status, 1);
        assert!(
            said.out.starts_with("  kind              unknown\n"),
            "{said:?}"
        );
        assert!(said.out.contains(": not an image: it "), "{said:?}");
        assert!(
            said.out.contains("; not a command file either (one "),
            "{said:?}"
        );
        let json = desk.run("show other --json").json();
        assert_eq!(json["kind"].text(), "unknown");
        assert_eq!(json["length"].number(), bytes.len() as u64);
        assert!(json.get("program").is_none() && json.get("header").is_none());
    }
}

/// Half of the magic will do: a damaged file is still what it was.
#[test]
fn what_is_damaged_keeps_its_kind() {
    let desk = sample::desk();
    for (name, kind, magic) in [("image", "image", 4), ("file", "command file", 8)] {
        let sound = desk.get(name);
        for at in 0..magic {
            let mut bad = sound.clone();
            bad[at] ^= 0xff;
            bad[(at + 1) % magic] ^= 0xff;
            bad[16] ^= 0xff; // the sizes don't fit, either
            desk.put("bad", bad);
            let said = desk.run("show bad --json");
            assert_eq!(said.json()["kind"].text(), kind, "byte {at}: {said:?}");
        }
    }
}

/// The length of the first command stands where an image has its sizes, and these would fit each other.
#[test]
fn a_command_file_with_fitting_sizes_is_no_image() {
    let desk = Desk::new();
    let file = File::new().write(0x1000, &[0; 65573 - 8]).entry(0x1000);
    desk.put("file", file.0);
    let said = desk.run("show file");
    assert_eq!(said.status, 0, "{said:?}");
    assert!(said.out.contains("kind              command file\n"));
}

#[test]
fn whether_the_signature_field_is_zero() {
    let desk = sample::desk();
    let zero = "\nsignature field: all zeros, so the image is not signed\n";
    assert!(desk.run("show image").out.contains(zero));
    let is_zero = || desk.run("show image --json").json()["signature_is_zero"].clone();
    assert_eq!(is_zero(), Value::Word("true".to_string()));
    let image = desk.get("image");
    for at in HEADER..HEADER + SIGNATURE {
        let mut signed = image.clone();
        signed[at] = 1;
        desk.put("image", signed);
        assert!(desk
            .run("show image")
            .out
            .contains("\nsignature field: not all zeros; show does not verify it\n"));
        assert_eq!(is_zero(), Value::Word("false".to_string()));
    }
    let mut elsewhere = image.clone();
    field::set(&mut elsewhere, field::HEADER_SIZE, HEADER as u64 + 1);
    for unknown in [&image[..HEADER + SIGNATURE - 1], &elsewhere] {
        desk.put("image", unknown);
        let said = desk.run("show image --json");
        assert!(said.json().get("signature_is_zero").is_none(), "{said:?}");
    }
}

/// In text a hash has its number and its name.
#[test]
fn hashes_by_number_and_name() {
    let desk = sample::desk();
    let mut image = desk.get("image");
    field::set(&mut image, field::IDS[1], 9);
    desk.put("image", image);
    let said = desk.run("show image").out;
    for line in [
        "  hash_1            2 (sha256)\n",
        "  hash_2            9 (not known)\n",
        "  hash_3            0 (none)\n",
    ] {
        assert!(said.contains(line), "{said}");
    }
}

#[test]
fn large_numbers_are_strings() {
    let desk = Desk::new();
    let file = File::new().write(1 << 51, &[]).fill(u64::MAX, 1 << 53, 1);
    desk.put("file", file.0);
    let said = desk.run("show file --json");
    assert!(
        said.out.contains("\"address\":2251799813685248,"),
        "{said:?}"
    );
    assert!(said
        .out
        .contains("\"address\":\"18446744073709551615\",\"count\":9007199254740992,"));
}

/// Files that are refused at their last command, each for something else.
fn refused_files() -> [Vec<u8>; 7] {
    let stored = || File::new().write(0x1000, b"stored");
    [
        stored().says(0, 1000, &[7; 60]),
        stored().says(9, 8, &[7; 60]),
        stored().says(1, 25, &[7; 60]),
        stored().write(0x1ff0, &[9; 60]),
        stored().fill(0x3000, 5, 6),
        stored().check([2, 1, 3, 4], 0, Some(5)),
        stored(),
    ]
    .map(|file| file.0)
}

/// With other bytes in them, everything that is said stays the same.
#[test]
fn of_blocks_that_are_not_proved_nothing_is_told() {
    let desk = sample::desk();
    for file in refused_files() {
        desk.put("refused", file);
        let said = desk.run("pack refused -o bad --hash sha256 --block 37 --signature 8");
        assert_eq!(said.status, 0, "{said:?}");
        let image = desk.get("bad");
        desk.put("header", &image[..HEADER]);
        for start in (block_start(1)..image.len()).step_by(37) {
            let [zeros, ones] = [0, 0xff].map(|byte| {
                desk.put(
                    "bad",
                    [&image[..start], &vec![byte; image.len() - start]].concat(),
                );
                let load = "load bad --header header --map map";
                [load, "show bad", "show bad --json"].map(|words| {
                    let said = desk.run(words);
                    (said.status, said.out, said.err)
                })
            });
            assert_eq!(zeros, ones, "from byte {start} on");
        }
    }
}
