//! The tool's verbs with the types of the library's calls, so that the cases of the second program
//! can be run on it. What no command line can ask for is left to the second program: an answer
//! record or an output of another length, records that aren't whole, a mode other than 32 and 64,
//! hashes without a name. So are megabytes.

use crate::desk::{Desk, Said};
use crate::json::Value;
use second::answer::{number, Answer, RECORD};
use second::{load, machine, sbs};

const MOST: usize = 1 << 20;

/// Lines of the numbers in records, hexadecimal and decimal in turn.
pub fn list(bytes: &[u8], numbers: usize, width: usize) -> String {
    let mut text = "# made by a test\n\n".to_string();
    for record in bytes.chunks_exact(numbers * width) {
        let words = record.chunks_exact(width).map(number).enumerate();
        let word = |(i, n)| match i % 2 {
            0 => format!("{n:#x}"),
            _ => format!("{n}"),
        };
        text += &(words.map(word).collect::<Vec<_>>().join(" \t") + " # \r\n");
    }
    text
}

/// Fills the record from the tool's JSON, and holds what else it says to it.
fn take_answer(said: &Said, answer: &mut [u8]) -> u64 {
    let json = said.json();
    let get = |key: &str| json[key].number();
    let answer = Answer {
        code: get("code"),
        place: get("place"),
        commands: get("commands"),
        stored: get("stored"),
        entry: get("entry"),
    }
    .write(answer);
    check_refusal(said, answer, &json);
    answer
}

/// The exit status, the words, and the line on standard error.
fn check_refusal(said: &Said, code: u64, json: &Value) {
    let words = json["words"].text();
    assert_eq!(said.status, i32::from(code != 0), "{said:?}");
    if code == 0 {
        assert!(
            words.starts_with("done: ") && said.err.is_empty(),
            "{said:?}"
        );
    } else {
        assert!(words.starts_with(&format!("refused: {code}, ")), "{said:?}");
        assert!(said.err.ends_with(&format!("{words}\n")), "{said:?}");
        assert_eq!(said.err.lines().count(), 1, "{said:?}");
    }
}

fn board(desk: &Desk, map: &[u8], cpuid: &[u8], mode: u64, memory: &[u8]) -> String {
    desk.put("map", list(map, 2, 8));
    desk.put("table", list(cpuid, 6, 4));
    desk.put("memory", memory);
    format!("--map map --cpuid table --mode {mode} --memory memory --partial --json -o after")
}

fn can_be_asked(
    input: &[u8],
    map: &[u8],
    cpuid: &[u8],
    mode: u64,
    memory: &[u8],
    answer: &[u8],
) -> bool {
    let is_whole = |bytes: &[u8], record| bytes.chunks_exact(record).remainder().is_empty();
    let are_whole = is_whole(map, 16) && is_whole(cpuid, 24) && answer.len() == RECORD;
    are_whole && [32, 64].contains(&mode) && input.len().max(memory.len()) <= MOST
}

fn take_output(desk: &Desk, name: &str, output: &mut [u8]) {
    if desk.has(name) {
        let bytes = desk.get(name);
        output[..bytes.len()].copy_from_slice(&bytes);
    }
}

pub fn run(
    file: &[u8],
    map: &[u8],
    cpuid: &[u8],
    mode: u64,
    memory: &mut [u8],
    answer: &mut [u8],
) -> u64 {
    if !can_be_asked(file, map, cpuid, mode, memory, answer) {
        return machine::run(file, map, cpuid, mode, memory, answer);
    }
    let desk = Desk::new();
    desk.put("file", file);
    let board = board(&desk, map, cpuid, mode, memory);
    let said = desk.run(&format!("run file {board}"));
    take_output(&desk, "after", memory);
    take_answer(&said, answer)
}

#[allow(clippy::too_many_arguments)] // these are the call's
pub fn load(
    image: &[u8],
    header: &[u8],
    map: &[u8],
    cpuid: &[u8],
    mode: u64,
    signature_length: u64,
    memory: &mut [u8],
    answer: &mut [u8],
) -> u64 {
    if !can_be_asked(image, map, cpuid, mode, memory, answer) {
        return load::load(
            image,
            header,
            map,
            cpuid,
            mode,
            signature_length,
            memory,
            answer,
        );
    }
    let desk = Desk::new();
    desk.put("image", image);
    desk.put("header", header);
    let board = board(&desk, map, cpuid, mode, memory);
    let said = desk.run(&format!(
        "load image --header header --signature {signature_length} {board}"
    ));
    take_output(&desk, "after", memory);
    take_answer(&said, answer)
}

pub fn open(
    image: &[u8],
    header: &[u8],
    signature_length: u64,
    output: &mut [u8],
    answer: &mut [u8],
) -> u64 {
    let mut record = [0; RECORD];
    let is_exact = sbs::open(
        image,
        header,
        signature_length,
        &mut output.to_vec(),
        &mut record,
    ) != 29;
    if answer.len() != RECORD || image.len() > MOST || !is_exact {
        return sbs::open(image, header, signature_length, output, answer);
    }
    let desk = Desk::new();
    desk.put("image", image);
    desk.put("header", header);
    let said = desk.run(&format!(
        "open image --header header --signature {signature_length} --partial --json -o file"
    ));
    take_output(&desk, "file", output);
    take_answer(&said, answer)
}

pub fn pack(
    file: &[u8],
    ids: [u64; 4],
    block_size: u64,
    signature_length: u64,
    output: &mut [u8],
) -> u64 {
    let names = ids.map(|id| match id {
        0 => "none",
        2 => "sha256",
        3 => "sha384",
        4 => "sha512",
        _ => "",
    });
    let is_exact = sbs::pack(
        file,
        ids,
        block_size,
        signature_length,
        &mut output.to_vec(),
    ) != 29;
    if names.contains(&"") || file.len() > MOST || !is_exact {
        return sbs::pack(file, ids, block_size, signature_length, output);
    }
    let desk = Desk::new();
    desk.put("file", file);
    let said = desk.run(&format!(
        "pack file --hash {} --block {block_size} --signature {signature_length} --json -o image",
        names.join(",")
    ));
    take_output(&desk, "image", output);
    take_answer(&said, &mut [0; RECORD])
}

/// The field's start is the header's length: the tool gives out its bytes alone.
pub fn signature(image: &[u8], header: &[u8], signature_length: u64) -> (u64, u64) {
    if image.len() > MOST {
        return sbs::signature(image, header, signature_length);
    }
    let desk = Desk::new();
    desk.put("image", image);
    desk.put("header", header);
    let said = desk.run(&format!(
        "signature image --header header --signature {signature_length} --json -o field"
    ));
    if take_answer(&said, &mut [0; RECORD]) != 0 {
        assert!(!desk.has("field"), "{said:?}");
        return (0, 0);
    }
    let field = desk.get("field");
    assert_eq!(field, image[header.len()..header.len() + field.len()]);
    (header.len() as u64, field.len() as u64)
}
