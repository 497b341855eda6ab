//! tools/commands: each command has the bytes of the second program's builder, and every wrong word is an error.

use second::answer::number;
use second::cases::run_lines::File;
use tool::desk::{repository, Desk, Said};

const SHELLS: [&str; 2] = ["sh", "bash"];
/// Of a file that the folder has.
const BYTES: &[u8] = b"\0\x01\xff\nbytes\n\n";

fn desk() -> Desk {
    let desk = Desk::new();
    desk.put("bytes", BYTES);
    desk.shell("mkdir folder && mkfifo pipe");
    desk
}

/// Runs lines behind '. tools/commands' into `file`, and one more that an error must keep from being reached.
fn lines(desk: &Desk, shell: &str, lines: &str) -> Said {
    let commands = repository().join("tools/commands");
    let source = format!(". '{}'", commands.display());
    let text = format!("{source}\n{{\n{lines}\n}} >file\necho reached\n");
    desk.put("script", text);
    desk.shell(&format!("{shell} ./script"))
}

/// The builder's bytes, but reserved ones are zero: in a header, behind a fill's pattern and a check's register.
fn spelled(file: File) -> Vec<u8> {
    let (mut bytes, mut at) = (file.0, 8);
    while at < bytes.len() {
        let (id, data) = (bytes[at], at + 16);
        let length = number(&bytes[at + 8..data]) as usize;
        bytes[at + 2..at + 8].fill(0);
        if length == 24 && id == 1 || length == 88 && id == 3 {
            bytes[data + 17..data + 24].fill(0);
        }
        at = data + length;
    }
    bytes
}

fn writes(text: &str, file: File) {
    let (desk, expected) = (desk(), spelled(file));
    for shell in SHELLS {
        let said = lines(&desk, shell, &format!("magic\n{text}"));
        assert_eq!(said.out, "reached\n", "{shell}, {text}: {said:?}");
        assert_eq!(desk.get("file"), expected, "{shell}, {text}");
    }
}

#[test]
fn each_command_has_the_builders_bytes() {
    let new = File::new;
    writes("write 4096 'Mill Lane'", new().write(4096, b"Mill Lane"));
    writes("write 1 ''", new().write(1, b""));
    writes("write 0 '-n \\n%s'", new().write(0, b"-n \\n%s"));
    writes("write 0 'a\nb\n'", new().write(0, b"a\nb\n"));
    writes("write 0 'Mühle'", new().write(0, "Mühle".as_bytes()));
    writes("write_file 0x20 bytes", new().write(0x20, BYTES));
    writes("fill 1 0x1000 255", new().fill(1, 0x1000, 255));
    writes("fill 7 0 0", new().fill(7, 0, 0));
    writes("entry 0X10aF", new().entry(0x10af));
    writes("note 'to all'", new().command(60_000, b"to all"));
    writes("note ''", new().command(60_000, b""));
    let raw = "header 61234 2\nnumber 0xfeff 2";
    writes(raw, new().command(61_234, &[0xff, 0xfe]));
}

#[test]
fn numbers_of_64_bits_stay() {
    let (mut text, mut file) = (String::new(), File::new());
    for bit in [0, 7, 8, 31, 32, 52, 62, 63] {
        for address in [(1u64 << bit) - 1, 1 << bit, u64::MAX - (1 << bit)] {
            text += &format!("entry {address}\nentry {address:#x}\n");
            file = file.entry(address).entry(address);
        }
    }
    text += "fill 18446744073709551615 0xffffffffffffffff 1\n";
    file = file.fill(u64::MAX, u64::MAX, 1);
    text += "write 0x0000000000000000ffffffffffffffff x\n";
    writes(&text, file.write(u64::MAX, b"x"));
}

/// The builder's text is 64 bytes of ones; that of the script is the text and zeros.
fn checks(words: [u32; 4], register: u8, text: &str) {
    let mut file = File::new().check(words, register, None);
    let start = file.0.len() - 64;
    file.0[start..].fill(0);
    file.0[start..start + text.len()].copy_from_slice(text.as_bytes());
    let [ecx, eax, value, mask] = words;
    let line = format!("check {eax} {ecx} {register} {mask:#x} {value:#x} '{text}'");
    writes(&line, file);
}

#[test]
fn a_check_has_the_builders_bytes() {
    let top = u32::MAX;
    checks([2, 1, 0x30, 0x31], 0, "SSE and SSE2");
    checks([top, top - 1, top - 2, top - 3], 3, "");
    checks([0, 0, 0, 0], 1, "two\nlines");
    checks([5, 6, 7, 8], 2, &"x".repeat(63));
}

/// The script ends with status 2 at this line, and names the command and the word.
fn refuses(line: &str, word: &str) {
    let desk = desk();
    let command = line.split(' ').next().unwrap();
    for shell in SHELLS {
        let said = lines(&desk, shell, line);
        assert_eq!(said.status, 2, "{shell}, {line}: {said:?}");
        assert_eq!(said.out, "", "{shell}, {line}");
        let begin = format!("commands: {command}");
        assert!(said.err.starts_with(&begin), "{shell}, {line}: {said:?}");
        assert!(said.err.contains(word), "{shell}, {line}: {said:?}");
    }
}

/// What each command takes, with a letter for a number.
const NUMBERS: [&str; 10] = [
    "write A text",
    "write_file A bytes",
    "fill A 1 1",
    "fill 1 A 1",
    "fill 1 1 A",
    "entry A",
    "check A 0 3 1 1 text",
    "check 1 A 3 1 1 text",
    "check 1 0 3 A 1 text",
    "check 1 0 3 1 A text",
];

#[test]
fn what_is_no_number_is_an_error() {
    for line in NUMBERS {
        refuses(&line.replace('A', "ADRESS"), "'ADRESS' is not a number");
        refuses(&line.replace('A', "''"), "'' is not a number");
        refuses(&line.replace('A', "010"), "'010' is not a number");
    }
    for word in [
        "00", "08", "0x", "0x1g", "0b1", "0x-1", "0x0x1", "-1", "+1", "1-1", "1e3", "1.5", "2#1",
        " 1", "1 ", "1\n2", "*", "$((1))",
    ] {
        refuses(&format!("entry '{word}'"), &format!("'{word}' is not a"));
    }
    refuses("number X 4", "'X'");
    refuses("header X 4", "'X'");
}

#[test]
fn a_number_too_wide_for_its_field_is_an_error() {
    for line in NUMBERS {
        for word in ["18446744073709551616", "0x10000000000000001"] {
            refuses(&line.replace('A', word), word);
        }
        if line.starts_with("check") {
            refuses(&line.replace('A', "4294967296"), "4294967296");
        }
    }
    for word in ["256", "0x1ff"] {
        let words = format!("{word} is too large for the 1-byte field");
        refuses(&format!("fill 0 1 {word}"), &words);
    }
    refuses("header 65536 0", "65536");
    refuses("number 65536 2", "65536");
    for bytes in ["0", "9", "X"] {
        refuses(&format!("number 1 {bytes}"), &format!("'{bytes}'"));
    }
}

#[test]
fn other_wrong_words_are_errors() {
    for register in ["4", "255", "-1", "01", "EDX", "''"] {
        refuses(&format!("check 1 0 {register} 1 1 text"), register);
    }
    let text = "x".repeat(64);
    refuses(&format!("check 1 0 3 1 1 {text}"), &text);
    refuses(&format!("check 1 0 3 1 1 {}", "ü".repeat(32)), "64 bytes");
    for file in ["nothing", "folder", "pipe", "''"] {
        refuses(&format!("write_file 0 {file}"), file);
    }
    for line in [
        "magic 1",
        "write 1",
        "write 1 two words",
        "write_file 1",
        "write_file 1 bytes bytes",
        "fill 1 2",
        "fill 1 2 3 4",
        "entry",
        "entry 1 2",
        "check 1 0 3 1 1",
        "check 1 0 3 1 1 two words",
        "note",
        "note two words",
        "header 1",
        "number 1",
    ] {
        refuses(line, "words needed: ");
    }
}

/// A cat behind which the file is longer or shorter.
#[test]
fn a_file_that_changes_its_length_is_an_error() {
    for change in ["echo more >>bytes", "echo >bytes"] {
        let line = format!("cat() {{ command cat \"$@\"; {change}; }}\nwrite_file 0 bytes");
        for shell in SHELLS {
            let said = lines(&desk(), shell, &line);
            assert_eq!(said.status, 2, "{shell}: {said:?}");
            let words = "commands: write_file ADDRESS FILE: the length of bytes changed";
            assert!(said.err.starts_with(words), "{shell}: {said:?}");
        }
    }
}

/// What the shell itself finds: a name that has no value, and an output that takes no bytes.
#[test]
fn the_shells_own_errors_end_the_script() {
    for line in [
        "entry \"$ADRESS\"",
        "entry $(($ADRESS + 1))",
        "write 0 text >/dev/full",
    ] {
        for shell in SHELLS {
            let said = lines(&desk(), shell, line);
            assert!(
                said.status != 0 && said.out.is_empty(),
                "{shell}, {line}: {said:?}"
            );
        }
    }
}
