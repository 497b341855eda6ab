//! Bad input of every kind: one clear line on standard error, the exit status, and
//! no output, old or new, touched.

use std::fs;
use std::os::unix::fs::{symlink, PermissionsExt};
use std::process::Command;
use tool::desk::{self, Desk, Said};
use tool::sample;

const USAGE: i32 = 2;
const REFUSED: i32 = 1;

/// Holds what was said to the status and to a part of its one line.
fn one_line(said: &Said, status: i32, part: &str) {
    assert_eq!(said.status, status, "{part}: {said:?}");
    assert_eq!(said.err.lines().count(), 1, "{part}: {said:?}");
    assert!(said.err.starts_with("runnelpin: "), "{said:?}");
    assert!(said.err.contains(part), "{part}: {said:?}");
    assert_eq!(said.out.is_empty(), status == USAGE, "{said:?}");
}

/// Runs the words in the sample's folder, where `out` is an old output.
fn bad(desk: &Desk, words: &str, status: i32, part: &str) {
    desk.put("out", "old");
    let before = desk.names();
    one_line(&desk.run(words), status, part);
    assert_eq!((desk.names(), desk.get("out")), (before, b"old".to_vec()));
}

#[test]
fn numbers() {
    let desk = sample::desk();
    for number in [
        "-1",
        "+1",
        "1x",
        "0x",
        "x1",
        "0X",
        "0xX1",
        "1e3",
        "0b1",
        "1.",
        "18446744073709551616",
        "0x10000000000000000",
        "99999999999999999999999",
        "0xg",
        "1,000",
    ] {
        let part = format!("{number} is not a 64-bit number");
        bad(
            &desk,
            &format!("pack file -o out --block {number}"),
            USAGE,
            &part,
        );
        bad(
            &desk,
            &format!("run file --map map -o out --mode {number}"),
            USAGE,
            &format!("--mode {number}: give 32 or 64"),
        );
        let part = format!("line 2: \"{number}\" is not a 64-bit number");
        desk.put("list", format!("0x1000 4096\n{number} 1\n"));
        bad(&desk, "run file --map list -o out", USAGE, &part);
    }
    for number in [
        "18446744073709551615",
        "0xffffFFFFffffffff",
        "0XffffFFFFffffffff",
        "0",
        "00096",
    ] {
        let said = desk.run(&format!("pack file -o out --signature {number}"));
        assert_ne!(said.status, USAGE, "{said:?}");
    }
}

#[test]
fn lists() {
    let desk = sample::desk();
    for (text, part) in [
        (
            "0x1000 4096 1\n",
            "runnelpin: list, line 1: 3 numbers, but a region has 2: base and length",
        ),
        ("# map\n\n0x1000\n", "line 3: 1 number, but a region has 2"),
        ("0x1000 # 4096\n", "line 1: 1 number,"),
        ("0x1000 4096 4096 4096 4096", "line 1: 5 numbers,"),
        ("0x1000 4096\n\0 1\n", "line 2: \"\\x00\" is not"),
        ("0x1000,4096\n", "line 1: \"0x1000,4096\" is not"),
        ("\x1b[31m 1\n", "line 1: \"\\x1b[31m\" is not"),
    ] {
        desk.put("list", text);
        bad(&desk, "run file --map list -o out", USAGE, part);
    }
    for (text, part) in [
        ("1 2 3 4 5\n", "line 1: 5 numbers, but a CPUID record has 6"),
        ("1 2 3 4 5 6 7\n", "line 1: 7 numbers"),
        (
            "1 2 3 4 5 0x100000000\n",
            "\"0x100000000\" is not a 32-bit number",
        ),
    ] {
        desk.put("list", text);
        bad(&desk, "run file --map map --cpuid list -o out", USAGE, part);
    }
    desk.put("list", vec![b'#'; (1 << 20) + 1]);
    bad(
        &desk,
        "run file --map list -o out",
        USAGE,
        "over 1048576 bytes",
    );
    desk.put(
        "list",
        "\t0x1000   4096 # with a comment\r\n# 1 2 3\n  0x100000\t8192#",
    );
    assert_eq!(desk.run("run file --map list --cpuid table").status, 0);
}

/// Each file that a verb reads.
const READS: [&str; 11] = [
    "pack ? -o out",
    "open ? --header header -o out",
    "open image --header ? -o out",
    "header ? -o out",
    "signature ? --header header -o out",
    "load ? --header header --map map -o out",
    "load image --header ? --map map -o out",
    "load image --header header --map ? -o out",
    "run file --map map --cpuid ? -o out",
    "run file --map map --cpuid table --memory ? -o out",
    "show ?",
];

#[test]
fn missing_files_and_directories() {
    let desk = sample::desk();
    fs::create_dir(desk.path("folder")).unwrap();
    for words in READS {
        for (name, reason) in [
            ("nothing", "No such file or directory"),
            ("file/x", "Not a directory"),
            ("folder", "Is a directory"),
        ] {
            let part = format!("{name}: can't be read: {reason}");
            bad(&desk, &words.replace('?', name), USAGE, &part);
        }
    }
}

/// One line also where a name has several.
#[test]
fn names_that_dont_print() {
    let desk = sample::desk();
    let line = "runnelpin pack \"$(printf 'no\\nfile\\033[31m')\" -o out";
    one_line(&desk.shell(line), USAGE, ": no?file?[31m: can't be read: ");
    let line = "cp map \"$(printf 'a\\nb')\"; runnelpin show \"$(printf 'a\\nb')\"";
    one_line(&desk.shell(line), REFUSED, ": a?b: refused: 16, ");
}

#[test]
fn empty_files() {
    let desk = sample::desk();
    desk.put("empty", "");
    let codes = [28, 4, 4, 4, 4, 4, 4, 2, 23, 2, 16];
    for (words, code) in READS.into_iter().zip(codes) {
        let part = format!("refused: {code}, ");
        bad(&desk, &words.replace('?', "empty"), REFUSED, &part);
    }
}

#[test]
fn headers_of_one_byte_and_images_cut_short() {
    let desk = sample::desk();
    let image = desk.get("image");
    desk.put("one", &image[..1]);
    let part = "refused: 4, approved header: one has 1 byte, but a header has at least 36; ";
    for words in [
        "open image --header one -o out",
        "signature image --header one -o out",
        "load image --header one --map map -o out",
    ] {
        bad(&desk, words, REFUSED, part);
    }
    bad(&desk, "header one -o out", REFUSED, "refused: 4, ");
    bad(&desk, "show one", REFUSED, "refused: 16, ");
    desk.put("cut", &image[..image.len() - 1]);
    let part = format!(
        "refused: 12, image length: it is 1 byte too short: {} instead of {}",
        image.len() - 1,
        image.len()
    );
    for words in [
        "open cut --header header -o out --partial",
        "header cut -o out",
        "signature cut --header header -o out",
        "load cut --header header --map map -o out --partial",
        "show cut",
    ] {
        bad(&desk, words, REFUSED, &part);
    }
}

#[test]
fn outputs_that_cant_be_made() {
    let desk = sample::desk();
    fs::create_dir(desk.path("folder")).unwrap();
    symlink("nothing", desk.path("link")).unwrap();
    for (name, reason) in [
        ("folder", "can't be written: Is a directory"),
        (
            "link",
            "can't be written: it is a link to a file that does not exist",
        ),
        (
            "nothing/out",
            "can't create a file in its folder: No such file or directory",
        ),
        ("file/out", "can't be written: Not a directory"),
        ("/dev/full", "can't be written: No space left on device"),
    ] {
        let part = format!("{name}: {reason}");
        bad(&desk, &format!("header image -o {name}"), USAGE, &part);
        bad(
            &desk,
            &format!("run file --map map --cpuid table -o {name}"),
            USAGE,
            &part,
        );
    }
}

/// What a full disk does: no write gets past the limit.
#[test]
fn a_full_disk_leaves_nothing() {
    let desk = sample::desk();
    desk.put("out", "old");
    let before = desk.names();
    for words in ["pack file -o out", "pack file -o new"] {
        let said = desk.shell(&format!("ulimit -f 8; runnelpin {words}"));
        one_line(&said, USAGE, "can't be written: File too large");
        assert_eq!(
            (desk.names(), desk.get("out")),
            (before.clone(), b"old".to_vec())
        );
    }
    let said = desk.shell("runnelpin run file --map map >/dev/full");
    one_line(&said, USAGE, "standard output can't be written");
}

/// Runs the folder's own copy of the tool as a user who has no right to what isn't everybody's.
fn as_nobody(desk: &Desk, words: &str) -> Said {
    let mut command = Command::new("./runnelpin");
    if desk.shell("id -u").out == "0\n" {
        command = Command::new("setpriv");
        command.args([
            "--reuid=65534",
            "--regid=65534",
            "--clear-groups",
            "./runnelpin",
        ]);
    }
    command.args(words.split_whitespace());
    desk.start(command)
}

#[test]
fn no_permission() {
    let desk = sample::desk();
    let allow = |name: &str, mode| {
        fs::set_permissions(desk.path(name), fs::Permissions::from_mode(mode)).unwrap();
    };
    fs::copy(desk::tool(), desk.path("runnelpin")).unwrap();
    desk.put("secret", desk.get("image"));
    fs::create_dir(desk.path("open")).unwrap();
    desk.put("open/fixed", "old");
    allow("open", 0o777);
    allow("open/fixed", 0o444);
    allow("secret", 0o000);
    allow("", 0o555);
    let said = as_nobody(&desk, "header image -o open/part");
    assert_eq!(said.status, 0, "{said:?}");
    let denied = |words, part| one_line(&as_nobody(&desk, words), USAGE, part);
    denied(
        "header secret -o open/x",
        "secret: can't be read: Permission denied",
    );
    denied(
        "header image -o new",
        "new: can't create a file in its folder: Permission denied",
    );
    denied(
        "header image -o open/fixed",
        "open/fixed: can't be written: Permission denied",
    );
    assert_eq!(desk.get("open/fixed"), b"old");
    allow("", 0o755);
}
