//! The command line: what is taken, what is refused and in which words, and what the tool tells of itself.

use std::collections::BTreeSet;
use std::fs;
use std::process::Command;
use tool::desk::{repository, tool, Desk, Said};
use tool::json::Value;
use tool::sample;

const USAGE: i32 = 2;

/// Runs the tool with these words, which may be empty or have spaces.
fn run(desk: &Desk, words: &[&str]) -> Said {
    let mut command = Command::new(tool());
    command.args(words);
    desk.start(command)
}

/// Holds what was said to one line on standard error, and the folder to what was in it.
fn bad(desk: &Desk, words: &[&str], line: &str) {
    desk.put("out", "old");
    let before = desk.names();
    let said = run(desk, words);
    assert_eq!(said.err, format!("runnelpin: {line}\n"), "{words:?}");
    assert_eq!((said.status, said.out.as_str()), (USAGE, ""), "{words:?}");
    assert_eq!((desk.names(), desk.get("out")), (before, b"old".to_vec()));
}

fn all_bad(cases: &[(&str, &str)]) {
    let desk = sample::desk();
    for (words, line) in cases {
        bad(&desk, &words.split_whitespace().collect::<Vec<_>>(), line);
    }
}

#[test]
fn what_is_missing_or_too_much() {
    all_bad(&[
        (
            "",
            "the verb is missing; 'runnelpin --help' lists the verbs",
        ),
        ("--json=", "--json takes no value"),
        (
            "-o out",
            "the verb is missing; 'runnelpin --help' lists the verbs",
        ),
        ("pack", "pack: FILE is missing"),
        ("pack file", "pack: -o IMAGE is missing"),
        ("pack file -o", "-o needs a value: IMAGE"),
        (
            "pack file file -o out",
            "pack takes only one FILE; file is one too many",
        ),
        ("pack file -o out -o out", "-o is given twice"),
        (
            "pack file -o out --block 96 --block=96",
            "--block is given twice",
        ),
        (
            "pack file -o out -- -o",
            "pack takes only one FILE; -o is one too many",
        ),
        ("open image -o out", "open: --header FILE is missing"),
        ("load image --header header", "load: --map FILE is missing"),
        ("load image --map map", "load: --header FILE is missing"),
        ("run file", "run: --map FILE is missing"),
        ("header image", "header: -o HEADER is missing"),
        (
            "signature image -o out",
            "signature: --header FILE is missing",
        ),
        ("copy file", "copy: -o COPY is missing"),
        ("show", "show: IMAGE|FILE is missing"),
        ("show --", "show: IMAGE|FILE is missing"),
    ]);
}

#[test]
fn names_that_are_not_known() {
    all_bad(&[
        (
            "unpack file",
            "unknown verb: unpack; 'runnelpin --help' lists the verbs",
        ),
        ("laod image", "unknown verb: laod; did you mean load?"),
        ("sig image", "unknown verb: sig; did you mean signature?"),
        (
            "help unpack",
            "unknown verb: unpack; 'runnelpin --help' lists the verbs",
        ),
        (
            "unpack --help",
            "unknown verb: unpack; 'runnelpin --help' lists the verbs",
        ),
        (
            "help pack open",
            "help takes only one VERB; open is one too many",
        ),
        (
            "pack file -o out --blok 96",
            "unknown option --blok; did you mean --block?",
        ),
        (
            "pack file -o out --blok=96",
            "unknown option --blok; did you mean --block?",
        ),
        (
            "pack file -o out -block 96",
            "unknown option -block; did you mean --block?",
        ),
        (
            "pack file --output=out",
            "unknown option --output; did you mean -o?",
        ),
        (
            "--jsno pack file -o out",
            "unknown option --jsno; did you mean --json?",
        ),
        (
            "pack file -o out --mdoe 64",
            "unknown option --mdoe; 'runnelpin help pack' lists the options of pack",
        ),
        (
            "show -x",
            "unknown option -x; 'runnelpin help show' lists the options of show",
        ),
        ("--quiet", "unknown option --quiet; see 'runnelpin --help'"),
        (
            "pack file -o out --mode 64",
            "--mode is not an option of pack, only of load, run",
        ),
        (
            "show file --hash sha256",
            "--hash is not an option of show, only of pack",
        ),
    ]);
}

#[test]
fn values_that_are_not_taken() {
    let desk = sample::desk();
    for hashes in ["md5", "sha256,", "none,none,none,none,none"] {
        let said = desk.run(&format!("pack file -o out --hash {hashes}"));
        assert!(said.status == USAGE && said.out.is_empty(), "{said:?}");
        let line = format!("runnelpin: --hash {hashes}: give up to four of ");
        assert!(said.err.starts_with(&line), "{said:?}");
    }
    all_bad(&[
        ("pack file -o=out", "-o=out: write -o out"),
        ("pack file -o=", "-o=: write -o IMAGE"),
        ("pack file -o out --json=yes", "--json takes no value"),
        ("pack --help=yes", "--help takes no value"),
        (
            "open image --header= -o out",
            "--header needs a value that is not empty: FILE",
        ),
    ]);
    for (words, line) in [
        (
            ["copy", "file", "-o", ""],
            "-o needs a value that is not empty: COPY",
        ),
        (["copy", "", "-o", "out"], "copy: the name of FILE is empty"),
        (
            ["run", "file", "--map", ""],
            "--map needs a value that is not empty: FILE",
        ),
    ] {
        bad(&desk, &words, line);
    }
}

/// Judged before a file is read.
#[test]
fn modes_are_32_and_64() {
    let desk = sample::desk();
    for mode in [
        "33",
        "0",
        "long",
        "4294967328",
        "0x100000040",
        "18446744073709551615",
    ] {
        for words in ["run nothing", "load nothing --header header"] {
            let words = format!("{words} --map map -o out --mode {mode}");
            let words: Vec<&str> = words.split_whitespace().collect();
            bad(&desk, &words, &format!("--mode {mode}: give 32 or 64"));
        }
    }
    for mode in ["32", "64", "0x20", "064"] {
        let said = desk.run(&format!("run file --map map --cpuid table --mode {mode}"));
        assert_eq!(said.status, 0, "{said:?}");
    }
}

/// Each line does the same as the first.
#[test]
fn options_in_every_form_and_order() {
    let desk = sample::desk();
    let mut images = BTreeSet::new();
    for words in [
        "pack file -o out --hash sha256 --block 96 --signature 8",
        "pack file -o out --hash=sha256 --block=96 --signature=8",
        "pack --signature=8 -oout --hash sha256 --block=0x60 file",
        "pack --block 96 -o out --hash=sha256 --signature 8 -- file",
        "--block 96 -o out pack --hash=sha256 --signature 8 file",
    ] {
        let said = desk.run(words);
        assert_eq!(said.status, 0, "{words}: {said:?}");
        images.insert(desk.get("out"));
        fs::remove_file(desk.path("out")).unwrap();
    }
    assert_eq!(images, BTreeSet::from([desk.get("image")]));
}

#[test]
fn files_that_look_like_options() {
    let desk = sample::desk();
    for name in ["-x", "--json", "--help", "--", "-o", "help", "="] {
        desk.put(name, desk.get("image"));
        let said = run(&desk, &["header", "-o", "header.out", "--", name]);
        assert_eq!(said.status, 0, "{name}: {said:?}");
        assert!(said.out.starts_with("done: a header"), "{name}: {said:?}");
        assert_eq!(desk.get("header.out"), desk.get("header"));
    }
    let said = desk.run("copy -o --json map");
    assert!(
        said.status == 0 && said.out.starts_with("done: "),
        "{said:?}"
    );
    assert_eq!(desk.get("--json"), desk.get("map"));
}

#[test]
fn help_is_an_answer() {
    let desk = sample::desk();
    let told = |words: &str| {
        let said = desk.run(words);
        assert!(said.status == 0 && said.err.is_empty(), "{words}: {said:?}");
        said.out
    };
    let help = told("--help");
    for words in [
        "-h",
        "help",
        "help help",
        "help --help",
        "--help --version",
        "--json --help",
    ] {
        assert_eq!(told(words), help, "{words}");
    }
    let pack = told("help pack");
    assert!(
        pack.starts_with("usage: runnelpin pack FILE -o IMAGE "),
        "{pack}"
    );
    for words in [
        "pack --help",
        "pack -h",
        "--help pack",
        "pack file --blok 5 -o out --help",
    ] {
        assert_eq!(told(words), pack, "{words}");
    }
    assert!(!desk.has("out"));
    for word in ["Exit status: 0 done, 1 refused, 2 ", "runnelpin help VERB"] {
        assert!(help.contains(word), "{help}");
    }
}

#[test]
fn the_version_is_the_headers() {
    let header = fs::read_to_string(repository().join("include/runnelpin.h")).unwrap();
    let (_, rest) = header.split_once("#define RUNNELPIN_VERSION \"").unwrap();
    let (version, _) = rest.split_once('"').unwrap();
    let desk = Desk::new();
    for words in ["--version", "-V", "show --version"] {
        let said = desk.run(words);
        assert_eq!(
            (said.status, said.out),
            (0, format!("runnelpin {version}\n")),
            "{words}"
        );
    }
}

#[test]
fn what_cant_be_told_is_an_error() {
    let desk = sample::desk();
    for words in ["--help", "help pack", "--version", "show image --json"] {
        let said = desk.shell(&format!("runnelpin {words} >/dev/full"));
        let line = "runnelpin: standard output can't be written: No space left on device\n";
        assert_eq!((said.status, said.err.as_str()), (USAGE, line), "{words}");
    }
}

/// One object, with the line that standard error has.
fn in_json(desk: &Desk, words: &str, file: Option<&str>, part: &str) {
    let said = desk.run(words);
    let line = said.err.strip_prefix("runnelpin: ").unwrap().trim_end();
    assert!(
        said.status == USAGE && line.contains(part),
        "{part}: {said:?}"
    );
    let text = |text: &str| Value::Text(text.into());
    let object = [
        ("file", file.map_or(Value::Word("null".into()), text)),
        ("status", Value::Number("2".into())),
        ("error", text(line)),
    ];
    let object = object.map(|(key, value)| (key.to_string(), value));
    assert_eq!(said.json(), Value::Object(object.into()), "{words}");
}

#[test]
fn errors_in_json() {
    let desk = sample::desk();
    for (words, file, line) in [
        ("--json", None, "the verb is missing"),
        ("pack --json", None, "pack: FILE is missing"),
        (
            "pack file --json",
            Some("file"),
            "pack: -o IMAGE is missing",
        ),
        (
            "pack --blok file --json",
            None,
            "unknown option --blok; did you mean --block?",
        ),
        (
            "pack file --blok 5 --json",
            Some("file"),
            "unknown option --blok; did you mean --block?",
        ),
        (
            "--json laod image",
            Some("image"),
            "unknown verb: laod; did you mean load?",
        ),
        (
            "help laod --json",
            None,
            "unknown verb: laod; did you mean load?",
        ),
        (
            "run file --json --map map --mode 33",
            Some("file"),
            "--mode 33: give 32 or 64",
        ),
        ("pack file --json -o out --block x", Some("file"), "--block"),
        ("show --json -- --json", Some("--json"), "--json: "),
        (
            "open image --header none -o out --json",
            Some("image"),
            "none: ",
        ),
        (
            "header image -o /dev/full --json",
            Some("image"),
            "/dev/full: ",
        ),
    ] {
        in_json(&desk, words, file, line);
    }
    for words in [
        "show -- --json",
        "pack file -o --json --hash x",
        "show nothing",
    ] {
        let said = desk.run(words);
        assert_eq!((said.status, said.out.as_str()), (USAGE, ""), "{words}");
    }
}
