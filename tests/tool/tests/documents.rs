//! The documents have what the tool has.

use second::sha2;
use std::collections::BTreeSet;
use std::fs;
use std::process::Command;
use tool::desk::{repository, Desk};
use tool::sample;

fn document(name: &str) -> String {
    fs::read_to_string(repository().join(name)).unwrap()
}

/// The numbers that begin a row between these marks, from a heading on.
fn rows(name: &str, heading: &str, marks: [&str; 2]) -> Vec<u64> {
    let text = document(name);
    let (_, text) = text.split_once(heading).unwrap();
    let number = |line: &str| {
        let (number, _) = line.strip_prefix(marks[0])?.split_once(marks[1])?;
        number.parse().ok()
    };
    text.lines().filter_map(number).collect()
}

#[test]
fn every_code_is_in_each_table_of_answers() {
    let codes: Vec<u64> = (0..30).collect();
    assert_eq!(rows("README.md", "\n## The answers\n", ["| ", " |"]), codes);
    assert_eq!(
        rows("docs/FORMAT.md", "\n## Answers\n", ["| ", " |"]),
        codes
    );
    let page = rows(
        "docs/runnelpin.1",
        "\n.SH ANSWERS\n",
        [".IP \\fB", "\\fR 5"],
    );
    assert_eq!(
        page,
        codes[..29],
        "the tool makes outputs of the exact length"
    );
}

/// The first words of a help's lines that begin so, each without a comma.
fn named(help: &str, start: &str) -> Vec<String> {
    let lines = help.lines().filter(|line| line.starts_with(start));
    let name = |line: &str| {
        let name = line.split_whitespace().find(|word| !word.ends_with(','));
        name.unwrap().to_string()
    };
    lines.map(name).collect()
}

/// The verbs, and of each its usage and options, as the tool's help has them.
fn verbs() -> Vec<(String, String, Vec<String>)> {
    let desk = Desk::new();
    let verb = |name: String| {
        let help = desk.run(&format!("help {name}")).out;
        let (usage, _) = help
            .strip_prefix("usage: ")
            .unwrap()
            .split_once("\n\n")
            .unwrap();
        let options = named(&help, "  -");
        assert!(options.len() > 1, "{help}");
        (name, spaced(usage), options)
    };
    let names = named(&desk.run("--help").out, "  ");
    assert_eq!(names.len(), 8, "{names:?}");
    names.into_iter().map(verb).collect()
}

/// With one space between words.
fn spaced(text: &str) -> String {
    text.split_whitespace().collect::<Vec<_>>().join(" ")
}

/// A section of the man page, without its changes of font.
fn section(name: &str) -> String {
    let page = document("docs/runnelpin.1");
    let (_, text) = page.split_once(&format!("\n.SH {name}\n")).unwrap();
    let (text, _) = text.split_once("\n.SH ").unwrap();
    let fonts = ["\\fB", "\\fI", "\\fR"].iter();
    let text = fonts.fold(text.to_string(), |text, font| text.replace(font, ""));
    text.replace("\\-", "-")
}

/// The words behind each .TP of a section.
fn tags(name: &str) -> BTreeSet<String> {
    let text = section(name);
    let lines = text.split(".TP\n").skip(1);
    let tag = |text: &str| {
        let line = text.lines().next().unwrap().replace(['"', ','], " ");
        let mut words = line
            .split_whitespace()
            .filter(|word| !word.starts_with('.'));
        let first = words.next().unwrap().to_string();
        words
            .find(|word| word.starts_with("--"))
            .map_or(first, str::to_string)
    };
    lines.map(tag).collect()
}

#[test]
fn the_man_page_has_the_verbs_and_options_of_the_help() {
    let verbs = verbs();
    let mut usages: Vec<&str> = verbs.iter().map(|verb| verb.1.as_str()).collect();
    usages.extend(["runnelpin help [VERB]", "runnelpin --version"]);
    let synopsis = section("SYNOPSIS");
    let synopsis = spaced(synopsis.trim_start_matches(".nf").trim_end_matches(".fi"));
    assert_eq!(synopsis, usages.join(" "));
    let mut names: BTreeSet<String> = verbs.iter().map(|verb| verb.0.clone()).collect();
    names.insert("help".into());
    assert_eq!(tags("VERBS"), names);
    let mut options: BTreeSet<String> = verbs.into_iter().flat_map(|verb| verb.2).collect();
    options.insert("--version".into());
    assert_eq!(tags("OPTIONS"), options);
}

/// What bash offers for the last of these words.
fn offered(desk: &Desk, words: &[&str]) -> BTreeSet<String> {
    let script = repository().join("completion/runnelpin.bash");
    let line = "source \"$1\"; shift; COMP_WORDS=(\"$@\") COMP_CWORD=$(($# - 1)); _runnelpin; \
                for each in \"${COMPREPLY[@]}\"; do printf '%s\\n' \"$each\"; done";
    let mut command = Command::new("bash");
    command
        .args(["--norc", "-c", line, "bash"])
        .arg(script)
        .arg("runnelpin")
        .args(words);
    let said = desk.start(command);
    assert!(said.status == 0 && said.err.is_empty(), "{said:?}");
    said.out.lines().map(str::to_string).collect()
}

fn set(words: &str) -> BTreeSet<String> {
    words.split_whitespace().map(str::to_string).collect()
}

#[test]
fn bash_completes_the_verbs_and_options_of_the_help() {
    let desk = Desk::new();
    let mut names = BTreeSet::new();
    for (verb, _, options) in verbs() {
        assert_eq!(
            offered(&desk, &[&verb, "file", "-"]),
            options.into_iter().collect(),
            "{verb}"
        );
        names.insert(verb);
    }
    assert_eq!(offered(&desk, &["help", ""]), names);
    names.insert("help".into());
    assert_eq!(offered(&desk, &[""]), names);
    assert_eq!(offered(&desk, &["--json", ""]), names);
    assert_eq!(offered(&desk, &["-"]), set("--help --version"));
    assert_eq!(offered(&desk, &["pack", "--s"]), set("--signature"));
}

/// Where nothing is offered bash takes files, by `-o default`.
#[test]
fn bash_completes_values() {
    let desk = Desk::new();
    desk.put("home", "");
    desk.put("table two", "");
    for (words, values) in [
        (&["pack", "--hash", ""][..], "sha256 sha384 sha512"),
        (&["pack", "--hash", "=", "sha3"], "sha384"),
        (&["pack", "--hash", "="], "sha256 sha384 sha512"),
        (&["pack", "--hash", "sha256,n"], "sha256,none"),
        (&["load", "--mode", ""], "32 64"),
        (&["load", "--cpuid", "ho"], "home host"),
        (&["load", "--cpuid", "t"], ""),
        (&["load", "--map", ""], ""),
        (&["pack", "-o", ""], ""),
        (&["pack", ""], ""),
        (&["pack", "--", "-"], ""),
    ] {
        assert_eq!(offered(&desk, words), set(values), "{words:?}");
    }
    assert!(offered(&desk, &["run", "--cpuid", ""]).contains("table two"));
    assert!(document("completion/runnelpin.bash")
        .ends_with("\ncomplete -o default -F _runnelpin runnelpin\n"));
    let hashes = offered(&desk, &["pack", "--hash", "sha256,"]);
    for value in hashes {
        desk.put("file", "x");
        let said = desk.run(&format!("pack file -o out --hash {value}"));
        assert_eq!(said.status, 0, "{said:?}");
    }
}

/// The sample under the names that help and page use.
fn desk_of_examples() -> Desk {
    let desk = sample::desk();
    for (name, like) in [
        ("route.csl", "file"),
        ("route.sbs", "image"),
        ("approved", "header"),
        ("unit.map", "map"),
    ] {
        desk.put(name, desk.get(like));
    }
    fs::create_dir(desk.path("outbox")).unwrap();
    desk
}

#[test]
fn help_fits_a_terminal_and_its_examples_are_good() {
    let desk = desk_of_examples();
    let too_wide = |help: &str| help.lines().any(|line| line.len() > 80);
    assert!(!too_wide(&desk.run("--help").out));
    for (verb, ..) in verbs() {
        let help = desk.run(&format!("help {verb}")).out;
        assert!(!too_wide(&help), "{help}");
        let (_, example) = help.split_once("\nExample:\n  runnelpin ").unwrap();
        assert!(example.starts_with(&format!("{verb} ")), "{example}");
        let said = desk.run(example);
        assert_ne!(said.status, 2, "{example}: {said:?}");
    }
}

/// Each in turn, but for pipes. Signature field and header are taken from an image that nobody has approved yet.
#[test]
fn the_man_pages_examples_are_good() {
    let desk = desk_of_examples();
    let page = document("docs/runnelpin.1");
    let (_, page) = page.split_once("\n.SH DESCRIPTION\n").unwrap();
    let page = page.replace("\\e\n", "").replace("\\-", "-");
    let is_example = |line: &&str| line.starts_with("runnelpin ") && !line.contains('|');
    let examples: Vec<&str> = page.lines().filter(is_example).collect();
    for line in &examples {
        let said = desk.shell(line);
        assert_ne!(said.status, 2, "{line}: {said:?}");
    }
    let signature = examples.windows(2).any(|lines| {
        lines[0] == "runnelpin header route.sbs -o header"
            && lines[1] == "runnelpin signature route.sbs --header header -o field"
    });
    assert!(signature, "{examples:?}");
    assert_eq!(desk.get("field").len(), sample::SIGNATURE);
}

fn hex(bytes: &[u8]) -> String {
    bytes.iter().map(|byte| format!("{byte:02x}")).collect()
}

/// The format's packed examples: root hash, and SHA2-256 of the whole image.
#[test]
fn the_formats_images_are_those_that_pack_makes() {
    let (desk, format) = (Desk::new(), document("docs/FORMAT.md"));
    for length in [61, 65] {
        desk.put("file", (0..length).collect::<Vec<u8>>());
        desk.run("pack file -o image --hash sha256 --block 96 --signature 8");
        let image = desk.get("image");
        for shown in [hex(&image[36..68]), hex(&sha2::digest(2, &image))] {
            assert!(format.contains(&format!("\n    {shown}\n")), "{shown}");
        }
    }
}

/// The format's command file, read from its lines of hexadecimal bytes.
#[test]
fn the_formats_commands_run() {
    let format = document("docs/FORMAT.md");
    let (_, text) = format.split_once("\n    5e b6 ").unwrap();
    let (text, _) = text.split_once("\n\n").unwrap();
    let bytes = format!("    5e b6 {text}")
        .lines()
        .flat_map(|line| line[..52].split_whitespace())
        .map(|byte| u8::from_str_radix(byte, 16).unwrap())
        .collect::<Vec<u8>>();
    let desk = sample::desk();
    desk.put("file", bytes);
    let said = desk.run("run file --map map -o memory");
    let done = "done: 2 commands, 4 bytes stored, entry 0x100010\n";
    assert_eq!(said.out, done, "{said:?}");
    assert_eq!(&desk.get("memory")[0xff0..0xff4], b"word");
}
