//! Where a result goes and where the answer goes then, what is left when the tool is ended, and `-`.

use second::cases::run_lines::File;
use std::io::{Read, Write};
use std::os::fd::OwnedFd;
use std::os::unix::fs::{symlink, MetadataExt};
use std::os::unix::net::UnixStream;
use std::os::unix::process::ExitStatusExt;
use std::process::{Child, Command, Stdio};
use std::time::Duration;
use std::{fs, thread};
use tool::desk::{self, Desk, Said};
use tool::json::Value;
use tool::sample;

/// Every name of standard output.
const OUT: [&str; 4] = ["/dev/stdout", "/dev/fd/1", "/proc/self/fd/1", "-"];

const ANSWER: &str =
    "done: a header of 68 bytes\nthis is the image's own header, not an approved one\n";

/// A refusal that writes nothing, with room for the output.
const REFUSED: &str = "open image --header table -o";

fn ok(said: &Said) {
    assert_eq!(said.status, 0, "{said:?}");
}

#[test]
fn standard_output_is_appended_to_and_used_twice() {
    let desk = sample::desk();
    let header = desk.get("header");
    for name in OUT.into_iter().chain(["log"]) {
        desk.put("log", "old\n");
        let line = format!("runnelpin header image -o {name} >>log");
        let said = desk.shell(&format!("{line} && {line}"));
        ok(&said);
        assert_eq!(
            desk.get("log"),
            [b"old\n", &header[..], &header].concat(),
            "{name}"
        );
        assert_eq!(said.err, ANSWER.repeat(2), "{name}");
    }
    for name in OUT {
        let line = format!("runnelpin header image -o {name}");
        let said = desk.shell(&format!("({line}; {line}) >both"));
        ok(&said);
        assert_eq!(desk.get("both"), header.repeat(2), "{name}");
    }
}

#[test]
fn a_pipe_and_a_socket_get_the_result_alone() {
    let desk = sample::desk();
    for name in OUT {
        for words in [
            format!("header image -o {name}"),
            format!("header - -o {name} --json <image"),
        ] {
            let said = desk.shell(&format!("runnelpin {words} | cat >copied"));
            ok(&said);
            assert_eq!(desk.get("copied"), desk.get("header"), "{words}");
        }
        let (mut ours, theirs) = UnixStream::pair().unwrap();
        let mut command = Command::new(desk::tool());
        command.args(["header", "image", "-o", name]);
        command.current_dir(desk.path(""));
        command.stdout(OwnedFd::from(theirs)).stderr(Stdio::null());
        assert!(command.status().unwrap().success(), "{name}");
        drop(command);
        let mut got = Vec::new();
        ours.read_to_end(&mut got).unwrap();
        assert_eq!(got, desk.get("header"), "{name}");
    }
}

/// Both ends may have been set by others not to wait; then the tool waits by itself.
#[test]
fn standard_files_that_dont_wait_are_waited_for() {
    let desk = sample::desk();
    let large: Vec<u8> = (0..1u32 << 20).map(|i| (i % 251) as u8).collect();
    let (mut to, input) = UnixStream::pair().unwrap();
    let (mut from, output) = UnixStream::pair().unwrap();
    input.set_nonblocking(true).unwrap();
    output.set_nonblocking(true).unwrap();
    let mut command = Command::new(desk::tool());
    command
        .args(["copy", "-", "-o", "-"])
        .current_dir(desk.path(""));
    command.stdin(OwnedFd::from(input));
    command.stdout(OwnedFd::from(output)).stderr(Stdio::null());
    let mut child = command.spawn().unwrap();
    drop(command);
    let sent = large.clone();
    let writer = thread::spawn(move || to.write_all(&sent).is_ok());
    let mut got = Vec::new();
    from.read_to_end(&mut got).unwrap();
    assert!(child.wait().unwrap().success());
    assert!(writer.join().unwrap() && got == large);
}

#[test]
fn with_the_result_on_standard_output_the_answer_is_said_once_on_the_other() {
    let desk = sample::desk();
    for name in OUT {
        for result in ["| cat", ">result; cat result"] {
            let said = desk.shell(&format!("runnelpin {REFUSED} {name} {result}"));
            assert_eq!(said.out, "", "{name}");
            assert_eq!(said.err.matches("refused: 4, ").count(), 1, "{said:?}");
            let said = desk.shell(&format!("runnelpin {REFUSED} {name} --json {result}"));
            let json = Value::read(&said.err).unwrap_or_else(|| panic!("{said:?}"));
            assert_eq!((json["code"].number(), said.out.as_str()), (4, ""));
        }
    }
}

/// Whatever is wrong with the command line, and wherever in it.
#[test]
fn with_the_result_on_standard_output_usage_errors_are_said_on_the_other() {
    let desk = sample::desk();
    for words in [
        "copy --blok map -o -",
        "copy map -o- --mode 32",
        "run file -o - --map map --mode 5",
    ] {
        let said = desk.run(&format!("{words} --json"));
        assert_eq!((said.status, said.out.as_str()), (2, ""), "{said:?}");
        let json = Value::read(&said.err).unwrap_or_else(|| panic!("{said:?}"));
        assert_eq!(json["status"].number(), 2);
    }
    assert!(desk.run("pack -o - --help").out.starts_with("usage: "));
}

#[test]
fn a_result_on_standard_error_stands_there_alone() {
    let desk = sample::desk();
    let header = desk.get("header");
    for name in ["/dev/stderr", "/dev/fd/2", "log"] {
        desk.put("log", "old\n");
        let said = desk.shell(&format!("runnelpin header image -o {name} 2>>log"));
        ok(&said);
        assert_eq!(said.out, ANSWER);
        assert_eq!(desk.get("log"), [b"old\n", &header[..]].concat(), "{name}");
        for json in ["", "--json"] {
            let said = desk.shell(&format!("runnelpin {REFUSED} {name} {json} 2>>log"));
            assert!(said.out.contains("refused: 4, "), "{said:?}");
            assert_eq!(desk.get("log").len(), 4 + header.len(), "{name}");
        }
    }
    for name in ["/dev/stdout", "/dev/stderr", "-", "both"] {
        let said = desk.shell(&format!(
            ": >both; runnelpin header image -o {name} >>both 2>&1"
        ));
        ok(&said);
        let both = [&header, ANSWER.as_bytes()].concat();
        assert_eq!(desk.get("both"), both, "{name}");
    }
}

#[test]
fn a_device_that_is_no_terminal_moves_nothing() {
    let desk = sample::desk();
    for line in [
        "runnelpin header image -o /dev/null >/dev/null",
        "runnelpin header image -o /dev/stdout >/dev/null",
    ] {
        let said = desk.shell(line);
        ok(&said);
        assert_eq!(said.err, "");
    }
    let said = desk.shell("runnelpin header image -o /dev/null 2>/dev/null");
    assert_eq!((said.status, said.out.as_str()), (0, ANSWER));
}

/// A terminal takes the result too, and shows the answer behind it.
#[test]
fn a_terminal_is_standard_output_too() {
    let desk = sample::desk();
    desk.put("text", "plain text");
    for name in OUT {
        let line = format!("{} copy text -o {name}", desk::tool().display());
        let said = desk.shell(&format!("script -qec '{line}' /dev/null"));
        let shown = "plain textdone: 10 bytes copied\r\n";
        assert_eq!((said.status, said.out.as_str()), (0, shown), "{name}");
    }
}

#[test]
fn a_dash_is_standard_input() {
    let desk = sample::desk();
    desk.put("memory", vec![7; 12_288]);
    let run = "--cpuid table -o out";
    for (words, name) in [
        ("pack - -o out".to_string(), "file"),
        ("open - --header header -o out".to_string(), "image"),
        ("open image --header - -o out".to_string(), "header"),
        (format!("run - --map map {run}"), "file"),
        (format!("run file --map - {run}"), "map"),
        ("run file --map map --cpuid -".to_string(), "table"),
        (format!("run file --map map --memory - {run}"), "memory"),
        ("show -".to_string(), "file"),
    ] {
        for line in [
            format!("runnelpin {words} <{name}"),
            format!("cat {name} | runnelpin {words}"),
        ] {
            let said = desk.shell(&line);
            assert_eq!(said.status, 0, "{line}: {said:?}");
        }
    }
    assert_eq!(desk.get("out")[..8], [7; 8]);
    // from where it stands: what others have read of it is gone
    let said = desk.shell("(head -c 3 >/dev/null; runnelpin copy - -o out) <header");
    assert_eq!(
        (said.status, &desk.get("out")[..]),
        (0, &desk.get("header")[3..])
    );
    let said = desk.shell("echo 1 | runnelpin run file --map -");
    assert!(said.err.contains(": standard input, line 1: "), "{said:?}");
    let said = desk.shell("runnelpin show - --json <map");
    assert_eq!(said.json()["file"].text(), "standard input");
    assert!(said.err.starts_with("runnelpin: standard input: refused"));
    let said = desk.shell("runnelpin open image --header - -o - <map --json >/dev/full");
    assert!(said.err.contains("\"code\":4"), "{said:?}");
    desk.put("-", desk.get("image"));
    let said = desk.shell("runnelpin header ./- -o ./-");
    assert_eq!((said.status, desk.get("-")), (0, desk.get("header")));
}

#[test]
fn standard_input_can_be_given_only_once() {
    let desk = sample::desk();
    for words in [
        "open - --header - -o out",
        "load image --header - --map -",
        "run - --map map --memory -",
        "run file --map - --cpuid -",
    ] {
        let said = desk.shell(&format!("runnelpin {words} <image"));
        let line = "runnelpin: standard input can be given only once\n";
        assert_eq!((said.status, said.err.as_str()), (2, line));
    }
}

/// What is closed is not taken for a file that is opened later.
#[test]
fn closed_descriptors_are_errors() {
    let desk = sample::desk();
    for (line, part) in [
        (
            "header image -o - >&-",
            "standard output: can't be written: ",
        ),
        ("header - -o out <&-", "standard input: can't be read: "),
        (
            "header image -o out >&-",
            "standard output can't be written: ",
        ),
        (
            "run header --map map -o new >&-",
            "standard output can't be written: ",
        ),
    ] {
        let said = desk.shell(&format!("runnelpin {line}"));
        assert!(said.status == 2 && said.err.contains(part), "{said:?}");
    }
    let said = desk.shell("runnelpin header image -o out 2>&-");
    assert_eq!((said.status, said.out.as_str()), (0, ANSWER));
    assert_eq!(desk.get("out"), desk.get("header"));
}

#[test]
fn a_result_replaces_no_header_map_or_table() {
    let desk = sample::desk();
    symlink("map", desk.path("link")).unwrap();
    fs::hard_link(desk.path("table"), desk.path("twin")).unwrap();
    let before = ["header", "map", "table"].map(|name| desk.get(name));
    let load = "load image --header header --map map --cpuid table";
    for (words, part) in [
        (
            format!("{load} -o header"),
            "-o and --header are the same file: header",
        ),
        (
            format!("{load} -o map"),
            "-o and --map are the same file: map",
        ),
        (
            format!("{load} -o ./map"),
            "-o and --map are the same file: ./map",
        ),
        (
            format!("{load} -o link"),
            "-o and --map are the same file: link",
        ),
        (
            format!("{load} -o twin"),
            "-o and --cpuid are the same file: twin",
        ),
        (
            "open image --header header -o header".to_string(),
            "-o and --header are the same file: header",
        ),
    ] {
        let said = desk.run(&words);
        assert_eq!((said.status, said.out.as_str()), (2, ""), "{words}");
        assert!(said.err.contains(part), "{said:?}");
    }
    let said = desk.shell(&format!("runnelpin {load} -o - >>map"));
    assert!(said.status == 2 && said.err.contains("-o and --map "));
    assert_eq!(
        before,
        ["header", "map", "table"].map(|name| desk.get(name))
    );
    // devices and what the run itself changes are another matter
    ok(&desk.run("run file --map map --cpuid table -o memory"));
    ok(&desk.run("run file --map map --cpuid table --memory memory -o memory"));
    ok(&desk.run("open image --header header -o image"));
    desk.put("entry", File::new().entry(0).0);
    ok(&desk.run("run entry --map map --cpuid /dev/null -o /dev/null"));
}

#[test]
fn partial_needs_an_output() {
    let desk = sample::desk();
    let said = desk.run("run file --map map --partial");
    assert_eq!((said.status, said.out.as_str()), (2, ""));
    assert!(
        said.err
            .contains("--partial has nowhere to write to: give -o FILE"),
        "{said:?}"
    );
}

/// A tool that has made its new file and waits for memory from a pipe. `before` is a line up to `exec`, which says
/// what is ignored: that differs with how the tests are started.
fn waiting(desk: &Desk, before: &str) -> Child {
    let words = "run file --map map --cpuid table --memory pipe -o out";
    let line = format!("{before} '{}' {words}", desk::tool().display());
    let mut command = Command::new("sh");
    command.args(["-c", &line]).current_dir(desk.path(""));
    let mut child = command.stdout(Stdio::null()).spawn().unwrap();
    for _ in 0..600 {
        if is_unfinished(desk) {
            return child;
        }
        thread::sleep(Duration::from_millis(50));
    }
    child.kill().unwrap();
    child.wait().unwrap();
    panic!("no new file was made");
}

fn is_unfinished(desk: &Desk) -> bool {
    let is_new = |name: &String| name.starts_with(".runnelpin-");
    desk.names().iter().any(is_new)
}

fn signal(child: &Child, number: i32) {
    let line = format!("kill -{number} {}", child.id());
    let status = Command::new("sh").args(["-c", &line]).status();
    assert!(status.unwrap().success(), "{number}");
}

/// HUP INT QUIT USR1 USR2 PIPE ALRM TERM STKFLT XCPU VTALRM PROF IO PWR, and real-time ones.
const ENDING: [i32; 16] = [1, 2, 3, 10, 12, 13, 14, 15, 16, 24, 26, 27, 29, 30, 34, 64];

#[test]
fn every_signal_that_ends_the_tool_removes_the_new_file() {
    let desk = sample::desk();
    ok(&desk.shell("mkfifo pipe"));
    desk.put("out", "old");
    for number in ENDING {
        let mut child = waiting(&desk, "ulimit -c 0; exec env --default-signal");
        signal(&child, number);
        assert_eq!(child.wait().unwrap().signal(), Some(number));
        assert!(!is_unfinished(&desk), "{number}");
        assert_eq!(desk.get("out"), b"old");
    }
}

#[test]
fn ignored_signals_stay_ignored() {
    let desk = sample::desk();
    ok(&desk.shell("mkfifo pipe"));
    desk.put("memory", vec![7; 12_288]);
    let mut child = waiting(&desk, "trap '' HUP INT TERM QUIT USR1; exec");
    for number in [1, 2, 15, 3, 10] {
        signal(&child, number);
    }
    ok(&desk.shell("timeout 60 sh -c 'cat memory >pipe'")); // a tool that has ended opens no pipe
    assert_eq!(child.wait().unwrap().code(), Some(0));
    assert!(!is_unfinished(&desk));
    assert_eq!(desk.get("out")[..8], [7; 8]);
}

#[test]
fn ignored_signals_stay_ignored_while_a_pipe_is_written_to() {
    let desk = sample::desk();
    ok(&desk.shell("mkfifo pipe"));
    // more than a pipe holds: the first byte comes through while the tool writes
    desk.put("large", vec![0x5a; 1 << 20]);
    let said = desk.shell(&format!(
        "trap '' HUP TERM; '{}' copy large -o pipe >/dev/null &
        timeout 60 sh -c \"exec <pipe; head -c 1 >first; kill -HUP $!; kill -TERM $!; cat >rest\"
        wait $!",
        desk::tool().display()
    ));
    ok(&said);
    assert_eq!(desk.get("first").len() + desk.get("rest").len(), 1 << 20);
}

/// Memory that the output has as pages of its own is not needed a second time, and holes stay holes.
#[test]
fn memory_is_the_new_files_own_pages() {
    let desk = sample::desk();
    let limit = "ulimit -d 200000";
    if desk.shell(&format!("{limit}; runnelpin --help")).status != 0 {
        return; // a sanitizer takes more by itself
    }
    desk.put("wide", "0x100000000 0x20000000\n");
    desk.put("store", File::new().write(0x11fffffff, &[9]).entry(0).0);
    let before = fs::File::create(desk.path("before")).unwrap();
    before.set_len(0x20000000).unwrap();
    for memory in ["", "--memory before"] {
        let line = format!("{limit}; runnelpin run store --map wide {memory} -o after");
        ok(&desk.shell(&line));
        let about = fs::metadata(desk.path("after")).unwrap();
        assert_eq!(about.len(), 0x20000000);
        assert!(about.blocks() < 2048, "{} blocks", about.blocks());
    }
}

/// How many bytes a shell and what it ran have read, and what was said.
fn bytes_read(desk: &Desk, words: &str) -> Option<(u64, Said)> {
    let said = desk.shell(&format!(
        "runnelpin {words}; sed -n 's/^rchar: //p' /proc/$$/io >io"
    ));
    let count = String::from_utf8(desk.get("io")).unwrap();
    Some((count.trim().parse().ok()?, said))
}

#[test]
fn memory_of_the_wrong_size_is_refused_unread() {
    let desk = sample::desk();
    let large = fs::File::create(desk.path("large")).unwrap();
    large.set_len(64 << 20).unwrap();
    desk.put("wide", "0x100000 0x4000000\n");
    desk.put("store", File::new().write(0x100000, &[9]).entry(0).0);
    for (words, code) in [
        ("run store --map map --memory large -o out", 2),
        ("run store --map map --memory large", 2),
        ("run store --map wide --memory large", 0), // only its size counts
    ] {
        let Some((read, said)) = bytes_read(&desk, &format!("{words} --json")) else {
            return; // a system that doesn't count
        };
        assert_eq!(said.json()["code"].number(), code, "{said:?}");
        assert!(read < 8 << 20, "{words}: {read} bytes read");
    }
    let said = desk.run("run store --map map --memory large");
    assert!(said.out.contains("67108864 bytes"), "{said:?}");
    let said = desk.shell("cat large | runnelpin run store --map map --memory -");
    assert!(said.out.contains("67108864 bytes"), "{said:?}");
}

/// A disk of 1 MiB; where none can be mounted, only the size limit of bad_input.rs is tried.
#[test]
fn a_page_that_a_full_disk_lacks_is_an_error() {
    let desk = sample::desk();
    desk.put("wide", "0x100000 0x400000\n");
    desk.put(
        "fill",
        File::new().fill(0x100000, 0x400000, 0xaa).entry(0).0,
    );
    desk.put("memory", vec![7; 0x400000]);
    desk.put("file", vec![7; 0x300000]);
    fs::create_dir(desk.path("disk")).unwrap();
    for words in [
        "run fill --map wide -o disk/out",
        "run fill --map wide -o disk/out --memory memory",
        "pack file -o disk/out",
        "copy memory -o disk/out",
    ] {
        let line = format!(
            "mount -t tmpfs -o size=1m none disk || exit 77
            echo old >disk/out; '{}' {words}; echo $?; ls -A disk; cat disk/out",
            desk::tool().display()
        );
        let mut command = Command::new("unshare");
        let said = desk.start({
            command.args(["-rm", "sh", "-c", &line]);
            command
        });
        if said.status != 0 {
            eprintln!("skipped, since no disk can be mounted: {said:?}");
            return;
        }
        let line = "runnelpin: disk/out: can't be written: No space left on device\n";
        assert_eq!(said.err, line, "{words}");
        assert_eq!(said.out, "2\nout\nold\n", "{words}");
    }
}

/// Runs a line whose names are of bytes that only a shell can write.
fn named(desk: &Desk, name: &str, words: &str) -> Said {
    desk.shell(&format!(
        "name=$(printf '{name}'); cp file \"$name\"; runnelpin {words}"
    ))
}

#[test]
fn json_has_names_as_they_are() {
    let desk = sample::desk();
    for (name, value) in [
        ("m\\303\\274ll", "müll"),
        ("\\342\\202\\254 \\360\\237\\232\\200", "€ 🚀"),
        ("a\"b\\\\c", "a\"b\\c"),
        ("a\\nb\\033c\\177\\302\\233", "a\nb\u{1b}c\u{7f}\u{9b}"),
        ("l\\374x", "l\u{fffd}x"),
        (
            "\\300\\257\\355\\240\\200",
            "\u{fffd}\u{fffd}\u{fffd}\u{fffd}\u{fffd}",
        ),
        ("\\303", "\u{fffd}"),
    ] {
        let said = named(&desk, name, "show \"$name\" --json");
        assert_eq!(said.json()["file"].text(), value);
        assert!(said.out.starts_with("{\"file\":\""), "{said:?}");
        let raw = said.out.trim_end().chars().filter(|c| c.is_control());
        assert_eq!(raw.count(), 0, "{said:?}");
    }
    let said = named(&desk, "m\\303\\274ll", "show \"$name\" --json");
    assert!(said.out.starts_with("{\"file\":\"müll\","), "{said:?}");
    for words in [
        "pack file -o out",
        "open image --header header -o out",
        "header image -o out",
        "signature image --header header -o out",
        "load image --header header --map map",
        "run file --map map",
        "copy file -o out",
        "show image",
    ] {
        let name = words.split(' ').nth(1).unwrap();
        let said = desk.run(&format!("{words} --json"));
        let start = format!("{{\"file\":\"{name}\",");
        assert!(said.out.starts_with(&start), "{said:?}");
    }
}

#[test]
fn names_in_notes_reach_no_terminal_raw() {
    let desk = sample::desk();
    let mut image = desk.get("image");
    image[sample::block_start(3)] ^= 1;
    desk.put("bad", image);
    let open = "open bad --header header --partial -o \"$name\"";
    for (name, shown) in [
        ("a\\nb\\033[31m\\177", "a?b?[31m?"),
        ("a\\302\\233b\\302\\205", "a?b?"),
        ("m\\303\\274ll\\374", "müll?"),
    ] {
        let said = named(&desk, name, open);
        let note = format!("\npartial output written: {shown}, ");
        assert!(said.out.contains(&note), "{said:?}");
        let said = named(&desk, name, "show \"$name.no\"");
        assert!(
            said.err.contains(&format!(": {shown}.no: can't be read")),
            "{said:?}"
        );
    }
}

/// The writer waits until the line is there, so no clock is tried.
#[test]
fn a_terminal_is_told_what_long_work_is_at() {
    let desk = sample::desk();
    ok(&desk.shell("mkfifo pipe"));
    let said = desk.shell(&format!(
        "script -qefc '{} show pipe' shown >/dev/null &
        i=0
        until grep -q 'reading pipe: [0-9]' shown || [ $i -gt 300 ]; do i=$((i + 1)); sleep 0.1; done 2>/dev/null
        timeout 60 sh -c 'cat file >pipe'; wait $!; cat shown",
        desk::tool().display()
    ));
    ok(&said);
    let line = said
        .out
        .find("reading pipe: ")
        .unwrap_or_else(|| panic!("{said:?}"));
    let kind = said.out.find("kind").unwrap();
    assert!(line < kind, "{said:?}");
    assert!(
        said.out[line..kind].contains("\r\x1b[K"),
        "cleared: {said:?}"
    );
    assert!(!said.out[kind..].contains("\x1b"), "{said:?}");
}
