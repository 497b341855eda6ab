//! Signed for real: by GnuPG with a key made for the test, approved by gpgv, and loaded.

use std::os::unix::fs::{symlink, FileTypeExt};
use std::path::Path;
use std::process::{Child, Command, Stdio};
use std::{env, fs, thread, time};
use tool::desk::{repository, tool, Desk, Said};
use tool::sample;

/// A command that finds the folder's commands and keys before others.
fn prepared(desk: &Desk, program: impl AsRef<Path>) -> Command {
    let mut command = Command::new(program.as_ref());
    let path = format!("{}:{}", desk.path("").display(), env::var("PATH").unwrap());
    command.env("RUNNELPIN", tool()).env("LC_ALL", "C");
    command.env("PATH", path).env("GNUPGHOME", desk.path(""));
    command
}

/// Runs one of the repository's scripts in the folder.
fn script(desk: &Desk, name: &str, words: &[&str]) -> Said {
    let mut command = prepared(desk, repository().join("tools").join(name));
    command.args(words);
    desk.start(command)
}

/// Runs a line of shell; `$tools` is the scripts' folder.
fn shell(desk: &Desk, line: &str) -> Said {
    let mut command = prepared(desk, "sh");
    command.env("tools", repository().join("tools"));
    command.args(["-c", line]);
    desk.start(command)
}

/// Makes a command. The shell writes it: what this process writes, one that another test starts has
/// open for a moment too, and a file that is open for writing can't be run.
fn put_command(desk: &Desk, name: &str, text: &str) {
    desk.put("text", text);
    let said = desk.shell(&format!("install -m 755 text {name}"));
    assert_eq!(said.status, 0, "{said:?}");
}

fn approve(desk: &Desk, image: &str, header: &str) -> Said {
    script(desk, "approve", &["public.gpg", image, header])
}

/// The sample, signed, and the public key.
fn signed() -> Desk {
    let desk = sample::desk();
    let sign = repository().join("tools/sign");
    let line = format!(
        "stat -c %a \"$GNUPGHOME\" && cp \"$GNUPGHOME/public.gpg\" . && \
         gpg --armor --output armored --export && \
         {} 'Runnelpin demo' file signed --hash sha256,sha512 --block 200",
        sign.display()
    );
    let said = script(&desk, "with-key", &["sh", "-c", &line]);
    assert_eq!(said.status, 0, "{said:?}");
    assert!(said.out.starts_with("700\n"), "{said:?}");
    desk
}

#[test]
fn a_signed_image_is_approved_and_loads() {
    let desk = signed();
    let said = approve(&desk, "signed", "approved");
    assert_eq!(said.status, 0, "{said:?}");
    let (image, header) = (desk.get("signed"), desk.get("approved"));
    assert_eq!(header, image[..36 + 32 + 64]);
    let words = "load signed --header approved --map map --cpuid table --json";
    let json = desk.run(words).json();
    let numbers = ["code", "commands", "entry"].map(|key| json[key].number());
    assert_eq!(numbers, [0, 5, 0x100010]);
}

#[test]
fn one_bit_changed_and_nothing_is_approved() {
    let desk = signed();
    let image = desk.get("signed");
    let (header, signature) = (36 + 32 + 64, 12);
    for at in (0..header + signature).step_by(3) {
        let mut bad = image.clone();
        bad[at] ^= 1 << (at % 8);
        desk.put("bad", bad);
        let said = approve(&desk, "bad", "approved");
        assert_ne!(said.status, 0, "byte {at}: {said:?}");
        assert!(!desk.has("approved"), "byte {at}");
    }
    let mut bad = image;
    *bad.last_mut().unwrap() ^= 1;
    desk.put("bad", bad);
    assert_eq!(
        approve(&desk, "bad", "approved").status,
        0,
        "blocks are the loader's"
    );
    let said = desk.run("load bad --header approved --map map --cpuid table");
    assert!(said.out.starts_with("refused: 13, "), "{said:?}");
}

#[test]
fn another_key_approves_nothing() {
    let (desk, other) = (signed(), signed());
    desk.put("public.gpg", other.get("public.gpg"));
    assert_ne!(approve(&desk, "signed", "approved").status, 0);
    assert_ne!(
        approve(&desk, "image", "approved").status,
        0,
        "a field of zeros"
    );
    assert!(!desk.has("approved"));
}

/// Runs a line of shell with a key, and sees home and agent gone.
fn leaves_nothing(desk: &Desk, line: &str, status: i32) {
    let line = format!("echo \"$GNUPGHOME\"; {line}");
    let said = script(desk, "with-key", &["sh", "-c", &line]);
    assert_eq!(said.status, status, "{said:?}");
    let home = said.out.trim();
    assert!(!home.is_empty() && !Path::new(home).exists(), "{said:?}");
    let processes = desk.shell("ps -eo args").out;
    assert!(!processes.contains(home), "an agent is left");
}

#[test]
fn the_keys_home_goes_whatever_happens() {
    let desk = Desk::new();
    leaves_nothing(&desk, "true", 0);
    leaves_nothing(&desk, "exit 7", 7);
    leaves_nothing(&desk, "kill -TERM $PPID; sleep 1", 143);
}

/// A gpgconf whose agent ends a second after it was told to.
const SLOW: &str = "#!/bin/sh
agent=$(gpg-connect-agent 'getinfo pid' /bye | sed -n 's/^D //p')
kill -STOP $agent
(sleep 1; kill -KILL $agent) >/dev/null 2>&1 &
";

#[test]
fn the_agent_is_waited_for() {
    let desk = Desk::new();
    put_command(&desk, "gpgconf", SLOW);
    leaves_nothing(&desk, "true", 0);
}

#[test]
fn only_rsa_keys_sign() {
    let desk = sample::desk();
    let sign = repository().join("tools/sign");
    let line = format!(
        "gpg --batch --quiet --passphrase '' --quick-generate-key other ed25519 sign never && \
         {} other file signed",
        sign.display()
    );
    let said = script(&desk, "with-key", &["sh", "-c", &line]);
    assert!(said.status != 0 && !desk.has("signed"), "{said:?}");
    assert!(
        said.err.ends_with("sign: other is not an RSA key\n"),
        "{said:?}"
    );
}

/// A gpg whose signatures are never as long as the one before.
const RESTLESS: &str = "#!/bin/sh
while [ $# -gt 0 ]; do [ \"$1\" = --output ] && out=$2; shift; done
echo >>signings
head -c $((300 + $(wc -l <signings))) /dev/zero >\"$out\"
";

/// A sleep that only leaves a trace.
const SLEEP: &str = "#!/bin/sh
echo >>seconds
";

#[test]
fn signing_gives_up_after_20_signatures() {
    let desk = sample::desk();
    put_command(&desk, "gpg", RESTLESS);
    put_command(&desk, "sleep", SLEEP);
    let said = script(&desk, "sign", &["key", "file", "signed"]);
    assert!(said.status == 1 && !desk.has("signed"), "{said:?}");
    assert_eq!(desk.get("signings").len(), 20);
}

/// A gpg with an RSA key, in a second in which a header that says 310 bytes gets a signature of 309.
const UNLUCKY: &str = "#!/bin/sh
[ \"$2\" = --list-packets ] && echo 'algo 1,' && exit
while [ $# -gt 1 ]; do [ \"$1\" = --output ] && out=$2; shift; done
says=$(od -An -tu4 -j 12 -N 4 \"$1\")
[ -e seconds ] || [ $says -ne 310 ] && made=310 || made=309
head -c $made /dev/zero >\"$out\"
";

#[test]
fn a_signature_that_comes_out_short_is_made_in_another_second() {
    let desk = sample::desk();
    put_command(&desk, "gpg", UNLUCKY);
    put_command(&desk, "sleep", SLEEP);
    let said = script(&desk, "sign", &["key", "file", "signed"]);
    assert_eq!(said.status, 0, "{said:?}");
    assert!(
        said.out.contains("; the signature has 310 bytes (try "),
        "{said:?}"
    );
}

#[test]
fn bad_usage_of_the_scripts() {
    let desk = sample::desk();
    assert_eq!(script(&desk, "sign", &["key", "file"]).status, 2);
    assert_eq!(script(&desk, "approve", &["public.gpg"]).status, 2);
    let said = script(&desk, "sign", &["nobody", "file", "signed"]);
    assert!(said.status != 0 && !desk.has("signed"), "{said:?}");
    let said = script(&desk, "approve", &["nothing", "image", "approved"]);
    assert!(said.status != 0 && !desk.has("approved"), "{said:?}");
}

#[test]
fn a_folder_is_no_place_for_a_header() {
    let desk = signed();
    fs::create_dir(desk.path("folder")).unwrap();
    let before = desk.names();
    assert_ne!(approve(&desk, "signed", "folder").status, 0);
    assert_eq!(desk.names(), before);
    assert!(fs::read_dir(desk.path("folder")).unwrap().next().is_none());
}

/// A gpg with an RSA key, whose signatures are all the same.
const GPG: &str = "#!/bin/sh
[ \"$2\" = --list-packets ] && echo 'algo 1,' && exit
while [ $# -gt 1 ]; do [ \"$1\" = --output ] && out=$2; shift; done
head -c 310 /dev/zero | tr '\\000' s >\"$out\"
";

/// A gpgv that finds every signature good.
const GPGV: &str = "#!/bin/sh
";

/// A script, its first words, and the file that it makes of them.
struct Job {
    script: &'static str,
    words: [&'static str; 2],
    options: &'static str,
    made: &'static str,
}

const SIGN: Job = Job {
    script: "sign",
    words: ["key", "file"],
    options: "--block 512",
    made: "signed",
};

const APPROVE: Job = Job {
    script: "approve",
    words: ["ring", "signed"],
    options: "",
    made: "approved",
};

impl Job {
    /// For the shell. The image is so short that a pipe takes it before somebody reads.
    fn line(&self, target: &str) -> String {
        let ([first, second], options) = (self.words, self.options);
        format!(
            "\"$tools/{}\" {first} {second} {target} {options}",
            self.script
        )
    }

    fn run(&self, desk: &Desk, target: &str) -> Said {
        shell(desk, &self.line(target))
    }

    /// Under what `env` says of signals: which are ignored differs with how the tests are started.
    fn start(&self, desk: &Desk, signals: &str) -> Child {
        let mut command = prepared(desk, "sh");
        let line = format!("exec env {signals} {}", self.line("target"));
        command.args(["-c", &line]).current_dir(desk.path(""));
        command.env("tools", repository().join("tools"));
        command.env("TMPDIR", desk.path("tmp")).stdin(Stdio::null());
        command.stdout(Stdio::null()).stderr(Stdio::null());
        command.spawn().unwrap()
    }
}

/// The sample with stand-ins for GnuPG, and what each job makes in a plain file.
fn stand_ins() -> Desk {
    let desk = sample::desk();
    put_command(&desk, "gpg", GPG);
    put_command(&desk, "gpgv", GPGV);
    desk.put("ring", "a key");
    fs::create_dir(desk.path("tmp")).unwrap();
    for job in [SIGN, APPROVE] {
        let said = job.run(&desk, job.made);
        assert_eq!(said.status, 0, "{said:?}");
        let words = format!("{}: {}", job.made, job.made);
        assert!(said.out.starts_with(&words), "{said:?}");
    }
    desk
}

fn folder_is_empty(desk: &Desk, name: &str) -> bool {
    fs::read_dir(desk.path(name)).unwrap().next().is_none()
}

#[test]
fn a_link_still_leads_to_its_store() {
    let desk = stand_ins();
    symlink("store", desk.path("link")).unwrap();
    for job in [SIGN, APPROVE] {
        desk.put("store", "old");
        let said = job.run(&desk, "link");
        assert_eq!(said.status, 0, "{said:?}");
        let target = fs::read_link(desk.path("link"));
        assert_eq!(target.unwrap(), Path::new("store"));
        assert_eq!(desk.get("store"), desk.get(job.made));
    }
}

#[test]
fn a_pipe_gets_the_bytes_and_stays() {
    let desk = stand_ins();
    for job in [SIGN, APPROVE] {
        let said = shell(
            &desk,
            &format!(
                "rm -f pipe; mkfifo pipe; exec 3<>pipe; {} || exit
                dd if=pipe of=got iflag=nonblock bs=65536 count=1 status=none",
                job.line("pipe")
            ),
        );
        assert_eq!(said.status, 0, "{said:?}");
        assert_eq!(desk.get("got"), desk.get(job.made));
        let about = fs::symlink_metadata(desk.path("pipe")).unwrap();
        assert!(about.file_type().is_fifo(), "{}", job.script);
    }
}

#[test]
fn a_device_stays() {
    let desk = stand_ins();
    if shell(&desk, "mknod null c 1 3 && echo >null").status != 0 {
        return; // not allowed here
    }
    for job in [SIGN, APPROVE] {
        let said = job.run(&desk, "null");
        assert_eq!(said.status, 0, "{said:?}");
        let about = fs::symlink_metadata(desk.path("null")).unwrap();
        assert!(about.file_type().is_char_device(), "{}", job.script);
    }
}

#[test]
fn a_users_own_unfinished_file_stays() {
    let desk = stand_ins();
    desk.put("target.unfinished", "mine");
    let before = desk.names();
    for job in [SIGN, APPROVE] {
        let said = job.run(&desk, "target");
        assert_eq!(said.status, 0, "{said:?}");
        assert_eq!(desk.get("target"), desk.get(job.made));
        assert_eq!(desk.get("target.unfinished"), b"mine");
        fs::remove_file(desk.path("target")).unwrap();
        assert_eq!(desk.names(), before);
    }
}

/// A mv that waits for a second one, so that what both would move is there at once.
const MV: &str = "#!/bin/sh
echo >>moves
try=0
while [ $(wc -l <moves) -lt 2 ] && [ $((try += 1)) -le 100 ]; do sleep 0.1; done
command -p mv \"$@\"
";

#[test]
fn two_at_once_make_a_whole_file() {
    let desk = stand_ins();
    put_command(&desk, "mv", MV);
    desk.put("other", sample::file().entry(9).0);
    let said = shell(&desk, "\"$tools/sign\" key other other-signed --block 77");
    assert_eq!(said.status, 0, "{said:?}");
    let _ = fs::remove_file(desk.path("moves"));
    let line = format!(
        "\"$tools/sign\" key other target --block 77 & {} || exit; wait $!",
        SIGN.line("target")
    );
    let said = shell(&desk, &line);
    assert_eq!(said.status, 0, "{said:?}");
    let either = [desk.get("signed"), desk.get("other-signed")];
    assert!(either.contains(&desk.get("target")));
}

/// By the descriptor, so that a log is appended to; and then the script's words are elsewhere.
#[test]
fn standard_output_gets_the_bytes_alone() {
    let desk = stand_ins();
    for job in [SIGN, APPROVE] {
        let made = desk.get(job.made);
        for target in ["-", "/dev/stdout", "/dev/fd/1"] {
            let said = shell(&desk, &format!("{} | cat >got", job.line(target)));
            assert_eq!(desk.get("got"), made, "{target}: {said:?}");
            let words = format!("{}: {}", job.script, job.made);
            assert!(said.err.starts_with(&words), "{said:?}");
            desk.put("got", "log\n");
            shell(&desk, &format!("{} >>got", job.line(target)));
            assert_eq!(desk.get("got"), [b"log\n", &made[..]].concat(), "{target}");
        }
    }
    assert!(!desk.has("-"));
}

#[test]
fn standard_input_is_read_once() {
    let desk = stand_ins();
    for job in [SIGN, APPROVE] {
        for name in ["-", "/dev/stdin"] {
            let words = [job.words[0], name];
            let line = Job { words, ..job }.line("got");
            let input = job.words[1];
            for line in [format!("cat {input} | {line}"), format!("{line} <{input}")] {
                let said = shell(&desk, &line);
                assert_eq!(said.status, 0, "{line}: {said:?}");
                assert_eq!(desk.get("got"), desk.get(job.made), "{line}");
            }
        }
    }
}

#[test]
fn the_keyring_can_be_standard_input() {
    let desk = stand_ins();
    for name in ["-", "/dev/stdin"] {
        let words = [name, "signed"];
        let line = Job { words, ..APPROVE }.line("got");
        let said = shell(&desk, &format!("cat ring | {line}"));
        assert_eq!(said.status, 0, "{line}: {said:?}");
        assert_eq!(desk.get("got"), desk.get("approved"), "{line}");
    }
    let said = shell(&desk, "cat ring signed | \"$tools/approve\" - - other");
    assert_eq!(said.status, 2, "{said:?}");
    assert_eq!(said.err, "approve: standard input can be given only once\n");
}

/// A gpg or gpgv that waits until it is told to go on, for a minute at most.
const WAITING: &str = "#!/bin/sh
echo >started
try=0
while [ ! -e go ] && [ $((try += 1)) -le 600 ]; do sleep 0.1; done
echo >went-on
";

/// Starts the job, and waits until it is in gpg or gpgv.
fn start_waiting(desk: &Desk, job: &Job, signals: &str) -> Child {
    let name = if job.script == "sign" { "gpg" } else { "gpgv" };
    put_command(desk, name, WAITING);
    let mut child = job.start(desk, signals);
    while !desk.has("started") {
        assert!(child.try_wait().unwrap().is_none(), "ended too soon");
        thread::sleep(time::Duration::from_millis(20));
    }
    child
}

fn send(desk: &Desk, signal: &str, child: &Child) {
    let said = desk.shell(&format!("kill -{signal} {}", child.id()));
    assert_eq!(said.status, 0, "{said:?}");
}

#[test]
fn a_signal_ends_it_at_once_and_the_work_folder_goes() {
    for job in [SIGN, APPROVE] {
        for (signal, status) in [
            ("HUP", 129),
            ("INT", 130),
            ("QUIT", 131),
            ("USR1", 138),
            ("USR2", 140),
            ("ALRM", 142),
            ("TERM", 143),
            ("XCPU", 152),
        ] {
            let desk = stand_ins();
            let mut child = start_waiting(&desk, &job, "--default-signal");
            assert!(!folder_is_empty(&desk, "tmp"));
            send(&desk, signal, &child);
            let found = child.wait().unwrap().code();
            let went_on = desk.has("went-on");
            desk.put("go", "");
            assert_eq!(found, Some(status), "{}, {signal}", job.script);
            assert!(!went_on, "{}, {signal}", job.script);
            assert!(folder_is_empty(&desk, "tmp"), "{}, {signal}", job.script);
            assert!(!desk.has("target"));
        }
    }
}

#[test]
fn an_ignored_signal_stays_ignored() {
    let desk = stand_ins();
    let mut child = start_waiting(&desk, &APPROVE, "--ignore-signal=HUP");
    send(&desk, "HUP", &child);
    desk.put("go", "");
    assert_eq!(child.wait().unwrap().code(), Some(0));
    assert_eq!(desk.get("target"), desk.get("approved"));
    assert!(folder_is_empty(&desk, "tmp"));
}

#[test]
fn the_work_folder_goes_where_nobody_reads_the_words() {
    let desk = stand_ins();
    for job in [SIGN, APPROVE] {
        let line = format!(
            "export TMPDIR=\"$PWD/tmp\"; rm -f pipe; mkfifo pipe; exec 3<>pipe 4>pipe 3<&-; {} >&4",
            job.line("target")
        );
        let said = shell(&desk, &line);
        assert_eq!(said.status, 128 + 13, "{said:?}");
        assert!(folder_is_empty(&desk, "tmp"), "{}", job.script);
    }
}

/// A mktemp that has the script which started it ended, with the folder just made.
const ENDING_SOON: &str = "#!/bin/sh
kill -TERM $PPID
command -p mktemp \"$@\"
";

#[test]
fn a_signal_at_the_very_start_ends_it_too() {
    for job in [SIGN, APPROVE] {
        let desk = stand_ins();
        put_command(&desk, "mktemp", ENDING_SOON);
        let found = job.start(&desk, "--default-signal").wait();
        assert_eq!(found.unwrap().code(), Some(143), "{}", job.script);
        assert!(folder_is_empty(&desk, "tmp"), "{}", job.script);
        assert!(!desk.has("target"), "{}", job.script);
    }
}

/// An apt-get that has the script which started it ended.
const ENDING: &str = "#!/bin/sh
kill -TERM $PPID
";

#[test]
fn what_installs_leaves_nothing_when_it_is_ended() {
    let desk = stand_ins();
    put_command(&desk, "apt-get", ENDING);
    let line = "TMPDIR=\"$PWD/tmp\" \"$tools/need\" no-such-command package; exit $?";
    let said = shell(&desk, line);
    assert_eq!(said.status, 128 + 15, "{said:?}");
    assert!(folder_is_empty(&desk, "tmp"));
}

/// Nothing is approved, and the script's own words come first; gpgv's or the tool's may be among the others.
fn refuses(desk: &Desk, keyring: &str, image: &str, words: &str, others: &str) {
    let said = script(desk, "approve", &[keyring, image, "approved"]);
    assert_eq!(said.status, 1, "{said:?}");
    assert_eq!(said.out, "", "{said:?}");
    assert!(!desk.has("approved"), "{said:?}");
    let words = format!("approve: {words}");
    assert!(said.err.lines().any(|line| line == words), "{said:?}");
    assert!(said.err.contains(others), "{said:?}");
}

#[test]
fn refused_in_its_own_words_keyring() {
    let desk = signed();
    desk.put("empty", "");
    fs::create_dir(desk.path("folder")).unwrap();
    refuses(
        &desk,
        "nothing",
        "signed",
        "there is no keyring nothing",
        "",
    );
    let name = "\x1b[31mred\nkeys"; // of which nothing reaches the terminal as it is
    refuses(
        &desk,
        name,
        "signed",
        "there is no keyring ?[31mred?keys",
        "",
    );
    refuses(&desk, "empty", "signed", "the keyring empty is empty", "");
    refuses(
        &desk,
        "folder",
        "signed",
        "the keyring folder can't be read",
        "Is a directory",
    );
    refuses(
        &desk,
        "armored",
        "signed",
        "armored is ASCII-armored; gpgv needs a binary keyring: gpg --dearmor <armored >keyring.gpg",
        "",
    );
    // And that is what helps.
    let said = shell(
        &desk,
        "gpg --dearmor <armored >keyring.gpg && \"$tools/approve\" keyring.gpg signed approved",
    );
    assert_eq!(said.status, 0, "{said:?}");
}

#[test]
fn refused_in_its_own_words_image() {
    let desk = signed();
    let ring = "public.gpg";
    desk.put("none", "no image\n");
    let image = desk.get("signed");
    desk.put("short", &image[..image.len() - 1]);
    let words = "nothing can't be read";
    refuses(&desk, ring, "nothing", words, "No such file");
    for name in ["none", "short"] {
        let words = format!("{name} is not a valid image");
        refuses(&desk, ring, name, &words, &format!("runnelpin: {name}: "));
    }
    let zeros = "image is not signed: its signature field is all zeros";
    refuses(&desk, ring, "image", zeros, "");
}

#[test]
fn refused_in_its_own_words_signature() {
    let (desk, other) = (signed(), signed());
    desk.put("other.gpg", other.get("public.gpg"));
    let (header, signature) = (36 + 32 + 64, 310);
    let mut image = desk.get("signed");
    image[40] ^= 1; // of the root hash
    desk.put("changed", &image);
    image[40] ^= 1;
    image[header + 1] = 0; // of the packet's length, 307
    desk.put("cut", &image);
    image[header..header + signature].fill(b'?');
    desk.put("text", &image);
    let words = "the signature in changed is bad: it does not match this header";
    refuses(&desk, "public.gpg", "changed", words, "gpgv: BAD signature");
    let words = "the signature in signed is by a key that is not in other.gpg";
    refuses(
        &desk,
        "other.gpg",
        "signed",
        words,
        "gpgv: Can't check signature",
    );
    for name in ["cut", "text"] {
        let words = format!("gpgv finds no valid signature in {name}");
        refuses(&desk, "public.gpg", name, &words, "gpgv: ");
    }
}

/// Nothing is made; the first line that is the script's own.
fn cant_sign(desk: &Desk, words: &[&str], status: i32) -> String {
    let said = script(desk, "sign", words);
    assert_eq!(said.status, status, "{said:?}");
    assert!(said.out.is_empty() && !desk.has("new"), "{said:?}");
    said.err
}

#[test]
fn what_cant_be_signed() {
    let desk = stand_ins();
    desk.put("empty", "");
    let err = cant_sign(&desk, &["key", "nothing", "new"], 1);
    assert!(err.ends_with("\nsign: nothing can't be read\n"), "{err}");
    let err = cant_sign(&desk, &["key", "empty", "new"], 1);
    assert!(err.contains("refused: 28, "), "{err}");
    let err = cant_sign(&desk, &["key", "file", "new", "--blok", "512"], 2);
    assert!(err.contains("--blok"), "{err}");
    for option in ["--signature", "--signature=310", "-o", "-oother"] {
        let err = cant_sign(&desk, &["key", "file", "new", option, "310"], 2);
        let words = format!("sign: leave out {option}, which sign itself gives to pack\n");
        assert_eq!(err, words);
    }
    let said = shell(&desk, "RUNNELPIN=./no-tool \"$tools/sign\" key file new");
    assert_eq!(said.status, 1, "{said:?}");
    let words = "sign: ./no-tool is missing (";
    assert!(said.err.starts_with(words), "{said:?}");
    put_command(&desk, "gpg", "#!/bin/sh\nexit 2\n");
    let err = cant_sign(&desk, &["nobody", "file", "new"], 1);
    assert_eq!(err, "sign: gpg made no signature with the key nobody\n");
}

/// It is signed, as it is packed; and the note that it can't be loaded is passed on.
#[test]
fn what_is_no_command_file_is_called_so() {
    let desk = stand_ins();
    for (file, words) in [
        ("ring", "sign: the file is not a command file "),
        ("file", ""),
    ] {
        let named = ["key", file];
        let said = Job {
            words: named,
            ..SIGN
        }
        .run(&desk, "target");
        assert_eq!(said.status, 0, "{said:?}");
        assert!(said.err.starts_with(words), "{said:?}");
        assert_eq!(said.err.is_empty(), words.is_empty(), "{said:?}");
    }
}

/// README's lines as they stand, with keys that have no passphrase.
#[test]
fn readmes_lines_sign_and_approve() {
    let desk = sample::desk();
    desk.put("route.csl", desk.get("file"));
    symlink(repository().join("tools"), desk.path("tools")).unwrap();
    let readme = fs::read_to_string(repository().join("README.md")).unwrap();
    let (_, text) = readme.split_once("\n## Signing and approving\n").unwrap();
    let (text, _) = text.split_once("\n## ").unwrap();
    let lines: Vec<&str> = text
        .lines()
        .filter_map(|l| l.strip_prefix("    "))
        .collect();
    assert_eq!(lines.len(), 4);
    desk.put("lines", lines.join("\n"));
    let conf = "echo batch; echo pinentry-mode loopback; echo passphrase-file /dev/null";
    let line = format!("{{ {conf}; }} >\"$GNUPGHOME/gpg.conf\" && sh -e ./lines");
    let said = script(&desk, "with-key", &["sh", "-c", &line]);
    assert_eq!(said.status, 0, "{said:?}");
    assert_eq!(desk.get("approved"), desk.get("route.sbs")[..68]);
    assert!(
        said.err.contains("Good signature from \"Workshop\""),
        "{said:?}"
    );
}
