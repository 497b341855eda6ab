//! Each verb, its defaults, and where its output goes.

use second::cases::run_lines::File;
use second::sbs::{self, field};
use std::os::unix::fs::{symlink, MetadataExt, PermissionsExt};
use std::time::{Duration, Instant};
use std::{fs, thread};
use tool::desk::{self, Desk};
use tool::sample::{self, block_start, BLOCK, HEADER, SIGNATURE};

const OWN: &str = "expected signature length, from the header";
const NOT_APPROVED: &str = "this is the image's own header, not an approved one";

fn packed(file: &[u8], ids: [u64; 4], block: u64, signature: u64) -> Vec<u8> {
    let sizes = sbs::Packing::judge(file.len(), ids, block, signature).unwrap();
    let mut image = vec![0; sizes.length as usize];
    assert_eq!(sbs::pack(file, ids, block, signature, &mut image), 0);
    image
}

#[test]
fn pack_has_defaults_and_options() {
    let desk = sample::desk();
    let file = desk.get("file");
    let said = desk.run("pack file -o packed");
    assert_eq!((said.status, said.err.as_str()), (0, ""));
    assert_eq!(desk.get("packed"), packed(&file, [4, 0, 0, 0], 65536, 512));
    let said = desk
        .run("pack --hash sha384,none,sha256,sha512 -o packed --block 0x100 file --signature 7");
    assert_eq!(said.status, 0);
    assert_eq!(desk.get("packed"), packed(&file, [3, 0, 2, 4], 256, 7));
}

#[test]
fn open_gives_the_file_again() {
    let desk = sample::desk();
    let said = desk.run("open image --header header -o opened");
    assert_eq!(said.status, 0);
    assert_eq!(desk.get("opened"), desk.get("file"));
    assert!(said.out.contains(&format!("{OWN}: {SIGNATURE}\n")));
    let said = desk.run("open image --header header --signature 8 -o opened");
    assert!(said.status == 0 && !said.out.contains(OWN));
    let said = desk.run("open image --header header --signature 9 -o other");
    assert!(said.status == 1 && !desk.has("other"));
}

#[test]
fn header_and_signature_give_parts_of_the_image() {
    let desk = sample::desk();
    let mut image = desk.get("image");
    image[HEADER..HEADER + SIGNATURE].copy_from_slice(b"SIGNED!!");
    desk.put("image", &image);
    let said = desk.run("header image -o part");
    assert_eq!(
        (said.status, desk.get("part").as_slice()),
        (0, &image[..HEADER])
    );
    assert!(said.out.contains(NOT_APPROVED));
    let json = desk.run("header image -o part --json").json();
    assert_eq!(json["code"].number(), 0);
    assert_eq!(json["notes"].list()[0].text(), NOT_APPROVED);
    let said = desk.run("signature image --header header -o part");
    assert_eq!(
        (said.status, desk.get("part").as_slice()),
        (0, &b"SIGNED!!"[..])
    );
    assert!(said.out.contains(OWN));
}

#[test]
fn load_and_run_do_the_same() {
    let desk = sample::desk();
    let load = "load image --header header --map map --cpuid table -o memory --json";
    for words in [load, "run file --map map --cpuid table -o memory --json"] {
        let said = desk.run(words);
        assert_eq!(said.status, 0, "{said:?}");
        let json = said.json();
        let numbers =
            ["code", "place", "commands", "stored", "entry"].map(|key| json[key].number());
        assert_eq!(numbers, [0, 0, 5, 316, 0x100010]);
        let mut memory = vec![0; 12_288];
        memory[0xff0..0x1000].fill(0x5a);
        memory[0x1000..0x1000 + 300].fill(0xaa);
        assert_eq!(desk.get("memory"), memory);
    }
}

#[test]
fn without_options_mode_is_64_the_table_empty_and_memory_zero() {
    let desk = sample::desk();
    assert!(desk.run("run file --map map").out.contains("refused: 23, "));
    desk.put("high", File::new().entry(1 << 32).0);
    assert_eq!(desk.run("run high --map map").status, 0);
    assert!(desk
        .run("run high --map map --mode 32")
        .out
        .contains("refused: 20, "));
    desk.run("run high --map map -o memory");
    assert_eq!(desk.get("memory"), vec![0; 12_288]);
}

#[test]
fn memory_begins_as_it_is_given() {
    let desk = sample::desk();
    desk.put("before", vec![7; 12_288]);
    desk.put("store", File::new().write(0x1001, &[9]).entry(0).0);
    assert_eq!(
        desk.run("run store --map map --memory before -o after")
            .status,
        0
    );
    let after = desk.get("after");
    assert_eq!((&after[..3], after.len()), (&[7, 9, 7][..], 12_288));
}

#[test]
fn untouched_memory_costs_nothing() {
    let desk = sample::desk();
    desk.put("wide", "0x100000000 0x20000000\n0x200000000 0x20000000\n");
    desk.put("store", File::new().write(0x21fffffff, &[9]).entry(0).0);
    let said = desk.shell("runnelpin run store --map wide -o memory");
    assert_eq!(said.status, 0, "{said:?}");
    let about = fs::metadata(desk.path("memory")).unwrap();
    let blocks = std::os::unix::fs::MetadataExt::blocks(&about);
    assert!(about.len() == 1 << 30 && blocks < 2048, "{blocks} blocks");
}

#[test]
#[cfg(target_arch = "x86_64")]
fn the_table_can_be_this_machines() {
    let desk = sample::desk();
    let highest = std::arch::x86_64::__cpuid(0).eax;
    for (value, status) in [(highest, 0), (highest ^ 1, 1)] {
        let file = File::new()
            .check([0, 0, value, u32::MAX], 0, Some(0))
            .entry(0);
        desk.put("file", file.0);
        let said = desk.run("run file --map map --cpuid host");
        assert_eq!(said.status, status, "{said:?}");
        assert!(said.out.contains("; left out: sub-leaves of "), "{said:?}");
    }
    let first = std::arch::x86_64::__cpuid_count(0x8000_0000, 0).eax;
    let file = File::new()
        .check([0, 0x8000_0000, first, u32::MAX], 0, Some(0))
        .entry(0);
    desk.put("file", file.0);
    assert_eq!(desk.run("run file --map map --cpuid host").status, 0);
}

#[test]
fn on_a_refusal_only_partial_writes() {
    let desk = sample::desk();
    let mut image = desk.get("image");
    image[block_start(3)] ^= 1;
    desk.put("bad", image);
    let open = "open bad --header header -o out";
    let load = "load bad --header header --map map --cpuid table -o out";
    for words in [open, load] {
        assert_eq!(desk.run(words).status, 1);
        assert!(!desk.has("out"));
    }
    let said = desk.run(&format!("{open} --partial"));
    let padding = field::get(&desk.get("header"), field::PADDING) as usize;
    let proved = 2 * (BLOCK - 32) - padding;
    assert_eq!(
        (said.status, desk.get("out")),
        (1, desk.get("file")[..proved].to_vec())
    );
    assert!(said
        .out
        .contains(&format!("\npartial output written: out, {proved} bytes\n")));
    let said = desk.run(&format!("{load} --partial"));
    assert_eq!(
        (said.status, &desk.get("out")[0xff0..0x1000]),
        (1, &[0x5a; 16][..])
    );
    fs::remove_file(desk.path("out")).unwrap();
    let said = desk.run(&format!("{open} --partial --signature 9"));
    assert!(said.status == 1 && !desk.has("out"), "nothing is proved");
    let said = desk.run("run header --map map -o out --partial");
    assert!(said.out.starts_with("refused: 16, "), "{said:?}");
    assert!(said.status == 1 && !desk.has("out"), "nothing is stored");
}

#[test]
fn output_goes_to_devices_and_pipes_directly() {
    let desk = sample::desk();
    assert_eq!(desk.run("header image -o /dev/null").status, 0);
    assert!(!fs::metadata("/dev/null").unwrap().is_file());
    assert_eq!(desk.shell("mkfifo pipe").status, 0);
    let pipe = desk.path("pipe");
    let reader = thread::spawn(move || fs::read(pipe).unwrap());
    assert_eq!(desk.run("header image -o pipe").status, 0);
    assert_eq!(reader.join().unwrap(), desk.get("header"));
    let said = desk.shell("runnelpin header image -o /dev/stderr 2>&1 >said | cmp - header");
    assert_eq!(said.status, 0, "{said:?}");
}

/// Scripts hand out their files by it.
#[test]
fn a_copy_is_written_as_every_result_is() {
    let desk = sample::desk();
    fs::create_dir(desk.path("store")).unwrap();
    desk.put("store/image", "old");
    desk.put("image.unfinished", "a user's own");
    symlink("store/image", desk.path("link")).unwrap();
    let before = desk.names();
    let said = desk.run("copy image -o link");
    let size = desk.get("image").len();
    assert_eq!(said.out, format!("done: {size} bytes copied\n"));
    assert!(desk.path("link").is_symlink());
    assert_eq!(desk.get("store/image"), desk.get("image"));
    let said = desk.shell("runnelpin copy file -o link & runnelpin copy image -o link && wait $!");
    assert_eq!((said.status, desk.names()), (0, before));
    assert!([desk.get("file"), desk.get("image")].contains(&desk.get("link")));
    assert_eq!(desk.run("copy image -o /dev/null").status, 0);
    assert!(!fs::metadata("/dev/null").unwrap().is_file());
}

#[test]
fn an_output_keeps_its_mode_and_a_link_stays_one() {
    let desk = sample::desk();
    desk.put("there", "old");
    fs::set_permissions(desk.path("there"), fs::Permissions::from_mode(0o640)).unwrap();
    symlink("there", desk.path("link")).unwrap();
    assert_eq!(desk.run("header image -o link").status, 0);
    assert!(desk.path("link").is_symlink());
    assert_eq!(desk.get("there"), desk.get("header"));
    let mode = fs::metadata(desk.path("there"))
        .unwrap()
        .permissions()
        .mode();
    assert_eq!(mode & 0o777, 0o640);
    assert_eq!(
        desk.shell("umask 027; runnelpin header image -o new")
            .status,
        0
    );
    let mode = fs::metadata(desk.path("new")).unwrap().permissions().mode();
    assert_eq!(mode & 0o777, 0o640);
}

/// Owner, group and mode.
fn rights(desk: &Desk, name: &str) -> (u32, u32, u32) {
    let about = fs::metadata(desk.path(name)).unwrap();
    (about.uid(), about.gid(), about.mode() & 0o7777)
}

/// The new file may be another's, so a bit that lends its owner's rights would lend other ones than before.
#[test]
fn an_output_lends_nobodys_rights() {
    let desk = sample::desk();
    desk.put("there", "old");
    fs::set_permissions(desk.path("there"), fs::Permissions::from_mode(0o6755)).unwrap();
    assert_eq!(desk.run("copy image -o there").status, 0);
    assert_eq!(rights(&desk, "there").2, 0o755);
}

#[test]
fn an_output_keeps_its_owner_and_gives_no_other_group_rights() {
    let desk = sample::desk();
    let made = desk.shell("echo old >theirs && chown 65533:65532 theirs && chmod 640 theirs");
    if made.status != 0 {
        return; // only root gives files away
    }
    assert_eq!(desk.run("copy image -o theirs").status, 0);
    assert_eq!(rights(&desk, "theirs"), (65533, 65532, 0o640));
    let as_another = "setpriv --reuid=65531 --regid=65530 --clear-groups";
    let tool = desk::tool().display().to_string();
    if desk
        .shell(&format!("{as_another} '{tool}' --version"))
        .status
        != 0
    {
        return; // no setpriv, or the tool is in a folder of root's
    }
    let line =
        format!("chmod 777 . && chmod 666 theirs && {as_another} '{tool}' copy image -o theirs");
    assert_eq!(desk.shell(&line).status, 0);
    assert_eq!(rights(&desk, "theirs"), (65531, 65530, 0o606));
}

/// Ended while it writes: the new file beside the target goes, and the old target stays.
#[test]
fn a_signal_leaves_no_half_written_file() {
    let desk = sample::desk();
    desk.put("large", vec![0x5a; 64 << 20]);
    desk.put("out", "old");
    let line = format!(
        "{} pack large -o out &
        while kill -0 $! 2>/dev/null && ! ls .runnelpin-* 2>/dev/null; do :; done
        kill $!; wait $!",
        tool::desk::tool().display()
    );
    let said = desk.shell(&line);
    let is_left = |name: &String| name.starts_with(".runnelpin-");
    assert!(!desk.names().iter().any(is_left), "{said:?}");
    let is_whole = said.status == 0; // it was done before the signal came
    assert!(is_whole || said.status == 128 + 15, "{said:?}");
    assert_eq!(desk.get("out") == b"old", !is_whole, "{said:?}");
}

#[test]
fn an_output_may_be_the_input() {
    let desk = sample::desk();
    let image = packed(&desk.get("file"), [4, 0, 0, 0], 65536, 512);
    assert_eq!(desk.run("pack file -o file").status, 0);
    assert_eq!(desk.get("file"), image);
}

#[test]
fn input_may_be_a_pipe() {
    let desk = sample::desk();
    let said = desk.shell("cat image | runnelpin header /dev/stdin -o part");
    assert_eq!((said.status, desk.get("part")), (0, desk.get("header")));
}

#[test]
fn time_and_sizes_are_shown_on_a_terminal_only() {
    let desk = sample::desk();
    let slow = "(sleep 3; cat file) | runnelpin show /dev/stdin";
    let said = desk.shell(slow);
    assert!(said.status == 0 && said.err.is_empty(), "{said:?}");
    let size = desk.get("file").len();
    for (wait, shows) in [("3", true), ("0", false)] {
        let tool = tool::desk::tool();
        let began = Instant::now();
        let line = format!(
            "(sleep {wait}; cat file) | {} show /dev/stdin",
            tool.display()
        );
        let said = desk.shell(&format!("script -qec '{line}' /dev/null"));
        assert_eq!(said.status, 0, "{said:?}");
        let is_shown = said
            .out
            .contains(&format!(" s, {size} bytes read, 0 written"));
        // on a busy machine work that waits for nothing may take over a second, too
        let is_slow = began.elapsed() > Duration::from_secs(1);
        assert!(is_shown == shows || (is_shown && is_slow), "{said:?}");
    }
}

/// On a terminal, in a log and in a pipe; JSON is for a program, and the line beside it for a person.
#[test]
fn where_both_go_to_one_place_a_refusal_is_said_once() {
    let desk = sample::desk();
    let line = format!("{} run header --map map", tool::desk::tool().display());
    for (shown, times) in [
        (format!("script -qec '{line}' /dev/null"), 1),
        (format!("{line} >log 2>&1; cat log"), 1),
        (format!("{line} 2>&1 | cat"), 1),
        (format!("{line} --json 2>&1 | cat"), 2),
        (format!("{line} >log 2>errors; cat log errors"), 2),
    ] {
        let said = desk.shell(&shown);
        assert_eq!(said.out.matches("refused: 16").count(), times, "{said:?}");
    }
}
