//! The store example, run as a program.

use std::fs;
use std::path::{Path, PathBuf};
use std::process::{Command, Output, Stdio};
use std::sync::atomic::{AtomicU32, Ordering};
use std::sync::OnceLock;

/// A folder of this test alone, removed at its end. Programs run in it.
struct Place(PathBuf);

impl Place {
    fn new() -> Place {
        static NEXT: AtomicU32 = AtomicU32::new(0);
        let name = format!("latsefidy-test-{}-{}", std::process::id(), NEXT.fetch_add(1, Ordering::Relaxed));
        let path = std::env::temp_dir().join(name);
        fs::create_dir(&path).unwrap();
        Place(path)
    }

    fn at(&self, name: &str) -> PathBuf {
        self.0.join(name)
    }

    fn file(&self, name: &str, bytes: &[u8]) {
        fs::write(self.at(name), bytes).unwrap();
    }

    fn bytes(&self, name: &str) -> Vec<u8> {
        fs::read(self.at(name)).unwrap()
    }

    /// The names in a folder, sorted, with their bytes.
    fn all(&self, name: &str) -> Vec<(PathBuf, Vec<u8>)> {
        let files = fs::read_dir(self.at(name)).unwrap().map(|entry| entry.unwrap().path());
        let mut all: Vec<_> = files.map(|path| (path.clone(), fs::read(path).unwrap())).collect();
        all.sort();
        all
    }

    fn run_to(&self, out: Stdio, line: &str) -> Output {
        let arguments = line.split(' ').filter(|a| !a.is_empty());
        Command::new(program()).current_dir(&self.0).args(arguments).stdout(out).output().unwrap()
    }

    /// Runs a command line that must end with the status; answers what it says, on either stream.
    fn run(&self, status: i32, line: &str) -> String {
        let output = self.run_to(Stdio::piped(), line);
        let (out, err) = (String::from_utf8(output.stdout).unwrap(), String::from_utf8(output.stderr).unwrap());
        assert_eq!(output.status.code(), Some(status), "{line}: {out}{err}");
        assert!(if status == 0 { err.is_empty() } else { !err.is_empty() }, "{line}: {out}{err}");
        out + &err
    }

    /// Runs a command line that must be refused, and change nothing in the folder d.
    fn refused(&self, status: i32, line: &str, words: &str) {
        let before = self.all("d");
        let said = self.run(status, line);
        assert!(said.contains(words), "{line}: {said}");
        assert_eq!(self.all("d"), before, "{line}");
    }
}

impl Drop for Place {
    fn drop(&mut self) {
        let _ = fs::remove_dir_all(&self.0);
    }
}

/// The example, built here: not every `cargo test` builds it, and an old one would be tested.
fn program() -> &'static Path {
    static PROGRAM: OnceLock<PathBuf> = OnceLock::new();
    PROGRAM.get_or_init(|| {
        let this = std::env::current_exe().unwrap();
        let target = this.ancestors().nth(3).unwrap();
        let mut build = Command::new(env!("CARGO"));
        build.args(["build", "--quiet", "--offline", "--example", "store", "--target-dir"]).arg(target);
        assert!(build.current_dir(env!("CARGO_MANIFEST_DIR")).status().unwrap().success());
        target.join("debug/examples/store")
    })
}

/// Bytes without a pattern, the same every time.
fn noise(length: usize) -> Vec<u8> {
    let mut state = 1u32;
    let next = |_| {
        state = state.wrapping_mul(1_664_525).wrapping_add(1_013_904_223);
        (state >> 24) as u8
    };
    (0..length).map(next).collect()
}

/// A file f, stored in d.
fn stored(length: usize, numbers: &str) -> Place {
    let place = Place::new();
    place.file("f", &noise(length));
    place.run(0, &format!("store f d {numbers}"));
    place
}

#[test]
fn writes_the_format() {
    let place = stored(998, "2 9 4");
    assert_eq!(place.bytes("d/stripe.txt"), b"latsefidy store 1\ncode 1 2 9 4\nbytes 998\n");
    assert_eq!(place.all("d").len(), 10);
    let code = latsefidy::Code::new(1, 2, 9, 4).unwrap();
    let drives: Vec<Vec<u8>> = (0..9).map(|p| place.bytes(&format!("d/drive-{p}"))).collect();
    assert!(drives.iter().all(|drive| drive.len() == 250));
    let filled = [noise(998), vec![0; 2]].concat();
    for (at, message) in filled.chunks(4).enumerate() {
        let mut codeword = [0; 9];
        code.encode(message, &mut codeword).unwrap();
        assert_eq!(drives.iter().map(|drive| drive[at]).collect::<Vec<_>>(), codeword);
    }
}

#[test]
fn spreads_the_groups() {
    let place = stored(998, "2 9 4 1");
    assert_eq!(place.bytes("d/stripe.txt"), b"latsefidy store 1\ncode 1 2 9 4 1\nbytes 998\n");
    place.run(0, "store f e 2 9 4");
    // Drive g + 3 * i is member i of group g, which is drive 3 * g + i under wiring 0.
    for (wired, drive) in [0, 3, 6, 1, 4, 7, 2, 5, 8].into_iter().enumerate() {
        assert_eq!(place.bytes(&format!("d/drive-{wired}")), place.bytes(&format!("e/drive-{drive}")));
    }
    let said = place.run(0, "lose d 3 4 5");
    assert!(said.ends_with("lose: 3 of 9 drives gone: each is rebuilt from 2 others\n"), "{said}");
    let said = place.run(0, "load d g");
    let rebuilt = [3, 4, 5].map(|p| format!("load: drive {p} rebuilt from drives {} {}\n", p - 3, p + 3));
    assert!(said.starts_with(&rebuilt.concat()), "{said}");
    assert_eq!(place.bytes("g"), noise(998));
    place.run(0, "lose d 0");
    place.run(0, "load d h");
    assert_eq!(place.bytes("h"), noise(998));
}

#[test]
fn keeps_a_short_group() {
    let place = stored(998, "4 8 5");
    assert_eq!(place.bytes("d/stripe.txt"), b"latsefidy store 1\ncode 1 4 8 5\nbytes 998\n");
    let said = place.run(0, "lose d 0 7");
    assert!(said.ends_with("lose: 2 of 8 drives gone: each is rebuilt from at most 4 others\n"), "{said}");
    let said = place.run(0, "load d g");
    let rebuilt = "load: drive 0 rebuilt from drives 1 2 3 4\nload: drive 7 rebuilt from drives 5 6\n";
    assert!(said.starts_with(rebuilt), "{said}");
    assert_eq!(place.bytes("g"), noise(998));
    place.run(0, "lose d 5 6");
    place.refused(1, "load d h", "load: stripe 0 refused 10");
    // Two of its three drives are as many as the guarantee.
    let place = stored(998, "4 8 5");
    let said = place.run(0, "lose d 5 6");
    assert!(said.ends_with("lose: 2 of 8 drives gone: within the guarantee of 2, the file still loads\n"), "{said}");
    place.run(0, "load d g");
    assert_eq!(place.bytes("g"), noise(998));
    // The one group of two drives.
    let said = place.run(0, "store f two 2 2 1");
    assert!(said.ends_with("; one lost drive is rebuilt from 1 other\n"), "{said}");
    place.run(0, "lose two 0");
    assert!(place.run(0, "load two h").starts_with("load: drive 0 rebuilt from drives 1\n"));
    assert_eq!(place.bytes("h"), noise(998));
}

#[test]
fn says_what_it_did() {
    let place = Place::new();
    place.file("f", &noise(12_345));
    let said = place.run(0, "store f d");
    let (head, tail) = said.split_once(" MB/s ").unwrap();
    assert!(head.starts_with("store: 12,345 bytes on 20 drives of 1,029 bytes: "), "{said}");
    let promise = "store: any 6 drives can be lost and the file still loads; one lost drive is rebuilt from 4 others\n";
    assert_eq!(tail, format!("(file bytes encoded and written a second)\n{promise}"));
    let gone = "lose: 1 of 20 drives gone: each is rebuilt from 4 others\n";
    assert_eq!(place.run(0, "lose d 7"), format!("lose: drive 7 deleted\n{gone}"));
    assert_eq!(place.run(0, "lose d 7"), format!("lose: drive 7 is already gone\n{gone}"));
    let said = place.run(0, "load d g");
    let (head, tail) = said.split_once(" MB/s ").unwrap();
    let rebuilt = "load: drive 7 rebuilt from drives 5 6 8 9\n";
    assert!(head.starts_with(&format!("{rebuilt}load: 12,345 bytes from 19 of 20 drives: ")), "{said}");
    assert_eq!(tail, "(file bytes rebuilt, decoded and written a second)\n");
}

#[test]
fn loads_every_length() {
    for length in [0, 1, 11, 12, 13, 4096 * 12, 4096 * 12 + 1] {
        let place = stored(length, "");
        place.run(0, "lose d 0 1 2 3 4 19");
        let before = place.all("d");
        place.run(0, "load d g");
        assert_eq!(place.bytes("g"), noise(length));
        assert_eq!(place.all("d"), before);
    }
}

#[test]
fn loses_only_what_it_is_told() {
    let place = stored(100, "");
    place.file("d/mine", b"mine");
    let before = place.all("d");
    let said = place.run(0, "lose d 3 03 18");
    assert!(said.ends_with("lose: 2 of 20 drives gone: each is rebuilt from 4 others\n"), "{said}");
    let gone = [place.at("d/drive-3"), place.at("d/drive-18")];
    assert_eq!(place.all("d"), before.into_iter().filter(|(path, _)| !gone.contains(path)).collect::<Vec<_>>());
}

#[test]
fn losses_past_the_guarantee_load_or_are_refused() {
    let place = stored(100, "");
    let said = place.run(0, "lose d 0 1 2 3 4");
    assert!(said.ends_with("lose: 5 of 20 drives gone: within the guarantee of 6, the file still loads\n"), "{said}");
    let said = place.run(0, "lose d 5 10");
    let past = "past the guarantee of 6, but the rest still decides every stripe: the file loads\n";
    assert!(said.ends_with(&format!("lose: 7 of 20 drives gone: {past}")), "{said}");
    place.run(0, "load d g");
    assert_eq!(place.bytes("g"), noise(100));
    let said = place.run(0, "lose d 6 7");
    let past = "past the guarantee of 6, and the rest decides no stripe\n";
    assert!(said.ends_with(&format!("lose: 9 of 20 drives gone: {past}")), "{said}");
    place.refused(1, "load d h", "load: stripe 0 refused 10: more than one codeword agrees with every kept symbol");
    assert!(!place.at("h").exists());
}

#[test]
fn a_drive_of_another_length_is_lost() {
    let place = stored(1000, "2 9 4");
    place.file("d/drive-4", &[7; 251]);
    place.file("d/drive-0", &[]);
    let said = place.run(0, "load d g");
    let short = "load: drive 0 has 0 bytes in place of 250: it counts as lost\n";
    let long = "load: drive 4 has 251 bytes in place of 250: it counts as lost\n";
    let rebuilt = "load: drive 0 rebuilt from drives 1 2\nload: drive 4 rebuilt from drives 3 5\n";
    assert!(said.starts_with(&[short, long, rebuilt].concat()), "{said}");
    assert_eq!(place.bytes("g"), noise(1000));
}

#[test]
fn a_wrong_byte_is_refused_or_not_found() {
    let place = stored(1000, "");
    let mut drive = place.bytes("d/drive-9");
    drive[5] ^= 1;
    place.file("d/drive-9", &drive);
    place.refused(1, "load d g", "load: stripe 5 refused 9: no codeword agrees with every kept symbol");
    assert!(!place.at("g").exists());
    // With K below R its mates contradict it too, so a lost drive of its group is not rebuilt.
    let place = stored(1000, "4 10 3");
    let mut drive = place.bytes("d/drive-9");
    drive[5] ^= 1;
    place.file("d/drive-9", &drive);
    place.run(0, "lose d 2 7");
    place.refused(1, "load d g", "load: stripe 5 refused 9: no codeword agrees with every kept symbol");
    assert!(!place.at("g").exists());
    // Without any other drive to contradict it the wrong byte is believed.
    place.file("s", &[5]);
    place.run(0, "store s one 2 3 1");
    place.run(0, "lose one 1 2");
    place.file("one/drive-0", &[6]);
    place.run(0, "load one t");
    assert_eq!(place.bytes("t"), [6]);
}

#[test]
fn store_leaves_what_is_there() {
    let place = Place::new();
    place.file("f", &noise(100));
    fs::create_dir(place.at("d")).unwrap();
    place.file("d/drive-3", b"mine");
    place.refused(1, "store f d", "store: d is not empty: nothing was stored");
    place.refused(1, "store f f", "is no folder");
    fs::remove_file(place.at("d/drive-3")).unwrap();
    place.refused(2, "store nothing d", "store: cannot read nothing");
    place.refused(2, "store nothing new", "store: cannot read nothing");
    place.refused(2, "store f no/where", "store: cannot write no/where");
    place.refused(1, "store f new 4 20 17", "code 1 4 20 17 0: refused 4: k is not from 1 to r * n / (r + 1)");
    place.refused(1, "store f new 4 20 12 2", "code 1 4 20 12 2: refused 17: the wiring is above 1");
    place.refused(1, "store f new 4 18 10 1", "code 1 4 18 10 1: refused 17: the wiring is above 1, or 1 with n no");
    place.refused(1, "store f new 4 16 10", "code 1 4 16 10 0: refused 3: n is not from 1 to q - 1, or 1 more than");
    place.refused(1, "store f new 4 20 12 x", "WIRING is \"x\"");
    place.refused(1, "store f new 4 20 x", "K is \"x\"");
    place.refused(1, "store f new 4 +20 12", "N is \"+20\"");
    assert!(!place.at("new").exists());
    place.run(0, "store f d");
}

#[test]
fn load_leaves_what_is_there() {
    let place = stored(100, "");
    place.file("g", b"mine");
    place.refused(1, "load d g", "load: g is there already, and stays as it is");
    assert_eq!(place.bytes("g"), b"mine");
    place.refused(1, "load d d/g", "lies in the store");
    place.refused(1, "load d ./d/../d/g", "lies in the store");
    place.refused(2, "load d no/where", "load: cannot write no/where");
}

#[test]
fn lose_refuses_slots_before_it_deletes() {
    let place = stored(100, "");
    for slot in ["20", "-1", "+1", "1.5", "x", "4294967296", "99999999999999999999"] {
        place.refused(1, &format!("lose d 3 {slot}"), "is no slot: slots are 0 to 19; nothing was deleted");
    }
}

#[test]
fn other_folders_are_no_store() {
    let place = stored(3, "");
    place.refused(1, "load nothing g", "load: nothing is no store: it has no stripe.txt");
    place.refused(1, "load f g", "load: f is no store");
    place.refused(1, "lose nothing 1", "lose: nothing is no store");
    let (one, two, three) = ("latsefidy store 1\n", "code 1 4 20 12\n", "bytes 3\n");
    let wrong = [
        [one, two, "bytes 3"],
        [one, two, "bytes 03\n"],
        [one, two, "bytes -3\n"],
        [one, two, "bytes 3\n\n"],
        [one, two, "bytes 99999999999999999999\n"],
        [one, "code 0 2 9 4\n", three],
        [one, "code 1 4 20 17\n", three],
        [one, "code 1 4 20 12 0\n", three],
        [one, "code 1 4 20 12 2\n", three],
        [one, "code 1 4 20 12 1 1\n", three],
        [one, "code 1 4 20\n", three],
        ["latsefidy store 2\n", two, three],
        ["latsefidy store 1\r\n", two, three],
        ["", two, three],
        ["", "", ""],
    ];
    for text in wrong {
        place.file("d/stripe.txt", text.concat().as_bytes());
        place.refused(1, "load d g", "d is no store: its stripe.txt is not as store writes it");
        place.refused(1, "lose d 1", "d is no store: its stripe.txt is not as store writes it");
    }
    place.file("d/stripe.txt", &[0xff, 0xfe]);
    place.refused(1, "load d g", "d is no store");
    assert!(!place.at("g").exists());
    place.file("d/stripe.txt", [one, two, three].concat().as_bytes());
    place.run(0, "load d g");
}

#[test]
fn usage_touches_nothing() {
    let place = stored(100, "");
    let usage = place.run(0, "--help");
    for line in ["-h", "store --help x", "store f -h", "lose d 3 --help", "load d -h"] {
        place.refused(0, line, &usage);
    }
    let wrong =
        ["", "wat", "store", "store f", "store f x 4", "store f x 4 20", "store f x 4 20 12 1 1", "lose", "lose d"];
    for line in wrong.into_iter().chain(["load", "load d", "load d g h", "f d"]) {
        place.refused(2, line, &usage);
    }
    assert!(!place.at("x").exists());
}

#[cfg(target_os = "linux")]
#[test]
fn a_failed_write_to_standard_output_fails_the_run() {
    let place = stored(100, "");
    let status = |line| {
        let full = fs::OpenOptions::new().write(true).open("/dev/full").unwrap();
        place.run_to(full.into(), line).status.code()
    };
    let before = place.all("d");
    for line in ["--help", "store f x", "load d g"] {
        assert_eq!(status(line), Some(2), "{line}");
    }
    assert!(!place.at("x").exists() && !place.at("g").exists());
    assert_eq!(place.all("d"), before);
    assert_eq!(status("lose d 3"), Some(2));
}

/// Files may grow to a block of 512 or 1,024 bytes here, and no further.
#[cfg(target_os = "linux")]
#[test]
fn a_failed_write_leaves_nothing_behind() {
    let place = stored(20_000, "");
    fs::create_dir(place.at("empty")).unwrap();
    let status = |line: &str| {
        let script = format!("trap '' XFSZ; ulimit -f 1; exec '{}' {line}", program().display());
        let output = Command::new("sh").current_dir(&place.0).args(["-c", &script]).output().unwrap();
        assert!(String::from_utf8_lossy(&output.stderr).contains("cannot write"), "{output:?}");
        output.status.code()
    };
    for line in ["store f x", "store f empty", "load d g"] {
        assert_eq!(status(line), Some(2), "{line}");
    }
    assert!(!place.at("x").exists() && !place.at("g").exists());
    assert!(place.all("empty").is_empty());
}
