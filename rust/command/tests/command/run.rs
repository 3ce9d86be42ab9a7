//! Runs the program, and says what is expected of it.

use shabgozim::{inspection, listing, read_list, PixelMap, State};
use std::ffi::OsStr;
use std::fs;
use std::io::Write;
use std::path::{Path, PathBuf};
use std::process::{self, Command, Output, Stdio};
use std::sync::atomic::{AtomicUsize, Ordering};

pub const PROGRAM: &str = env!("CARGO_BIN_EXE_shabgozim");

/// Document 01's example.
pub const GOOD: &[u8] = &[1, 0, 10, 5, 12, 0xFF, 0x00, 0x0F, 0xF8, 1, 15, 1, 16];
pub const LISTED: &str = "tick word\n0 2011\n1 A000\n2 600F\n3 E0F8\n69 8000\n227 4000\nend 230\n";
/// The cover opens by one step.
pub const COVER: &[u8] = &[1, 0, 6, 5, 14, 1, 0, 0, 1];

pub const TOO_SHORT: &[u8] = &[1, 0];
pub const WRONG_VERSION: &[u8] = &[2, 0, 2, 1, 16];
pub const WRONG_LENGTH: &[u8] = &[1, 0, 3, 1, 16];
/// A mirror position, and a window mode that there is not.
pub const FAULTY_SECOND: &[u8] = &[1, 0, 9, 5, 12, 0xFF, 0x00, 0x0F, 0xF8, 2, 5, 2];
pub const REFUSED: [&[u8]; 4] = [TOO_SHORT, WRONG_VERSION, WRONG_LENGTH, FAULTY_SECOND];

/// The example's list without its fourth mirror word.
pub const LOST: &[u8] = b"tick word\n0 2011\n1 A000\n2 600F\n69 8000\n227 4000\nend 230\n";

static FOLDERS: AtomicUsize = AtomicUsize::new(0);

/// A folder of its own in which the program runs, removed in the end.
pub struct Folder(PathBuf);

impl Folder {
    pub fn new() -> Folder {
        let number = FOLDERS.fetch_add(1, Ordering::Relaxed);
        let name = format!("{}-{number}", process::id());
        let path = Path::new(env!("CARGO_TARGET_TMPDIR")).join(name);
        fs::create_dir_all(&path).expect("a folder can be made");
        Folder(path)
    }

    pub fn with(self, name: impl AsRef<OsStr>, bytes: &[u8]) -> Folder {
        fs::write(self.path(name), bytes).expect("a file can be written");
        self
    }

    pub fn path(&self, name: impl AsRef<OsStr>) -> PathBuf {
        self.0.join(name.as_ref())
    }

    pub fn run(&self, arguments: &[&str], input: &[u8]) -> Output {
        self.finish(Command::new(PROGRAM).args(arguments), input)
    }

    /// Runs a script in which `$0` is the program.
    pub fn shell(&self, script: &str) -> Output {
        self.finish(Command::new("sh").args(["-c", script, PROGRAM]), b"")
    }

    pub fn finish(&self, command: &mut Command, input: &[u8]) -> Output {
        let mut child = command
            .current_dir(&self.0)
            .stdin(Stdio::piped())
            .stdout(Stdio::piped())
            .stderr(Stdio::piped())
            .spawn()
            .expect("the program starts");
        // A program that does not read its input may have ended before this.
        let _ = child.stdin.take().map(|mut pipe| pipe.write_all(input));
        child.wait_with_output().expect("the program ends")
    }
}

impl Drop for Folder {
    fn drop(&mut self) {
        let _ = fs::remove_dir_all(&self.0);
    }
}

/// Checks all three at once.
pub fn expect(ran: Output, status: i32, output: &str, errors: &str) {
    let text = |bytes| String::from_utf8(bytes).expect("text");
    let found = (ran.status.code(), text(ran.stdout), text(ran.stderr));
    assert_eq!(found, (Some(status), output.into(), errors.into()));
}

/// The same for an output that is no text.
pub fn expect_bytes(ran: Output, status: i32, output: &[u8], errors: &str) {
    let told = String::from_utf8(ran.stderr).expect("text");
    assert_eq!((ran.status.code(), told.as_str()), (Some(status), errors));
    assert!(ran.stdout == output, "{} bytes", ran.stdout.len());
}

/// The message about a plan that the library refuses.
pub fn refusal(name: &str, plan: &[u8]) -> String {
    let refusal = listing(&State::power_on(), plan).expect_err("a refused plan");
    format!("shabgozim: {name}: {}\n", refusal.in_words(plan))
}

/// The message about a list that the library refuses.
pub fn list_refusal(name: &str, list: &[u8]) -> String {
    let refusal = read_list(list).expect_err("a refused list");
    format!("shabgozim: {name}: {}\n", refusal.in_words())
}

/// The message about a pixel map that the library refuses.
pub fn map_refusal(name: &str, map: &[u8]) -> String {
    let refusal = PixelMap::from_bytes(map).expect_err("a refused map");
    format!("shabgozim: {name}: {}\n", refusal.in_words())
}

/// A map with every other pixel lighted.
pub fn map() -> PixelMap {
    let mut bytes = vec![0xAA; PixelMap::BYTES];
    bytes[PixelMap::BYTES - 1] = 0xA0;
    PixelMap::from_bytes(&bytes).expect("a map")
}

/// The library's inspection of this list.
pub fn inspected(list: &[u8]) -> String {
    let list = read_list(list).expect("a list");
    let inspected = inspection(&list.words, &list.ticks);
    inspected.expect("a list").text
}

/// The library's reports of these plans, one after another on one head.
pub fn reports(plans: &[&[u8]]) -> String {
    let mut head = State::power_on();
    let report = |plan: &&[u8]| head.report(plan).expect("an accepted plan");
    plans.iter().map(report).collect()
}
