//! Finds the archive of the C boundary, or builds it, and asks it for its version.

use std::fs::{self, OpenOptions};
use std::io::{self, BufRead, BufReader, Read, Write};
use std::path::{Path, PathBuf};
use std::process::{exit, Command, Stdio};
use std::{env, thread};

/// The archive's name in its folder, and that of the stamp beside it.
const ARCHIVE: &str = "libwidrekas.a";
const STAMP: &str = "libwidrekas.sources";

/// The version of the boundary that this crate declares.
const VERSION: &str = "4";

/// What the archive must have beside `widrekas_version`.
const FUNCTIONS: [&str; 14] = [
    "widrekas_card",
    "widrekas_unit",
    "widrekas_unit_past_space",
    "widrekas_header",
    "widrekas_list",
    "widrekas_name",
    "widrekas_entry_value",
    "widrekas_entry_comment",
    "widrekas_lookup_value",
    "widrekas_lookup_comment",
    "widrekas_write",
    "widrekas_open",
    "widrekas_step",
    "widrekas_decode",
];

/// What the archive is made of: this file of the project's root and these folders of each of its crates.
const CRATES: &str = "crates.txt";
const PARTS: [&str; 3] = ["src", "specs", "proofs"];

const ADVICE: &str =
    "set WIDREKAS_ARCHIVE to a folder with libwidrekas.a, or run `./build archive` at the project's root";

/// Ends the build with a message.
fn fail(message: &str) -> ! {
    eprintln!("widrekas-sys: {message}");
    exit(1)
}

/// What the answer holds; ends the build where it is an error.
fn sure<T>(what: &Path, answer: io::Result<T>) -> T {
    answer.unwrap_or_else(|why| fail(&format!("{}: {why}", what.display())))
}

/// A variable that cargo sets.
fn told(name: &str) -> String {
    env::var(name).unwrap_or_default()
}

/// The archive is made for one platform.
fn check_platform() {
    let parts = ["OS", "ARCH", "POINTER_WIDTH"].map(|part| told(&format!("CARGO_CFG_TARGET_{part}")));
    if parts != ["linux", "x86_64", "64"] {
        fail(&format!("the archive is made for x86-64 Linux alone, and this build is for {}", told("TARGET")));
    }
}

/// The archive that the environment names: its folder, or the archive itself.
fn named(place: PathBuf) -> PathBuf {
    let archive = if place.is_dir() { place.join(ARCHIVE) } else { place };
    if !archive.ends_with(ARCHIVE) || !archive.is_file() {
        fail(&format!("WIDREKAS_ARCHIVE names no folder with {ARCHIVE}: {}", archive.display()));
    }
    archive
}

/// A sum that tells contents apart: FNV-1a, 64 bits.
struct Sum(u64);

impl Sum {
    fn new() -> Self {
        Sum(0xcbf2_9ce4_8422_2325)
    }

    /// Takes bytes in, with their number.
    fn add(&mut self, bytes: &[u8]) {
        for byte in (bytes.len() as u64).to_le_bytes().iter().chain(bytes) {
            self.0 = (self.0 ^ u64::from(*byte)).wrapping_mul(0x0000_0100_0000_01b3);
        }
    }

    /// Takes a file in, or all that is in a folder, with the names; nothing where there is no such place.
    fn add_place(&mut self, place: &Path) {
        if !place.exists() {
            return;
        }
        self.add(place.file_name().unwrap_or_default().as_encoded_bytes());
        if place.is_dir() {
            for inner in sorted(place) {
                self.add_place(&inner);
            }
        } else {
            self.add(&sure(place, fs::read(place)));
        }
    }
}

/// What is in a folder, by name.
fn sorted(folder: &Path) -> Vec<PathBuf> {
    let inner = sure(folder, fs::read_dir(folder));
    let mut all: Vec<PathBuf> = inner.map(|entry| sure(folder, entry).path()).collect();
    all.sort_unstable();
    all
}

/// The sum of the project's sources.
fn sum_of_sources(root: &Path) -> u64 {
    let mut sum = Sum::new();
    sum.add_place(&root.join(CRATES));
    for member in sorted(&root.join("crates")) {
        sum.add(member.file_name().unwrap_or_default().as_encoded_bytes());
        for part in PARTS {
            sum.add_place(&member.join(part));
        }
    }
    sum.0
}

/// What the stamp holds beside an archive that was made of sources: their sum and the archive's.
fn stamp_of(sources: u64, archive: &Path) -> String {
    let mut sum = Sum::new();
    sum.add_place(archive);
    format!("sources {sources:016x}\narchive {:016x}\n", sum.0)
}

/// The archive below the project's root, built where it is missing or was made of other sources.
fn own(root: &Path) -> PathBuf {
    if !root.join(CRATES).is_file() {
        fail(&format!("the project's sources are not at {}; {ADVICE}", root.display()));
    }
    println!("cargo:rerun-if-changed={}", root.join(CRATES).display());
    println!("cargo:rerun-if-changed={}", root.join("crates").display());
    let folder = root.join("target/staticlib");
    let (archive, stamp) = (folder.join(ARCHIVE), folder.join(STAMP));
    let sources = sum_of_sources(root);
    let stamped = fs::read_to_string(&stamp).is_ok_and(|held| held == stamp_of(sources, &archive));
    if !(archive.is_file() && stamped) {
        build(root);
        if !archive.is_file() {
            fail(&format!("`./build archive` left no {}", archive.display()));
        }
        sure(&stamp, fs::write(&stamp, stamp_of(sources, &archive)));
    }
    archive
}

/// Runs `./build archive`. Its lines on standard error go to the terminal as they come, if there is one. Where it fails, they are
/// the message.
fn build(root: &Path) {
    let program = root.join("build");
    let mut command = Command::new(&program);
    command.arg("archive").current_dir(root).stdin(Stdio::null()).stdout(Stdio::piped()).stderr(Stdio::piped());
    let mut run =
        command.spawn().unwrap_or_else(|why| fail(&format!("{} cannot be run: {why}; {ADVICE}", program.display())));
    let (out, lines) = (run.stdout.take(), run.stderr.take());
    let out = thread::spawn(move || {
        let mut said = Vec::new();
        out.map(|mut out| out.read_to_end(&mut said));
        said
    });
    let mut terminal = OpenOptions::new().write(true).open("/dev/tty").ok();
    let mut said = String::new();
    for line in lines.into_iter().flat_map(|lines| BufReader::new(lines).split(b'\n')).map_while(Result::ok) {
        let line = String::from_utf8_lossy(&line);
        if let Some(terminal) = &mut terminal {
            // Over cargo's own line.
            let _ = writeln!(terminal, "\r\x1b[Kwidrekas: {}", line.strip_prefix("build: ").unwrap_or(&line));
        }
        said += &format!("{line}\n");
    }
    let out = out.join().unwrap_or_default();
    let status = sure(&program, run.wait());
    if !status.success() {
        fail(&format!("`./build archive` failed ({status}); {ADVICE}\n{}{said}", String::from_utf8_lossy(&out)));
    }
}

/// A program that needs every function and prints the version.
fn asking() -> String {
    let declared = FUNCTIONS.map(|function| format!("    fn {function}();\n")).concat();
    let all = FUNCTIONS.join(", ");
    format!(
        "extern \"C\" {{\n    fn widrekas_version() -> u32;\n{declared}}}\n\n\
         fn main() {{\n    let all: [unsafe extern \"C\" fn(); {}] = [{all}];\n    std::hint::black_box(all);\n    \
         println!(\"{{}}\", unsafe {{ widrekas_version() }});\n}}\n",
        FUNCTIONS.len()
    )
}

/// Asks the archive for its version and sees that it has every function: builds a program with it and runs that.
fn check_archive(archive: &Path, folder: &Path) {
    let out = PathBuf::from(told("OUT_DIR"));
    let (source, program) = (out.join("version.rs"), out.join("version"));
    sure(&source, fs::write(&source, asking()));
    let rustc = env::var_os("RUSTC").unwrap_or_else(|| "rustc".into());
    let mut command = Command::new(&rustc);
    command.args(["--edition", "2021", "--target", &told("TARGET"), "-l", "static=widrekas"]);
    command.arg("-L").arg(folder).arg("-o").arg(&program).arg(&source);
    if let Ok(linker) = env::var("RUSTC_LINKER") {
        command.args(["-C", &format!("linker={linker}")]);
    }
    let built = sure(Path::new(&rustc), command.output());
    if !built.status.success() {
        let said = String::from_utf8_lossy(&built.stderr);
        let mut missing = FUNCTIONS.to_vec();
        missing.push("widrekas_version");
        missing.retain(|function| said.contains(function));
        if missing.is_empty() {
            fail(&format!("no program can be linked with {}:\n{said}", archive.display()));
        }
        fail(&format!("{} has no {}", archive.display(), missing.join(", no ")));
    }
    let run = sure(&program, Command::new(&program).output());
    let said = String::from_utf8_lossy(&run.stdout);
    if !run.status.success() {
        fail(&format!("{}: the program that asks for the version failed ({})", archive.display(), run.status));
    }
    if said.trim() != VERSION {
        let version = said.trim();
        fail(&format!("{} has version {version}, and this crate is for version {VERSION}", archive.display()));
    }
}

fn main() {
    println!("cargo:rerun-if-env-changed=WIDREKAS_ARCHIVE");
    check_platform();
    let here = PathBuf::from(told("CARGO_MANIFEST_DIR"));
    let archive = match env::var_os("WIDREKAS_ARCHIVE").filter(|place| !place.is_empty()) {
        Some(place) => named(here.join(place)),
        None => {
            let root = here.join("../..");
            own(&root.canonicalize().unwrap_or(root))
        }
    };
    println!("cargo:rerun-if-changed={}", archive.display());
    let folder = archive.parent().unwrap_or(&here);
    check_archive(&archive, folder);
    println!("cargo:rustc-link-search=native={}", folder.display());
    println!("cargo:rustc-link-lib=static=widrekas");
}
