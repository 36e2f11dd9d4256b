//! The programs of `examples/`, and what they print. All but `receive` are written as for the crate.

use std::fs::{self, File};
use std::path::{Path, PathBuf};
use std::process::{Command, Output};

const GIF: &[u8] = b"GIF89a\x64\0\x64\0\0\0";
const LARGE_GIF: &[u8] = b"GIF89a\xFF\xFF\xFF\xFF\0\0";
const CUT_GIF: &[u8] = b"GIF89a\x64\0\x64\0";
const QOI: &[u8] = b"qoif\0\0\0\x02\0\0\0\x03";
const DDS: &[u8] = b"DDS \x7C\0\0\0\x07\x10\0\0\x05\0\0\0\x07\0\0\0";
const ETC2: &[u8] = b"PKM 20\0\x01\0\x40\0\x40\0\x40\0\x40";
const TEXT: &[u8] = b"These are no pixels.";

/// A folder with a file of each of these, which is removed with it.
struct Folder(PathBuf);

impl Folder {
    fn new(name: &str, files: &[(&str, &[u8])]) -> Folder {
        let path = std::env::temp_dir().join(format!("imagesize-{}-{name}", std::process::id()));
        fs::create_dir(&path).expect("a folder that can be made");
        for (name, bytes) in files {
            fs::write(path.join(name), bytes).expect("a file that can be written");
        }
        Folder(path)
    }
}

impl Drop for Folder {
    fn drop(&mut self) {
        let _ = fs::remove_dir_all(&self.0);
    }
}

/// The command that runs a program.
fn cargo(program: &str) -> Command {
    let manifest = concat!(env!("CARGO_MANIFEST_DIR"), "/Cargo.toml");
    let command = [
        "run",
        "--quiet",
        "--offline",
        "--manifest-path",
        manifest,
        "--features",
        if cfg!(feature = "vendored") {
            "vendored"
        } else {
            ""
        },
        "--example",
        program,
        "--",
    ];
    let mut cargo = Command::new(env!("CARGO"));
    cargo.args(command);
    cargo
}

/// What a program prints when it is run in a folder.
fn run(program: &str, folder: &Path, arguments: &[&str]) -> Output {
    let output = cargo(program)
        .args(arguments)
        .current_dir(folder)
        .output()
        .expect("cargo");
    assert!(output.status.success(), "{output:?}");
    output
}

fn text(bytes: &[u8]) -> String {
    String::from_utf8_lossy(bytes).into_owned()
}

#[test]
fn a_gallery_lists_its_images_by_size() {
    let files = [
        ("a.qoi", QOI),
        ("b.gif", GIF),
        ("c.txt", TEXT),
        ("d.gif", CUT_GIF),
    ];
    let folder = Folder::new("gallery", &files);
    let output = run("gallery", &folder.0, &["."]);
    assert_eq!(text(&output.stdout), "100x100 ./b.gif\n2x3 ./a.qoi\n");
    assert_eq!(
        text(&output.stderr),
        "./d.gif: failed to fill whole buffer\n"
    );
}

#[test]
fn a_gate_takes_some_types_of_some_sizes() {
    let files = [
        ("a.qoi", QOI),
        ("b.gif", GIF),
        ("c.txt", TEXT),
        ("d.gif", CUT_GIF),
        ("e.gif", LARGE_GIF),
    ];
    let folder = Folder::new("gate", &files);
    let output = run("gate", &folder.0, &files.map(|(name, _)| name));
    assert_eq!(
        text(&output.stdout),
        "a.qoi: Qoi is not taken here\n\
         b.gif: taken, 100x100\n\
         c.txt: Could not decode image\n\
         d.gif: failed to fill whole buffer\n\
         e.gif: 65535x65535 is too large\n"
    );
}

#[cfg(feature = "png")]
#[test]
fn a_gate_takes_png() {
    let png = b"\x89PNG\r\n\x1a\n\0\0\0\rIHDR\0\0\x02\x80\0\0\x01\xe0\x08\0\0\0\0";
    let folder = Folder::new("gate-png", &[("a.png", png)]);
    let output = run("gate", &folder.0, &["a.png"]);
    assert_eq!(text(&output.stdout), "a.png: taken, 640x480\n");
}

#[test]
fn textures_are_checked_and_counted() {
    let files = [
        ("a.dds", DDS),
        ("b.pkm", ETC2),
        ("c.pkm", ETC2),
        ("d.txt", TEXT),
    ];
    let folder = Folder::new("textures", &files);
    let output = run("textures", &folder.0, &files.map(|(name, _)| name));
    assert_eq!(
        text(&output.stdout),
        "a.dds: Dds(Unknown) in DDS: no compression that is known\n\
         b.pkm: Etc2(Etc2) in PKM: fine\n\
         c.pkm: Etc2(Etc2) in PKM: fine\n\
         d.txt: Could not decode image\n\
         1 Dds(Unknown)\n\
         2 Etc2(Etc2)\n"
    );
}

#[test]
fn an_image_is_passed_on_if_it_is_not_too_large() {
    let small = [GIF, &[7; 100_000]].concat();
    let files = [
        ("small", &small[..]),
        ("large", LARGE_GIF),
        ("cut", CUT_GIF),
    ];
    let folder = Folder::new("receive", &files);
    for (name, error) in [
        ("small", ""),
        ("large", "Error: \"65535x65535 is too large\"\n"),
        ("cut", "failed to fill whole buffer"),
    ] {
        let file = File::open(folder.0.join(name)).expect("the file");
        let output = cargo("receive").stdin(file).output().expect("cargo");
        assert_eq!(output.status.success(), error.is_empty(), "{output:?}");
        assert!(text(&output.stderr).contains(error), "{output:?}");
        let passed = if error.is_empty() { &small[..] } else { b"" };
        assert!(output.stdout == passed, "{} bytes", output.stdout.len());
    }
}
