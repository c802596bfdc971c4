//! Both crates read the machine's programs, libraries, objects and archives, and what clang makes
//! for other machines.
//!
//! FILES is how many files of the machine are read at most, 1,000 where it is not set; they are
//! taken evenly from all that there are.

use elfkit_compare::{compare, Counts};
use std::fs;
use std::path::{Path, PathBuf};
use std::process::Command;

const FOLDERS: [&str; 5] = ["/usr/lib", "/usr/lib64", "/usr/bin", "/usr/sbin", "/usr/libexec"];

/// What is too large to be read here.
const MOST: u64 = 100 << 20;

/// Whether a file begins as an image or an archive does.
fn is_read(path: &Path) -> bool {
    use std::io::Read;
    let mut first = [0; 8];
    let Ok(mut file) = fs::File::open(path) else {
        return false;
    };
    let count = file.read(&mut first).unwrap_or(0);
    first[..count].starts_with(b"\x7fELF") || &first[..count] == b"!<arch>\n"
}

/// The files below a folder, without links.
fn files_below(folder: &Path, found: &mut Vec<PathBuf>) {
    for entry in fs::read_dir(folder).into_iter().flatten().flatten() {
        let Ok(kind) = entry.file_type() else {
            continue;
        };
        if kind.is_dir() {
            files_below(&entry.path(), found);
        } else if kind.is_file() && entry.metadata().is_ok_and(|it| it.len() < MOST) {
            found.push(entry.path());
        }
    }
}

/// Compares files; how many there were, and what was compared. A difference fails.
fn compare_files(paths: &[PathBuf]) -> (usize, Counts) {
    let (mut files, mut counts, mut differences) = (0, Counts::default(), Vec::new());
    for path in paths {
        let Ok(data) = fs::read(path) else {
            continue;
        };
        match compare(&data) {
            Ok(compared) => {
                files += 1;
                counts.add(compared);
            }
            Err(words) => differences.push(format!("{}: {words}", path.display())),
        }
    }
    for difference in &differences {
        println!("{difference}");
    }
    assert!(differences.is_empty(), "{} files differ", differences.len());
    (files, counts)
}

#[test]
fn both_read_the_files_of_the_machine_alike() {
    let most = std::env::var("FILES").map_or(1000, |told| told.parse().expect("no number"));
    let mut paths = Vec::new();
    for folder in FOLDERS {
        files_below(Path::new(folder), &mut paths);
    }
    paths.retain(|path| is_read(path));
    paths.sort();
    let step = paths.len() / most.max(1) + 1;
    let taken: Vec<_> = paths.iter().step_by(step).cloned().collect();
    let (files, counts) = compare_files(&taken);
    println!("{files} of {} files of the machine: {counts:?}", paths.len());
    assert!(files > 10);
}

const SOURCE: &str = "
struct pair { int a; long b; } pairs[3] = { { 1, 2 } };
extern int outside(struct pair *);
static int inside(int n) { return outside(&pairs[n]); }
__attribute__((weak)) int weak(void) { return inside(1) + inside(2); }
__thread int own = 5;
int (*table[])(void) = { weak };
";

#[test]
fn both_read_objects_of_other_machines_alike() {
    if Command::new("clang").arg("--version").output().is_err() {
        println!("not installed: clang");
        return;
    }
    let folder = std::env::temp_dir().join(format!("elfkit-compare-{}", std::process::id()));
    fs::create_dir_all(&folder).unwrap();
    let source = folder.join("source.c");
    fs::write(&source, SOURCE).unwrap();
    let targets = [
        "i386",
        "x86_64",
        "arm",
        "armeb",
        "aarch64",
        "powerpc",
        "powerpc64",
        "powerpc64le",
        "s390x",
        "mips",
        "mipsel",
        "mips64",
        "riscv32",
        "riscv64",
        "sparc",
        "sparcv9",
    ];
    let mut made = Vec::new();
    for target in targets {
        for letters in [&["-O1"][..], &["-g", "-ffunction-sections", "-gz=none"]] {
            let object = folder.join(format!("{target}-{}.o", letters.len()));
            let mut clang = Command::new("clang");
            clang.arg(format!("--target={target}-linux-gnu")).args(letters).arg("-c");
            let done = clang.arg(&source).arg("-o").arg(&object).output().unwrap();
            if done.status.success() {
                made.push(object);
            }
        }
    }
    let (files, counts) = compare_files(&made);
    println!("{files} objects of other machines: {counts:?}");
    fs::remove_dir_all(&folder).unwrap();
    assert!(files > 4);
}
