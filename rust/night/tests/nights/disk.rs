//! A journal that cannot be written, and a disk that becomes full.

use std::io::Write;
use std::process::{Command, Stdio};

use crate::support::{folder, Place};

const CONFIGURATION: &[u8] = b"1\n03 MT 4\n0\n2\n03\n11\n";

#[test]
fn a_journal_that_cannot_be_written_is_refused() {
    let place = Place::new("unwritable", CONFIGURATION);
    std::fs::create_dir(place.journal()).unwrap();
    place.is_refused("cannot be used: Is a directory");
    std::fs::remove_dir(place.journal()).unwrap();
    std::os::unix::fs::symlink("/dev/full", place.journal()).unwrap();
    place.is_refused("is not an ordinary file");
    std::fs::remove_file(place.journal()).unwrap();
    std::os::unix::fs::symlink("no/such/folder", place.journal()).unwrap();
    place.is_refused("cannot be used: No such file or directory");
}

/// A small disk of its own, in memory.
struct Disk(std::path::PathBuf);

impl Disk {
    fn new(name: &str, options: &str) -> Disk {
        let folder = folder(name);
        let status = Command::new("mount").args(["-t", "tmpfs", "-o", options, "tmpfs"]).arg(&folder).status();
        assert!(status.is_ok_and(|status| status.success()), "this test has to be run as root, to mount a disk");
        Disk(folder)
    }
}

impl Drop for Disk {
    fn drop(&mut self) {
        let _ = Command::new("umount").arg("-l").arg(&self.0).status();
    }
}

#[test]
#[ignore = "mounts a small disk, for which it has to be root"]
fn a_disk_that_becomes_full_ends_the_night_before_the_answer() {
    let disk = Disk::new("small-disk", "size=64k");
    let mut place = Place::new("full", CONFIGURATION);
    std::fs::copy(place.folder.join("configuration"), disk.0.join("configuration")).unwrap();
    place.folder = disk.0.clone();
    let lines = 5000;
    let output = place.run("DOWN 3 1\nUP 3 1\n".repeat(lines / 2).as_bytes());
    let said = String::from_utf8_lossy(&output.stderr).into_owned();
    assert!(!output.status.success() && said.contains("No space left on device"), "{said}");
    let answered = output.stdout.len() / "ACK\n".len();
    let kept = night::store::look_at(&place.journal()).unwrap();
    println!("{answered} of {lines} calls answered, {} kept, {} bytes torn", kept.calls.len(), kept.torn);
    assert!(answered > 500 && answered < lines);
    assert_eq!((kept.calls.len(), kept.torn), (answered, 0));
    // With room again the night goes on. Without, it still starts, and answers nothing.
    std::fs::write(disk.0.join("rest"), vec![0; 1 << 16]).unwrap_err();
    let output = place.run("DOWN 3 1\n".repeat(500).as_bytes());
    assert_eq!((output.status.success(), output.stdout.len()), (false, 0));
    std::fs::remove_file(disk.0.join("rest")).unwrap();
    assert_eq!(place.answers(b"SELECT\n"), b"NO 19\n");
    assert_eq!(night::store::look_at(&place.journal()).unwrap().calls.len(), answered + 1);
}

#[test]
#[ignore = "mounts a small disk, for which it has to be root"]
fn a_full_disk_and_one_that_is_only_read_are_refused_at_the_start() {
    let disk = Disk::new("full-disk", "size=16k");
    let mut place = Place::new("full-start", CONFIGURATION);
    std::fs::copy(place.folder.join("configuration"), disk.0.join("configuration")).unwrap();
    place.folder = disk.0.clone();
    std::fs::write(disk.0.join("rest"), vec![0; 1 << 16]).unwrap_err();
    place.is_refused("No space left on device");
    std::fs::remove_file(disk.0.join("rest")).unwrap();
    place.answers(b"SELECT\n");
    let status = Command::new("mount").args(["-o", "remount,ro"]).arg(&disk.0).status();
    assert!(status.is_ok_and(|status| status.success()));
    place.is_refused("Read-only file system");
}

/// What the night does, as strace sees it: the journal's write, its sync, and only then the answer.
#[test]
#[ignore = "needs strace"]
fn the_sync_comes_before_the_answer() {
    let place = Place::new("sync", CONFIGURATION);
    let mut strace = Command::new("strace");
    strace.args(["-e", "trace=write,pwrite64,fdatasync", "-e", "signal=none", "-o"]).arg(place.folder.join("trace"));
    let night = place.command();
    let mut child = strace.arg(night.get_program()).args(night.get_args()).stdin(Stdio::piped()).spawn().unwrap();
    child.stdin.take().unwrap().write_all(b"DOWN 3 1\nUP 3 1\n").unwrap();
    assert!(child.wait().unwrap().success());
    let trace = std::fs::read_to_string(place.folder.join("trace")).unwrap();
    let steps = trace.lines().filter_map(|line| {
        let of_interest = ["write(1", "pwrite64(3", "fdatasync(3"];
        of_interest.into_iter().find(|start| line.starts_with(start))
    });
    let calls = ["pwrite64(3", "fdatasync(3", "write(1"];
    assert_eq!(steps.collect::<Vec<_>>(), [&["pwrite64(3", "fdatasync(3"][..], &calls].concat(), "{trace}");
}
