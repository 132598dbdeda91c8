//! The names under which files stand beside others until they have their own; and what is left of
//! them where a viewer was killed.

use std::ffi::c_int;
use std::fs::{self, DirEntry};
use std::path::{Path, PathBuf};
use std::process;

use crate::signals;

/// The ending of a whole file that has not its own name yet.
const PART: &str = "part";
/// The ending of a file that is kept until the ones that replace it and others are in place.
const OLD: &str = "old";

/// The name that a process gives to a file by its number.
fn name(process: u32, number: u64, ending: &str) -> String {
    format!(".show-{process}-{number}.{ending}")
}

/// Whether a name stands for anything, be it a link that leads nowhere.
fn is_there(path: &Path) -> bool {
    fs::symlink_metadata(path).is_ok()
}

/// Two names in a folder that nothing has: for a whole file, and for the one that it replaces.
pub fn free(folder: &Path) -> (PathBuf, PathBuf) {
    let named = |number, ending| folder.join(name(process::id(), number, ending));
    let mut number = 0;
    while is_there(&named(number, PART)) || is_there(&named(number, OLD)) {
        number += 1;
    }
    (named(number, PART), named(number, OLD))
}

/// The process that gave a file its name; none for another name.
fn process_of(found: &str) -> Option<c_int> {
    let (process, rest) = found.strip_prefix(".show-")?.split_once('-')?;
    let (number, ending) = rest.split_once('.')?;
    let (process, number): (u32, u64) = (process.parse().ok()?, number.parse().ok()?);
    let is_ours = [PART, OLD].contains(&ending) && name(process, number, ending) == found;
    is_ours.then_some(c_int::try_from(process).ok()?)
}

/// Whether a folder's entry is a file that was left by a process that is gone.
fn is_left(entry: &DirEntry) -> bool {
    let process = entry.file_name().to_str().and_then(process_of);
    let is_file = entry.file_type().is_ok_and(|found| found.is_file());
    is_file && process.is_some_and(|process| process > 0 && signals::is_gone(process))
}

/// Removes from a folder what processes that are gone left there, as far as that can be. A file
/// that was kept is not missed under its own name: a whole one takes that in a single step.
pub fn sweep(folder: &Path) {
    let entries = fs::read_dir(folder).into_iter().flatten();
    let left = entries.map_while(Result::ok).filter(is_left);
    left.for_each(|entry| {
        // What cannot be removed stays.
        let _ = fs::remove_file(entry.path());
    });
}

#[cfg(test)]
mod tests {
    use super::*;
    use std::os::unix::fs::symlink;

    #[test]
    fn names_tell_their_process() {
        assert_eq!(process_of(&name(7, 0, PART)), Some(7));
        assert_eq!(
            process_of(".show-2147483647-18446744073709551615.old"),
            Some(i32::MAX)
        );
        for other in [
            ".show-7-0.parts",
            ".show-7-0.",
            ".show-7-0",
            ".show-7.part",
            ".show--7-0.part",
            ".show-+7-0.part",
            ".show-07-0.part",
            ".show-7-00.part",
            ".show-7--0.part",
            ".show-7-0.old.part",
            ".show-7-18446744073709551616.old",
            ".show-2147483648-0.old",
            ".show-a-0.part",
            "show-7-0.part",
            "a.show-7-0.part",
            "",
        ] {
            assert_eq!(process_of(other), None, "{other}");
        }
    }

    /// An empty folder of its own for a test, and the number of a process that is gone.
    fn folder(name: &str) -> (PathBuf, u32) {
        let folder = std::env::temp_dir().join(format!("beside-{name}-{}", process::id()));
        fs::create_dir_all(&folder).unwrap();
        let mut child = process::Command::new("true").spawn().unwrap();
        child.wait().unwrap();
        (folder, child.id())
    }

    #[test]
    fn what_a_process_left_is_swept_when_it_is_gone() {
        let (folder, gone) = folder("sweep");
        let ours = process::id();
        let kept = [
            name(ours, 0, PART),
            name(1, 0, OLD),
            name(0, 0, OLD),
            format!(".show-{gone}-0.svg"),
            format!("a.show-{gone}-0.part"),
            "a.circuit".to_owned(),
        ];
        let left = [
            name(gone, 0, PART),
            name(gone, 0, OLD),
            name(gone, 12, PART),
        ];
        for name in kept.iter().chain(&left) {
            fs::write(folder.join(name), "text").unwrap();
        }
        fs::create_dir(folder.join(name(gone, 1, PART))).unwrap();
        symlink("a.circuit", folder.join(name(gone, 2, PART))).unwrap();
        sweep(&folder);
        assert!(kept.iter().all(|name| is_there(&folder.join(name))));
        assert!(left.iter().all(|name| !is_there(&folder.join(name))));
        assert!(is_there(&folder.join(name(gone, 1, PART))));
        assert!(is_there(&folder.join(name(gone, 2, PART))));
        sweep(&folder.join("none"));
        fs::remove_dir_all(folder).unwrap();
    }

    #[test]
    fn a_name_is_free_where_nothing_has_it() {
        let (folder, _) = folder("free");
        let names = |number| {
            let named = |ending| folder.join(name(process::id(), number, ending));
            (named(PART), named(OLD))
        };
        assert_eq!(free(&folder), names(0));
        fs::write(names(0).0, "text").unwrap();
        symlink("nowhere", names(1).1).unwrap();
        assert_eq!(free(&folder), names(2));
        fs::remove_dir_all(folder).unwrap();
    }
}
