//! Reads a circuit file, a stored plan or standard input, tells whether two names are one file, and
//! writes files so that each is whole or not there, and either all of them are written or none,
//! also where a signal ends the viewer.

use std::ffi::OsString;
use std::fs::{self, File, Metadata, OpenOptions};
use std::io::{self, ErrorKind, IsTerminal, Read, Write};
use std::mem;
use std::os::fd::AsFd;
use std::os::unix::fs::{chown, FileTypeExt, MetadataExt, OpenOptionsExt};
use std::path::{Path, PathBuf};
use std::sync::{Arc, Mutex, MutexGuard, PoisonError};

use crate::kept::MOST_BYTES;
use crate::kinds::{self, Kind};
use crate::{beside, signals};

/// The name that stands for standard input.
pub const STANDARD_INPUT: &str = "-";

/// As many links are followed as the system follows.
const MOST_LINKS: usize = 40;

/// The first bytes of a file, or of standard input: all where there are no more than so many, else
/// one more than that.
pub fn read_opening(path: &Path, most: usize) -> io::Result<Vec<u8>> {
    let mut bytes = Vec::new();
    let more = most as u64 + 1;
    match path.as_os_str() == STANDARD_INPUT {
        true => io::stdin().lock().take(more).read_to_end(&mut bytes)?,
        false => File::open(path)?.take(more).read_to_end(&mut bytes)?,
    };
    Ok(bytes)
}

/// The bytes of a file, or of standard input; none where there are more than so many.
pub fn read_at_most(path: &Path, most: usize) -> io::Result<Option<Vec<u8>>> {
    let bytes = read_opening(path, most)?;
    Ok((bytes.len() <= most).then_some(bytes))
}

/// What kind of file is there, text in any encoding told as text, and a stored plan with a damaged
/// end as one; of a file that is longer than a stored plan no more is read than tells that.
fn kind_of(path: &Path) -> io::Result<Kind> {
    let bytes = read_opening(path, MOST_BYTES)?;
    let kind = match bytes.len() > MOST_BYTES {
        true => kinds::of_opening(&bytes),
        false => kinds::of(&bytes),
    };
    Ok(match kind {
        Kind::Binary if kinds::may_be_words(&bytes) => Kind::Binary,
        Kind::Binary if kinds::may_hold_text(&bytes) => Kind::Text,
        Kind::Binary if kinds::may_be_stored_plan(&bytes) => Kind::StoredPlan,
        kind => kind,
    })
}

/// What a name stands for, however it is spelled.
#[derive(Clone, Debug, PartialEq, Eq)]
pub enum Identity {
    /// A file that is there, by device and inode.
    There(u64, u64),
    /// A file that is not there yet: its folder's device and inode, and its name.
    Absent(u64, u64, OsString),
}

impl Identity {
    /// The identity of a file that is there.
    fn there(found: &Metadata) -> Self {
        Self::There(found.dev(), found.ino())
    }

    /// What a path stands for; none where not even its folder is there.
    pub fn of(path: &Path) -> Option<Self> {
        if let Ok(found) = fs::metadata(path) {
            return Some(Self::there(&found));
        }
        let path = resolved(path);
        let folder = fs::metadata(folder_of(&path)).ok()?;
        let name = path.file_name()?.to_owned();
        Some(Self::Absent(folder.dev(), folder.ino(), name))
    }

    /// The file that is read, also where it comes by standard input.
    pub fn of_read(path: &Path) -> Option<Self> {
        match path.as_os_str() == STANDARD_INPUT {
            true => of_open(&io::stdin()).map(|found| Self::there(&found)),
            false => Self::of(path),
        }
    }

    /// Where the text is printed; none for a device such as /dev/null, which loses nothing by
    /// being written twice.
    pub fn of_printed() -> Option<Self> {
        let found = of_open(&io::stdout())?;
        let is_device = found.file_type().is_char_device() && !io::stdout().is_terminal();
        (!is_device).then(|| Self::there(&found))
    }
}

/// What the system tells of an open file.
fn of_open(file: &impl AsFd) -> Option<Metadata> {
    let copy = file.as_fd().try_clone_to_owned().ok()?;
    File::from(copy).metadata().ok()
}

/// The folder that a path's last part lies in.
fn folder_of(path: &Path) -> &Path {
    match path.parent() {
        Some(folder) if !folder.as_os_str().is_empty() => folder,
        _ => Path::new("."),
    }
}

/// The path behind links, which may lead to a file that is not there yet.
fn resolved(path: &Path) -> PathBuf {
    let mut path = path.to_owned();
    for _ in 0..MOST_LINKS {
        match fs::read_link(&path) {
            Ok(target) => path = folder_of(&path).join(target),
            Err(_) => break,
        }
    }
    path
}

/// A file that is to be written.
pub struct Output<'a> {
    /// Where it goes.
    pub path: &'a Path,
    /// What it holds.
    pub bytes: Vec<u8>,
    /// What that is: words are binary data.
    pub kind: Kind,
}

impl Output<'_> {
    /// What this may replace besides an empty file.
    fn replaces(&self) -> &'static str {
        match self.kind {
            Kind::Binary => "words",
            kind => kind.name(),
        }
    }

    /// Why the file that is there may not be replaced; none where there is none, or it is empty or
    /// of this kind, or no file that is replaced: a device, a pipe or a folder.
    pub fn misfit(&self) -> Option<String> {
        let is_file = fs::metadata(self.path).is_ok_and(|found| found.is_file());
        let found = match is_file.then(|| kind_of(self.path))? {
            Ok(Kind::Empty) => return None,
            Ok(kind) if kind == self.kind => return None,
            Ok(kind) => kind.name().to_owned(),
            Err(error) => format!("a file that cannot be read: {error}"),
        };
        Some(format!(
            "expected {} to replace, found {found}; --force replaces it",
            self.replaces()
        ))
    }
}

/// The number of an output that could not be written, and why.
type Failed = (usize, io::Error);

/// A whole file under a name of its own, beside the one that it is to have.
struct Staged {
    /// The number of its output.
    number: usize,
    path: PathBuf,
    part: PathBuf,
    /// Where the file that it replaces is kept until all are in place.
    old: Option<PathBuf>,
}

/// Gives a file that is new the owner, group and mode of another.
fn make_like(part: &Path, file: &File, like: &Metadata) -> io::Result<()> {
    let made = file.metadata()?;
    if (made.uid(), made.gid()) != (like.uid(), like.gid()) {
        chown(part, Some(like.uid()), Some(like.gid()))?;
    }
    file.set_permissions(like.permissions())
}

/// A new file of the same owner, group and mode as another, or one as new files are.
fn create(part: &Path, like: Option<&Metadata>) -> io::Result<File> {
    let mut options = OpenOptions::new();
    options.write(true).create_new(true);
    let Some(like) = like else {
        return options.open(part);
    };
    let file = options.mode(0o600).open(part)?;
    match make_like(part, &file, like) {
        Ok(()) => Ok(file),
        Err(error) => {
            // The first error is the one to tell.
            let _ = fs::remove_file(part);
            Err(error)
        }
    }
}

/// Keeps a file under another name, which nothing may have.
fn keep(path: &Path, old: &Path) -> io::Result<()> {
    fs::hard_link(path, old).or_else(|error| match error.kind() {
        ErrorKind::AlreadyExists => Err(error),
        _ => fs::copy(path, old).map(drop),
    })
}

impl Staged {
    /// Gives the file its name, and keeps what had it, unless it is the last to get one.
    fn place(&self, is_last: bool) -> io::Result<()> {
        if let Some(old) = self.old.as_ref().filter(|_| !is_last) {
            keep(&self.path, old)?;
        }
        fs::rename(&self.part, &self.path)
    }

    /// Gives the name back to what had it.
    fn undo(&self) {
        // The first error is the one to tell.
        let _ = match &self.old {
            Some(old) => fs::rename(old, &self.path),
            None => fs::remove_file(&self.path),
        };
    }

    /// Removes what stands beside the file.
    fn clear(&self) {
        for name in [Some(&self.part), self.old.as_ref()].into_iter().flatten() {
            // The name may not be there any more.
            let _ = fs::remove_file(name);
        }
    }
}

/// Whether a path is a device or a pipe, which is written as it is.
fn is_stream(path: &Path) -> bool {
    fs::metadata(path).is_ok_and(|found| !found.is_file() && !found.is_dir())
}

/// Writes to a device or a pipe.
fn pour(output: &Output<'_>) -> io::Result<()> {
    let mut stream = OpenOptions::new().write(true).open(output.path)?;
    stream.write_all(&output.bytes)
}

/// The files that are being written, of which all that stands beside others is known. Nothing is
/// put there, and no file gets its name, but by who holds them.
#[derive(Default)]
struct Writing(Mutex<Vec<Staged>>);

impl Writing {
    /// Holds the files.
    fn hold(&self) -> MutexGuard<'_, Vec<Staged>> {
        self.0.lock().unwrap_or_else(PoisonError::into_inner)
    }

    /// Makes an empty file beside one that is replaced, which must be one that may be written, or
    /// is not there yet.
    fn begin(&self, path: &Path, number: usize) -> io::Result<File> {
        let path = resolved(path);
        let found = match fs::metadata(&path) {
            Ok(found) => Some(found),
            Err(error) if error.kind() == ErrorKind::NotFound => None,
            Err(error) => return Err(error),
        };
        if found.is_some() {
            OpenOptions::new().write(true).open(&path)?;
        }
        let mut staged = self.hold();
        let (part, old) = beside::free(folder_of(&path));
        let file = create(&part, found.as_ref())?;
        staged.push(Staged {
            number,
            old: found.map(|_| old),
            path,
            part,
        });
        Ok(file)
    }

    /// Writes a file beside its place.
    fn stage(&self, output: &Output<'_>, number: usize) -> io::Result<()> {
        let mut file = self.begin(output.path, number)?;
        file.write_all(&output.bytes)?;
        file.sync_all()
    }

    /// Writes all files beside their places, and what goes to devices and pipes.
    fn stage_all(&self, outputs: &[Output<'_>]) -> Result<(), Failed> {
        let numbered = outputs.iter().enumerate();
        let (streams, files): (Vec<_>, Vec<_>) =
            numbered.partition(|(_, output)| is_stream(output.path));
        let folders = files.iter().map(|(_, output)| resolved(output.path));
        folders.for_each(|path| beside::sweep(folder_of(&path)));
        files.into_iter().try_for_each(|(number, output)| {
            self.stage(output, number).map_err(|error| (number, error))
        })?;
        streams
            .into_iter()
            .try_for_each(|(number, output)| pour(output).map_err(|error| (number, error)))
    }

    /// Gives all files their names, or none.
    fn place_all(&self) -> Result<(), Failed> {
        let staged = self.hold();
        for (done, file) in staged.iter().enumerate() {
            if let Err(error) = file.place(done + 1 == staged.len()) {
                staged[..done].iter().for_each(Staged::undo);
                return Err((file.number, error));
            }
        }
        Ok(())
    }

    /// Removes what stands beside the files.
    fn clear(&self) {
        self.hold().drain(..).for_each(|file| file.clear());
    }

    /// Removes what stands beside the files and holds them for ever, so that none gets its name.
    fn abandon(&self) {
        let mut staged = self.hold();
        staged.drain(..).for_each(|file| file.clear());
        mem::forget(staged);
    }

    /// Writes all files or none.
    fn write_all(&self, outputs: &[Output<'_>]) -> Result<(), Failed> {
        let written = self.stage_all(outputs).and_then(|()| self.place_all());
        self.clear();
        written
    }
}

/// Writes all files or none, also where a signal ends the viewer.
pub fn write_all(outputs: &[Output<'_>]) -> Result<(), Failed> {
    if outputs.is_empty() {
        return Ok(());
    }
    let writing = Arc::new(Writing::default());
    let held = Arc::clone(&writing);
    signals::before_end(move || held.abandon());
    writing.write_all(outputs)
}

#[cfg(test)]
mod tests {
    use super::*;
    use std::os::unix::fs::{symlink, PermissionsExt};

    /// An empty folder of its own for a test.
    fn folder(name: &str) -> PathBuf {
        let folder = std::env::temp_dir().join(format!("show-{name}-{}", std::process::id()));
        fs::create_dir_all(&folder).unwrap();
        folder
    }

    /// Writes one file.
    fn write(path: &Path, bytes: &[u8]) -> Result<(), Failed> {
        Writing::default().write_all(&[output(path, bytes)])
    }

    /// An output that is words.
    fn output<'a>(path: &'a Path, bytes: &[u8]) -> Output<'a> {
        Output {
            path,
            bytes: bytes.to_vec(),
            kind: Kind::Binary,
        }
    }

    #[test]
    fn a_file_is_replaced_and_nothing_else_is_left() {
        let folder = folder("replaced");
        let path = folder.join("out.svg");
        write(&path, b"first, and longer").unwrap();
        write(&path, b"second").unwrap();
        assert_eq!(fs::read(&path).unwrap(), b"second");
        assert_eq!(fs::read_dir(&folder).unwrap().count(), 1);
        fs::remove_dir_all(folder).unwrap();
    }

    #[test]
    fn no_more_is_read_than_may_be() {
        let folder = folder("most");
        let path = folder.join("in");
        fs::write(&path, "1234").unwrap();
        let read = |most| read_at_most(&path, most).unwrap();
        assert_eq!(read(4), Some(b"1234".to_vec()));
        assert_eq!(read(3), None);
        let endless = Path::new("/dev/zero");
        assert_eq!(read_at_most(endless, 1000).unwrap(), None);
        assert!(read_at_most(&folder, 1000).is_err());
        fs::remove_dir_all(folder).unwrap();
    }

    #[test]
    fn a_mode_stays() {
        let folder = folder("mode");
        let path = folder.join("out");
        for mode in [0o600, 0o640, 0o664] {
            fs::write(&path, "old").unwrap();
            fs::set_permissions(&path, fs::Permissions::from_mode(mode)).unwrap();
            write(&path, b"new").unwrap();
            let found = fs::metadata(&path).unwrap().permissions().mode();
            assert_eq!(found & 0o777, mode);
        }
        fs::remove_dir_all(folder).unwrap();
    }

    #[test]
    fn a_link_stays_a_link() {
        let folder = folder("link");
        let (path, link) = (folder.join("out"), folder.join("link"));
        symlink("out", &link).unwrap();
        assert_eq!(Identity::of(&link), Identity::of(&path));
        write(&link, b"first").unwrap();
        write(&link, b"second").unwrap();
        assert_eq!(fs::read(&path).unwrap(), b"second");
        assert!(fs::symlink_metadata(&link).unwrap().is_symlink());
        assert_eq!(Identity::of(&link), Identity::of(&path));
        fs::remove_dir_all(folder).unwrap();
    }

    #[test]
    fn a_folder_is_no_file_to_write() {
        let folder = folder("folder");
        assert!(write(&folder, b"text").is_err());
        assert!(write(&folder.join("none/out"), b"text").is_err());
        assert_eq!(fs::read_dir(&folder).unwrap().count(), 0);
        fs::remove_dir_all(folder).unwrap();
    }

    #[test]
    fn where_one_fails_none_is_written() {
        let folder = folder("none");
        let (old, new) = (folder.join("old"), folder.join("new"));
        fs::write(&old, "as it was").unwrap();
        for first in [&old, &new] {
            let outputs = [first, &folder].map(|path| output(path, b"text"));
            let failed = Writing::default().write_all(&outputs).unwrap_err();
            assert_eq!(failed.0, 1);
        }
        assert_eq!(fs::read(&old).unwrap(), b"as it was");
        assert_eq!(fs::read_dir(&folder).unwrap().count(), 1);
        fs::remove_dir_all(folder).unwrap();
    }

    #[test]
    fn what_is_in_place_is_taken_back() {
        let folder = folder("undone");
        let names = ["old", "new", "lost"].map(|name| folder.join(name));
        fs::write(&names[0], "as it was").unwrap();
        let writing = Writing::default();
        let outputs = names.each_ref().map(|path| output(path, b"text"));
        writing.stage_all(&outputs).unwrap();
        let part = writing.hold()[2].part.clone();
        fs::remove_file(part).unwrap();
        assert_eq!(writing.place_all().unwrap_err().0, 2);
        writing.clear();
        assert_eq!(fs::read(&names[0]).unwrap(), b"as it was");
        assert_eq!(fs::read_dir(&folder).unwrap().count(), 1);
        fs::remove_dir_all(folder).unwrap();
    }

    #[test]
    fn the_last_file_in_place_has_none_kept() {
        let folder = folder("last");
        let names = ["first", "last"].map(|name| folder.join(name));
        for path in &names {
            fs::write(path, "old").unwrap();
        }
        let writing = Writing::default();
        let outputs = names.each_ref().map(|path| output(path, b"text"));
        writing.stage_all(&outputs).unwrap();
        writing.place_all().unwrap();
        let kept = |staged: &Staged| staged.old.as_ref().is_some_and(|old| old.exists());
        let kept: Vec<_> = writing.hold().iter().map(kept).collect();
        assert_eq!(kept, [true, false]);
        writing.clear();
        assert_eq!(fs::read_dir(&folder).unwrap().count(), 2);
        fs::remove_dir_all(folder).unwrap();
    }

    #[test]
    fn what_is_abandoned_leaves_nothing_and_stays_held() {
        let folder = folder("abandoned");
        let path = folder.join("out");
        fs::write(&path, "as it was").unwrap();
        let writing = Writing::default();
        writing.stage_all(&[output(&path, b"text")]).unwrap();
        assert_eq!(fs::read_dir(&folder).unwrap().count(), 2);
        writing.abandon();
        assert!(writing.0.try_lock().is_err());
        assert_eq!(fs::read(&path).unwrap(), b"as it was");
        assert_eq!(fs::read_dir(&folder).unwrap().count(), 1);
        fs::remove_dir_all(folder).unwrap();
    }

    #[test]
    fn a_name_that_is_taken_is_not_copied_over() {
        let folder = folder("taken");
        let (path, old) = (folder.join("out"), folder.join("old"));
        fs::write(&path, "as it was").unwrap();
        fs::hard_link(&path, &old).unwrap();
        assert!(keep(&path, &old).is_err());
        assert_eq!(fs::read(&path).unwrap(), b"as it was");
        fs::remove_dir_all(folder).unwrap();
    }

    #[test]
    fn a_file_of_another_kind_is_not_replaced() {
        let folder = folder("kind");
        let path = folder.join("out");
        let misfit = |kind| {
            let bytes = Vec::new();
            let path = &path;
            Output { path, bytes, kind }.misfit()
        };
        let all = [Kind::Picture, Kind::StoredPlan, Kind::Binary];
        assert_eq!(all.map(misfit), [None, None, None]);
        fs::write(&path, "").unwrap();
        assert_eq!(all.map(misfit), [None, None, None]);
        fs::write(&path, "max 8\n").unwrap();
        let found = ["a picture", "a stored plan", "words"].map(|expected| {
            Some(format!(
                "expected {expected} to replace, found a circuit; --force replaces it"
            ))
        });
        assert_eq!(all.map(misfit), found);
        fs::write(&path, "<svg>").unwrap();
        assert_eq!(misfit(Kind::Picture), None);
        assert!(misfit(Kind::StoredPlan).is_some() && misfit(Kind::Binary).is_some());
        fs::remove_dir_all(folder).unwrap();
    }

    #[test]
    fn a_long_file_is_told_by_its_opening() {
        let folder = folder("long");
        let path = folder.join("out");
        for (opening, kind) in [
            ("<svg>", Kind::Picture),
            ("max 8", Kind::Circuit),
            ("a", Kind::Text),
        ] {
            let text = opening.to_owned() + &" é".repeat(MOST_BYTES);
            fs::write(&path, &text).unwrap();
            assert_eq!(kind_of(&path).unwrap(), kind);
        }
        let file = File::create(&path).unwrap();
        file.set_len(1 << 40).unwrap();
        assert_eq!(kind_of(&path).unwrap(), Kind::Binary);
        fs::remove_dir_all(folder).unwrap();
    }
}
