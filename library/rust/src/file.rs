//! A file of accepted lines, under a lock.

use crate::error::Error;
use crate::text::{append_line, text};
use std::ffi::OsStr;
use std::fs::{self, File, OpenOptions};
use std::io::{self, Read, Seek, SeekFrom, Write};
use std::os::unix::ffi::OsStrExt;
use std::os::unix::fs::MetadataExt;
use std::os::unix::io::AsRawFd;
use std::path::{Path, PathBuf};

extern "C" {
    fn flock(file: i32, operation: i32) -> i32;
}

const EXCLUSIVE: i32 = 2;
const NOT_BLOCKING: i32 = 4;

/// The file, locked as long as it is open.
#[derive(Debug)]
pub(crate) struct Lines {
    file: File,
    path: PathBuf,
    /// How many of its bytes are lines that were accepted.
    length: u64,
    /// How many bytes it has, if nobody else writes to it; none after a line couldn't be cut off.
    whole: Option<u64>,
}

impl Lines {
    /// Makes the file with a first line. It must not be there yet. After a crash it is there whole,
    /// or not at all.
    pub(crate) fn create(path: &Path, line: &str) -> Result<(), Error> {
        let draft = draft_of(path)?;
        let draft = Path::new(OsStr::from_bytes(&draft));
        let made = write_new(draft, line).and_then(|()| Ok(fs::hard_link(draft, path)?));
        fs::remove_file(draft).ok();
        made?;
        sync_folder(path)
    }

    /// Opens and locks the file, and gives its text up to the last line feed. Text after that was
    /// not written to its end: the next line that is appended replaces it.
    ///
    /// The error is `Malformed` with the line of the first byte that isn't UTF-8.
    pub(crate) fn open(path: &Path) -> Result<(Self, String), Error> {
        let mut file = OpenOptions::new().read(true).write(true).open(path)?;
        lock(&file)?;
        let mut text = Vec::new();
        let whole = file.metadata()?.len();
        text.try_reserve_exact(usize::try_from(whole).map_err(|_| Error::OutOfMemory)?)?;
        file.read_to_end(&mut text)?;
        // (Who wrote it may have been killed before it was synced.)
        file.sync_all()?;
        sync_folder(path)?;
        let end = text.iter().rposition(|byte| *byte == b'\n');
        text.truncate(end.map_or(0, |at| at + 1));
        let length = text.len() as u64;
        let text = String::from_utf8(text).map_err(|error| {
            let whole = &error.as_bytes()[..error.utf8_error().valid_up_to()];
            let line = whole.iter().filter(|byte| **byte == b'\n').count() + 1;
            Error::Malformed { line }
        })?;
        let lines = Lines {
            file,
            path: path.to_owned(),
            length,
            whole: Some(whole),
        };
        Ok((lines, text))
    }

    /// Appends a line. Returns once it is on disk. If it can't be written or synced, it is cut off
    /// again.
    pub(crate) fn append(&mut self, line: &str) -> Result<(), Error> {
        let mut whole = String::new();
        append_line(&mut whole, line)?;
        self.expect_own()?;
        if let Err(error) = self.write(whole.as_bytes()) {
            self.whole = None;
            self.cut().map_err(Error::NotCutOff)?;
            self.whole = Some(self.length);
            return Err(error.into());
        }
        self.length += whole.len() as u64;
        self.whole = Some(self.length);
        Ok(())
    }

    /// Whether text stood after the last line feed when it was opened.
    pub(crate) fn is_torn(&self) -> bool {
        self.whole != Some(self.length)
    }

    /// The file is at its path, and as long as this value has left it.
    fn expect_own(&self) -> Result<(), Error> {
        let (own, there) = (self.file.metadata()?, fs::metadata(&self.path)?);
        let is_there = (own.dev(), own.ino()) == (there.dev(), there.ino());
        match is_there && self.whole.map_or(true, |it| it == own.len()) {
            true => Ok(()),
            false => Err(Error::Changed),
        }
    }

    fn write(&mut self, line: &[u8]) -> io::Result<()> {
        self.file.set_len(self.length)?;
        self.file.seek(SeekFrom::Start(self.length))?;
        self.file.write_all(line)?;
        self.file.sync_data()
    }

    /// Cuts off what stands after the accepted lines.
    fn cut(&mut self) -> io::Result<()> {
        self.file.set_len(self.length)?;
        self.file.sync_data()
    }
}

fn lock(file: &File) -> Result<(), Error> {
    // SAFETY: the file is open, and flock reads no memory.
    if unsafe { flock(file.as_raw_fd(), EXCLUSIVE | NOT_BLOCKING) } == 0 {
        return Ok(());
    }
    let error = io::Error::last_os_error();
    match error.kind() {
        io::ErrorKind::WouldBlock => Err(Error::Locked),
        _ => Err(error.into()),
    }
}

/// Syncs the folder that a path is in.
fn sync_folder(path: &Path) -> Result<(), Error> {
    let folder = path.parent().filter(|it| !it.as_os_str().is_empty());
    Ok(File::open(folder.unwrap_or(Path::new(".")))?.sync_all()?)
}

/// The path of a draft of the file: that of the file, and the number of this process.
fn draft_of(path: &Path) -> Result<Vec<u8>, Error> {
    let (path, end) = (
        path.as_os_str().as_bytes(),
        text(format_args!(".{}.new", std::process::id()))?,
    );
    let mut draft = Vec::new();
    draft.try_reserve_exact(path.len() + end.len())?;
    draft.extend_from_slice(path);
    draft.extend_from_slice(end.as_bytes());
    Ok(draft)
}

fn write_new(path: &Path, line: &str) -> Result<(), Error> {
    let mut whole = String::new();
    append_line(&mut whole, line)?;
    let mut file = OpenOptions::new().write(true).create_new(true).open(path)?;
    file.write_all(whole.as_bytes())?;
    Ok(file.sync_all()?)
}
