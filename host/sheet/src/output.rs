//! Files that are written whole or not at all: each without a name in its folder, and named once all are written, so
//! that nothing is left of a program that is killed. Where a file system has no files without names they get temporary
//! ones. Where naming fails, the files of before are put back. The name - is standard output.

use std::ffi::CString;
use std::fs::{self, File, OpenOptions};
use std::io::{self, BufWriter, ErrorKind, Write};
use std::mem;
use std::os::fd::AsRawFd;
use std::os::unix::ffi::OsStrExt;
use std::os::unix::fs::OpenOptionsExt;
use std::path::{Path, PathBuf};
use tempfile::TempPath;

#[derive(Default)]
pub struct Outputs {
    files: Vec<Output>,
    /// A folder that was made.
    folder: Option<PathBuf>,
    /// Files that stay as they are.
    kept: Vec<PathBuf>,
    /// What goes to standard output.
    stdout: Option<Vec<u8>>,
    /// Whether all files get temporary names.
    with_names: bool,
}

struct Output {
    content: Content,
    own: PathBuf,
    /// The file of before, under a temporary name.
    before: Option<TempPath>,
}

/// What a file will have, and where that is.
enum Content {
    /// Not written yet.
    Bytes(Vec<u8>),
    Unnamed(File),
    Temporary(TempPath),
    /// In the file itself.
    Named,
}

fn failure(path: &Path) -> impl Fn(io::Error) -> String {
    move |error| format!("{}: {error}", path.display())
}

/// The place of a file, or of what a link leads to. What is there already must be a plain file that can be written.
fn place(path: &Path) -> Result<PathBuf, String> {
    let fault = |fault: &str| Err(format!("{}: {fault}", path.display()));
    match path.metadata() {
        Ok(file) if file.is_dir() => fault("is a folder"),
        Ok(file) if !file.is_file() => fault("is no plain file"),
        Ok(file) if file.permissions().readonly() => fault("is read-only"),
        Ok(_) => OpenOptions::new().write(true).open(path).and_then(|_| path.canonicalize()).map_err(failure(path)),
        Err(error) if error.kind() != ErrorKind::NotFound => Err(failure(path)(error)),
        Err(_) if path.is_symlink() => fault("is a link that leads nowhere"),
        Err(_) => {
            let Some(name) = path.file_name() else { return fault("is no file name") };
            let folder = path.parent().filter(|folder| *folder != Path::new("")).unwrap_or(Path::new("."));
            Ok(folder.canonicalize().map_err(failure(path))?.join(name))
        }
    }
}

fn folder(path: &Path) -> &Path {
    path.parent().unwrap_or(Path::new("/"))
}

/// A name in the folder of a file that nothing else has.
fn name_beside(path: &Path) -> io::Result<TempPath> {
    Ok(tempfile::Builder::new().prefix(".sheet.").tempfile_in(folder(path))?.into_temp_path())
}

/// A file without a name in the folder of another one, or with a temporary one.
fn create(own: &Path, with_name: bool) -> io::Result<(File, Content)> {
    let unnamed = || OpenOptions::new().write(true).custom_flags(libc::O_TMPFILE).open(folder(own)).ok();
    if let Some(file) = if with_name { None } else { unnamed() } {
        let content = Content::Unnamed(file.try_clone()?);
        return Ok((file, content));
    }
    // made again, so that others may read it as they may read any file
    let name = name_beside(own)?;
    fs::remove_file(&name)?;
    Ok((File::create_new(&name)?, Content::Temporary(name)))
}

/// Gives a file without a name one that is not taken.
fn link(file: &File, path: &Path) -> io::Result<()> {
    let from = CString::new(format!("/proc/self/fd/{}", file.as_raw_fd()))?;
    let to = CString::new(path.as_os_str().as_bytes())?;
    // SAFETY: both names end with a zero byte and are there during the call
    let result = unsafe { libc::linkat(libc::AT_FDCWD, from.as_ptr(), libc::AT_FDCWD, to.as_ptr(), libc::AT_SYMLINK_FOLLOW) };
    if result == 0 { Ok(()) } else { Err(io::Error::last_os_error()) }
}

impl Outputs {
    /// Makes a folder where there is none.
    pub fn folder(&mut self, path: &Path) -> Result<(), String> {
        if !path.is_dir() {
            fs::create_dir(path).map_err(failure(path))?;
            self.folder = Some(path.to_owned());
        }
        Ok(())
    }

    /// Names a file that is not to be written.
    pub fn keep(&mut self, path: &Path) {
        self.kept.extend(path.canonicalize());
    }

    /// Where a file is to be written.
    fn place(&self, path: &Path) -> Result<PathBuf, String> {
        let own = place(path)?;
        if self.kept.contains(&own) {
            return Err(format!("{}: is read here and cannot be written", path.display()));
        }
        if self.files.iter().any(|file| file.own.as_os_str() == own.as_os_str()) {
            return Err(format!("{}: is to be written twice", path.display()));
        }
        Ok(own)
    }

    /// Writes a file that has not its own name yet.
    pub fn write(&mut self, path: &Path, write: impl FnOnce(&mut dyn Write) -> io::Result<()>) -> Result<(), String> {
        if path == Path::new("-") {
            if self.stdout.is_some() {
                return Err("-: is to be written twice".to_owned());
            }
            return write(self.stdout.insert(Vec::new())).map_err(failure(path));
        }
        let own = self.place(path)?;
        let (file, content) = create(&own, self.with_names).map_err(failure(path))?;
        self.files.push(Output { content, own, before: None });
        let mut file = BufWriter::new(file);
        write(&mut file).and_then(|()| file.flush()).map_err(failure(path))
    }

    /// Writes a small file at the end: there may be more of those than a program may have open.
    pub fn write_small(&mut self, path: &Path, bytes: Vec<u8>) -> Result<(), String> {
        let own = self.place(path)?;
        self.files.push(Output { content: Content::Bytes(bytes), own, before: None });
        Ok(())
    }

    /// Gives all files their own names.
    pub fn finish(mut self) -> Result<(), String> {
        if let Some(bytes) = &self.stdout {
            let mut out = io::stdout().lock();
            out.write_all(bytes).and_then(|()| out.flush()).map_err(failure(Path::new("-")))?;
        }
        for file in &mut self.files {
            file.name(self.with_names).map_err(failure(&file.own))?;
        }
        // with the files of before
        mem::take(&mut self.files);
        self.folder = None;
        Ok(())
    }
}

impl Output {
    /// Gives a file its own name; the one that had it before gets another one.
    fn name(&mut self, with_name: bool) -> io::Result<()> {
        if let Content::Bytes(bytes) = &self.content {
            let (mut file, content) = create(&self.own, with_name)?;
            file.write_all(bytes)?;
            self.content = content;
        }
        if self.own.exists() {
            let before = name_beside(&self.own)?;
            fs::rename(&self.own, &before)?;
            self.before = Some(before);
        }
        match mem::replace(&mut self.content, Content::Named) {
            Content::Unnamed(file) => link(&file, &self.own).inspect_err(|_| self.content = Content::Unnamed(file)),
            Content::Temporary(name) => name.persist_noclobber(&self.own).map_err(|error| {
                self.content = Content::Temporary(error.path);
                error.error
            }),
            Content::Bytes(_) | Content::Named => Ok(()),
        }
    }
}

/// Takes away what was not finished.
impl Drop for Outputs {
    fn drop(&mut self) {
        for file in &mut self.files {
            if matches!(file.content, Content::Named) {
                let _ = fs::remove_file(&file.own);
            }
            if let Some(before) = file.before.take() {
                let _ = before.persist(&file.own);
            }
        }
        // temporary files are in the folder
        self.files.clear();
        if let Some(folder) = &self.folder {
            let _ = fs::remove_dir(folder);
        }
    }
}

#[cfg(test)]
mod tests {
    use super::*;
    use std::os::unix::fs::PermissionsExt;

    /// Where the last file cannot get its name, the others are as before: one replaced, one new in a new folder.
    #[test]
    fn all_or_nothing() {
        for (with_names, fails) in [(false, true), (false, false), (true, true), (true, false)] {
            let folder = tempfile::tempdir().unwrap();
            let path = |name: &str| folder.path().join(name);
            fs::write(path("old"), "old").unwrap();
            let mut outputs = Outputs::default();
            outputs.with_names = with_names;
            outputs.folder(&path("made")).unwrap();
            for name in ["old", "made/new"] {
                outputs.write(&path(name), |out| out.write_all(b"new")).unwrap();
            }
            outputs.write_small(&path("made/small"), b"new".to_vec()).unwrap();
            outputs.write(&path("last"), |out| out.write_all(b"new")).unwrap();
            if fails {
                fs::create_dir(path("last")).unwrap();
                assert!(outputs.finish().is_err());
                assert_eq!(fs::read(path("old")).unwrap(), b"old");
                assert!(!path("made").exists());
            } else {
                outputs.finish().unwrap();
                for name in ["old", "made/new", "made/small", "last"] {
                    assert_eq!(fs::read(path(name)).unwrap(), b"new");
                    let mode = |path: &Path| fs::metadata(path).unwrap().permissions().mode();
                    fs::write(path("any"), "").unwrap();
                    assert_eq!(mode(&path(name)), mode(&path("any")), "{name}");
                }
                fs::remove_file(path("any")).unwrap();
            }
            assert_eq!(fs::read_dir(&folder).unwrap().count(), if fails { 2 } else { 3 });
        }
    }
}
