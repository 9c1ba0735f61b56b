//! A case: the files a program finds in its folder, and its standard input.

use std::fs;
use std::io;
use std::path::Path;

/// The file of a case that is given as standard input.
pub const INPUT: &str = "stdin.bin";

/// What stands under a file's name; a folder is a file that can't be read or written.
pub enum Content {
    Bytes(Vec<u8>),
    Folder,
}

#[derive(Default)]
pub struct Case {
    pub input: Vec<u8>,
    pub files: Vec<(&'static str, Content)>,
}

impl Case {
    pub fn put(&mut self, name: &'static str, bytes: impl Into<Vec<u8>>) {
        self.files.push((name, Content::Bytes(bytes.into())));
    }

    pub fn block(&mut self, name: &'static str) {
        self.files.push((name, Content::Folder));
    }

    /// The bytes of a file; none where it is missing or can't be read.
    pub fn file(&self, name: &str) -> Option<&[u8]> {
        self.files.iter().find_map(|(file, content)| match content {
            Content::Bytes(bytes) if *file == name => Some(&bytes[..]),
            _ => None,
        })
    }

    /// Writes the case into a folder of its own, in place of any older one.
    pub fn save(&self, folder: &Path) -> io::Result<()> {
        if folder.exists() {
            fs::remove_dir_all(folder)?;
        }
        fs::create_dir_all(folder)?;
        fs::write(folder.join(INPUT), &self.input)?;
        for (name, content) in &self.files {
            match content {
                Content::Bytes(bytes) => fs::write(folder.join(name), bytes)?,
                Content::Folder => fs::create_dir(folder.join(name))?,
            }
        }
        Ok(())
    }
}
