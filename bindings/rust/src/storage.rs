//! What holds an image.
use std::fs::{File, OpenOptions};
use std::io::{self, Seek, SeekFrom};
use std::os::fd::AsRawFd;
use std::os::unix::fs::FileExt;
use std::path::Path;

const SECTOR: u64 = 512;
// An image has at least the sectors of the superblock and the headers, and at most 64 MiB.
const LEAST: u64 = 5;
const MOST: u64 = 131_072;
// Its superblock says at these bytes how many sectors it has.
const TOTAL: std::ops::Range<usize> = 56..64;

/// What holds an image: a file, a block device, flash, rows of a database.
///
/// A crash may tear or drop the writes since the last `sync`. It loses nothing before a `sync` that succeeded. After an error the
/// machine is closed, and makes no more calls.
pub trait Storage {
    /// The whole image.
    fn read(&mut self) -> io::Result<Vec<u8>>;
    /// Writes all these bytes from `byte` on.
    fn write(&mut self, byte: u64, data: &[u8]) -> io::Result<()>;
    /// Makes all earlier writes durable.
    fn sync(&mut self) -> io::Result<()>;
}

extern "C" {
    fn flock(file: i32, operation: i32) -> i32;
}
const LOCK_EXCLUSIVE: i32 = 2;
const LOCK_WITHOUT_WAITING: i32 = 4;

/// A file or a block device with an image at its start. It is locked while it is open.
#[derive(Debug)]
pub struct FileStorage(File);

impl FileStorage {
    /// Opens and locks a file. If another program has it locked, the error has the kind `WouldBlock`.
    pub fn open(path: impl AsRef<Path>) -> io::Result<Self> {
        let path = path.as_ref();
        FileStorage::open_and_lock(path).map_err(|error| {
            let what = match error.kind() {
                io::ErrorKind::WouldBlock => "another program uses the image".to_owned(),
                _ => error.to_string(),
            };
            io::Error::new(error.kind(), format!("{}: {what}", path.display()))
        })
    }

    fn open_and_lock(path: &Path) -> io::Result<Self> {
        let file = OpenOptions::new().read(true).write(true).open(path)?;
        // Safety: the descriptor is open.
        if unsafe { flock(file.as_raw_fd(), LOCK_EXCLUSIVE | LOCK_WITHOUT_WAITING) } != 0 {
            return Err(io::Error::last_os_error());
        }
        file.sync_all()?;
        Ok(FileStorage(file))
    }
}

impl Storage for FileStorage {
    /// The sectors of the image. The file may be longer: what follows the image is not read.
    fn read(&mut self) -> io::Result<Vec<u8>> {
        // The end, because the length in the metadata is 0 for a block device.
        let sectors = self.0.seek(SeekFrom::End(0))? / SECTOR;
        let mut image = vec![0; (sectors.min(LEAST) * SECTOR) as usize];
        self.0.read_exact_at(&mut image, 0)?;
        let begun = image.len();
        let total = image.get(TOTAL).map_or(0, |bytes| {
            bytes
                .iter()
                .rev()
                .fold(0, |sum, &byte| sum << 8 | u64::from(byte))
        });
        let wanted = sectors.min(MOST).min(total.max(LEAST));
        image.resize((wanted * SECTOR) as usize, 0);
        self.0.read_exact_at(&mut image[begun..], begun as u64)?;
        Ok(image)
    }

    fn write(&mut self, byte: u64, data: &[u8]) -> io::Result<()> {
        self.0.write_all_at(data, byte)
    }

    fn sync(&mut self) -> io::Result<()> {
        self.0.sync_data()
    }
}

/// An image in memory.
impl Storage for Vec<u8> {
    fn read(&mut self) -> io::Result<Vec<u8>> {
        Ok(self.clone())
    }

    fn write(&mut self, byte: u64, data: &[u8]) -> io::Result<()> {
        let place = byte as usize;
        match self.get_mut(place..place + data.len()) {
            Some(to) => to.copy_from_slice(data),
            None => {
                return Err(io::Error::new(
                    io::ErrorKind::UnexpectedEof,
                    "a write beyond the end of the image",
                ))
            }
        }
        Ok(())
    }

    fn sync(&mut self) -> io::Result<()> {
        Ok(())
    }
}

impl<S: Storage + ?Sized> Storage for &mut S {
    fn read(&mut self) -> io::Result<Vec<u8>> {
        (**self).read()
    }

    fn write(&mut self, byte: u64, data: &[u8]) -> io::Result<()> {
        (**self).write(byte, data)
    }

    fn sync(&mut self) -> io::Result<()> {
        (**self).sync()
    }
}

impl<S: Storage + ?Sized> Storage for Box<S> {
    fn read(&mut self) -> io::Result<Vec<u8>> {
        (**self).read()
    }

    fn write(&mut self, byte: u64, data: &[u8]) -> io::Result<()> {
        (**self).write(byte, data)
    }

    fn sync(&mut self) -> io::Result<()> {
        (**self).sync()
    }
}
