//! A file that is mapped to be read.

use std::fs::File;
use std::io;
use std::os::fd::AsRawFd;

/// The bytes of a file, where the kernel has them.
pub struct Mapped {
    at: *mut libc::c_void,
    len: usize,
}

impl Mapped {
    /// Maps a file, which nobody is to change meanwhile.
    pub fn open(path: &str) -> io::Result<Mapped> {
        let file = File::open(path)?;
        let len = file.metadata()?.len() as usize;
        // SAFETY: a new mapping takes the place of no other one
        let at = unsafe {
            libc::mmap(std::ptr::null_mut(), len, libc::PROT_READ, libc::MAP_PRIVATE, file.as_raw_fd(), 0)
        };
        if at == libc::MAP_FAILED {
            return Err(io::Error::last_os_error());
        }
        Ok(Mapped { at, len })
    }

    pub fn bytes(&self) -> &[u8] {
        // SAFETY: the mapping has that length, and stands as long as this value
        unsafe { std::slice::from_raw_parts(self.at.cast(), self.len) }
    }
}

impl Drop for Mapped {
    fn drop(&mut self) {
        // SAFETY: nothing borrows the bytes of a value that is dropped
        unsafe { libc::munmap(self.at, self.len) };
    }
}
