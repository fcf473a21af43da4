//! What safe Rust lacks: files as memory, what happens when such a file is cut, and the sync of a file system.
//!
//! The only module with unsafe code. A pack may be larger than the memory, and the library takes it as one slice, so
//! named files are mapped. Another program may change or cut a file that is mapped:
//!
//! - Cut, its bytes are gone, and whoever reads them gets SIGBUS. The handler says so in one line and ends the run with
//!   status 2; no file with a name is on its way then, since outputs are made in files without one.
//! - Changed, a byte may be read twice and differ. The entries hold each place and length that they read to the length of
//!   the slice, which stays; the commands give outputs that are long enough for whatever is read; and a file that has
//!   changed by the end (`input`) is reported, with nothing written.
#![allow(unsafe_code)]

use memmap2::{Mmap, MmapMut};
use signal_hook::consts::SIGBUS;
use signal_hook::low_level;
use std::fs::File;
use std::io;
use std::ops::{Deref, DerefMut};
use std::os::fd::AsRawFd;
use std::ptr;
use std::sync::atomic::{AtomicPtr, Ordering};
use std::sync::Once;

/// The most pieces of which a `Sink` consists.
const SINK_PIECES: usize = 16_384;
/// The least length of such a piece; a multiple of every system's page.
const SINK_PIECE: usize = 1 << 20;

/// What the handler of SIGBUS prints of the file that was mapped last, if there is one.
static LINE: AtomicPtr<Vec<u8>> = AtomicPtr::new(ptr::null_mut());

/// A file as memory that is read.
pub fn map(file: &File, line_if_cut: String) -> io::Result<Mmap> {
    handle_cuts()?;
    // It stays for the handler, which may come at any time.
    let line = Box::leak(Box::new(format!("{line_if_cut}\n").into_bytes()));
    LINE.store(line, Ordering::SeqCst);
    // SAFETY: what may happen to the file meanwhile is met as said above.
    unsafe { Mmap::map(file) }
}

/// A file without a name as memory that is written.
pub fn map_mut(file: &File) -> io::Result<MmapMut> {
    handle_cuts()?;
    // SAFETY: only this run can reach the file.
    unsafe { MmapMut::map_mut(file) }
}

/// From now on a mapped file that is cut ends the run as said above.
fn handle_cuts() -> io::Result<()> {
    static HANDLER: Once = Once::new();
    let mut registered = Ok(());
    HANDLER.call_once(|| {
        // SAFETY: the handler loads a pointer, writes and exits, all of which a handler may do.
        registered = unsafe { low_level::register(SIGBUS, end_of_file) }.map(|_| ());
    });
    registered
}

/// Ends the run as a failure of the file. A return would lead to the same read again.
fn end_of_file() {
    const OF_WORK: &[u8] = b"a file for the work could not be read or written\n";
    // SAFETY: a pointer that is set is that of a line which is never freed.
    let line = unsafe { LINE.load(Ordering::SeqCst).as_ref() };
    let line = line.map_or(OF_WORK, Vec::as_slice);
    // SAFETY: the bytes of the line are there.
    unsafe { libc::write(libc::STDERR_FILENO, line.as_ptr().cast(), line.len()) };
    low_level::exit(2);
}

/// Memory for an output of which only the start is read: as long as is asked for, though all pieces behind the first
/// are one.
pub struct Sink {
    start: *mut u8,
    length: usize,
}

impl Sink {
    /// A sink of at least this length over a file without a name, which gets the length of two pieces.
    pub fn new(file: &File, length: usize) -> io::Result<Sink> {
        let piece = length.div_ceil(SINK_PIECES).next_multiple_of(SINK_PIECE);
        let length = length.max(1).next_multiple_of(piece);
        file.set_len(2 * piece as u64)?;
        let (read_write, shared) = (libc::PROT_READ | libc::PROT_WRITE, libc::MAP_SHARED);
        let reserve = libc::MAP_PRIVATE | libc::MAP_ANONYMOUS | libc::MAP_NORESERVE;
        // SAFETY: new memory at a place that the system chooses; nothing may be done with it yet.
        let start = unsafe { libc::mmap(ptr::null_mut(), length, libc::PROT_NONE, reserve, -1, 0) };
        if start == libc::MAP_FAILED {
            return Err(io::Error::last_os_error());
        }
        let sink = Sink {
            start: start.cast(),
            length,
        };
        for at in (0..length).step_by(piece) {
            let fixed = shared | libc::MAP_FIXED;
            let offset = if at == 0 { 0 } else { piece as libc::off_t };
            // SAFETY: the piece lies in the memory that is reserved above.
            let mapped = unsafe {
                let place = sink.start.add(at).cast();
                libc::mmap(place, piece, read_write, fixed, file.as_raw_fd(), offset)
            };
            if mapped == libc::MAP_FAILED {
                return Err(io::Error::last_os_error());
            }
        }
        Ok(sink)
    }
}

impl Deref for Sink {
    type Target = [u8];

    fn deref(&self) -> &[u8] {
        // SAFETY: all of it is mapped as long as the sink lives, and nobody looks behind the first piece.
        unsafe { std::slice::from_raw_parts(self.start, self.length) }
    }
}

impl DerefMut for Sink {
    fn deref_mut(&mut self) -> &mut [u8] {
        // SAFETY: as above; a write behind the first piece is seen in the other pieces, where nobody looks.
        unsafe { std::slice::from_raw_parts_mut(self.start, self.length) }
    }
}

impl Drop for Sink {
    fn drop(&mut self) {
        // SAFETY: the memory is this sink's, and no slice of it is left.
        unsafe { libc::munmap(self.start.cast(), self.length) };
    }
}

/// Puts all files and folders of the file system that a file is on onto the disk.
pub fn sync_file_system(file: &File) -> io::Result<()> {
    // SAFETY: the call takes an open file and nothing else.
    match unsafe { libc::syncfs(file.as_raw_fd()) } {
        0 => Ok(()),
        _ => Err(io::Error::last_os_error()),
    }
}
