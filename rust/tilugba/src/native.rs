//! The call of the library: the one place with `unsafe`.

use std::ptr;

/// `struct tilugba_bytes` of `include/tilugba.h`.
#[repr(C)]
#[derive(Clone, Copy)]
struct Bytes {
    at: *const u8,
    size: usize,
}

/// `struct tilugba_file` of `include/tilugba.h`.
#[repr(C)]
#[derive(Clone, Copy)]
struct File {
    name: Bytes,
    bytes: Bytes,
}

extern "C" {
    fn tilugba_run(
        words: *const Bytes,
        word_count: usize,
        files: *const File,
        file_count: usize,
        room: *mut u8,
        room_size: usize,
        text_size: *mut usize,
    ) -> u32;
    fn tilugba_abi() -> u32;
}

/// The room that a call has at first.
const FIRST_ROOM: usize = 4096;

fn lent(bytes: &[u8]) -> Bytes {
    Bytes {
        at: bytes.as_ptr(),
        size: bytes.len(),
    }
}

/// The number of the surface that the linked library has.
pub fn abi() -> u32 {
    // SAFETY: it takes nothing and has no state.
    unsafe { tilugba_abi() }
}

/// The status and the text of a command.
pub fn call<W, N, B>(words: &[W], files: &[(N, B)]) -> (u32, Vec<u8>)
where
    W: AsRef<[u8]>,
    N: AsRef<[u8]>,
    B: AsRef<[u8]>,
{
    let words: Vec<Bytes> = words.iter().map(|word| lent(word.as_ref())).collect();
    let files: Vec<File> = files
        .iter()
        .map(|(name, bytes)| File {
            name: lent(name.as_ref()),
            bytes: lent(bytes.as_ref()),
        })
        .collect();
    let mut text = vec![0u8; FIRST_ROOM];
    loop {
        let mut size = 0;
        // SAFETY: each pointer is that of a live slice with its length, and a slice's pointer is
        // never null. What is lent is borrowed until the end of this function. The room and the
        // size are this call's own.
        let status = unsafe {
            tilugba_run(
                words.as_ptr(),
                words.len(),
                files.as_ptr(),
                files.len(),
                text.as_mut_ptr(),
                text.len(),
                ptr::addr_of_mut!(size),
            )
        };
        if size <= text.len() {
            text.truncate(size);
            return (status, text);
        }
        text = vec![0u8; size];
    }
}
