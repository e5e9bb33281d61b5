//! Device files of the old layout, as the static library exports their reader and writer.

use super::structs::{DeviceHeader, DeviceRecord, WrittenFile};

extern "C" {
    fn glint_read_device_file(file: *const u8, file_length: usize) -> DeviceHeader;
    fn glint_read_device_record(file: *const u8, file_length: usize, n: u64) -> DeviceRecord;
    fn glint_start_device_file(
        buf: *mut u8,
        buf_length: usize,
        magic: u32,
        version: u32,
        flags: u32,
    ) -> WrittenFile;
    fn glint_append_device_record(
        buf: *mut u8,
        buf_length: usize,
        used: usize,
        kind: u32,
        content: *const u8,
        content_length: usize,
    ) -> WrittenFile;
}

/// Judges a whole device file and reads its header: see [`DeviceFile::parse`](crate::DeviceFile::parse).
#[inline]
pub fn read_device_file(file: &[u8]) -> DeviceHeader {
    // SAFETY: the slice is valid for its length, and nothing is written (see raw/mod.rs).
    unsafe { glint_read_device_file(file.as_ptr(), file.len()) }
}

/// Record `n` of a device file, which is judged whole: see [`DeviceFile::record`](crate::DeviceFile::record).
#[inline]
pub fn read_device_record(file: &[u8], n: u64) -> DeviceRecord {
    // SAFETY: the slice is valid for its length, and nothing is written.
    unsafe { glint_read_device_record(file.as_ptr(), file.len(), n) }
}

/// Starts a device file: see [`DeviceFileWriter::start`](crate::DeviceFileWriter::start).
#[inline]
pub fn start_device_file(buffer: &mut [u8], magic: u32, version: u32, flags: u32) -> WrittenFile {
    // SAFETY: the slice is valid for its length, and lent as `&mut`.
    unsafe { glint_start_device_file(buffer.as_mut_ptr(), buffer.len(), magic, version, flags) }
}

/// Appends a record behind the bytes in use: see [`DeviceFileWriter::append`](crate::DeviceFileWriter::append).
#[inline]
pub fn append_device_record(
    buffer: &mut [u8],
    used: usize,
    kind: u32,
    content: &[u8],
) -> WrittenFile {
    // SAFETY: the slices are valid for their lengths, and Rust keeps `buffer` apart.
    unsafe {
        glint_append_device_record(
            buffer.as_mut_ptr(),
            buffer.len(),
            used,
            kind,
            content.as_ptr(),
            content.len(),
        )
    }
}
