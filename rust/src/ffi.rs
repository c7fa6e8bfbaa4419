// The library's C functions (include/millettie.h) as functions over slices. All `unsafe` of this crate stands here. Each call is sound for
// the same reason: no function keeps a pointer, reads or writes outside of the slices that it is given, or stops for any input.
use crate::ByteOrder;

#[repr(C)]
pub struct Answer {
    pub number: u64,
    pub position: u64,
    pub length: u64,
}

#[repr(C)]
pub struct Entry {
    pub kind: u64,
    pub value: u64,
    pub length: u64,
}

#[repr(C)]
pub struct Header {
    pub answer: Answer,
    pub big: bool,
    pub typ: u8,
    pub flags: u8,
    pub version: u8,
    pub serial: u32,
    pub body_place: u64,
    pub body_length: u64,
    pub fields: [Entry; 9],
}

#[repr(C)]
pub struct Fixed {
    pub answer: Answer,
    pub kind: u8,
    pub bits: u64,
}

#[repr(C)]
pub struct Part {
    pub in_message: bool,
    pub place: u64,
    pub length: u64,
}

#[repr(C)]
pub struct Next {
    pub state: u64,
    pub number: u64,
    pub position: u64,
    pub length: u64,
}

/// The interface that these bindings were written for: `MT_INTERFACE` of include/millettie.h.
pub const INTERFACE: u32 = 2;

#[rustfmt::skip]
extern "C" {
    fn mt_interface() -> u32;
    fn mt_check_signature(sig: *const u8, sig_len: usize) -> Answer;
    fn mt_check_value(big: bool, offset: usize, buf: *const u8, buf_len: usize, sig: *const u8, sig_len: usize) -> Answer;
    fn mt_check_message(buf: *const u8, buf_len: usize) -> Answer;
    fn mt_next_message(buf: *const u8, buf_len: usize) -> Next;
    fn mt_read_header(buf: *const u8, buf_len: usize) -> Header;
    fn mt_read_fixed(big: bool, offset: usize, buf: *const u8, buf_len: usize, sig: *const u8, sig_len: usize) -> Fixed;
    fn mt_lookup(message: *const u8, message_len: usize, code: u8, fallback: *const u8, fallback_len: usize) -> Part;
    fn mt_write_padding(buf: *mut u8, buf_len: usize, place: usize, alignment: usize) -> Answer;
    fn mt_write_u16(buf: *mut u8, buf_len: usize, place: usize, value: u16, big: bool) -> Answer;
    fn mt_write_u32(buf: *mut u8, buf_len: usize, place: usize, value: u32, big: bool) -> Answer;
    fn mt_write_u64(buf: *mut u8, buf_len: usize, place: usize, value: u64, big: bool) -> Answer;
    fn mt_write_string(buf: *mut u8, buf_len: usize, place: usize, text: *const u8, text_len: usize, big: bool) -> Answer;
    fn mt_write_signature(buf: *mut u8, buf_len: usize, place: usize, sig: *const u8, sig_len: usize) -> Answer;
}

/// The interface of the library that is linked.
pub fn interface() -> u32 {
    // Safety: takes nothing, and answers a number.
    unsafe { mt_interface() }
}

fn big(byteorder: ByteOrder) -> bool {
    byteorder == ByteOrder::BigEndian
}

pub fn check_signature(sig: &[u8]) -> Answer {
    // Safety: reads the one slice.
    unsafe { mt_check_signature(sig.as_ptr(), sig.len()) }
}

pub fn check_value(byteorder: ByteOrder, offset: usize, buf: &[u8], sig: &[u8]) -> Answer {
    // Safety: reads the two slices; an offset behind the buffer is refused.
    unsafe {
        mt_check_value(
            big(byteorder),
            offset,
            buf.as_ptr(),
            buf.len(),
            sig.as_ptr(),
            sig.len(),
        )
    }
}

pub fn check_message(buf: &[u8]) -> Answer {
    // Safety: reads the one slice.
    unsafe { mt_check_message(buf.as_ptr(), buf.len()) }
}

pub fn next_message(buf: &[u8]) -> Next {
    // Safety: reads the one slice.
    unsafe { mt_next_message(buf.as_ptr(), buf.len()) }
}

pub fn read_header(buf: &[u8]) -> Header {
    // Safety: reads the one slice; each `bool` of the answer is 0 or 1.
    unsafe { mt_read_header(buf.as_ptr(), buf.len()) }
}

pub fn read_fixed(byteorder: ByteOrder, offset: usize, buf: &[u8], sig: &[u8]) -> Fixed {
    // Safety: reads the two slices; an offset behind the buffer is refused.
    unsafe {
        mt_read_fixed(
            big(byteorder),
            offset,
            buf.as_ptr(),
            buf.len(),
            sig.as_ptr(),
            sig.len(),
        )
    }
}

pub fn lookup(message: &[u8], code: u8, fallback: &[u8]) -> Part {
    // Safety: reads the message; each `bool` of the answer is 0 or 1.
    unsafe {
        mt_lookup(
            message.as_ptr(),
            message.len(),
            code,
            fallback.as_ptr(),
            fallback.len(),
        )
    }
}

pub fn write_padding(buf: &mut [u8], place: usize, alignment: usize) -> Answer {
    // Safety: writes into the slice alone; a place behind it is refused.
    unsafe { mt_write_padding(buf.as_mut_ptr(), buf.len(), place, alignment) }
}

pub fn write_u16(buf: &mut [u8], place: usize, value: u16, byteorder: ByteOrder) -> Answer {
    // Safety: writes into the slice alone; a place behind it is refused.
    unsafe { mt_write_u16(buf.as_mut_ptr(), buf.len(), place, value, big(byteorder)) }
}

pub fn write_u32(buf: &mut [u8], place: usize, value: u32, byteorder: ByteOrder) -> Answer {
    // Safety: writes into the slice alone; a place behind it is refused.
    unsafe { mt_write_u32(buf.as_mut_ptr(), buf.len(), place, value, big(byteorder)) }
}

pub fn write_u64(buf: &mut [u8], place: usize, value: u64, byteorder: ByteOrder) -> Answer {
    // Safety: writes into the slice alone; a place behind it is refused.
    unsafe { mt_write_u64(buf.as_mut_ptr(), buf.len(), place, value, big(byteorder)) }
}

pub fn write_string(buf: &mut [u8], place: usize, text: &[u8], byteorder: ByteOrder) -> Answer {
    // Safety: writes into the first slice alone, which cannot overlap the text: it is lent for writing.
    unsafe {
        mt_write_string(
            buf.as_mut_ptr(),
            buf.len(),
            place,
            text.as_ptr(),
            text.len(),
            big(byteorder),
        )
    }
}

pub fn write_signature(buf: &mut [u8], place: usize, sig: &[u8]) -> Answer {
    // Safety: writes into the first slice alone, which cannot overlap the signature: it is lent for writing.
    unsafe { mt_write_signature(buf.as_mut_ptr(), buf.len(), place, sig.as_ptr(), sig.len()) }
}
