//! The proved library: the functions of include/millettie.h that are measured, as the header declares them. The bindings in rust/ would put a call
//! of their own between.

#[repr(C)]
struct Answer {
    number: u64,
    position: u64,
    length: u64,
}

#[repr(C)]
struct Header {
    answer: Answer,
    _rest: [u64; 30],
}

#[rustfmt::skip]
extern "C" {
    fn mt_check_value(big: bool, offset: usize, buf: *const u8, buf_len: usize, sig: *const u8, sig_len: usize) -> Answer;
    fn mt_read_header(buf: *const u8, buf_len: usize) -> Header;
    fn mt_write_padding(buf: *mut u8, buf_len: usize, place: usize, alignment: usize) -> Answer;
    fn mt_write_u16(buf: *mut u8, buf_len: usize, place: usize, value: u16, big: bool) -> Answer;
    fn mt_write_u32(buf: *mut u8, buf_len: usize, place: usize, value: u32, big: bool) -> Answer;
    fn mt_write_u64(buf: *mut u8, buf_len: usize, place: usize, value: u64, big: bool) -> Answer;
    fn mt_write_string(buf: *mut u8, buf_len: usize, place: usize, text: *const u8, text_len: usize, big: bool) -> Answer;
}

// The length in the answer; nothing here is ever refused.
fn length(answer: &Answer) -> usize {
    assert!(
        answer.number == 0,
        "refused: {} at {}",
        answer.number,
        answer.position
    );
    answer.length as usize
}

/// Checks the one value; answers its bytes.
pub fn check_value(buf: &[u8], sig: &[u8]) -> usize {
    // Safety: it reads the two slices.
    length(&unsafe { mt_check_value(false, 0, buf.as_ptr(), buf.len(), sig.as_ptr(), sig.len()) })
}

/// Checks the message and reads its header; answers its bytes.
pub fn read_header(buf: &[u8]) -> usize {
    // Safety: it reads the slice; the header has the size of the C struct.
    let header = unsafe { mt_read_header(buf.as_ptr(), buf.len()) };
    length(&std::hint::black_box(&header).answer)
}

/// A buffer that is written from its start.
pub struct Room {
    pub buf: Vec<u8>,
    pub place: usize,
}

impl Room {
    fn write(&mut self, call: impl FnOnce(*mut u8, usize, usize) -> Answer) {
        self.place += length(&call(self.buf.as_mut_ptr(), self.buf.len(), self.place));
    }
}

// Safety, of each: it writes into the buffer, which does not overlap the text.
impl crate::written::Writer for Room {
    fn clear(&mut self) {
        self.place = 0;
    }

    fn pad(&mut self, align: usize) {
        self.write(|buf, n, place| unsafe { mt_write_padding(buf, n, place, align) })
    }

    fn u16(&mut self, value: u16) {
        self.write(|buf, n, place| unsafe { mt_write_u16(buf, n, place, value, false) })
    }

    fn u32(&mut self, value: u32) {
        self.write(|buf, n, place| unsafe { mt_write_u32(buf, n, place, value, false) })
    }

    fn u64(&mut self, value: u64) {
        self.write(|buf, n, place| unsafe { mt_write_u64(buf, n, place, value, false) })
    }

    fn string(&mut self, text: &str) {
        self.write(|buf, n, place| unsafe {
            mt_write_string(buf, n, place, text.as_ptr(), text.len(), false)
        })
    }

    fn written(&self) -> &[u8] {
        &self.buf[..self.place]
    }
}
