//! libdbus, where it is installed.

#[cfg(libdbus)]
mod c {
    use std::ffi::{c_char, c_int, c_void};

    extern "C" {
        fn dbus_message_demarshal(
            bytes: *const c_char,
            length: c_int,
            error: *mut c_void,
        ) -> *mut c_void;
        fn dbus_message_unref(message: *mut c_void);
    }

    pub fn demarshal(buf: &[u8]) -> usize {
        // Safety: it copies the slice into a message of its own, which is let go at once; no error is asked for.
        unsafe {
            let message = dbus_message_demarshal(
                buf.as_ptr().cast(),
                buf.len() as c_int,
                std::ptr::null_mut(),
            );
            assert!(!message.is_null());
            dbus_message_unref(message);
        }
        buf.len()
    }
}

/// Makes a message object of the bytes and lets it go; answers how many bytes there were.
pub fn demarshal() -> Option<fn(&[u8]) -> usize> {
    #[cfg(libdbus)]
    return Some(c::demarshal);
    #[cfg(not(libdbus))]
    None
}
