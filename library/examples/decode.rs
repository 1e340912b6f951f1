//! Prints the value that is all of standard input as JSON: decode SCHEMA TYPE < BYTES. rustc decode.rs -L PREFIX/lib -l tlbox
use std::io::{Read, Write};

#[repr(C)]
struct Tlbox(*mut u8);

extern "C" {
    fn tlbox_open(h: *mut Tlbox, text: *const u8, text_len: usize, out: *mut u8, room: usize, len: *mut usize) -> u32;
    fn tlbox_type(h: *mut Tlbox, name: *const u8, name_len: usize, of: *mut u32, out: *mut u8, room: usize, len: *mut usize) -> u32;
    fn tlbox_decode(h: *mut Tlbox, of: u32, bytes: *const u8, bytes_len: usize, out: *mut u8, room: usize, len: *mut usize) -> u32;
    fn tlbox_last(h: *mut Tlbox, out: *mut u8, room: usize, len: *mut usize);
    fn tlbox_close(h: *mut Tlbox);
}

fn main() -> std::io::Result<()> {
    let words: Vec<String> = std::env::args().collect();
    let (text, name, mut bytes) = (std::fs::read(&words[1])?, &words[2], Vec::new());
    std::io::stdin().read_to_end(&mut bytes)?;
    let (mut h, mut of, mut out, mut len) = (Tlbox(std::ptr::null_mut()), 0, vec![0u8; 4096], 0);
    // A slice's pointer is never null.
    let status = unsafe {
        let mut status = tlbox_open(&mut h, text.as_ptr(), text.len(), out.as_mut_ptr(), out.len(), &mut len);
        if status == 0 {
            status = tlbox_type(&mut h, name.as_ptr(), name.len(), &mut of, out.as_mut_ptr(), out.len(), &mut len);
        }
        if status == 0 {
            status = tlbox_decode(&mut h, of, bytes.as_ptr(), bytes.len(), out.as_mut_ptr(), out.len(), &mut len);
        }
        if len > out.len() {
            out = vec![0u8; len];
            tlbox_last(&mut h, out.as_mut_ptr(), out.len(), &mut len);
        }
        tlbox_close(&mut h);
        status
    };
    let line = &out[..len];
    if status == 0 { std::io::stdout().write_all(line)? } else { std::io::stderr().write_all(line)? }
    std::process::exit(status as i32)
}
