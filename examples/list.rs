//! Lists a frame of mode 0 between two bytes of noise.
extern "C" {
    fn binr_list(mode: u8, bytes: *const u8, length: usize, out: *mut u8, room: usize) -> i64;
}

fn list(mode: u8, bytes: &[u8], out: &mut [u8]) -> Result<usize, u8> {
    // SAFETY: both regions are valid for their lengths, and apart.
    let n = unsafe { binr_list(mode, bytes.as_ptr(), bytes.len(), out.as_mut_ptr(), out.len()) };
    usize::try_from(n).map_err(|_| n.unsigned_abs() as u8)
}

fn main() {
    let line = [0xAA, 0x10, 0x26, 0x10, 0x03, 0x55];
    let mut text = [0; 256];
    match list(0, &line, &mut text) {
        Ok(length) => print!("{}", String::from_utf8_lossy(&text[..length])),
        Err(refusal) => println!("refused by {refusal}"),
    }
}
