// Hashes bytes 0 to 479 of each block of 512 bytes on standard input by the library's SHA-256, and nothing else: what a listing of the
// same journal spends on its checks. Prints the last byte of all digests added up, so that none is left out.
use std::io::Read;

#[repr(C)]
pub struct Digest {
    bytes: [u8; 32],
}

extern "C" {
    fn moatbetony_sha256(message: *const u8, length: usize) -> Digest;
}

fn main() {
    let mut input = std::io::stdin().lock();
    let mut chunk = [0; 64 * 512];
    let mut sum = 0u64;
    loop {
        let mut end = 0;
        while end < chunk.len() {
            match input.read(&mut chunk[end..]) {
                Ok(0) => break,
                Ok(n) => end += n,
                Err(error) => panic!("{error}"),
            }
        }
        for block in chunk[..end].chunks_exact(512) {
            let digest = unsafe { moatbetony_sha256(block.as_ptr(), 480) };
            sum += u64::from(digest.bytes[31]);
        }
        if end < chunk.len() {
            break;
        }
    }
    println!("{sum}");
}
