//! Runs a script, as the program does: ./script <examples/mirrored.bench
use std::io::{BufRead, Write};

#[repr(C)]
struct Handle(*mut u8);

extern "C" {
    fn bench_open(depth: usize, bench: *mut Handle) -> i32;
    fn bench_answer(bench: *mut Handle, line: *const u8, line_length: usize) -> i32;
    fn bench_reply(bench: *mut Handle, out: *mut u8, room: usize, length: *mut usize) -> i32;
    fn bench_close(bench: *mut Handle) -> i32;
}

fn main() -> std::io::Result<()> {
    let (mut bench, mut reply, mut length, mut refused) = (Handle(std::ptr::null_mut()), vec![0; 1 << 16], 0, false);
    assert_eq!(unsafe { bench_open(16, &mut bench) }, 0);
    for line in std::io::stdin().lock().split(b'\n') {
        let line = line?;
        let line = line.strip_suffix(b"\r").unwrap_or(&line);
        match unsafe { bench_answer(&mut bench, line.as_ptr(), line.len()) } {
            2 => continue,
            status => refused |= status == 1,
        }
        while unsafe { bench_reply(&mut bench, reply.as_mut_ptr(), reply.len(), &mut length) } == 6 {
            reply.resize(length, 0);
        }
        std::io::stdout().write_all(&[&reply[..length], b"\n"].concat())?;
    }
    unsafe { bench_close(&mut bench) };
    std::process::exit(refused as i32)
}
