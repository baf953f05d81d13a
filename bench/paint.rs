//! How deep the stack goes for each line of input, in the compiled program.
//!
//! Loaded before libc, this `read` hands the program one line at a time. Before
//! it hands one out it paints the stack below it; when the next is asked for,
//! the lowest byte that is no longer paint is how deep the work on that line
//! went, in bytes below the frame that reads. Each depth goes to the file that
//! PAINT_DEPTHS names, one to a line.

use std::env;
use std::fs::File;
use std::io::Write;
use std::mem::{ManuallyDrop, MaybeUninit};
use std::os::fd::FromRawFd;
use std::ptr;
use std::sync::Mutex;

/// More than any call takes; the main thread has eight megabytes.
const ROOM: usize = 1 << 18;
const PAINT: u8 = 0xa5;

struct Feed {
    lines: Vec<Vec<u8>>,
    next: usize,
    /// The lowest byte that is painted.
    bottom: usize,
    depths: File,
}

static FEED: Mutex<Option<Feed>> = Mutex::new(None);

/// Paints the room below, and says where it begins.
#[inline(never)]
fn paint() -> usize {
    let mut room: [MaybeUninit<u8>; ROOM] = [const { MaybeUninit::uninit() }; ROOM];
    let bottom = room.as_mut_ptr();
    for at in 0..ROOM {
        unsafe { ptr::write_volatile(bottom.add(at).cast::<u8>(), PAINT) };
    }
    bottom as usize
}

/// The lowest byte from there on that is no longer paint. It calls nothing, so it stays clear of what it looks at.
#[inline(never)]
fn lowest(bottom: usize) -> usize {
    let mut at = bottom;
    while at < bottom + ROOM && unsafe { ptr::read_volatile(at as *const u8) } == PAINT {
        at += 1;
    }
    at
}

fn open_feed() -> Feed {
    // The input itself, through a file that is not closed again.
    let mut input = ManuallyDrop::new(unsafe { File::from_raw_fd(0) });
    let mut bytes = Vec::new();
    let mut piece = [0; 4096];
    loop {
        let count = raw_read(&mut input, &mut piece);
        if count == 0 {
            break;
        }
        bytes.extend_from_slice(&piece[..count]);
    }
    let path = env::var("PAINT_DEPTHS").expect("PAINT_DEPTHS names a file");
    Feed {
        lines: bytes.split_inclusive(|&byte| byte == b'\n').map(<[u8]>::to_vec).collect(),
        next: 0,
        bottom: 0,
        depths: File::create(path).expect("the file for the depths"),
    }
}

/// By the system call, since `read` of libc is ours.
fn raw_read(input: &mut File, piece: &mut [u8]) -> usize {
    let count: isize;
    unsafe {
        std::arch::asm!(
            "syscall",
            inlateout("rax") 0isize => count,
            in("rdi") std::os::fd::AsRawFd::as_raw_fd(input) as isize,
            in("rsi") piece.as_mut_ptr(),
            in("rdx") piece.len(),
            lateout("rcx") _,
            lateout("r11") _,
        );
    }
    usize::try_from(count).unwrap_or(0)
}

/// # Safety
/// As libc's: `buffer` has room for `size` bytes.
#[no_mangle]
pub unsafe extern "C" fn read(descriptor: i32, buffer: *mut u8, size: usize) -> isize {
    let frame = 0u8;
    let top = ptr::addr_of!(frame) as usize;
    if descriptor != 0 {
        return -1;
    }
    let mut feed = FEED.lock().expect("one thread");
    let feed = feed.get_or_insert_with(open_feed);
    if feed.bottom != 0 {
        let depth = top - lowest(feed.bottom).min(top);
        writeln!(feed.depths, "{depth}").expect("the depth is written");
    }
    let Some(line) = feed.lines.get(feed.next) else {
        return 0;
    };
    if size < line.len() {
        return -1;
    }
    feed.next += 1;
    ptr::copy_nonoverlapping(line.as_ptr(), buffer, line.len());
    feed.bottom = paint();
    line.len() as isize
}
