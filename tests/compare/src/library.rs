//! The calls of the archives, one declaration and one safe function each. A slice goes over as a
//! pointer and a length, NULL where it is empty.

use crate::Calls;
use std::ptr;

pub const CALLS: Calls = Calls {
    digest,
    open,
    pack,
    run,
    load,
};

#[repr(C)]
struct Part {
    start: u64,
    length: u64,
}

extern "C" {
    fn probe_digest(
        id: u64,
        message: *const u8,
        message_length: usize,
        out: *mut u8,
        out_length: usize,
    ) -> u64;

    fn runnelpin_open(
        image: *const u8,
        image_length: usize,
        header: *const u8,
        header_length: usize,
        signature_length: u64,
        output: *mut u8,
        output_length: usize,
        answer: *mut u8,
        answer_length: usize,
    ) -> u64;

    fn runnelpin_pack(
        file: *const u8,
        file_length: usize,
        id1: u64,
        id2: u64,
        id3: u64,
        id4: u64,
        block_size: u64,
        signature_length: u64,
        output: *mut u8,
        output_length: usize,
    ) -> u64;

    fn runnelpin_signature(
        image: *const u8,
        image_length: usize,
        header: *const u8,
        header_length: usize,
        signature_length: u64,
    ) -> Part;

    fn runnelpin_run(
        file: *const u8,
        file_length: usize,
        map: *const u8,
        map_length: usize,
        cpuid: *const u8,
        cpuid_length: usize,
        mode: u64,
        memory: *mut u8,
        memory_length: usize,
        answer: *mut u8,
        answer_length: usize,
    ) -> u64;

    fn runnelpin_load(
        image: *const u8,
        image_length: usize,
        header: *const u8,
        header_length: usize,
        map: *const u8,
        map_length: usize,
        cpuid: *const u8,
        cpuid_length: usize,
        mode: u64,
        signature_length: u64,
        memory: *mut u8,
        memory_length: usize,
        answer: *mut u8,
        answer_length: usize,
    ) -> u64;
}

// SAFETY of each call below: a pointer holds for the length beside it, and what is lent for writing
// is lent to nobody else. The calls ask for nothing more.

/// Writes the digest and zeros behind it where `out` has 64 bytes; gives the digest's length.
pub fn digest(id: u64, message: &[u8], out: &mut [u8]) -> u64 {
    unsafe { probe_digest(id, start(message), message.len(), start_mut(out), out.len()) }
}

pub fn open(
    image: &[u8],
    header: &[u8],
    signature_length: u64,
    output: &mut [u8],
    answer: &mut [u8],
) -> u64 {
    unsafe {
        runnelpin_open(
            start(image),
            image.len(),
            start(header),
            header.len(),
            signature_length,
            start_mut(output),
            output.len(),
            start_mut(answer),
            answer.len(),
        )
    }
}

pub fn pack(
    file: &[u8],
    [id1, id2, id3, id4]: [u64; 4],
    block_size: u64,
    signature_length: u64,
    output: &mut [u8],
) -> u64 {
    unsafe {
        runnelpin_pack(
            start(file),
            file.len(),
            id1,
            id2,
            id3,
            id4,
            block_size,
            signature_length,
            start_mut(output),
            output.len(),
        )
    }
}

pub fn signature(image: &[u8], header: &[u8], signature_length: u64) -> (u64, u64) {
    let part = unsafe {
        runnelpin_signature(
            start(image),
            image.len(),
            start(header),
            header.len(),
            signature_length,
        )
    };
    (part.start, part.length)
}

pub fn run(
    file: &[u8],
    map: &[u8],
    cpuid: &[u8],
    mode: u64,
    memory: &mut [u8],
    answer: &mut [u8],
) -> u64 {
    unsafe {
        runnelpin_run(
            start(file),
            file.len(),
            start(map),
            map.len(),
            start(cpuid),
            cpuid.len(),
            mode,
            start_mut(memory),
            memory.len(),
            start_mut(answer),
            answer.len(),
        )
    }
}

#[allow(clippy::too_many_arguments)] // these are the call's
pub fn load(
    image: &[u8],
    header: &[u8],
    map: &[u8],
    cpuid: &[u8],
    mode: u64,
    signature_length: u64,
    memory: &mut [u8],
    answer: &mut [u8],
) -> u64 {
    unsafe {
        runnelpin_load(
            start(image),
            image.len(),
            start(header),
            header.len(),
            start(map),
            map.len(),
            start(cpuid),
            cpuid.len(),
            mode,
            signature_length,
            start_mut(memory),
            memory.len(),
            start_mut(answer),
            answer.len(),
        )
    }
}

fn start(bytes: &[u8]) -> *const u8 {
    if bytes.is_empty() {
        ptr::null()
    } else {
        bytes.as_ptr()
    }
}

fn start_mut(bytes: &mut [u8]) -> *mut u8 {
    if bytes.is_empty() {
        ptr::null_mut()
    } else {
        bytes.as_mut_ptr()
    }
}
