//! The library's functions. This is the one module with unsafe code.
use crate::needs::NEEDS;

extern "C" {
    fn bukzarn_run(
        image: *const u8,
        image_length: usize,
        frame: *const u8,
        frame_length: usize,
        budget: u32,
        log: *mut u8,
        log_length: usize,
        report: *mut u8,
        report_length: usize,
        work: *mut u8,
        work_length: usize,
    ) -> u64;

    fn bukzarn_run_frames(
        image: *const u8,
        image_length: usize,
        frames: *const u8,
        frames_length: usize,
        budget: u32,
        logs: *mut u8,
        logs_length: usize,
        reports: *mut u8,
        reports_length: usize,
        numbers: *mut u64,
        count: usize,
        work: *mut u8,
        work_length: usize,
    );

    fn bukzarn_validate(image: *const u8, image_length: usize, work_length: usize, report_length: usize) -> u64;

    fn bukzarn_need(image: *const u8, image_length: usize, numbers: *mut u32, count: usize) -> u64;

    fn bukzarn_fixed(image: *const u8, image_length: usize, output: *mut u8, output_length: usize) -> u64;

    fn bukzarn_load(seed: u32, depth: usize, output: *mut u8, output_length: usize) -> u64;

    fn bukzarn_strip(image: *const u8, image_length: usize, high: u16, output: *mut u8, output_length: usize) -> u64;
}

// Every pointer below is that of a slice, with the slice's own length, and the slice lives through the call. What is
// written is a slice that is lent to nobody else.

/// One call: the bytes written to report and log, or the refusal.
pub fn run(image: &[u8], frame: &[u8], budget: u32, log: &mut [u8], report: &mut [u8], work: &mut [u8]) -> u64 {
    unsafe {
        bukzarn_run(
            image.as_ptr(),
            image.len(),
            frame.as_ptr(),
            frame.len(),
            budget,
            log.as_mut_ptr(),
            log.len(),
            report.as_mut_ptr(),
            report.len(),
            work.as_mut_ptr(),
            work.len(),
        )
    }
}

/// As many calls as there are numbers, each over its part of the frames: for each the number that `run` would answer.
pub fn run_frames(
    image: &[u8],
    frames: &[u8],
    budget: u32,
    logs: &mut [u8],
    reports: &mut [u8],
    numbers: &mut [u64],
    work: &mut [u8],
) {
    unsafe {
        bukzarn_run_frames(
            image.as_ptr(),
            image.len(),
            frames.as_ptr(),
            frames.len(),
            budget,
            logs.as_mut_ptr(),
            logs.len(),
            reports.as_mut_ptr(),
            reports.len(),
            numbers.as_mut_ptr(),
            numbers.len(),
            work.as_mut_ptr(),
            work.len(),
        );
    }
}

/// The verdict for a work area and a report of so many bytes: 0, or the refusal.
pub fn validate(image: &[u8], work: usize, report: usize) -> u64 {
    unsafe { bukzarn_validate(image.as_ptr(), image.len(), work, report) }
}

/// What a run of an image will need: 0 and the numbers, or the refusal, of which nothing is written.
pub fn need(image: &[u8], numbers: &mut [u32; NEEDS]) -> u64 {
    unsafe { bukzarn_need(image.as_ptr(), image.len(), numbers.as_mut_ptr(), numbers.len()) }
}

/// Writes the fixed form of an image: the bytes written, or the refusal.
pub fn fixed(image: &[u8], output: &mut [u8]) -> u64 {
    unsafe { bukzarn_fixed(image.as_ptr(), image.len(), output.as_mut_ptr(), output.len()) }
}

/// Writes the image of a seed and a depth: the bytes written, or the refusal.
pub fn load(seed: u32, depth: usize, output: &mut [u8]) -> u64 {
    unsafe { bukzarn_load(seed, depth, output.as_mut_ptr(), output.len()) }
}

/// Writes an image without its watches: the bytes written, or the refusal.
pub fn strip(image: &[u8], high: u16, output: &mut [u8]) -> u64 {
    unsafe { bukzarn_strip(image.as_ptr(), image.len(), high, output.as_mut_ptr(), output.len()) }
}
