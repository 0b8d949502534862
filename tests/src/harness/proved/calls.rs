//! Safe wrappers of the exported calls, each as it is: slices and numbers in, the answer's number out. No call has a
//! `requires`, so every slice and number may be passed.

mod archive {
    extern "C" {
        pub fn dibwunek_state_words() -> usize;
        pub fn dibwunek_plan(sheet: *const u8, sheet_len: usize, buffer: *mut u8, buffer_len: usize) -> u32;
        pub fn dibwunek_start(sheet: *const u8, sheet_len: usize, state: *mut u32, state_len: usize) -> u32;
        pub fn dibwunek_release(state: *mut u32, state_len: usize, task: usize) -> u32;
        pub fn dibwunek_tick(state: *mut u32, state_len: usize, reports: *const u32, reports_len: usize) -> u32;
        pub fn dibwunek_board(state: *const u32, state_len: usize, buffer: *mut u8, buffer_len: usize) -> u32;
        pub fn dibwunek_replay(
            sheet: *const u8,
            sheet_len: usize,
            calls: *const u8,
            calls_len: usize,
            out: *mut u8,
            out_len: usize,
        ) -> usize;
        pub fn dibwunek_import(
            text: *const u8,
            text_len: usize,
            level: u32,
            deadline: u32,
            percentage: u32,
            record: *mut u8,
            record_len: usize,
        ) -> u32;
        pub fn dibwunek_tick_many(
            state: *const u32,
            state_len: usize,
            reports: *const u32,
            reports_len: usize,
            count: u32,
        ) -> u32;
        pub fn dibwunek_release_many(state: *const u32, state_len: usize, task: usize, count: u32) -> u32;
        pub fn dibwunek_board_many(
            state: *const u32,
            state_len: usize,
            buffer: *mut u8,
            buffer_len: usize,
            count: u32,
        ) -> u32;
    }
}

// SAFETY, for each call below: a pointer and its length are those of a live slice. The function reads the shared ones,
// and writes within the exclusive one only.

/// The words of a state.
pub fn state_words() -> usize {
    unsafe { archive::dibwunek_state_words() }
}

pub fn plan(sheet: &[u8], buffer: &mut [u8]) -> u32 {
    unsafe { archive::dibwunek_plan(sheet.as_ptr(), sheet.len(), buffer.as_mut_ptr(), buffer.len()) }
}

pub fn start(sheet: &[u8], line: &mut [u32]) -> u32 {
    unsafe { archive::dibwunek_start(sheet.as_ptr(), sheet.len(), line.as_mut_ptr(), line.len()) }
}

pub fn release(line: &mut [u32], task: usize) -> u32 {
    unsafe { archive::dibwunek_release(line.as_mut_ptr(), line.len(), task) }
}

pub fn tick(line: &mut [u32], reports: &[u32]) -> u32 {
    unsafe { archive::dibwunek_tick(line.as_mut_ptr(), line.len(), reports.as_ptr(), reports.len()) }
}

pub fn board(line: &[u32], buffer: &mut [u8]) -> u32 {
    unsafe { archive::dibwunek_board(line.as_ptr(), line.len(), buffer.as_mut_ptr(), buffer.len()) }
}

/// How many bytes the replay wrote to the buffer's front; 0 where they don't fit.
pub fn replay(sheet: &[u8], calls: &[u8], out: &mut [u8]) -> usize {
    let (start, length) = (out.as_mut_ptr(), out.len());
    unsafe { archive::dibwunek_replay(sheet.as_ptr(), sheet.len(), calls.as_ptr(), calls.len(), start, length) }
}

pub fn import(text: &[u8], level: u32, deadline: u32, percentage: u32, record: &mut [u8]) -> u32 {
    let (start, length) = (record.as_mut_ptr(), record.len());
    unsafe { archive::dibwunek_import(text.as_ptr(), text.len(), level, deadline, percentage, start, length) }
}

pub fn tick_many(line: &[u32], reports: &[u32], count: u32) -> u32 {
    unsafe { archive::dibwunek_tick_many(line.as_ptr(), line.len(), reports.as_ptr(), reports.len(), count) }
}

pub fn release_many(line: &[u32], task: usize, count: u32) -> u32 {
    unsafe { archive::dibwunek_release_many(line.as_ptr(), line.len(), task, count) }
}

pub fn board_many(line: &[u32], buffer: &mut [u8], count: u32) -> u32 {
    unsafe { archive::dibwunek_board_many(line.as_ptr(), line.len(), buffer.as_mut_ptr(), buffer.len(), count) }
}
