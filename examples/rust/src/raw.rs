//! The functions of `include/stil.h`: a slice is a pointer and a length, and the answer is one number.

extern "C" {
    pub fn lutemeteor_check(text: *const u8, length: usize, numbers: *mut u64, room: usize) -> u64;
    pub fn lutemeteor_name(
        text: *const u8,
        length: usize,
        table: u8,
        number: u64,
        numbers: *mut u64,
        room: usize,
    ) -> u64;
    pub fn lutemeteor_window(
        text: *const u8,
        length: usize,
        first: u64,
        wanted: u64,
        mark: u8,
        rows: *mut u8,
        rows_room: usize,
        numbers: *mut u64,
        room: usize,
    ) -> u64;
    pub fn lutemeteor_waveform(
        text: *const u8,
        length: usize,
        table: u64,
        signal: u64,
        character: u8,
        times: *mut i64,
        times_room: usize,
        letters: *mut u8,
        letters_room: usize,
        count: *mut u64,
        count_room: usize,
    ) -> u64;
    pub fn lutemeteor_token(text: *const u8, length: usize, at: u64, numbers: *mut u64, room: usize) -> u64;
    // The comparison declares this one beside its call, as a service that may be left out.
    #[allow(dead_code)]
    pub fn lutemeteor_line(text: *const u8, length: usize, place: u64, numbers: *mut u64, room: usize) -> u64;
    // The example hands over whole texts; the comparison calls these two.
    #[allow(dead_code)]
    pub fn lutemeteor_intake(
        state: *mut u64,
        state_room: usize,
        chunk: *const u8,
        length: usize,
        store: *mut u8,
        store_room: usize,
    ) -> u64;
    #[allow(dead_code)]
    pub fn lutemeteor_intake_close(state: *mut u64, state_room: usize, store: *mut u8, store_room: usize) -> u64;
}
