//! The library's calls as C has them.

extern "C" {
    pub fn mws_body_check(body: *const u8, bytes: usize) -> u64;
    pub fn mws_text_read(text: *const u8, bytes: usize, body: *mut u8, room: usize, written: *mut u64) -> u64;
    pub fn mws_text_print(body: *const u8, bytes: usize, text: *mut u8, room: usize, written: *mut u64) -> u64;
    pub fn mws_file_check(file: *const u8, bytes: usize) -> u64;
    pub fn mws_file_write(
        names: *const u8,
        name_bytes: usize,
        counts: *const u8,
        patterns: usize,
        bodies: *const u8,
        body_bytes: usize,
        file: *mut u8,
        room: usize,
        written: *mut u64,
    ) -> u64;
    pub fn mws_file_lookup(
        site: *const u8,
        site_bytes: usize,
        fleet: *const u8,
        fleet_bytes: usize,
        name: *const u8,
        name_bytes: usize,
        from: *mut u64,
        length: *mut u64,
    ) -> u64;
    pub fn mws_plain(
        body: *const u8,
        bytes: usize,
        events: *const u32,
        ticks: usize,
        rows: *mut u64,
        room: usize,
    ) -> u64;
    pub fn mws_row_latest(row: u64) -> u64;
    pub fn mws_row_count(row: u64) -> u64;
    pub fn mws_watch_room(body: *const u8, bytes: usize, words: *mut u64) -> u64;
    pub fn mws_watch_open(body: *const u8, bytes: usize, state: *mut u64, words: usize) -> u64;
    pub fn mws_watch_tick(state: *mut u64, words: usize, tick: u64, events: u32, answer: *mut u64) -> u64;
    pub fn mws_watch_feed(
        state: *mut u64,
        words: usize,
        ticks: *const u64,
        tick_count: usize,
        events: *const u32,
        event_count: usize,
        answers: *mut u64,
        room: usize,
    ) -> u64;
    pub fn mws_set_room(file: *const u8, bytes: usize, words: *mut u64) -> u64;
    pub fn mws_set_open(file: *const u8, bytes: usize, states: *mut u64, words: usize) -> u64;
    pub fn mws_set_tick(
        states: *mut u64,
        words: usize,
        count: u64,
        tick: u64,
        events: u32,
        answers: *mut u64,
        room: usize,
    ) -> u64;
    pub fn mws_tally_add(tally: *mut crate::Tally, start: u64, end: u64) -> u64;
}
