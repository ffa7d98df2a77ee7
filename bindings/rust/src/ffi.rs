//! The library's functions as include/net119.h declares them.

#[repr(C)]
pub struct ReadAnswer {
    pub number: u8,
    pub place: usize,
}

#[repr(C)]
pub struct CountAnswer {
    pub number: u8,
    pub place: usize,
    pub count: usize,
}

#[repr(C)]
pub struct PositionsAnswer {
    pub number: u8,
    pub home: bool,
    pub place: usize,
    pub count: usize,
}

#[repr(C)]
pub struct PositionAnswer {
    pub number: u8,
    pub found: bool,
    pub provider: u8,
    pub has_accuracy: bool,
    pub latitude: i32,
    pub longitude: i32,
    pub place: usize,
    pub accuracy: u64,
}

#[repr(C)]
pub struct HomeAnswer {
    pub number: u8,
    pub found: bool,
    pub latitude: i32,
    pub longitude: i32,
    pub place: usize,
}

#[repr(C)]
pub struct EventAnswer {
    pub number: u8,
    pub word: u8,
    pub state: u8,
    pub reply: u16,
    pub place: usize,
}

#[repr(C)]
pub struct WriteAnswer {
    pub number: u8,
    pub length: usize,
}

#[repr(C)]
pub struct RemoveAnswer {
    pub number: u8,
    pub length: usize,
    pub host_start: usize,
    pub host_end: usize,
}

extern "C" {
    pub fn net119_read(message: *const u8, message_length: usize) -> ReadAnswer;
    pub fn net119_read_within(
        message: *const u8,
        message_length: usize,
        ceiling: u32,
    ) -> CountAnswer;
    pub fn net119_positions(message: *const u8, message_length: usize) -> PositionsAnswer;
    pub fn net119_position(
        message: *const u8,
        message_length: usize,
        index: usize,
    ) -> PositionAnswer;
    pub fn net119_home(message: *const u8, message_length: usize) -> HomeAnswer;
    pub fn net119_blank(table: *mut u8, table_length: usize, count: usize) -> u8;
    pub fn net119_well_formed(table: *const u8, table_length: usize) -> bool;
    pub fn net119_message(
        table: *mut u8,
        table_length: usize,
        time: u64,
        message: *const u8,
        message_length: usize,
    ) -> EventAnswer;
    pub fn net119_message_within(
        table: *mut u8,
        table_length: usize,
        time: u64,
        message: *const u8,
        message_length: usize,
        ceiling: u32,
    ) -> EventAnswer;
    pub fn net119_tick(
        table: *mut u8,
        table_length: usize,
        time: u64,
        call_id: *const u8,
        call_id_length: usize,
    ) -> EventAnswer;
    pub fn net119_reply(
        output: *mut u8,
        output_length: usize,
        message: *const u8,
        message_length: usize,
        code: u16,
        date: *const u8,
        date_length: usize,
    ) -> WriteAnswer;
    pub fn net119_add(
        output: *mut u8,
        output_length: usize,
        message: *const u8,
        message_length: usize,
        host: *const u8,
        host_length: usize,
        destination: *const u8,
        destination_length: usize,
        organization: *const u8,
        organization_length: usize,
    ) -> WriteAnswer;
    pub fn net119_remove(
        output: *mut u8,
        output_length: usize,
        message: *const u8,
        message_length: usize,
        host: *const u8,
        host_length: usize,
        destination: *const u8,
        destination_length: usize,
        organization: *const u8,
        organization_length: usize,
    ) -> RemoveAnswer;
    pub fn net119_text(
        output: *mut u8,
        output_length: usize,
        spelled: *const u8,
        spelled_length: usize,
    ) -> WriteAnswer;
}
