//! The calls as `c/amqp_types.h` declares them. Nothing compares these declarations with the library's; the tests call each.

#[repr(C)]
#[derive(Clone, Copy)]
pub(crate) struct Outcome {
    pub number: u32,
    pub detail: u32,
    pub at: u64,
}

#[repr(C)]
#[derive(Clone, Copy)]
pub(crate) struct Limits {
    pub nesting: u32,
    pub bytes: u64,
    pub items: u64,
    pub hash_seed: u64,
}

#[repr(C)]
#[derive(Clone, Copy, Debug, Default)]
pub(crate) struct Node {
    pub kind: u32,
    pub depth: u32,
    pub code: u8,
    pub item_code: u8,
    pub count: usize,
    pub start: usize,
    pub end: usize,
    pub next: usize,
}

#[repr(C)]
#[derive(Clone, Copy, Debug, Default)]
pub(crate) struct PathNode {
    pub at: usize,
    pub piece: u32,
    pub container: u32,
    pub count: usize,
    pub index: usize,
    pub descriptors: usize,
    pub type_number: u32,
    pub code: u8,
}

extern "C" {
    pub(crate) fn amqp_c_type(name: *const u8, len: usize) -> u32;
    pub(crate) fn amqp_c_read(number: u32, input: *const u8, len: usize, limits: *const Limits, taken: *mut usize) -> Outcome;
    pub(crate) fn amqp_c_canonical(
        number: u32,
        input: *const u8,
        len: usize,
        limits: *const Limits,
        out: *mut u8,
        room: usize,
        written: *mut usize,
        taken: *mut usize,
    ) -> Outcome;
    pub(crate) fn amqp_c_term_len(input: *const u8, len: usize, taken: *mut usize) -> Outcome;
    pub(crate) fn amqp_c_path(input: *const u8, len: usize, at: usize, nodes: *mut PathNode, room: usize) -> usize;
    pub(crate) fn amqp_c_next(input: *const u8, len: usize, at: usize, node: *mut Node) -> Outcome;
    pub(crate) fn amqp_c_field(input: *const u8, len: usize, composite: *const Node, index: usize, field: *mut Node) -> Outcome;
    pub(crate) fn amqp_c_type_of_descriptor(code: u64) -> u32;
    pub(crate) fn amqp_c_field_name(number: u32, index: usize, out: *mut u8, room: usize) -> usize;
    pub(crate) fn amqp_c_error_name(number: u32, out: *mut u8, room: usize) -> usize;
    pub(crate) fn amqp_c_greatest(limits: *mut Limits);
    pub(crate) fn amqp_c_for_peers(limits: *mut Limits, bytes: u64);
}
