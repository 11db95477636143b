//! The calls of include/vrepl.h, which says what each asks of its caller and answers. `vrepl` has them as safe Rust.
#![no_std]
#![allow(non_camel_case_types)]

/// The number of the refusal for want of memory.
pub const VREPL_NO_MEMORY: u32 = 72;

/// How many keys of a source and of a target there are of each kind.
#[repr(C)]
#[derive(Clone, Copy, Debug, Default, PartialEq, Eq)]
pub struct vrepl_counts {
    pub processed: usize,
    pub matching: usize,
    pub mismatched: usize,
    pub extra_source: usize,
    pub extra_target: usize,
}

extern "C" {
    pub fn vrepl_explain(number: u64, room: *mut u8, room_length: usize) -> usize;

    pub fn vrepl_gtid_set(text: *const u8, text_length: usize, room: *mut u8, room_length: usize, length: *mut usize) -> u32;

    pub fn vrepl_gtid_contains(text: *const u8, text_length: usize, uuid: *const u8, number: u64, contains: *mut bool) -> u32;

    pub fn vrepl_gtid_is_within(
        one: *const u8,
        one_length: usize,
        other: *const u8,
        other_length: usize,
        is_within: *mut bool,
    ) -> u32;

    pub fn vrepl_gtid_union(
        one: *const u8,
        one_length: usize,
        other: *const u8,
        other_length: usize,
        room: *mut u8,
        room_length: usize,
        length: *mut usize,
    ) -> u32;

    pub fn vrepl_key_range(
        range: *const u8,
        range_length: usize,
        start: *mut u8,
        start_room: usize,
        start_length: *mut usize,
        end: *mut u8,
        end_room: usize,
        end_length: *mut usize,
    ) -> u32;

    pub fn vrepl_key_ranges_tile(ranges: *const u8, ranges_length: usize, tile: *mut bool) -> u32;

    pub fn vrepl_key_range_holds(range: *const u8, range_length: usize, id: *const u8, id_length: usize, holds: *mut bool) -> u32;

    pub fn vrepl_vindex_id(
        vindex: *const u8,
        vindex_length: usize,
        is_null: bool,
        value: *const u8,
        value_length: usize,
        room: *mut u8,
        room_length: usize,
        length: *mut usize,
    ) -> u32;

    pub fn vrepl_message(bytes: *const u8, bytes_length: usize, start: *mut usize, length: *mut usize) -> u32;

    pub fn vrepl_workflow(workflow: *const u8, workflow_length: usize, streams: *mut usize) -> u32;

    pub fn vrepl_workflow_check(
        workflow: *const u8,
        workflow_length: usize,
        refused: *mut u32,
        room: *mut u8,
        room_length: usize,
        length: *mut usize,
    ) -> u32;

    pub fn vrepl_workflow_rules(
        workflow: *const u8,
        workflow_length: usize,
        room: *mut u8,
        room_length: usize,
        length: *mut usize,
    ) -> u32;

    pub fn vrepl_plan(
        workflow: *const u8,
        workflow_length: usize,
        stream: usize,
        room: *mut u8,
        room_length: usize,
        length: *mut usize,
    ) -> u32;

    pub fn vrepl_row_passes(
        workflow: *const u8,
        workflow_length: usize,
        stream: usize,
        table: *const u8,
        table_length: usize,
        row: *const u8,
        row_length: usize,
        passes: *mut bool,
    ) -> u32;

    pub fn vrepl_row_key(
        workflow: *const u8,
        workflow_length: usize,
        stream: usize,
        table: *const u8,
        table_length: usize,
        row: *const u8,
        row_length: usize,
        room: *mut u8,
        room_length: usize,
        length: *mut usize,
    ) -> u32;

    pub fn vrepl_dump(
        workflow: *const u8,
        workflow_length: usize,
        dump: *const u8,
        dump_length: usize,
        rows: *mut usize,
        bad_line: *mut usize,
        room: *mut u8,
        room_length: usize,
        length: *mut usize,
    ) -> u32;

    pub fn vrepl_compare(
        workflow: *const u8,
        workflow_length: usize,
        source: *const u8,
        source_length: usize,
        target: *const u8,
        target_length: usize,
        most: usize,
        counts: *mut vrepl_counts,
        bad_line: *mut usize,
        in_target: *mut bool,
        room: *mut u8,
        room_length: usize,
        length: *mut usize,
    ) -> u32;

    pub fn vrepl_groups(
        feed: *const u8,
        feed_length: usize,
        keyspace: *const u8,
        keyspace_length: usize,
        shard: *const u8,
        shard_length: usize,
        room: *mut u8,
        room_length: usize,
        length: *mut usize,
    ) -> u32;
}
