//! The calls of vicemint.h as they are, and the structs that this crate turns into others.
use crate::values::{BaseStream, BaseSubgroup, BigInfo, Fault, Heard, Identity, Reply, Stay, Train, TrainHeard};
use core::ffi::c_void;

/// A handle: one word, null where there is none.
#[repr(C)]
pub struct Handle {
    pub at: *mut c_void,
}

pub const NONE: Handle = Handle { at: core::ptr::null_mut() };

/// A unit with its render time in µs.
#[repr(C)]
#[derive(Clone, Copy, Debug, Default)]
pub struct Unit {
    pub time: u64,
    pub count: u64,
    pub bis: u8,
    pub is_valid: bool,
}

/// What holds for a stream of a BASE; a value that it hasn't is 0.
#[repr(C)]
#[derive(Clone, Copy, Default)]
pub struct Effective {
    pub subgroup: u64,
    pub allocation: u32,
    pub contexts: u16,
    pub frame_octets: u16,
    pub frequency: u8,
    pub duration: u8,
    pub blocks: u8,
    pub has_allocation: bool,
    pub has_contexts: bool,
    pub has_frame_octets: bool,
    pub has_frequency: bool,
    pub has_duration: bool,
    pub has_blocks: bool,
    pub codec: [u8; 5],
}

/// A receive state but for the bits of its subgroups.
#[repr(C)]
#[derive(Clone, Copy, Default)]
pub struct State {
    pub subgroups: u64,
    pub source_id: u8,
    pub address_type: u8,
    pub address: [u8; 6],
    pub sid: u8,
    pub broadcast_id: [u8; 3],
    pub pa_sync_state: u8,
    pub encryption: u8,
    pub bad_code: [u8; 16],
}

extern "C" {
    pub fn vm_sink_new(sink: *mut Handle, streams: u8, slots: u8) -> u32;
    pub fn vm_sink_drop(sink: Handle);
    pub fn vm_sink_reserve(sink: *mut Handle, units: u64, octets: u64) -> u32;
    pub fn vm_sink_streams(sink: *mut Handle, streams: *mut u32);
    pub fn vm_sink_add_pac(sink: *mut Handle, codec: *const u8, codec_count: u64, caps: *const u8, caps_count: u64, metadata: *const u8, metadata_count: u64) -> u32;
    pub fn vm_sink_set_locations(sink: *mut Handle, bits: u32);
    pub fn vm_sink_set_contexts(sink: *mut Handle, bits: u16);
    pub fn vm_sink_set_mtu(sink: *mut Handle, mtu: u16) -> u32;
    pub fn vm_sink_write(sink: *mut Handle, write: *const u8, count: u64, reply: *mut Reply) -> u32;
    pub fn vm_sink_train(sink: *mut Handle, address_type: u8, sid: u8, ext: *const u8, ext_count: u64, adv: *const u8, adv_count: u64, acad: *const u8, acad_count: u64, now: u64, heard: *mut TrainHeard) -> u32;
    pub fn vm_sink_tune(sink: *mut Handle, info: *const BigInfo, streams: u32, first_event: u64, anchor: u64, delay: u32, row: *mut u8) -> u32;
    pub fn vm_sink_hear(sink: *mut Handle, event: u64, bis: u8, subevent: u8, pdu: *const u8, count: u64, heard: *mut Heard) -> u32;
    pub fn vm_sink_would_hear(sink: *mut Handle, event: u64, bis: u8, subevent: u8, pdu: *const u8, count: u64, heard: *mut Heard) -> u32;
    pub fn vm_sink_control(sink: *mut Handle, pdu: *const u8, count: u64, heard: *mut Heard) -> u32;
    pub fn vm_sink_lost(sink: *mut Handle) -> u32;
    pub fn vm_sink_tick(sink: *mut Handle, event: u64) -> u32;
    pub fn vm_sink_next_unit(sink: *mut Handle, room: *mut u8, room_count: u64, unit: *mut Unit) -> u32;
    pub fn vm_sink_next_notice(sink: *mut Handle, room: *mut u8, room_count: u64, slot: *mut u8, count: *mut u64) -> u32;
    pub fn vm_sink_read_state(sink: *mut Handle, slot: u8, room: *mut u8, room_count: u64, count: *mut u64) -> u32;

    pub fn vm_link_new(link: *mut Handle, slots: u8) -> u32;
    pub fn vm_link_drop(link: Handle);
    pub fn vm_link_set_mtu(link: *mut Handle, mtu: u16) -> u32;
    pub fn vm_link_put(link: *mut Handle, write: *const u8, count: u64) -> u32;
    pub fn vm_link_scan(link: *mut Handle, is_started: bool) -> u32;
    pub fn vm_link_add(link: *mut Handle, address_type: u8, address: *const u8, sid: u8, broadcast_id: *const u8, pa_sync: u8, pa_interval: u16, bis_sync: *const u32, subgroups: u64, metadata: *const u8, metadata_count: u64) -> u32;
    pub fn vm_link_modify(link: *mut Handle, source_id: u8, pa_sync: u8, pa_interval: u16, bis_sync: *const u32, subgroups: u64, metadata: *const u8, metadata_count: u64) -> u32;
    pub fn vm_link_remove(link: *mut Handle, source_id: u8) -> u32;
    pub fn vm_link_code(link: *mut Handle, source_id: u8, code: *const u8) -> u32;
    pub fn vm_link_next_write(link: *mut Handle, room: *mut u8, room_count: u64, count: *mut u64) -> u32;
    pub fn vm_link_notice(link: *mut Handle, slot: u8, value: *const u8, count: u64, fault: *mut Fault) -> u32;
    pub fn vm_link_ask_all(link: *mut Handle);
    pub fn vm_link_next_read(link: *mut Handle, slot: *mut u8) -> u32;
    pub fn vm_link_answer_read(link: *mut Handle, slot: u8, value: *const u8, count: u64, fault: *mut Fault) -> u32;
    pub fn vm_link_view(link: *mut Handle, slot: u8, room: *mut u8, room_count: u64, count: *mut u64) -> u32;

    pub fn vm_source_new(source: *mut Handle, identity: *const Identity, info: *const BigInfo, base: *const u8, base_count: u64, origin: u64, first_event: u64, times_ahead: bool, fault: *mut Fault) -> u32;
    pub fn vm_source_drop(source: Handle);
    pub fn vm_source_give(source: *mut Handle, bis: u8, has_time: bool, time: u64, octets: *const u8, count: u64) -> u32;
    pub fn vm_source_next(source: *mut Handle, event: *mut u64, anchor: *mut u64);
    pub fn vm_source_event(source: *mut Handle) -> u32;
    pub fn vm_source_next_stale(source: *mut Handle, bis: *mut u8, time: *mut u64) -> u32;
    pub fn vm_source_pdu(source: *mut Handle, back: u8, bis: u8, subevent: u8, room: *mut u8, room_count: u64, count: *mut u64, number: *mut u64) -> u32;
    pub fn vm_source_announce(source: *mut Handle, room: *mut u8, room_count: u64, train: *mut Train) -> u32;
    pub fn vm_source_terminate(source: *mut Handle, reason: u8, into: *mut u8);

    pub fn vm_stream_new(stream: *mut Handle, info: *const BigInfo, stay: *const Stay, row: *mut u8) -> u32;
    pub fn vm_stream_drop(stream: Handle);
    pub fn vm_stream_hear(stream: *mut Handle, number: u64, pdu: *const u8, count: u64, heard: *mut Heard);
    pub fn vm_stream_reserve(stream: *mut Handle, units: u64, octets: u64) -> u32;
    pub fn vm_stream_close(stream: *mut Handle) -> u32;
    pub fn vm_stream_open_event(stream: *mut Handle, event: *mut u64);
    pub fn vm_stream_held(stream: *mut Handle, octets: *mut u64);
    pub fn vm_stream_next_unit(stream: *mut Handle, room: *mut u8, room_count: u64, unit: *mut Unit) -> u32;

    pub fn air_big_info_read(from: *const u8, count: u64, into: *mut BigInfo) -> u32;
    pub fn air_big_info_write(info: *const BigInfo, room: *mut u8, room_count: u64, count: *mut u64) -> u32;
    pub fn air_group_check(info: *const BigInfo, row: *mut u8) -> u32;
    pub fn air_base_check(from: *const u8, count: u64, fault: *mut Fault) -> u32;
    pub fn air_base_write(delay: u32, subgroups: *const BaseSubgroup, subgroup_count: u64, streams: *const BaseStream, stream_count: u64, octets: *const u8, octet_count: u64, room: *mut u8, room_count: u64, count: *mut u64, fault: *mut Fault) -> u32;
    pub fn air_base_streams(from: *const u8, count: u64, streams: *mut u32) -> u32;
    pub fn air_base_effective(from: *const u8, count: u64, bis: u8, into: *mut Effective) -> u32;
    pub fn air_pac_check(from: *const u8, count: u64, fault: *mut Fault) -> u32;
    pub fn air_takes(records: *const u8, records_count: u64, locations: u32, contexts: u16, base: *const u8, base_count: u64, bis: u8, reason: *mut u8) -> u32;
    pub fn air_pdu_check(from: *const u8, count: u64, max_pdu: u8, fault: *mut Fault) -> u32;
    pub fn air_operation_check(from: *const u8, count: u64, fault: *mut Fault) -> u32;
    pub fn air_state_check(from: *const u8, count: u64, fault: *mut Fault) -> u32;
    pub fn air_state_read(from: *const u8, count: u64, into: *mut State, bis_sync: *mut u32, bis_sync_room: u64, fault: *mut Fault) -> u32;
}
