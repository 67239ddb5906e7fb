//! The layouts, with no state: BIGInfo, BASE, published capabilities, PDUs, operations and receive states.
//!
//! A check is `Ok` where the octets have the layout, and else names the first fault beside `Refusal::Layout`.
use crate::raw;
use crate::{done, front, waiting, BaseStream, BaseSubgroup, BigInfo, Fault, Refusal};

/// Reads a BIGInfo of 33 or of 57 octets.
pub fn read_big_info(from: &[u8]) -> Result<BigInfo, Refusal> {
    let mut info = BigInfo::default();
    done(unsafe { raw::air_big_info_read(from.as_ptr(), from.len() as u64, &mut info) })?;
    Ok(info)
}

/// Writes a BIGInfo; a room of 57 octets is always enough. `Refusal::Range` where a field doesn't fit its width.
pub fn write_big_info<'a>(info: &BigInfo, room: &'a mut [u8]) -> Result<&'a [u8], Refusal> {
    let mut count = 0;
    done(unsafe { raw::air_big_info_write(info, room.as_mut_ptr(), room.len() as u64, &mut count) })?;
    Ok(front(room, count))
}

/// Whether a group can be sent. `Err` has the first row at fault, 1 to 14, beside `Refusal::Group`, and else 0.
pub fn check_group(info: &BigInfo) -> Result<(), (Refusal, u8)> {
    let mut row = 0;
    done(unsafe { raw::air_group_check(info, &mut row) }).map_err(|it| (it, row))
}

/// A call that checks octets.
type Check = unsafe extern "C" fn(*const u8, u64, *mut Fault) -> u32;

fn checked(check: Check, from: &[u8]) -> Result<(), (Refusal, Fault)> {
    let mut fault = Fault::default();
    done(unsafe { check(from.as_ptr(), from.len() as u64, &mut fault) }).map_err(|it| (it, fault))
}

/// Whether octets are a BASE.
pub fn check_base(from: &[u8]) -> Result<(), (Refusal, Fault)> {
    checked(raw::air_base_check, from)
}

/// Whether octets are a value of published capabilities.
pub fn check_pac(from: &[u8]) -> Result<(), (Refusal, Fault)> {
    checked(raw::air_pac_check, from)
}

/// Whether octets are an operation of the control point.
pub fn check_operation(from: &[u8]) -> Result<(), (Refusal, Fault)> {
    checked(raw::air_operation_check, from)
}

/// Whether octets are a receive state, or none.
pub fn check_state(from: &[u8]) -> Result<(), (Refusal, Fault)> {
    checked(raw::air_state_check, from)
}

/// Whether octets are a PDU of a group with this Max_PDU.
pub fn check_pdu(from: &[u8], max_pdu: u8) -> Result<(), (Refusal, Fault)> {
    let mut fault = Fault::default();
    done(unsafe { raw::air_pdu_check(from.as_ptr(), from.len() as u64, max_pdu, &mut fault) }).map_err(|it| (it, fault))
}

/// Writes a BASE: its presentation delay in µs, its subgroups, and the streams of each, in their order; a room of 252 octets is always
/// enough. Configurations and metadata are runs of `octets`, and may be shared. `Refusal::Range` where a number or a run is out of its range;
/// beside `Refusal::Layout` stands the fault that `check_base` would find in what the parts give.
pub fn write_base<'a>(
    delay: u32, subgroups: &[BaseSubgroup], streams: &[BaseStream], octets: &[u8], room: &'a mut [u8],
) -> Result<&'a [u8], (Refusal, Fault)> {
    let (mut count, mut fault) = (0, Fault::default());
    done(unsafe {
        raw::air_base_write(
            delay, subgroups.as_ptr(), subgroups.len() as u64, streams.as_ptr(), streams.len() as u64, octets.as_ptr(), octets.len() as u64,
            room.as_mut_ptr(), room.len() as u64, &mut count, &mut fault,
        )
    })
    .map_err(|it| (it, fault))?;
    Ok(front(room, count))
}

/// The streams of a BASE: bit n for BIS n + 1, as each index stands once.
pub fn base_streams(from: &[u8]) -> Result<u32, Refusal> {
    let mut streams = 0;
    done(unsafe { raw::air_base_streams(from.as_ptr(), from.len() as u64, &mut streams) })?;
    Ok(streams)
}

/// What holds for a stream of a BASE: the values of its subgroup, which its own override.
#[derive(Clone, Copy, Debug, PartialEq, Eq)]
pub struct Effective {
    /// The place of its subgroup, from 0.
    pub subgroup: u64,
    /// Codec_ID.
    pub codec: [u8; 5],
    /// Sampling_Frequency, by its number.
    pub frequency: Option<u8>,
    /// Frame_Duration, by its number.
    pub duration: Option<u8>,
    /// Audio_Channel_Allocation.
    pub allocation: Option<u32>,
    /// Octets_Per_Codec_Frame.
    pub frame_octets: Option<u16>,
    /// Codec_Frame_Blocks_Per_SDU.
    pub blocks: Option<u8>,
    /// Streaming_Audio_Contexts.
    pub contexts: Option<u16>,
}

/// What holds for a stream of a BASE. `Refusal::Range` where `bis` isn't 1 to 31, `Refusal::NoBis` where the BASE hasn't the stream.
pub fn base_effective(from: &[u8], bis: u8) -> Result<Effective, Refusal> {
    let mut it = raw::Effective::default();
    done(unsafe { raw::air_base_effective(from.as_ptr(), from.len() as u64, bis, &mut it) })?;
    Ok(Effective {
        subgroup: it.subgroup,
        codec: it.codec,
        frequency: it.has_frequency.then_some(it.frequency),
        duration: it.has_duration.then_some(it.duration),
        allocation: it.has_allocation.then_some(it.allocation),
        frame_octets: it.has_frame_octets.then_some(it.frame_octets),
        blocks: it.has_blocks.then_some(it.blocks),
        contexts: it.has_contexts.then_some(it.contexts),
    })
}

/// Why a device doesn't take a stream: the first requirement that its last record doesn't meet.
#[derive(Clone, Copy, Debug, PartialEq, Eq)]
#[non_exhaustive]
pub enum NotTaken {
    /// The codec.
    Codec,
    /// The sampling frequency.
    Frequency,
    /// The frame duration.
    Duration,
    /// The octets of a frame.
    FrameOctets,
    /// The number of channels.
    Channels,
    /// The frames of a unit.
    FramesPerSdu,
    /// The audio locations.
    Location,
    /// The contexts.
    Context,
    /// A number that this crate doesn't know.
    Other(u8),
}

fn not_taken(reason: u8) -> NotTaken {
    use NotTaken::*;
    let known = [Codec, Frequency, Duration, FrameOctets, Channels, FramesPerSdu, Location, Context];
    usize::from(reason).checked_sub(1).and_then(|place| known.get(place).copied()).unwrap_or(Other(reason))
}

/// Whether a device with these records, locations and contexts takes a stream of a BASE: `None` where it does, else why not.
/// `Refusal::Range` where `bis` isn't 1 to 31, `Refusal::NoBis` where the BASE hasn't the stream.
pub fn takes(records: &[u8], locations: u32, contexts: u16, base: &[u8], bis: u8) -> Result<Option<NotTaken>, Refusal> {
    let mut reason = 0;
    let status = unsafe {
        raw::air_takes(
            records.as_ptr(), records.len() as u64, locations, contexts, base.as_ptr(), base.len() as u64, bis, &mut reason,
        )
    };
    Ok(match waiting(status, || ())? {
        Some(()) => None,
        None => Some(not_taken(reason)),
    })
}

/// BIG_Encryption of a receive state.
#[derive(Clone, Copy, Debug, PartialEq, Eq)]
pub enum Encryption {
    /// The group is not encrypted, or the sink is on none.
    NotEncrypted,
    /// The sink wants the Broadcast_Code.
    CodeRequired,
    /// The sink decrypts.
    Decrypting,
    /// This Broadcast_Code is wrong.
    BadCode([u8; 16]),
}

/// A receive state.
#[derive(Clone, Copy, Debug, PartialEq, Eq)]
pub struct State<'a> {
    /// Source_ID.
    pub source_id: u8,
    /// Source_Address_Type: 0 public, 1 random.
    pub address_type: u8,
    /// Source_Address, the least octet first.
    pub address: [u8; 6],
    /// Source_Adv_SID.
    pub sid: u8,
    /// Broadcast_ID, the least octet first.
    pub broadcast_id: [u8; 3],
    /// PA_Sync_State.
    pub pa_sync_state: u8,
    /// BIG_Encryption, with the Bad_Code.
    pub encryption: Encryption,
    /// BIS_Sync_State of each subgroup.
    pub bis_sync: &'a [u32],
}

/// Reads a receive state: `None` of no octets, which are no source. `Refusal::Room` where it has more subgroups than `bis_sync` has places.
pub fn read_state<'a>(from: &[u8], bis_sync: &'a mut [u32]) -> Result<Option<State<'a>>, (Refusal, Fault)> {
    let (mut it, mut fault) = (raw::State::default(), Fault::default());
    let status = unsafe {
        raw::air_state_read(
            from.as_ptr(), from.len() as u64, &mut it, bis_sync.as_mut_ptr(), bis_sync.len() as u64, &mut fault,
        )
    };
    waiting(status, || State {
        source_id: it.source_id,
        address_type: it.address_type,
        address: it.address,
        sid: it.sid,
        broadcast_id: it.broadcast_id,
        pa_sync_state: it.pa_sync_state,
        encryption: match it.encryption {
            0 => Encryption::NotEncrypted,
            1 => Encryption::CodeRequired,
            2 => Encryption::Decrypting,
            _ => Encryption::BadCode(it.bad_code),
        },
        bis_sync: &bis_sync[..it.subgroups as usize],
    })
    .map_err(|refusal| (refusal, fault))
}
