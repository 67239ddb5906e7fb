//! The structs of `vicemint.h`, field by field.

/// The answer to a write.
#[repr(C)]
#[derive(Clone, Copy, Debug, Default, PartialEq, Eq)]
pub struct Reply {
    /// The error code, 0 where the write is accepted.
    pub code: u8,
    /// The cause, 0 where it is accepted: 1 Empty, 2 Opcode, 3 Length, 4 Rfu, 5 BisTwice, 6 SourceUnknown, 7 NoDecrypt, 8 Known, 9 NoRoom,
    /// 10 ValueTooLong, 11 StillSynced.
    pub cause: u8,
}

/// What a PDU brought.
#[repr(C)]
#[derive(Clone, Copy, Debug, Default, PartialEq, Eq)]
pub struct Heard {
    /// Of a PDU: 0 Malformed, 1 WrongKind, 2 Late, 3 Beyond, 4 Repeat, 5 Kept, 6 NotOnGroup, 7 NotTaken, 8 NoNumber. Of a control PDU:
    /// 0 NotOnGroup, 1 Malformed, 2 NotControl, 3 UnknownOpcode, 4 ControlLength, 5 MapIgnored, 6 Left.
    pub answer: u8,
    /// The number of the fault of one that is malformed, else 0.
    pub fault: u8,
}

/// What a train brought.
#[repr(C)]
#[derive(Clone, Copy, Debug, Default, PartialEq, Eq)]
pub struct TrainHeard {
    /// The streams that the sink is on now: bit n for BIS n + 1.
    pub streams: u32,
    /// 0 NoBroadcastId, 1 NotWanted, 2 OtherTrain, 3 AlreadyOnGroup, 4 NoBase, 5 BadBase, 6 NoBigInfo, 7 BadBigInfo, 8 BadGroup,
    /// 9 NoneTaken, 10 OnGroup.
    pub answer: u8,
    /// The row at fault of a bad group, else 0.
    pub fault: u8,
}

/// A fault of octets.
#[repr(C)]
#[derive(Clone, Copy, Debug, Default, PartialEq, Eq)]
pub struct Fault {
    /// The place of the octet, from 0.
    pub place: u64,
    /// The number of the fault, as docs/values.md lists it.
    pub number: u8,
}

/// A BIGInfo (Core 5.2, volume 6 part B, section 4.4.6.11).
#[repr(C)]
#[derive(Clone, Copy, Debug, Default, PartialEq, Eq)]
pub struct BigInfo {
    /// ChM, the channel map.
    pub chm: u64,
    /// bisPayloadCount, the payload number of the first payload of the event that the BIG_Offset leads to.
    pub bis_payload_count: u64,
    /// Sub_Interval in µs.
    pub sub_interval: u32,
    /// BIS_Spacing in µs.
    pub bis_spacing: u32,
    /// SDU_Interval in µs.
    pub sdu_interval: u32,
    /// SeedAccessAddress.
    pub seed_access_address: u32,
    /// BIG_Offset in its units.
    pub big_offset: u16,
    /// ISO_Interval in 1.25 ms.
    pub iso_interval: u16,
    /// Max_SDU in octets.
    pub max_sdu: u16,
    /// BaseCRCInit.
    pub base_crc_init: u16,
    /// BIG_Offset_Units: 0 for 30 µs, 1 for 300 µs.
    pub big_offset_units: u8,
    /// Num_BIS.
    pub num_bis: u8,
    /// NSE, the subevents of a stream in an event.
    pub nse: u8,
    /// BN, the new payloads of a stream in an event.
    pub bn: u8,
    /// PTO, in events.
    pub pto: u8,
    /// IRC.
    pub irc: u8,
    /// Max_PDU in octets.
    pub max_pdu: u8,
    /// PHY: 0 for LE 1M, 1 for LE 2M, 2 for LE Coded.
    pub phy: u8,
    /// Framing: 0 unframed, 1 framed.
    pub framing: u8,
    /// Whether the group is encrypted: then `giv` and `gskd` count.
    pub is_encrypted: bool,
    /// GIV.
    pub giv: [u8; 8],
    /// GSKD.
    pub gskd: [u8; 16],
}

/// A subgroup of a BASE that is written. Its configuration and its metadata stand among octets beside it.
#[repr(C)]
#[derive(Clone, Copy, Debug, Default, PartialEq, Eq)]
pub struct BaseSubgroup {
    /// Where its configuration begins, from 0.
    pub config_place: u64,
    /// How many octets that has.
    pub config_count: u64,
    /// Where its metadata begins, from 0.
    pub metadata_place: u64,
    /// How many octets that has.
    pub metadata_count: u64,
    /// Codec_ID.
    pub codec: [u8; 5],
}

/// A stream of a BASE that is written.
#[repr(C)]
#[derive(Clone, Copy, Debug, Default, PartialEq, Eq)]
pub struct BaseStream {
    /// Where its own configuration begins, from 0.
    pub config_place: u64,
    /// How many octets that has.
    pub config_count: u64,
    /// The place of its subgroup, from 0.
    pub subgroup: u8,
    /// BIS_index, from 1.
    pub bis: u8,
}

/// Who a source is.
#[repr(C)]
#[derive(Clone, Copy, Debug, Default, PartialEq, Eq)]
pub struct Identity {
    /// Advertiser_Address_Type: 0 public, 1 random.
    pub address_type: u8,
    /// Advertiser_Address, the least octet first.
    pub address: [u8; 6],
    /// Advertising_SID.
    pub sid: u8,
    /// Broadcast_ID, the least octet first.
    pub broadcast_id: [u8; 3],
}

/// A train in a room: its parts stand one behind the other.
#[repr(C)]
#[derive(Clone, Copy, Debug, Default, PartialEq, Eq)]
pub struct Train {
    /// The octets of the extended advertising data, which come first.
    pub ext: u64,
    /// Those of the periodic advertising data.
    pub adv: u64,
    /// Those of the ACAD.
    pub acad: u64,
    /// When it is sent, in µs.
    pub time: u64,
}

/// A stay on a stream.
#[repr(C)]
#[derive(Clone, Copy, Debug, Default, PartialEq, Eq)]
pub struct Stay {
    /// The first event, at most 2^39.
    pub first_event: u64,
    /// Its anchor in µs, at most 2^61.
    pub anchor: u64,
    /// The presentation delay in µs, below 2^24.
    pub delay: u32,
    /// The stream, from 1.
    pub bis: u8,
}
