//! A source of one stream, and a sink that takes it.
#![allow(dead_code)] // each test uses some of it
use vicemint::{BigInfo, Identity, Sink, Source};

pub const BASE: [u8; 28] = [0x40, 0x9c, 0, 1, 1, 6, 0, 0, 0, 0, 10, 2, 1, 8, 2, 2, 1, 3, 4, 100, 0, 4, 3, 2, 4, 0, 1, 0];
pub const CODEC: [u8; 5] = [6, 0, 0, 0, 0];
pub const CAPS: [u8; 13] = [3, 1, 0x80, 0, 2, 2, 2, 5, 4, 100, 0, 100, 0];
pub const IDENTITY: Identity = Identity { address_type: 0, address: [1, 2, 3, 4, 5, 6], sid: 3, broadcast_id: [7, 8, 9] };

pub fn group() -> BigInfo {
    BigInfo { iso_interval: 8, num_bis: 1, nse: 1, bn: 1, irc: 1, sdu_interval: 10000, max_sdu: 100, max_pdu: 100, phy: 1, ..BigInfo::default() }
}

pub fn sink() -> Sink {
    let mut sink = Sink::new(1, 1).unwrap();
    sink.reserve(1, 100).unwrap();
    sink.add_pac(&CODEC, &CAPS, &[]).unwrap();
    sink.set_locations(1);
    sink.set_contexts(4);
    sink
}

pub fn source() -> Source {
    Source::new(&IDENTITY, &group(), &BASE, 20000, 0, false).unwrap()
}
