//! The layouts, read and written.
mod common;
use common::{group, sink, BASE, CAPS, CODEC, IDENTITY};
use vicemint::layouts::{self, Encryption, NotTaken};
use vicemint::{BaseStream, BaseSubgroup, BigInfo, Fault, Refusal};

/// A value of published capabilities with one record.
fn records(frequencies: u8) -> Vec<u8> {
    let mut caps = CAPS;
    caps[2] = frequencies;
    [&[1][..], &CODEC, &[caps.len() as u8], &caps, &[0]].concat()
}

#[test]
fn a_big_info_is_read_as_it_was_written() {
    let mut room = [0; 57];
    let info = group();
    let written = layouts::write_big_info(&info, &mut room).unwrap();
    assert_eq!(written.len(), 33);
    assert_eq!(layouts::read_big_info(written), Ok(info));
    let secret = BigInfo { is_encrypted: true, gskd: [7; 16], ..info };
    let written = layouts::write_big_info(&secret, &mut room).unwrap();
    assert_eq!((written.len(), layouts::read_big_info(written)), (57, Ok(secret)));
    assert_eq!(layouts::read_big_info(&room[..40]), Err(Refusal::Layout));
    assert_eq!(layouts::write_big_info(&info, &mut room[..32]), Err(Refusal::Room));
    assert_eq!(layouts::write_big_info(&BigInfo { num_bis: 32, ..info }, &mut room), Err(Refusal::Range));
}

#[test]
fn a_group_is_checked_row_by_row() {
    assert_eq!(layouts::check_group(&group()), Ok(()));
    let (refusal, row) = layouts::check_group(&BigInfo { num_bis: 0, ..group() }).unwrap_err();
    assert_eq!(refusal, Refusal::Group);
    assert!((1..=14).contains(&row));
    assert_eq!(layouts::check_group(&BigInfo { nse: 32, ..group() }), Err((Refusal::Range, 0)));
}

#[test]
fn a_base_tells_of_its_streams() {
    assert_eq!(layouts::check_base(&BASE), Ok(()));
    assert_eq!(layouts::check_base(&BASE[..9]), Err((Refusal::Layout, Fault { number: 1, place: 5 })));
    assert_eq!(layouts::base_streams(&BASE), Ok(1));
    assert_eq!(layouts::base_streams(&BASE[..9]), Err(Refusal::Layout));
    let it = layouts::base_effective(&BASE, 1).unwrap();
    assert_eq!((it.subgroup, it.codec, it.frequency, it.duration), (0, CODEC, Some(8), Some(1)));
    assert_eq!((it.frame_octets, it.contexts, it.allocation, it.blocks), (Some(100), Some(4), None, None));
    assert_eq!(layouts::base_effective(&BASE, 2), Err(Refusal::NoBis));
    assert_eq!(layouts::base_effective(&BASE, 0), Err(Refusal::Range));
}

#[test]
fn a_base_is_written_by_its_parts() {
    let octets = [&BASE[11..21], &BASE[22..26]].concat();
    let subgroup = BaseSubgroup { config_place: 0, config_count: 10, metadata_place: 10, metadata_count: 4, codec: CODEC };
    let stream = BaseStream { bis: 1, ..BaseStream::default() };
    let mut room = [0; 252];
    let write = |subgroups: &[BaseSubgroup], streams: &[BaseStream], room: &mut [u8]| {
        layouts::write_base(40000, subgroups, streams, &octets, room).map(<[u8]>::to_vec)
    };
    assert_eq!(write(&[subgroup], &[stream], &mut room), Ok(BASE.to_vec()));
    assert_eq!(write(&[subgroup], &[stream], &mut room[..BASE.len()]), Ok(BASE.to_vec()));
    let refused = |it: Result<Vec<u8>, (Refusal, Fault)>| it.unwrap_err();
    assert_eq!(refused(write(&[subgroup], &[stream], &mut room[..27])).0, Refusal::Room);
    assert_eq!(refused(write(&[], &[], &mut room)), (Refusal::Layout, Fault { number: 2, place: 3 }));
    assert_eq!(refused(write(&[subgroup], &[], &mut room)), (Refusal::Layout, Fault { number: 3, place: 4 }));
    assert_eq!(refused(write(&[subgroup], &[stream, stream], &mut room)), (Refusal::Layout, Fault { number: 5, place: 28 }));
    assert_eq!(refused(write(&[subgroup], &[BaseStream { subgroup: 1, ..stream }], &mut room)).0, Refusal::Range);
    assert_eq!(refused(write(&[subgroup], &[BaseStream { bis: 32, ..stream }], &mut room)).0, Refusal::Range);
    let past = BaseSubgroup { metadata_count: 5, ..subgroup };
    assert_eq!(refused(write(&[past], &[stream], &mut room)).0, Refusal::Range);
}

#[test]
fn a_device_takes_a_stream_or_says_why_not() {
    let (fits, differs) = (records(0x80), records(1));
    assert_eq!(layouts::check_pac(&fits), Ok(()));
    assert_eq!(layouts::check_pac(&fits[..3]).unwrap_err().0, Refusal::Layout);
    assert_eq!(layouts::takes(&fits, 1, 4, &BASE, 1), Ok(None));
    assert_eq!(layouts::takes(&differs, 1, 4, &BASE, 1), Ok(Some(NotTaken::Frequency)));
    assert_eq!(layouts::takes(&fits, 1, 2, &BASE, 1), Ok(Some(NotTaken::Context)));
    assert_eq!(layouts::takes(&fits, 1, 4, &BASE, 2), Err(Refusal::NoBis));
    assert_eq!(layouts::takes(&fits[..3], 1, 4, &BASE, 1), Err(Refusal::Layout));
}

#[test]
fn a_pdu_ends_where_its_length_says() {
    assert_eq!(layouts::check_pdu(&[0, 2, 1, 1], 100), Ok(()));
    assert_eq!(layouts::check_pdu(&[0, 2, 1], 100).unwrap_err().0, Refusal::Layout);
    assert_eq!(layouts::check_pdu(&[0, 2, 1, 1], 1).unwrap_err().0, Refusal::Layout);
}

#[test]
fn a_receive_state_is_read() {
    let (mut sink, mut room, mut bits) = (sink(), [0; 512], [9; 2]);
    assert_eq!(layouts::read_state(&[], &mut bits), Ok(None));
    let add = [2, 0, 1, 2, 3, 4, 5, 6, 3, 7, 8, 9, 2, 0xff, 0xff, 2, 1, 0, 0, 0, 0, 0, 0, 0, 0, 0];
    assert_eq!(layouts::check_operation(&add), Ok(()));
    assert_eq!(sink.write(&add).unwrap().code, 0);
    let value = sink.read_state(0, &mut room).unwrap();
    assert_eq!(layouts::check_state(value), Ok(()));
    let state = layouts::read_state(value, &mut bits).unwrap().unwrap();
    assert_eq!((state.address_type, state.address, state.sid), (0, IDENTITY.address, IDENTITY.sid));
    assert_eq!((state.broadcast_id, state.encryption), (IDENTITY.broadcast_id, Encryption::NotEncrypted));
    assert_eq!(state.bis_sync, [0, 0]);
    assert_eq!(layouts::read_state(value, &mut bits[..1]).unwrap_err().0, Refusal::Room);
    let (refusal, fault) = layouts::read_state(&value[..7], &mut bits).unwrap_err();
    assert_eq!(refusal, Refusal::Layout);
    assert!(fault.number > 0);
}
