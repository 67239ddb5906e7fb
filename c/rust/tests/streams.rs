//! One stream alone hands up what its source was given.
mod common;
use common::{group, source};
use vicemint::{BigInfo, Refusal, Stay, Stream};

const STAY: Stay = Stay { first_event: 0, anchor: 20000, delay: 40000, bis: 1 };
const LATE: u8 = 2;
const REPEAT: u8 = 4;
const KEPT: u8 = 5;

#[test]
fn a_stream_hands_up_what_was_given() {
    let (mut source, mut stream) = (source(), Stream::new(&group(), &STAY).unwrap());
    let mut room = [0; 253];
    stream.reserve(1, 100).unwrap();
    let mut before = None;
    for event in 0..50u8 {
        let is_lost = event % 7 == 3;
        source.give(1, None, &[event, 9, 8]).unwrap();
        source.event().unwrap();
        let (pdu, number) = source.pdu(0, 1, 0, &mut room).unwrap();
        assert_eq!((number, stream.open_event()), (event.into(), event.into()));
        if !is_lost {
            assert_eq!([stream.hear(number, pdu).answer, stream.hear(number, pdu).answer], [KEPT, REPEAT]);
        }
        stream.close().unwrap();
        assert_eq!(stream.hear(number, pdu).answer, LATE);
        let unit = stream.next_unit(&mut room).unwrap().unwrap();
        assert_eq!((unit.bis, unit.octets), (1, (!is_lost).then_some(&[event, 9, 8][..])));
        assert!(before.map_or(true, |time| unit.time == time + 10000));
        before = Some(unit.time);
        assert_eq!(stream.next_unit(&mut room).unwrap(), None);
    }
}

#[test]
fn a_unit_waits_for_a_room() {
    let (mut source, mut stream) = (source(), Stream::new(&group(), &STAY).unwrap());
    let mut room = [0; 253];
    source.give(1, None, &[1, 2, 3]).unwrap();
    source.event().unwrap();
    let (pdu, number) = source.pdu(0, 1, 0, &mut room).unwrap();
    stream.hear(number, pdu);
    stream.close().unwrap();
    assert_eq!(stream.next_unit(&mut room[..2]), Err(Refusal::Room));
    assert_eq!(stream.next_unit(&mut room).unwrap().unwrap().octets, Some(&[1, 2, 3][..]));
}

#[test]
fn refusals_say_why() {
    let refused = |info: &BigInfo, stay: &Stay| Stream::new(info, stay).err();
    assert_eq!(refused(&group(), &Stay { bis: 2, ..STAY }), Some((Refusal::Range, 0)));
    assert_eq!(refused(&group(), &Stay { delay: 1 << 24, ..STAY }), Some((Refusal::Range, 0)));
    let (refusal, row) = refused(&BigInfo { irc: 0, ..group() }, &STAY).unwrap();
    assert_eq!(refusal, Refusal::Group);
    assert!(row > 0);
    let mut stream = Stream::new(&group(), &Stay { first_event: 1 << 39, ..STAY }).unwrap();
    assert_eq!(stream.close(), Err(Refusal::CounterEnds));
    assert_eq!(stream.reserve(0, 1), Err(Refusal::Range));
    assert_eq!(stream.hear(0, &[3]).answer, 0);
}

#[test]
fn what_is_held_of_a_slot_is_its_longest_prefix() {
    let info = BigInfo { nse: 2, bn: 2, sub_interval: 400, max_sdu: 8, max_pdu: 4, ..group() };
    let (mut stream, mut room) = (Stream::new(&info, &STAY).unwrap(), [0; 8]);
    assert_eq!((stream.hear(1, &[0, 0]).answer, stream.held()), (KEPT, 0));
    assert_eq!((stream.hear(0, &[1, 4, 1, 2, 3, 4]).answer, stream.held()), (KEPT, 4));
    stream.close().unwrap();
    assert_eq!(stream.held(), 0);
    assert_eq!(stream.next_unit(&mut room).unwrap().unwrap().octets, Some(&[1, 2, 3, 4][..]));
}

#[test]
fn what_is_held_of_a_framed_stream_is_the_unit_that_is_not_decided() {
    let info = BigInfo { framing: 1, sdu_interval: 10884, max_sdu: 8, max_pdu: 10, ..group() };
    let (mut stream, mut room) = (Stream::new(&info, &STAY).unwrap(), [0; 8]);
    let pdu = [2, 10, 0, 8, 0x88, 0x13, 0, 0xd0, 0xd1, 0xd2, 0xd3, 0xd4];
    assert_eq!((stream.hear(0, &pdu).answer, stream.held()), (KEPT, 0));
    stream.close().unwrap();
    assert_eq!(stream.held(), 5);
    stream.close().unwrap();
    assert_eq!(stream.held(), 0);
    let unit = stream.next_unit(&mut room).unwrap().unwrap();
    assert_eq!((unit.bis, unit.time, unit.octets), (1, 75968, None));
}
