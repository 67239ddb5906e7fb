//! An assistant puts a sink on a source, the source sends, and what the sink hands up is what was given.
mod common;
use common::{group, sink, source, BASE, IDENTITY};
use vicemint::{layouts, Link, Refusal, Sink, Source};

const ON_GROUP: u8 = 10;

#[test]
fn a_sink_hands_up_what_was_given() {
    let (mut sink, mut link, mut source) = (sink(), Link::new(1).unwrap(), source());
    let (mut room, mut other) = ([0; 512], [0; 512]);
    link.add(&IDENTITY, 2, 0xffff, &[0xffffffff], &[0]).unwrap();
    let write = link.next_write(&mut room).unwrap().unwrap();
    assert_eq!(sink.write(write).unwrap().code, 0);
    let train = source.announce(&mut room).unwrap();
    let (ext, rest) = room.split_at(train.ext as usize);
    let (adv, rest) = rest.split_at(train.adv as usize);
    let heard = sink.train(0, 3, ext, adv, &rest[..train.acad as usize], train.time).unwrap();
    assert_eq!((heard.answer, heard.streams, sink.streams()), (ON_GROUP, 1, 1));
    while let Some((slot, value)) = sink.next_notice(&mut room).unwrap() {
        link.notice(slot, value).unwrap();
    }
    assert_eq!(link.view(0, &mut room).unwrap(), sink.read_state(0, &mut other).unwrap());
    for event in 0..50u8 {
        source.give(1, None, &[event, 7]).unwrap();
        source.event().unwrap();
        let (pdu, _) = source.pdu(0, 1, 0, &mut room).unwrap();
        let is_lost = event % 7 == 3;
        if !is_lost {
            sink.hear(event.into(), 1, 0, pdu).unwrap();
        }
        sink.tick(event.into()).unwrap();
        let unit = sink.next_unit(&mut room).unwrap().unwrap();
        assert_eq!(unit.octets, (!is_lost).then_some(&[event, 7][..]));
        assert_eq!(sink.next_unit(&mut other).unwrap(), None);
    }
}

#[test]
fn an_assistant_changes_what_it_asked_for() {
    let (mut sink, mut link) = (sink(), Link::new(1).unwrap());
    let (mut room, mut bits) = ([0; 512], [0; 4]);
    link.scan(true).unwrap();
    link.add(&IDENTITY, 2, 0xffff, &[1], &[0]).unwrap();
    link.modify(0, 0, 0xffff, &[0, 0], &[0, 0]).unwrap();
    link.scan(false).unwrap();
    for opcode in [1, 2, 3, 0] {
        let write = link.next_write(&mut room).unwrap().unwrap();
        assert_eq!((write[0], layouts::check_operation(write)), (opcode, Ok(())));
        assert_eq!(sink.write(write).unwrap().code, 0);
    }
    assert_eq!(link.next_write(&mut room).unwrap(), None);
    let state = layouts::read_state(sink.read_state(0, &mut room).unwrap(), &mut bits).unwrap().unwrap();
    assert_eq!((state.source_id, state.address, state.bis_sync), (0, IDENTITY.address, &[0, 0][..]));
    assert_eq!(link.modify(0, 3, 0xffff, &[0], &[0]), Err(Refusal::Range));
    assert_eq!(link.modify(0, 0, 0xffff, &[0], &[1]), Err(Refusal::Layout));
}

#[test]
fn refusals_say_why() {
    assert_eq!(Sink::new(0, 1).err(), Some(Refusal::Range));
    let mut bad = group();
    bad.irc = 0;
    let (refusal, fault) = Source::new(&IDENTITY, &bad, &BASE, 20000, 0, false).err().unwrap();
    assert_eq!(refusal, Refusal::Group);
    assert!(fault.number > 0);
    let (refusal, fault) = Source::new(&IDENTITY, &group(), &BASE[..9], 20000, 0, false).err().unwrap();
    assert_eq!((refusal, fault.number), (Refusal::Layout, 1));
    let mut source = source();
    assert_eq!(source.give(2, None, &[]), Err(Refusal::NoBis));
    assert_eq!(source.give(1, None, &[0; 101]), Err(Refusal::TooLong));
    assert_eq!(source.pdu(0, 1, 0, &mut [0; 253]).err(), Some(Refusal::NotOnAir));
    assert_eq!(Link::new(1).unwrap().notice(1, &[]).unwrap_err().0, Refusal::NoSlot);
}
