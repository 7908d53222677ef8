//! The samples, and what a model printed of them; each refusal once.
use gpmf::{Element, Group, InWindow, PacketCursor, Reading, Refusal, Tag};
use std::ops::Range;

fn sample(name: &str) -> Vec<u8> {
    std::fs::read(format!("../../samples/{name}")).unwrap()
}

fn text(name: &str) -> String {
    String::from_utf8(sample(name)).unwrap()
}

fn letters(key: gpmf::Key) -> String {
    String::from_utf8(key.to_vec()).unwrap()
}

/// Each field of each row, beside the listing.
#[test]
fn rows_are_those_of_the_listing() {
    let payload = sample("packet.raw");
    let reading = Reading::of(&payload).unwrap();
    let mut listed = format!("rows {} headers {}\n", reading.len(), reading.headers());
    for row in reading.rows() {
        let group = if row.group == Group::CALLER { "-".into() } else { letters(row.group.key) };
        listed += &format!("{} {group} {} {} {} {} {}\n", row.place, letters(row.key), row.data_type, row.size, row.repeat, row.depth);
        assert_eq!((row.tag(), row.tag_number), (Tag::of(row.key), gpmf::tag_id(row.key)));
        assert_eq!(row.type_place, (row.key == *b"FACE").then_some(684));
        assert_eq!(reading.item_of(row).row(), row);
    }
    assert_eq!(listed, text("packet.list"));
}

#[test]
fn takes_are_printed_as_stored() {
    for (whole, name) in [(false, "damaged.take"), (true, "damaged.whole")] {
        let file = sample("damaged.raw");
        let (mut rows, mut out) = (vec![0; 512], vec![0; 8192]);
        let (mut at, mut packets, mut read) = (0, 0, 0);
        for packet in gpmf::packets(&file) {
            packets += 1;
            let about = gpmf::About { number: packets, place: packet.range().start as u64, whole };
            let (end, accepted) = gpmf::put_packet(packet.payload(), about, &mut rows, &mut out, at);
            assert_eq!(accepted, packet.reading().is_ok());
            at = end.unwrap();
            read += u64::from(accepted);
        }
        at = gpmf::put_totals(&mut out, at, packets, read, packets - read).unwrap();
        assert_eq!(std::str::from_utf8(&out[..at]).unwrap(), text(name));
    }
}

/// 56 bytes for each row that there is room for, and 162 more, hold every packet, with the largest numbers in its line.
#[test]
fn the_room_that_a_packet_needs_is_known() {
    let file = sample("damaged.raw");
    for packet in gpmf::packets(&file) {
        let rows = packet.clone().front().0.len();
        let about = gpmf::About { number: u64::MAX, place: u64::MAX, whole: false };
        let (end, accepted) = gpmf::put_packet(packet.payload(), about, &mut vec![0; 8 * rows], &mut vec![0; 56 * rows + 162], 0);
        assert_eq!((end.is_some(), accepted), (true, packet.reading().is_ok()));
    }
}

fn unsigned(element: Element) -> u64 {
    match element {
        Element::Unsigned(n) => n,
        other => panic!("{other:?}"),
    }
}

/// The first second of the table in samples/README.md.
#[test]
fn values_are_those_of_the_table() {
    let file = sample("take.raw");
    let first = gpmf::packets(&file).next().unwrap();
    let reading = first.reading().unwrap();
    let wet = reading.item(Group::of(*b"MWET"), Tag::Data).unwrap();
    let confidence: Vec<u64> = (0..4).map(|row| unsigned(wet.element(row, 2).unwrap())).collect();
    assert_eq!(confidence, [95, 95, 96, 99]);
    let gain = reading.item(Group::of(*b"AALP"), Tag::Data).unwrap();
    let peaks: Vec<Element> = (0..4).map(|row| gain.element(row, 1).unwrap()).collect();
    assert_eq!(peaks, [-22, -24, -20, -20].map(Element::Signed));
    assert_eq!(reading.item(Group::of(*b"FACE"), Tag::Other(*b"FACE")).map(|item| item.row()), None);
}

fn bits(element: Element) -> u64 {
    match element {
        Element::Signed(n) => n as u64,
        Element::Unsigned(n) => n,
        Element::Single(x) => gpmf::single_bits(x).into(),
        Element::Double(x) => gpmf::double_bits(x),
    }
}

/// All elements of each item at once, beside those that are read one by one.
#[test]
fn all_elements_are_the_single_ones() {
    let payload = sample("packet.raw");
    let reading = Reading::of(&payload).unwrap();
    for item in reading.rows().map(|row| reading.item_of(row)) {
        let places = (0..item.shape().unwrap().rows).flat_map(|row| (0..item.columns(row).unwrap()).map(move |column| (row, column)));
        let single: Vec<u64> = places.map(|(row, column)| bits(item.element(row, column).unwrap())).collect();
        let mut numbers = vec![9; single.len() + 1];
        assert_eq!(item.elements_at(&mut numbers), Ok(single.len()));
        assert_eq!(numbers, [single.as_slice(), &[9]].concat());
        if !single.is_empty() {
            let refusal = Refusal { number: Refusal::NO_ROOM, place: item.row().place as usize };
            assert_eq!(item.elements_at(&mut numbers[1..single.len()]), Err(refusal));
            assert_eq!(numbers, [single.as_slice(), &[9]].concat());
        }
    }
}

/// What stands before a refusal's place is read, and a refused call leaves lent rows as they were.
#[test]
fn a_refused_packet_has_a_front() {
    let file = sample("damaged.raw");
    let fifth = gpmf::packets(&file).nth(4).unwrap();
    assert_eq!(fifth.reading().unwrap_err(), Refusal { number: Refusal::PAST_END, place: 892 });
    let (front, _) = Reading::front(fifth.payload());
    assert_eq!((front.len(), front.headers()), (43, 51));
    assert!(front.item(Group::of(*b"MWET"), Tag::Data).is_some() && front.item(Group::of(*b"AALP"), Tag::Data).is_none());
    let mut rows = [7; 512];
    assert!(gpmf::parse_metadata(fifth.payload(), false, &mut rows).is_err());
    assert_eq!(rows, [7; 512]);
}

/// What holds bytes or rows tells how many there are, and not the bytes and rows themselves.
#[test]
fn what_is_told_for_debugging_is_short() {
    let file = sample("damaged.raw");
    let mut packets = gpmf::packets(&file);
    let first = packets.next().unwrap();
    assert_eq!(format!("{first:?}"), "Packet { range: 8..1220, reading: Ok(Reading { bytes: 1212, rows: 57, headers: 68 }) }");
    assert_eq!(format!("{packets:?}"), "Packets { bytes: 5906, at: 1220 }");
    assert_eq!(format!("{:?}", packets.next().unwrap()), "Packet { range: 1228..2430, reading: Err(Refusal { number: 2, place: 984 }) }");
    let reading = first.reading().unwrap();
    let wet = reading.item(Group::of(*b"MWET"), Tag::Data).unwrap();
    assert_eq!(format!("{reading:?}"), "Reading { bytes: 1212, rows: 57, headers: 68 }");
    assert_eq!(format!("{wet:?}"), format!("Item {{ row: {:?}, .. }}", wet.row()));
}

/// Every packet of a file that is read in windows of a size, each begun where the one before said.
fn in_windows(file: &[u8], size: usize) -> Vec<Range<usize>> {
    let (mut start, mut end, mut cursor, mut found) = (0, size, PacketCursor::new(0), Vec::new());
    loop {
        end = end.min(file.len());
        match cursor.next_in(&file[start..end], end < file.len()) {
            InWindow::Packet(range, (), rest) => {
                found.push(start + range.start..start + range.end);
                cursor = rest;
            }
            InWindow::More { from } => {
                start += from;
                end += size;
                cursor = PacketCursor::new(0);
            }
            InWindow::OverLimit(..) => panic!("nothing was read"),
            InWindow::End => return found,
        }
    }
}

#[test]
fn windows_have_the_packets_of_the_file() {
    let file = sample("damaged.raw");
    let whole: Vec<Range<usize>> = gpmf::packets(&file).map(|packet| packet.range()).collect();
    assert_eq!(whole, [8..1220, 1228..2430, 2438..3682, 3690..4911, 4919..5906]);
    for size in [1, 3, 100, 1300, 5906] {
        assert_eq!(in_windows(&file, size), whole, "{size}");
    }
}

#[test]
fn a_packet_over_the_limit_need_not_end() {
    let mut window = b"DEVC".to_vec();
    window.resize(8 + 1_048_576 + 4, 0);
    let cursor = PacketCursor::new(0);
    let refusal = Refusal { number: Refusal::TOO_LONG, place: 0 };
    assert_eq!(cursor.next_metadata_in(&window, true, false, &mut []), InWindow::OverLimit(8, refusal, PacketCursor::new(1)));
    assert_eq!(cursor.next_metadata_in(&window[1..], true, false, &mut []), InWindow::More { from: window.len() - 9 });
    assert_eq!(cursor.next_metadata(&window, true, &mut []), Some((8..window.len(), Err(refusal), PacketCursor::new(window.len()))));
}

/// Containers round one item, as many as are asked.
fn nested(containers: usize) -> Vec<u8> {
    let mut payload = b"ABCDB\x04\x00\x01abcd".to_vec();
    for _ in 0..containers {
        let header = [b"NEST\x00\x01\x00".as_slice(), &[payload.len() as u8]].concat();
        payload = [header, payload].concat();
    }
    payload
}

#[test]
fn each_refusal_is_met() {
    let at = |place, answer: Result<(), Refusal>| answer.map_err(|refusal| (refusal.number, refusal.place == place));
    let read = |payload: &[u8]| at(0, Reading::of(payload).map(|_| ()));
    let value = |payload: &[u8]| at(0, gpmf::element(payload, 0, None, 0, 0).map(|_| ()));
    assert_eq!(read(&vec![0; 1_048_577]), Err((1, true)));
    assert_eq!(read(&vec![0; 1_048_576]), Ok(()));
    assert_eq!(read(b"ABCDB\x06\x00\x01abcde"), Err((2, true)));
    assert_eq!(read(b"ABCD\x00\x01\x00\x04abcd"), Err((3, true)));
    assert_eq!(read(&nested(17)), Err((4, true)));
    assert_eq!(read(&nested(16)), Ok(()));
    assert_eq!(at(0, gpmf::parse_metadata(b"ABCDB\x01\x00\x01a", false, &mut [0; 7]).map(|_| ())), Err((5, true)));
    assert_eq!(value(b"CORIs\x02\x00\x01ab"), Err((6, true)));
    assert_eq!(value(b"NAMEc\x02\x00\x02ab\xffc"), Err((7, true)));
    let long = b"TYPEc\x01\x00\x06f[257]\0\0ABCD?\x01\x00\x01a";
    assert_eq!(at(16, gpmf::element(long, 16, Some(0), 0, 0).map(|_| ())), Err((8, true)));
    assert_eq!(at(0, gpmf::orientations_of(b"XY\xff", b"XYZ").map(|_| ())), Err((9, true)));
    assert_eq!(at(0, gpmf::mtrx_to_orientation(&[1.0; 8]).map(|_| ())), Err((10, true)));
    let endless = gpmf::PacketTime { readings: 1, stamp_us: None, duration_ms: f64::INFINITY, missing: false };
    assert_eq!(at(0, gpmf::get_avg_sample_duration(&[endless]).map(|_| ())), Err((11, true)));
    assert_eq!(value(b"ABCD"), Err((12, true)));
    assert_eq!(at(0, gpmf::element(b"ABCDB\x01\x00\x01a", 0, None, 1, 0).map(|_| ())), Err((13, true)));
}
