//! Every refusal, and what is left behind.
use jakepuro::*;

fn path(components: &[&[u8]]) -> Path {
    Path::from_components(components).unwrap()
}

#[test]
fn a_message_that_ends_is_1() {
    let reference = Area::new_full();
    let refused = Area::relative_decode(&[0x60, 0x00], 0, &reference);
    assert_eq!(refused.unwrap_err() as u8, 1);
    assert_eq!(CompactU64::decode(&[], 0).unwrap_err() as u8, 1);
}

#[test]
fn a_wrong_message_is_2() {
    let refused = decode_path_extends_path_canonic(&[0x10], 0, &path(&[b"a"]));
    assert_eq!(refused.unwrap_err() as u8, 2);
    assert_eq!(CompactU64::decode_canonic(&[0xfc, 0], 0).unwrap_err() as u8, 2);
}

#[test]
fn a_value_outside_is_3() {
    let mut buffer = [0xee; 8];
    let refused = encode_path_extends_path(&mut buffer, &path(&[b"b"]), &path(&[b"a"]));
    assert_eq!(refused.unwrap_err() as u8, 3);
    let measured = path_extends_path_encoding_len(&path(&[b"b"]), &path(&[b"a"]));
    assert_eq!(measured, Err(Refusal::Outside));
    let inner = Area::new(AreaSubspace::Any, path(&[b"a"]), TimeRange::new_open(0));
    assert_eq!(Area::new_full().relative_encode(&mut buffer, &inner), Err(Refusal::Outside));
    assert_eq!(buffer, [0xee; 8]);
}

#[test]
fn too_short_a_buffer_is_4_and_unchanged() {
    let reference = Entry::new([1; 32], [2; 32], path(&[b"a"]), 9, 300, [3; 32]);
    let entry = Entry::new([4; 32], [2; 32], path(&[b"a", b"b"]), 8, 70_000, [5; 32]);
    let length = entry.relative_len_of_encoding(&reference).unwrap();
    let mut written = vec![0; length];
    assert_eq!(entry.relative_encode(&mut written, &reference), Ok(length));
    for room in 0..length + 4 {
        let mut buffer = vec![0xee; room];
        let answer = entry.relative_encode(&mut buffer, &reference);
        if room < length {
            assert_eq!(answer.unwrap_err() as u8, 4);
            assert_eq!(buffer, vec![0xee; room]);
        } else {
            assert_eq!(answer, Ok(length));
            assert_eq!(buffer[..length], written);
            assert!(buffer[length..].iter().all(|b| *b == 0xee));
        }
    }
}

#[test]
fn a_record_that_is_not_well_formed_is_5() {
    let bad = raw::Path { count: raw::MAX_COMPONENT_COUNT as u8 + 1, ..raw::Path::ZERO };
    let (mut buffer, mut count) = ([0xee; 8], 7);
    assert_eq!(raw::path_encode(&mut buffer, &bad, &mut count), 5);
    assert_eq!((buffer, count), ([0xee; 8], 0));
    assert_eq!(raw::path_len_of_encoding(&bad, &mut count), 5);

    let untouched = raw::Path { count: 1, ..raw::Path::ZERO };
    let mut record = untouched;
    count = 7;
    let answer = raw::path_path_decode(&[0, 0], 0, true, &bad, &mut record, &mut count);
    assert_eq!((answer, count), (5, 0));
    assert_eq!(record, untouched);
    assert_eq!(Refusal::from_answer(answer), Err(Refusal::Malformed));

    let bad = raw::Area { any: 2, ..raw::Area::ZERO };
    assert_eq!(raw::area_area_encode(&mut buffer, &raw::Area::ZERO, &bad, &mut count), 5);
    let mut tag = 9;
    for width in [0, 1, 9, u8::MAX] {
        assert_eq!(raw::number_encode(&mut buffer, width, 1, &mut tag, &mut count), 5);
        assert_eq!(tag, 9);
    }
}

#[test]
fn refused_reads_leave_the_record() {
    let untouched = raw::Range3d { path_end_open: 9, ..raw::Range3d::ZERO };
    let (mut record, mut count) = (untouched, 7);
    let message = [0x4d, 0xc0, 0x00, 0x00];
    for end in 0..=message.len() {
        let part = &message[..end];
        let answer =
            raw::range3d_range3d_decode(part, 0, &raw::Range3d::ZERO, &mut record, &mut count);
        assert_eq!((answer, count), (1, 0));
        assert_eq!(record, untouched);
    }
}

#[test]
fn refusals_are_errors() {
    let shown: Vec<String> =
        (1..=5).map(|n| Refusal::from_answer(n).unwrap_err().to_string()).collect();
    assert!(shown.iter().all(|s| !s.is_empty()));
    let _: Box<dyn std::error::Error> = Box::new(Refusal::Outside);
}
