//! The worked examples of docs/FORMAT.md, and each written back.
use jakepuro::*;

fn path(components: &[&[u8]]) -> Path {
    Path::from_components(components).unwrap()
}

/// Both readings of a message give the value, and writing gives the message.
fn plain(message: &[u8], value: Path) {
    let read = Ok((value.clone(), message.len()));
    assert_eq!(Path::decode(message, 0), read);
    assert_eq!(Path::decode_canonic(message, 0), read);
    let mut buffer = vec![0; message.len()];
    assert_eq!(value.encode(&mut buffer), Ok(message.len()));
    assert_eq!(buffer, message);
    assert_eq!(value.len_of_encoding(), Ok(message.len()));
}
fn plain_refused(message: &[u8], refusal: Refusal) {
    assert_eq!(Path::decode(message, 0), Err(refusal));
    assert_eq!(Path::decode_canonic(message, 0), Err(refusal));
}

/// Both readings against a reference give the value, and writing gives the message.
fn relative<R, V>(message: &[u8], reference: &R, value: V)
where
    V: RelativeEncodable<R> + RelativeDecodableCanonic<R> + PartialEq + std::fmt::Debug,
{
    let mut buffer = vec![0; message.len()];
    assert_eq!(value.relative_encode(&mut buffer, reference), Ok(message.len()));
    assert_eq!(buffer, message);
    assert_eq!(value.relative_len_of_encoding(reference), Ok(message.len()));
    let read = Ok((value, message.len()));
    assert_eq!(V::relative_decode(message, 0, reference), read);
    assert_eq!(V::relative_decode_canonic(message, 0, reference), read);
}

#[test]
fn plain_paths() {
    plain(&[0x00], Path::new_empty());
    plain(&[0x01], path(&[b""]));
    plain(&[0x32, 0x01, 0x61, 0x62, 0x63], path(&[b"a", b"bc"]));
    plain_refused(&[0x10], Refusal::TheirFault);
    plain_refused(&[0x12, 0x02, 0x61], Refusal::EndOfInput);
    plain_refused(&[0x12, 0x02, 0x61, 0x62], Refusal::TheirFault);
    plain_refused(&[0x0c, 0x15], Refusal::TheirFault);
}

#[test]
fn paths_against_a_path() {
    let (a, abc) = (path(&[b"a"]), path(&[b"a", b"bc"]));
    relative(&[0x01, 0x21, 0x62, 0x63], &a, abc.clone());
    let shares_nothing = [0x00, 0x32, 0x01, 0x61, 0x62, 0x63];
    assert_eq!(Path::relative_decode(&shares_nothing, 0, &a), Ok((abc, 6)));
    let strictly = Path::relative_decode_canonic(&shares_nothing, 0, &a);
    assert_eq!(strictly, Err(Refusal::TheirFault));
    assert_eq!(Path::relative_decode(&[0x02, 0x00], 0, &a), Err(Refusal::TheirFault));
}

#[test]
fn areas_against_an_area() {
    let full = Area::new_full();
    relative(&[0x60, 0x00, 0x00], &full, full.clone());
    let of = |start, end| {
        Area::new(AreaSubspace::Any, Path::new_empty(), TimeRange::new_closed(start, end))
    };
    let (reference, message) = (of(100, 200), [0x00, 0x32, 0x00, 0x00]);
    assert_eq!(Area::relative_decode(&message, 0, &reference), Ok((of(150, 200), 4)));
    let strictly = Area::relative_decode_canonic(&message, 0, &reference);
    assert_eq!(strictly, Err(Refusal::TheirFault));
}

#[test]
fn entries_against_an_area() {
    let (namespace, subspace, digest) = ([1; 32], [2; 32], [3; 32]);
    let area = Area::new(AreaSubspace::Id(subspace), Path::new_empty(), TimeRange::new_open(0));
    let reference = (namespace, area);
    let entry = Entry::new(namespace, subspace, Path::new_empty(), 5, 7, digest);
    let mut message = [&[0x40, 0x00, 0x00, 0x05, 0x07], &digest[..]].concat();
    relative(&message, &reference, entry);
    message[0] = 0x41;
    assert_eq!(Entry::relative_decode(&message, 0, &reference), Err(Refusal::TheirFault));
    let strictly = Entry::relative_decode_canonic(&message, 0, &reference);
    assert_eq!(strictly, Err(Refusal::TheirFault));
}

#[test]
fn ranges_against_a_range() {
    let range = Range3d::new(
        Range::new_open([7; 32]),
        Range::new_open(Path::new_empty()),
        TimeRange::new_open(0),
    );
    let message = [0x4d, 0xc0, 0x00, 0x00, 0x00];
    assert_eq!(Range3d::relative_decode(&message, 0, &range), Ok((range.clone(), 5)));
    let mut buffer = [0; 5];
    assert_eq!(range.relative_encode(&mut buffer, &range), Ok(5));
    assert_eq!(buffer, message);
}

#[test]
fn reading_starts_where_it_is_told() {
    let message = [0xee, 0x32, 0x01, 0x61, 0x62, 0x63, 0xee];
    assert_eq!(Path::decode(&message, 1), Ok((path(&[b"a", b"bc"]), 5)));
    assert_eq!(Path::decode(&message, 7), Err(Refusal::EndOfInput));
    assert_eq!(Path::decode(&message, usize::MAX), Err(Refusal::EndOfInput));
}
