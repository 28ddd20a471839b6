//! The types: their parts come back, and paths keep their limits.
use jakepuro::raw::{MAX_COMPONENT_COUNT, MAX_COMPONENT_LENGTH, MAX_PATH_LENGTH};
use jakepuro::*;

#[test]
fn limits_of_paths() {
    let bytes = [0x61; MAX_PATH_LENGTH];
    let at_most: Vec<_> = bytes.chunks(MAX_COMPONENT_LENGTH).collect();
    assert_eq!(Path::from_components(&at_most).unwrap().path_length(), MAX_PATH_LENGTH);
    let too_long = [&at_most[..], &[b"c"]].concat();
    assert_eq!(Path::from_components(&too_long), Err(InvalidPathError::PathTooLong));
    let error = Path::from_components(&[&[0; MAX_COMPONENT_LENGTH + 1]]).unwrap_err();
    assert_eq!(error, InvalidPathError::ComponentTooLong);
    let empty: [&[u8]; MAX_COMPONENT_COUNT + 1] = [b""; MAX_COMPONENT_COUNT + 1];
    let most = Path::from_components(&empty[1..]).unwrap();
    assert_eq!(most.component_count(), MAX_COMPONENT_COUNT);
    assert_eq!(Path::from_components(&empty), Err(InvalidPathError::TooManyComponents));
}

#[test]
fn parts_come_back() {
    let components: [&[u8]; 3] = [b"a", b"", &[0xff; MAX_COMPONENT_LENGTH - 1]];
    let path = Path::from_components(&components).unwrap();
    assert_eq!(path.components().collect::<Vec<_>>(), components);
    assert_eq!(path.components().len(), 3);
    assert_ne!(path, Path::from_components(&components[..2]).unwrap());
    assert!(Path::default().is_empty() && !path.is_empty());

    let times = TimeRange::new_closed(1, u64::MAX);
    let area = Area::new(AreaSubspace::Id([2; 32]), path.clone(), times);
    assert_eq!(area.subspace(), AreaSubspace::Id([2; 32]));
    assert_eq!((area.path(), area.times()), (&path, times));
    assert_eq!(Area::new_full().subspace(), AreaSubspace::Any);
    assert_eq!(Area::new_full().times(), TimeRange::new_open(0));

    let entry = Entry::new([1; 32], [2; 32], path.clone(), 3, u64::MAX, [4; 32]);
    assert_eq!((entry.namespace_id(), entry.subspace_id()), (&[1; 32], &[2; 32]));
    assert_eq!((entry.path(), entry.timestamp()), (&path, 3));
    assert_eq!((entry.payload_length(), entry.payload_digest()), (u64::MAX, &[4; 32]));

    let subspaces = Range::new_closed([5; 32], [6; 32]);
    let range = Range3d::new(subspaces, Range::new_open(path.clone()), times);
    assert_eq!((range.subspaces(), range.times()), (subspaces, times));
    assert_eq!(range.paths(), Range::new_open(&path));
    let range = Range3d::new(subspaces, Range::new_closed(Path::default(), path.clone()), times);
    assert_eq!(range.paths().end, RangeEnd::Closed(&path));
}

#[test]
fn how_they_are_shown() {
    let path = Path::from_components(&[b"a", b"\x00\""]).unwrap();
    assert_eq!(format!("{path:?}"), r#"Path["a", "\x00\""]"#);
    let shown = format!("{:?}", Area::new_full());
    assert_eq!(shown, "Area { subspace: Any, path: Path[], times: Range { start: 0, end: Open } }");
}

const WIDTHS: [TagWidth; 7] = [
    TagWidth::Two,
    TagWidth::Three,
    TagWidth::Four,
    TagWidth::Five,
    TagWidth::Six,
    TagWidth::Seven,
    TagWidth::Eight,
];

#[test]
fn tags_fit_their_width() {
    for width in WIDTHS {
        let last = u8::MAX >> (8 - width as u8);
        assert_eq!(Tag::new(width, last).map(|t| (t.width(), t.data())), Some((width, last)));
        assert_eq!(last.checked_add(1).and_then(|data| Tag::new(width, data)), None);
    }
}

#[test]
fn numbers_of_every_width() {
    let mut buffer = [0; 8];
    for width in WIDTHS {
        // The four last tags say how many bytes follow; a value below them is its own tag.
        let sized = (1 << width as u64) - 4;
        let wide = [(sized, 0, 1), (1 << 8, 1, 2), (1 << 16, 2, 4), (u64::MAX, 3, 8)];
        for (value, above, bytes) in wide {
            let (tag, written) = CompactU64(value).tagged_encode(&mut buffer, width).unwrap();
            assert_eq!((u64::from(tag.data()), written), (sized + above, bytes));
            let read = CompactU64::relative_decode_canonic(&buffer[..written], 0, &tag);
            assert_eq!(read, Ok((CompactU64(value), written)));
        }
        if 0 < sized {
            let (tag, written) = CompactU64(sized - 1).tagged_encode(&mut buffer, width).unwrap();
            assert_eq!((u64::from(tag.data()), written), (sized - 1, 0));
        }
    }
}
