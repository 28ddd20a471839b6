//! Every function on a stack of 64 KiB.
use jakepuro::raw::*;

const STACK: usize = 64 * 1024;

macro_rules! three {
    ($encode:ident, $length:ident, $decode:ident, $value:expr, [$($reference:expr),*] $(, $canonic:expr)?) => {{
        let (mut buffer, mut n, mut back) = ([0; 2 * std::mem::size_of::<Range3d>()], 0, $value);
        assert_eq!($encode(&mut buffer, &$value, $(&$reference,)* &mut n), 0);
        let written = n;
        assert_eq!($length(&$value, $(&$reference,)* &mut n), 0);
        assert_eq!($decode(&buffer[..written], 0, $($canonic,)? $(&$reference,)* &mut back, &mut n), 0);
        assert_eq!((back, n), ($value, written));
    }};
}

fn path() -> Path {
    let each = (MAX_PATH_LENGTH / MAX_COMPONENT_COUNT) as u16;
    let mut bytes = [0; MAX_PATH_LENGTH];
    bytes[..MAX_COMPONENT_COUNT * usize::from(each)].fill(0x61);
    Path {
        count: MAX_COMPONENT_COUNT as u8,
        lengths: [each.to_be_bytes(); MAX_COMPONENT_COUNT],
        bytes,
    }
}

fn area(path: Path) -> Area {
    Area { any: 1, path, times: TimeRange { end_open: 1, ..TimeRange::ZERO }, ..Area::ZERO }
}

fn entry() -> Entry {
    Entry { path: path(), timestamp: [1; 8], ..Entry::ZERO }
}

fn range() -> Range3d {
    Range3d { path_start: path(), path_end: path(), ..Range3d::ZERO }
}

fn on_small_stack(calls: fn()) {
    std::thread::Builder::new().stack_size(STACK).spawn(calls).unwrap().join().unwrap();
}

#[test]
fn paths() {
    on_small_stack(|| three!(path_encode, path_len_of_encoding, path_decode, path(), [], true));
    on_small_stack(|| {
        three!(
            path_path_encode,
            path_path_len_of_encoding,
            path_path_decode,
            path(),
            [Path::ZERO],
            true
        )
    });
    on_small_stack(|| {
        three!(
            path_extends_encode,
            path_extends_len_of_encoding,
            path_extends_decode,
            path(),
            [Path::ZERO],
            true
        )
    });
}

#[test]
fn areas() {
    on_small_stack(|| {
        three!(
            area_area_encode,
            area_area_len_of_encoding,
            area_area_decode,
            area(path()),
            [area(Path::ZERO)],
            true
        )
    });
}

#[test]
fn entries() {
    on_small_stack(|| {
        let (namespace, area) = ([0; ID_LENGTH], area(Path::ZERO));
        three!(
            entry_area_encode,
            entry_area_len_of_encoding,
            entry_area_decode,
            entry(),
            [namespace, area],
            true
        )
    });
    on_small_stack(|| {
        three!(
            entry_entry_encode,
            entry_entry_len_of_encoding,
            entry_entry_decode,
            entry(),
            [Entry::ZERO]
        )
    });
}

#[test]
fn ranges() {
    on_small_stack(|| {
        three!(
            range3d_range3d_encode,
            range3d_range3d_len_of_encoding,
            range3d_range3d_decode,
            range(),
            [Range3d::ZERO]
        )
    });
}
