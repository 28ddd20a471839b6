//! Lays the unmodified originals and the oracle's own few files into one tree under OUT_DIR.
use std::path::Path;
use std::{env, fs};

/// Where the originals lie, from this crate's directory.
const ORIGINALS: &str = "original/data-model/src";

const GIVEN: [&str; 13] = [
    "entry.rs",
    "parameters.rs",
    "grouping/area.rs",
    "grouping/range.rs",
    "grouping/range_3d.rs",
    "path/builder.rs",
    "path/codec.rs",
    "path/component.rs",
    "path/mod.rs",
    "relative_encodings/area_area.rs",
    "relative_encodings/entry_area.rs",
    "relative_encodings/entry_entry.rs",
    "relative_encodings/range3d_range3d.rs",
];
const OWN: [&str; 4] =
    ["root.rs", "grouping/mod.rs", "relative_encodings/mod.rs", "path/representation.rs"];

fn main() {
    let here = env::var("CARGO_MANIFEST_DIR").unwrap();
    let out = Path::new(&env::var("OUT_DIR").unwrap()).join("data_model");
    let given = Path::new(&here).join(ORIGINALS);
    let own = Path::new(&here).join("own");
    for (dir, files) in [(&given, &GIVEN[..]), (&own, &OWN[..])] {
        for f in files {
            let from = dir.join(f);
            println!("cargo:rerun-if-changed={}", from.display());
            let to = out.join(f);
            fs::create_dir_all(to.parent().unwrap()).unwrap();
            let bytes = fs::read(&from).unwrap_or_else(|e| panic!("{}: {e}", from.display()));
            fs::write(to, bytes).unwrap();
        }
    }
}
