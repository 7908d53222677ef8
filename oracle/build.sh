#!/bin/sh
# Builds the Rust oracle from the published Rust: build.sh DOCS_SRC (a folder with src/gopro/klv.rs.txt in it, or src/gopro/klv.rs)
# klv.rs, gopro/mod.rs and tags_impl.rs are copied byte for byte; the needed parts of util.rs are cut out of it.
set -eu
[ $# -eq 1 ] || { echo "usage: $0 DOCS_SRC" >&2; exit 2; }
docs=$(CDPATH='' cd -- "$1" && pwd)
CDPATH='' cd -- "$(dirname -- "$0")"

# the path of a published file, which must be the text that the recorded answers come from
published() { # path below DOCS_SRC, SHA-256
    for path in "$docs/$1.txt" "$docs/$1"; do
        [ -f "$path" ] || continue
        [ "$(sha256sum < "$path")" = "$2  -" ] || { echo "$path is another version than the one that the answers come from" >&2; exit 1; }
        echo "$path"
        return
    done
    echo "no $1.txt in $docs" >&2
    exit 1
}
klv=$(published src/gopro/klv.rs 774a1c2fd02d3c3ba187ddc90aade123387de6b683904fa9119781a9d64c08db)
gopro=$(published src/gopro/mod.rs a1d2b8f79f420e92ad5b2f8fae2ecfc47cd84e6c3f4252425622e5e0a0c026b3)
tags=$(published src/tags_impl.rs 79b6ea18e6c03bac632a022fa54eaf3fdec7e221fc670d17166b553c187186d8)
util=$(published src/util.rs f2bf907fe1f087dcc85792d9b20911cc0e032f2c1e78eb55e9e79de6d9bb572f)

cp "$klv" src/gopro/klv_published.rs
cp "$gopro" src/gopro/mod.rs
cp "$tags" src/tags_impl.rs

# from the first line that matches the first pattern to the next that matches the second
cut_out() { # file, first pattern, last pattern
    awk -v first="$2" -v last="$3" '!on && !done && $0 ~ first { on = 1 } on { print } on && $0 ~ last { on = 0; done = 1 }
        END { if (!done) { print "not found: " first > "/dev/stderr"; exit 1 } }' "$1"
}
item() { cut_out "$util" "$1" '^}$'; }
lines() { cut_out "$gopro" "$1" "$2"; }

{
    cat src/util_head.rs
    item '^pub fn to_hex'
    echo '#[derive(Debug, Clone, Default)]'
    item '^pub struct SampleInfo'
    item '^fn box_end'
    item '^pub[(]crate[)] fn in_memory'
    item '^pub[(]crate[)] fn time_missing_between'
    item '^pub fn find_between_with_offset'
    item '^pub fn insert_tag' | sed '1s/insert_tag/insert_tag_published/'
    item '^pub const fn fourcc'
    item '^pub fn read_box<'
    item '^pub fn read_box_data'
    item '^pub fn read_data'
    echo '#[macro_export]'
    item '^macro_rules! try_block'
} > src/util.rs

# lines of gopro/mod.rs put in functions of their own, where the source has no function for them
{
    echo 'impl GoPro {'
    echo '    pub fn scale_of(map: &TagMap) -> f64 {'
    lines 'let scale = ' ';$'
    echo '        scale'
    echo '    }'
    echo '    pub fn scaled(v: &Quaternion<i16>, scale: f64) -> Quaternion<f64> {'
    lines '^ +Quaternion [{]$' '^ +[}]$'
    echo '    }'
    echo '    pub fn cuts_of(data: &[u8]) -> Vec<(usize, usize)> {'
    echo '        let mut out = Vec::new();'
    lines 'for pos in memmem::find_iter' 'let next = '
    echo '                    out.push((pos + 8, pos + next));'
    echo '                }'
    echo '            }'
    echo '        out'
    echo '    }'
    echo '}'
} > src/gopro/cut_from_published.rs

# the crates come from Debian's packages, and nothing from a network
registry=$(dpkg -L librust-byteorder-dev 2>/dev/null | sed -n 's,\(.*/cargo/registry\)/byteorder-[^/]*$,\1,p' | head -n 1)
[ -n "$registry" ] || { echo "build.sh: librust-byteorder-dev is not installed (README.md lists what is needed)" >&2; exit 1; }
mkdir -p .cargo
cat > .cargo/config.toml <<END
[source.crates-io]
replace-with = "debian"
[source.debian]
directory = "$registry"
END
cargo build --release --offline
