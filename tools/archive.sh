#!/bin/sh
# Makes target/staticlib/libsundrimel.a, the archive that a C or a Rust host links, from the static library sundrimel_c.
set -eu
cd "$(dirname "$0")/.."
(cd crates/sundrimel_c && rt lib)
mkdir -p target/staticlib
cp crates/sundrimel_c/out/libsundrimel_c.a target/staticlib/libsundrimel.a
