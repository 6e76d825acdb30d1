#!/bin/sh
# Proves and builds what C links, and leaves it as target/staticlib/libleskofar.a.
set -eu
cd "$(dirname "$0")/.."
made=crates/leskofar/out/libleskofar.a
to=target/staticlib/libleskofar.a

(cd crates/leskofar && rt lib)
mkdir -p target/staticlib
# Renamed, so that nobody links half of it.
cp "$made" "$to.new"
mv "$to.new" "$to"
