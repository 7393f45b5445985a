#!/bin/sh
# Proves every function that a daemon calls and writes what it links into dist/: libguzbytor.a, guzbytor.h, a pkg-config file, the toolchain's id and
# checksums. The folder can be moved: the pkg-config file goes by where it lies.
set -eu
cd "$(dirname "$0")/.."
(cd crates/guzbytor && rt lib)
rm -rf dist
mkdir dist
cp crates/guzbytor/out/libguzbytor.a include/guzbytor.h dist/
rt version >dist/TOOLCHAIN
# What two depots must have alike: the version of records, and the layout of stored images.
number() { sed -n "s/.*\b$2 = \([0-9]*\).*/\1/p" "include/$1"; }
cat >dist/guzbytor.pc <<PC
prefix=\${pcfiledir}

Name: guzbytor
Description: replication engine with its agreement proved
Version: $(number guzbytor.h GUZBYTOR_VERSION).$(number guzbytor_layout.h IMAGE_LAYOUT)
Cflags: -I\${prefix}
Libs: -L\${prefix} -lguzbytor
PC
(cd dist && sha256sum TOOLCHAIN guzbytor.h guzbytor.pc libguzbytor.a >SHA256SUMS)
ls dist
