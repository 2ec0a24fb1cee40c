#!/bin/sh
# Proves every crate of the program, side by side, and builds the program into bin/shb. That is
# what the gate does with proofs, without its tests and must-fail edits, so it works in a copy that has neither
# these nor the crates that tests alone use. It keeps no proofs for later checks: while you change a crate, work
# in its folder (CONTRIBUTING.md).
set -eu
cd "$(dirname "$0")"

# The logic that the proofs are for. Kits of other names have it too.
logic=dac8208d650f15bf
if ! command -v rt > /dev/null; then
    echo "build.sh: rt isn't on the PATH. It is in the folder bin of the Rattle kit, which proves and builds shb." >&2
    echo "A package needs no kit; neither does 'make install SHB=PATH' with a program that is built already (README.md)." >&2
    exit 1
fi
kit=$(rt version)
if [ "${kit##* }" != "$logic" ]; then
    echo "build.sh: the kit on the PATH is '$kit', and the proofs are for logic $logic: put a kit with this logic first on the PATH." >&2
    exit 1
fi

room=$(mktemp -d)
trap 'rm -rf "$room"' EXIT
grep -vE '^shb_(orders|clocks|report)[ :]' crates.txt > "$room/crates.txt"
cp HANDLES "$room"
tar -c --exclude=out --exclude=must-fail --exclude=shb_orders --exclude=shb_clocks --exclude=shb_report crates | tar -x -C "$room"
(cd "$room" && rt ci)
mkdir -p bin
cp "$room/crates/shb/out/shb" bin/shb
sha256sum < bin/shb > bin/shb.sum      # a package says of this program alone that it was built here
