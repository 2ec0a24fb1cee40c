#!/bin/sh
# Makes a crate:  make new-crate NAME=shb_pieces USES="shb_io shb_lines"
# It has one function with its contract, definition and proof, to be replaced, and a line in crates.txt that says what it may use.
set -eu
cd "$(dirname "$0")/.."

refuse() {
    echo "new-crate: $1" >&2
    exit 1
}

[ "${1:-}" ] || refuse "NAME=shb_.. names the crate, and USES=\"shb_io ..\" those that it uses"
name=$1
shift
case $name in
    shb_*[!a-z0-9_]* | shb_ | [!s]* | s[!h]* | sh[!b]* | shb[!_]* | s | sh | shb | "") refuse "$name: a crate is named shb_ and small letters, digits or underscores" ;;
esac
[ ! -e "crates/$name" ] || refuse "crates/$name is there already"
for used; do
    case $used in
        shb*) [ -d "crates/$used/src" ] || refuse "$used: there is no crate of this name" ;;
    esac
done

rt new "crates/$name" start_lib > /dev/null
rm -f "crates/$name/BUILD.bazel"
echo "$name:${*:+ $*}" >> crates.txt
cat <<END
Made crates/$name and its line in crates.txt. Now
- say in the head of crates/$name/src/lib.rt what the crate is about, and replace the function, its contract and its files
  in specs and proofs; keep #![tactic(auto)];
- add $name to the lines of crates.txt of those crates that use it, and to tests/calls/crates.line with tests of its calls;
- add it to the table in crates/README.md;
- leave it out in build.sh and the Makefile, as shb_orders is, if the program doesn't use it.
END
