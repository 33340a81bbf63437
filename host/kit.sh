# shellcheck shell=sh
# Sourced by the host's scripts: where the toolchain's parts are, worked out from the command rt.
#
#   home      the kit's folder
#   rlibs     the kit's own libraries, as crates read them
#   tools     its compiler, and the C library that programs link
#   loader    the loader of that C library
#
# The kit runs on x86-64 alone, and so do the programs that it makes: it has no emulator for another machine.

if ! command -v rt >/dev/null; then
    echo "rt, the Rattle toolchain's command, is not on the path: install the toolchain, or add its bin folder to PATH" >&2
    exit 69
fi
if [ "$(uname -m)" != x86_64 ]; then
    echo "the Rattle toolchain runs on x86-64 alone, and this machine is $(uname -m): build there, and take what was built along (host/library TARGET makes the library for 64-bit Arm)" >&2
    exit 69
fi
home=$(dirname "$(dirname "$(readlink -f "$(command -v rt)")")")
rlibs=$home/rlibs
tools=$home/toolchain
# shellcheck disable=SC2034
loader=$tools/lib/ld-linux-x86-64.so.2

# The crates that a crate of the repository names in crates.txt; a word or more may stand between its name and the colon.
deps_of() { sed 's/#.*//' crates.txt | sed -n "s/^[[:space:]]*${1}\([[:space:]][^:]*\)\{0,1\}:\(.*\)/\2/p"; }
