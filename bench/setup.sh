#!/bin/sh
# setup.sh DIR: fetches from Debian 12, into DIR/root, what the tests and the measurement need and the machine may not have: the sources of
# scroll and fallible-iterator, which the crate pdb is built with; a qemu that takes plugins; and where the machine is not x86-64, a Rust and a C
# compiler for x86-64 with their libraries. Needs apt and dpkg with a Debian mirror, and the Rattle kit, whose clang builds the plugin that
# counts instructions; that is tested first. Standard error has what is fetched and how much it is. Changes nothing of the system and needs no
# root. DIR/done is there when all is.
set -eu
here=$(cd "$(dirname "$0")" && pwd -P)
[ $# -eq 1 ] || { echo "usage: setup.sh DIR" >&2; exit 2; }
"$here/../scripts/needs" bench/setup.sh rt apt-get apt-cache dpkg
kit=$("$here/../scripts/kit")
tools=$kit/toolchain
for tool in clang ld.lld; do
    [ -x "$tools/bin/$tool" ] || { echo "bench/setup.sh: the kit at $kit has no $tool for this machine, $(uname -m); nothing is fetched" >&2; exit 2; }
done
say() { echo "bench/setup.sh: $1" >&2; }
rm -rf "$1"
mkdir -p "$1/lists/partial" "$1/cache/archives/partial" "$1/debs" "$1/root"
dir=$(cd "$1" && pwd -P)
own=$(dpkg --print-architecture)
cat >"$dir/apt.conf" <<END
Dir::State::lists "$dir/lists";
Dir::Cache "$dir/cache";
APT::Architectures { "$own"; "amd64"; };
APT::Sandbox::User "";
END
export APT_CONFIG="$dir/apt.conf"
say "fetching the lists of packages of this machine's Debian mirror, 10 to 20 MB"
apt-get update -qq
packages="librust-scroll-dev:$own librust-fallible-iterator-dev:$own qemu-user:$own libcapstone4:$own liburing2:$own libglib2.0-0:$own libffi8:$own
    libnuma1:$own"
if [ "$own" != amd64 ]; then
    # rustc-web is Debian 12's newest Rust (1.96 with LLVM 22.1.8, the version of the kit's clang, when this was written).
    v=$(apt-cache policy "rustc-web:$own" | sed -n 's/ *Candidate: //p')
    minor=$(echo "$v" | cut -d. -f1,2)
    llvm=$(apt-cache show "libstd-rust-web-$minor:$own=$v" | grep -o 'libllvm[0-9]*' | head -1)
    packages="$packages rustc-web:$own=$v libstd-rust-web-$minor:$own=$v libstd-rust-web-dev:amd64=$v $llvm:$own
        gcc-12-x86-64-linux-gnu cpp-12-x86-64-linux-gnu binutils-x86-64-linux-gnu
        libgcc-12-dev-amd64-cross libgcc-s1-amd64-cross libc6-dev-amd64-cross libc6-amd64-cross linux-libc-dev-amd64-cross
        libisl23:$own libmpc3:$own libmpfr6:$own libgmp10:$own libjansson4:$own libbinutils:$own"
fi
cd "$dir/debs"
# each line of --print-uris: the address, the file, its size, its sum
apt-get download -qq --print-uris $packages >"$dir/uris"
say "$(awk '{ n++; bytes += $3 } END { printf "fetching %d packages, %.0f MB", n, bytes / 1e6 }' "$dir/uris"), into $dir: $(echo $packages)"
apt-get download -qq $packages
for d in *.deb; do dpkg -x "$d" "$dir/root"; done
rm -rf "$dir/lists" "$dir/cache" "$dir/debs" "$dir/apt.conf" "$dir/uris"
"$tools/bin/clang" --target="$(uname -m)-unknown-linux-gnu" -O2 -fPIC -ffreestanding -c -o "$dir/insn_count.o" "$here/insn_count.c"
"$tools/bin/ld.lld" -shared -o "$dir/libinsn_count.so" "$dir/insn_count.o"
rm "$dir/insn_count.o"
: >"$dir/done"
say "all is there, $(du -sm "$dir" | cut -f1) MB"
