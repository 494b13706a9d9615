#!/bin/sh
# Installs what the host's side needs on Debian, where it is missing: OpenSSL's libcrypto for the cipher,
# mbedTLS for a peer in the benchmark. The archive of the proved functions is for x86-64; on another
# processor a cross compiler and an emulator are added. `setup.sh own` installs what soak, memcheck and
# bench need, which run on this machine's own processor. Used by the Makefile; safe to run again.
set -eu
if [ "$(uname -m)" = x86_64 ] || [ "${1:-}" = own ]; then
  lib=/usr/lib/$(uname -m)-linux-gnu
  before=true
  packages='gcc libssl-dev libmbedtls-dev valgrind'
  commands='gcc cargo valgrind'
  rust=/
else
  lib=/usr/lib/x86_64-linux-gnu
  before='dpkg --add-architecture amd64'
  packages='gcc-x86-64-linux-gnu libc6-dev-amd64-cross qemu-user rustc-web libstd-rust-web-dev:amd64 libssl-dev:amd64 libmbedtls-dev:amd64'
  commands='x86_64-linux-gnu-gcc qemu-x86_64 cargo'
  rust=/usr/lib/rustlib/x86_64-unknown-linux-gnu
fi

present() {
  for c in $commands; do command -v "$c" >/dev/null || return 1; done
  [ -d $rust ] && [ -e "$lib/libcrypto.so" ] && [ -e "$lib/libmbedtls.so" ]
}

present && exit 0
command -v cargo >/dev/null || packages="$packages cargo-web"
as_root=''
[ "$(id -u)" = 0 ] || as_root=sudo
$as_root sh -c "$before && apt-get update -q && DEBIAN_FRONTEND=noninteractive apt-get install -qy --no-install-recommends $packages" >&2
