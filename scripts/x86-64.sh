# For scripts that build and run C programs over the market's static library, which is for x86-64. Sourced, not run. On x86-64 the
# programs are compiled and run as they are; on Arm by Debian's cross compiler, and under qemu-user. What is missing is installed.

if [ "$(uname -m)" = x86_64 ]; then
  x86_64_cc=${CC:-cc}
  command -v "$x86_64_cc" >/dev/null || x86_64_packages='gcc libc6-dev'
  x86_64_run=
else
  x86_64_cc=x86_64-linux-gnu-gcc
  command -v "$x86_64_cc" >/dev/null || x86_64_packages=gcc-x86-64-linux-gnu
  command -v qemu-x86_64 >/dev/null || x86_64_packages="${x86_64_packages:-} qemu-user"
  x86_64_run=qemu-x86_64
fi

# install_packages NAME..: Debian's packages of these names.
install_packages() {
  [ $# -eq 0 ] && return
  apt-get update -qq >/dev/null
  DEBIAN_FRONTEND=noninteractive apt-get install -y -qq "$@" >/dev/null
}
# shellcheck disable=SC2086
install_packages ${x86_64_packages:-}

# build_c PROGRAM FILE..: compiles C files and links them with the library, statically, so that qemu needs no libraries of its own.
build_c() {
  local program=$1
  shift
  "$x86_64_cc" -std=c11 -O2 -Wall -Wextra -Wconversion -Werror -static -Iinclude -Itests/c -o "$program" "$@" \
    target/staticlib/libkamurjesh.a
}

# run_c PROGRAM ARG..
run_c() { $x86_64_run "$@"; }
