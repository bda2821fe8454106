#!/bin/sh
# Times the proved ciphers beside the same shape in C at -O3 and beside OpenSSL's low-level AES calls, in one run on the same
# keys and blocks, and prints a table of ratios. It is no test: it states what this machine gives today.
# Needs rt, gcc, clang and OpenSSL's headers (Debian: apt-get install gcc clang libssl-dev).
set -eu
cd "$(dirname "$0")/.."
out=$PWD/target/bench
(cd crates/cipher_export && rt lib)
mkdir -p "$out"

# The tables of the C version are those of the library's source.
awk '
    /^static SBOX/ { print "static const uint8_t SBOX[256] = {"; inside = 1; next }
    /^static SPREAD/ { print "static const uint32_t SPREAD[256] = {"; inside = 1; next }
    inside && /^\];/ { print "};"; inside = 0; next }
    inside { print }
' crates/cipher/src/tables.rt >"$out/tables.h"

gcc -O3 -Wall -Wextra -DPREFIX=gcc -I "$out" -c bench/shape.c -o "$out/shape_gcc.o"
clang -O3 -Wall -Wextra -DPREFIX=clang -I "$out" -c bench/shape.c -o "$out/shape_clang.o"
gcc -O3 -Wall -Wextra -Wno-deprecated-declarations bench/ciphers.c "$out/shape_gcc.o" "$out/shape_clang.o" \
    crates/cipher_export/out/libcipher_export.a -lcrypto -o "$out/ciphers"
echo "$(lscpu | sed -n 's/^Model name: *//p'), $(gcc --version | head -n 1), $(clang --version | head -n 1), $(openssl version)"
"$out/ciphers"
