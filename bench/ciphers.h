// Keys and blocks as the library lays them out: two words of 64 bits, the high one first.
#include <stdint.h>

typedef struct {
    uint64_t high;
    uint64_t low;
} block;

// The proved library (crates/cipher_export).
block cipher_aes128_encrypt(block key, block text);
block cipher_speck128_encrypt(block key, block text);

// The same shape in C (shape.c), compiled by two compilers.
block gcc_aes128_encrypt(block key, block text);
block gcc_speck128_encrypt(block key, block text);
block clang_aes128_encrypt(block key, block text);
block clang_speck128_encrypt(block key, block text);
