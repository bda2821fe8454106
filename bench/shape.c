// AES-128 and Speck128/128 in the shape of the proved code: four columns of 32 bits, the S-box, one spread table, round
// keys made on the way. The script builds it once by each compiler, under the prefix PREFIX, with the tables that it takes
// from the library's source.
#include "ciphers.h"
#include "tables.h"

#define JOIN2(a, b) a##b
#define JOIN(a, b) JOIN2(a, b)
#define NAME(n) JOIN(PREFIX, n)

typedef struct {
    uint32_t c0, c1, c2, c3;
} words;

static const uint8_t CONSTANTS[10] = {0x01, 0x02, 0x04, 0x08, 0x10, 0x20, 0x40, 0x80, 0x1b, 0x36};

static inline uint32_t right32(uint32_t x, int k) { return x >> k | x << (32 - k); }

static inline uint64_t right64(uint64_t x, int k) { return x >> k | x << (64 - k); }

static inline words columns(block b) {
    return (words){b.high >> 32, (uint32_t)b.high, b.low >> 32, (uint32_t)b.low};
}

static inline block joined(words s) {
    return (block){(uint64_t)s.c0 << 32 | s.c1, (uint64_t)s.c2 << 32 | s.c3};
}

static inline words xor(words a, words b) {
    return (words){a.c0 ^ b.c0, a.c1 ^ b.c1, a.c2 ^ b.c2, a.c3 ^ b.c3};
}

static inline uint32_t mixed_column(uint32_t a, uint32_t b, uint32_t c, uint32_t d) {
    uint32_t front = SPREAD[a >> 24] ^ right32(SPREAD[b >> 16 & 0xff], 8);
    uint32_t back = SPREAD[c >> 8 & 0xff] ^ right32(SPREAD[d & 0xff], 8);
    return front ^ right32(back, 16);
}

static inline uint32_t last_column(uint32_t a, uint32_t b, uint32_t c, uint32_t d) {
    return (uint32_t)SBOX[a >> 24] << 24 | (uint32_t)SBOX[b >> 16 & 0xff] << 16 | (uint32_t)SBOX[c >> 8 & 0xff] << 8
        | SBOX[d & 0xff];
}

static inline words mixed_round(words s) {
    return (words){
        mixed_column(s.c0, s.c1, s.c2, s.c3),
        mixed_column(s.c1, s.c2, s.c3, s.c0),
        mixed_column(s.c2, s.c3, s.c0, s.c1),
        mixed_column(s.c3, s.c0, s.c1, s.c2),
    };
}

static inline words last_round(words s) {
    return (words){
        last_column(s.c0, s.c1, s.c2, s.c3),
        last_column(s.c1, s.c2, s.c3, s.c0),
        last_column(s.c2, s.c3, s.c0, s.c1),
        last_column(s.c3, s.c0, s.c1, s.c2),
    };
}

static inline words next_key(words k, uint8_t constant) {
    uint32_t u = k.c3;
    uint32_t rotated = (uint32_t)(SBOX[u >> 16 & 0xff] ^ constant) << 24 | (uint32_t)SBOX[u >> 8 & 0xff] << 16
        | (uint32_t)SBOX[u & 0xff] << 8 | SBOX[u >> 24];
    uint32_t c0 = k.c0 ^ rotated;
    uint32_t c1 = k.c1 ^ c0;
    uint32_t c2 = k.c2 ^ c1;
    uint32_t c3 = k.c3 ^ c2;
    return (words){c0, c1, c2, c3};
}

block NAME(_aes128_encrypt)(block key, block text) {
    words k = columns(key);
    words s = xor(columns(text), k);
    for (int r = 0; r < 9; r++) {
        k = next_key(k, CONSTANTS[r]);
        s = xor(mixed_round(s), k);
    }
    return joined(xor(last_round(s), next_key(k, CONSTANTS[9])));
}

static inline block speck_round(block p, uint64_t k) {
    uint64_t high = (right64(p.high, 8) + p.low) ^ k;
    return (block){high, right64(p.low, 61) ^ high};
}

block NAME(_speck128_encrypt)(block key, block text) {
    for (uint64_t i = 0; i < 32; i++) {
        text = speck_round(text, key.low);
        key = speck_round(key, i);
    }
    return text;
}
