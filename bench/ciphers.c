// Times one block under each of many keys, key set-up included: the proved library, the same shape in C, and OpenSSL's
// low-level AES calls. All get the same keys and blocks in one run, turn by turn, and each has to give the same answers.
#define OPENSSL_SUPPRESS_DEPRECATED
#include "ciphers.h"
#include <openssl/aes.h>
#include <stdio.h>
#include <time.h>

enum { KEYS = 4096, TURNS = 1000 };

typedef block (*encrypt)(block key, block text);

static block keys[KEYS], texts[KEYS], answers[KEYS];
static uint8_t key_bytes[KEYS][16], text_bytes[KEYS][16], answer_bytes[KEYS][16];

static uint64_t random64(void) {
    static uint64_t x = 0x9e3779b97f4a7c15;
    x ^= x << 13;
    x ^= x >> 7;
    x ^= x << 17;
    return x;
}

static void put64(uint8_t *to, uint64_t x) {
    for (int i = 0; i < 8; i++) to[i] = (uint8_t)(x >> (56 - 8 * i));
}

static uint64_t get64(const uint8_t *from) {
    uint64_t x = 0;
    for (int i = 0; i < 8; i++) x = x << 8 | from[i];
    return x;
}

static double now(void) {
    struct timespec t;
    clock_gettime(CLOCK_MONOTONIC, &t);
    return (double)t.tv_sec * 1e9 + (double)t.tv_nsec;
}

// Nanoseconds for one key and block. OpenSSL gets its keys and blocks as bytes, laid out before the clock starts.
static double timed(encrypt f) {
    double from = now();
    for (int i = 0; i < KEYS; i++) {
        if (f) {
            answers[i] = f(keys[i], texts[i]);
        } else {
            AES_KEY schedule;
            AES_set_encrypt_key(key_bytes[i], 128, &schedule);
            AES_encrypt(text_bytes[i], answer_bytes[i], &schedule);
        }
    }
    return (now() - from) / KEYS;
}

static uint64_t digest(int from_bytes) {
    uint64_t d = 0;
    for (int i = 0; i < KEYS; i++) {
        uint64_t high = from_bytes ? get64(answer_bytes[i]) : answers[i].high;
        uint64_t low = from_bytes ? get64(answer_bytes[i] + 8) : answers[i].low;
        d = (d ^ high) * 0x100000001b3;
        d = (d ^ low) * 0x100000001b3;
    }
    return d;
}

typedef struct {
    const char *name;
    encrypt call;
    double best;
    uint64_t digest;
} entrant;

// Each turn times every entrant once, and its best turn counts: a turn is under a millisecond, so that other work on the
// machine leaves some undisturbed. The ratios are of the first entrant.
static int compare(const char *title, entrant *e, int n) {
    for (int t = 0; t < TURNS; t++) {
        for (int k = 0; k < n; k++) {
            double ns = timed(e[k].call);
            if (t == 0 || ns < e[k].best) e[k].best = ns;
            e[k].digest = digest(e[k].call == NULL);
        }
    }
    printf("%s, one block for each key\n", title);
    printf("  %-28s %10s %16s\n", "", "ns a block", "proved / this");
    for (int k = 0; k < n; k++) {
        printf("  %-28s %10.1f %16.2f\n", e[k].name, e[k].best, e[0].best / e[k].best);
        if (e[k].digest != e[0].digest) {
            printf("  %s gives other answers\n", e[k].name);
            return 1;
        }
    }
    return 0;
}

int main(void) {
    for (int i = 0; i < KEYS; i++) {
        keys[i] = (block){random64(), random64()};
        texts[i] = (block){random64(), random64()};
        put64(key_bytes[i], keys[i].high);
        put64(key_bytes[i] + 8, keys[i].low);
        put64(text_bytes[i], texts[i].high);
        put64(text_bytes[i] + 8, texts[i].low);
    }
    entrant aes[] = {
        {"proved library", cipher_aes128_encrypt, 0, 0},
        {"same shape in C, gcc -O3", gcc_aes128_encrypt, 0, 0},
        {"same shape in C, clang -O3", clang_aes128_encrypt, 0, 0},
        {"OpenSSL AES_encrypt", NULL, 0, 0},
    };
    entrant speck[] = {
        {"proved library", cipher_speck128_encrypt, 0, 0},
        {"same shape in C, gcc -O3", gcc_speck128_encrypt, 0, 0},
        {"same shape in C, clang -O3", clang_speck128_encrypt, 0, 0},
    };
    int wrong = compare("AES-128", aes, 4);
    return wrong | compare("Speck128/128", speck, 3);
}
