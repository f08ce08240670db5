/* SHA-256 (FIPS 180-4), fed in pieces. */
#ifndef PLAIN_SHA256_H
#define PLAIN_SHA256_H

#include <stddef.h>
#include <stdint.h>
#include <string.h>
#include "fields.h"

struct hasher {
    uint32_t state[8];
    uint8_t block[64];
    size_t filled;
    uint64_t total;
};

static const uint32_t ROUND[64] = {
    0x428a2f98, 0x71374491, 0xb5c0fbcf, 0xe9b5dba5, 0x3956c25b, 0x59f111f1, 0x923f82a4, 0xab1c5ed5,
    0xd807aa98, 0x12835b01, 0x243185be, 0x550c7dc3, 0x72be5d74, 0x80deb1fe, 0x9bdc06a7, 0xc19bf174,
    0xe49b69c1, 0xefbe4786, 0x0fc19dc6, 0x240ca1cc, 0x2de92c6f, 0x4a7484aa, 0x5cb0a9dc, 0x76f988da,
    0x983e5152, 0xa831c66d, 0xb00327c8, 0xbf597fc7, 0xc6e00bf3, 0xd5a79147, 0x06ca6351, 0x14292967,
    0x27b70a85, 0x2e1b2138, 0x4d2c6dfc, 0x53380d13, 0x650a7354, 0x766a0abb, 0x81c2c92e, 0x92722c85,
    0xa2bfe8a1, 0xa81a664b, 0xc24b8b70, 0xc76c51a3, 0xd192e819, 0xd6990624, 0xf40e3585, 0x106aa070,
    0x19a4c116, 0x1e376c08, 0x2748774c, 0x34b0bcb5, 0x391c0cb3, 0x4ed8aa4a, 0x5b9cca4f, 0x682e6ff3,
    0x748f82ee, 0x78a5636f, 0x84c87814, 0x8cc70208, 0x90befffa, 0xa4506ceb, 0xbef9a3f7, 0xc67178f2,
};

static uint32_t rotate(uint32_t x, unsigned bits)
{
    return x >> bits | x << (32 - bits);
}

static void expand(uint32_t w[64], const uint8_t *block)
{
    for (size_t t = 0; t < 16; t++) {
        w[t] = word(block + 4 * t);
    }
    for (size_t t = 16; t < 64; t++) {
        uint32_t lower0 = rotate(w[t - 15], 7) ^ rotate(w[t - 15], 18) ^ w[t - 15] >> 3;
        uint32_t lower1 = rotate(w[t - 2], 17) ^ rotate(w[t - 2], 19) ^ w[t - 2] >> 10;
        w[t] = lower1 + w[t - 7] + lower0 + w[t - 16];
    }
}

static void compress(uint32_t state[8], const uint8_t *block)
{
    uint32_t w[64];
    uint32_t a = state[0], b = state[1], c = state[2], d = state[3];
    uint32_t e = state[4], f = state[5], g = state[6], h = state[7];

    expand(w, block);
    for (size_t t = 0; t < 64; t++) {
        uint32_t upper1 = rotate(e, 6) ^ rotate(e, 11) ^ rotate(e, 25);
        uint32_t upper0 = rotate(a, 2) ^ rotate(a, 13) ^ rotate(a, 22);
        uint32_t t1 = h + upper1 + ((e & f) ^ (~e & g)) + ROUND[t] + w[t];
        uint32_t t2 = upper0 + ((a & b) ^ (a & c) ^ (b & c));
        h = g;
        g = f;
        f = e;
        e = d + t1;
        d = c;
        c = b;
        b = a;
        a = t1 + t2;
    }
    state[0] += a;
    state[1] += b;
    state[2] += c;
    state[3] += d;
    state[4] += e;
    state[5] += f;
    state[6] += g;
    state[7] += h;
}

static void hash_start(struct hasher *h)
{
    static const uint32_t first[8] = {0x6a09e667, 0xbb67ae85, 0x3c6ef372, 0xa54ff53a,
                                      0x510e527f, 0x9b05688c, 0x1f83d9ab, 0x5be0cd19};

    memcpy(h->state, first, sizeof first);
    h->filled = 0;
    h->total = 0;
}

static void hash_update(struct hasher *h, const uint8_t *piece, size_t length)
{
    h->total += length;
    while (length > 0) {
        size_t part = 64 - h->filled;
        if (part == 64 && length >= 64) {
            /* a whole block is hashed where it stands */
            compress(h->state, piece);
        } else {
            if (part > length) {
                part = length;
            }
            memcpy(h->block + h->filled, piece, part);
            h->filled += part;
            if (h->filled == 64) {
                compress(h->state, h->block);
                h->filled = 0;
            }
        }
        piece += part;
        length -= part;
    }
}

static void hash_finish(struct hasher *h, uint8_t digest[32])
{
    uint8_t tail[72] = {0x80};
    size_t zeros = (119 - h->filled) % 64;
    uint64_t bits = h->total << 3;

    put_word(tail + zeros + 1, (uint32_t)(bits >> 32));
    put_word(tail + zeros + 5, (uint32_t)bits);
    hash_update(h, tail, zeros + 9);
    for (size_t i = 0; i < 8; i++) {
        put_word(digest + 4 * i, h->state[i]);
    }
}

/* The first 8 bytes of a digest as a number, modulo m. */
static uint32_t residue(const uint8_t digest[32], uint32_t m)
{
    return (uint32_t)(((uint64_t)word(digest) << 32 | word(digest + 4)) % m);
}

#endif
