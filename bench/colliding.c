/* Prints names of eight letters that collide in a hash table, each as another text's author would look for them:

   tag      under the hash of Rattle's `indexmap` without a key, in a table of up to 18,432 keys: their hashes begin at one of its
            2,048 groups and have one tag, so that a look-up of one compares all those before it
   fold     under the same hash, in its lowest 15 bits
   sip      under SipHash-1-3 with keys of 0, in its lowest 15 bits

   cc -O2 colliding.c -o colliding && ./colliding 16000 tag > colliding.txt        (half a minute) */
#include <stdint.h>
#include <stdio.h>
#include <stdlib.h>
#include <string.h>

static const uint64_t START = 0x243f6a8885a308d3, MULTIPLIER = 0x9e3779b97f4a7c15;
static const char LETTERS[] = "abcdefghijklmnopqrstuvwxyz0123456789";
enum { LENGTH = 8 };
static long wanted;
static enum { TAG, FOLD, SIP } kind;
static char name[LENGTH + 1];

static uint64_t folded(uint64_t a, uint64_t b) {
    unsigned __int128 product = (unsigned __int128)a * b;
    return (uint64_t)product ^ (uint64_t)(product >> 64);
}

static uint64_t with_byte(uint64_t state, uint64_t byte) {
    return folded(state ^ (byte | byte << 8 | byte << 16), MULTIPLIER ^ 2);
}

static uint64_t turned(uint64_t word, int bits) { return word << bits | word >> (64 - bits); }

static void round_of(uint64_t v[4]) {
    v[0] += v[1], v[1] = turned(v[1], 13) ^ v[0], v[0] = turned(v[0], 32);
    v[2] += v[3], v[3] = turned(v[3], 16) ^ v[2];
    v[0] += v[3], v[3] = turned(v[3], 21) ^ v[0];
    v[2] += v[1], v[1] = turned(v[1], 17) ^ v[2], v[2] = turned(v[2], 32);
}

static void mix(uint64_t v[4], uint64_t word) {
    v[3] ^= word;
    round_of(v);
    v[0] ^= word;
}

/* Of the length in eight bytes and the letters, with keys of 0. */
static uint64_t sip(void) {
    uint64_t v[4] = {0x736f6d6570736575, 0x646f72616e646f6d, 0x6c7967656e657261, 0x7465646279746573}, letters;
    memcpy(&letters, name, LENGTH);
    mix(v, LENGTH);
    mix(v, letters);
    mix(v, (uint64_t)(8 + LENGTH) << 56);
    v[2] ^= 0xff;
    for (int k = 0; k < 3; k++) round_of(v);
    return v[0] ^ v[1] ^ v[2] ^ v[3];
}

static int collides(uint64_t state) {
    uint32_t hash = (uint32_t)(state ^ state >> 32);
    if (kind == SIP) return (sip() & 32767) == 7;
    if (kind == FOLD) return (hash & 32767) == 7;
    return (hash & 2047) == 7 && hash >> 24 == 77;
}

static void search(uint64_t state, int at) {
    if (at == LENGTH) {
        if (collides(state)) {
            puts(name);
            if (--wanted == 0) exit(0);
        }
        return;
    }
    for (const char *letter = LETTERS; *letter; letter++) {
        name[at] = *letter;
        search(with_byte(state, *letter), at + 1);
    }
}

int main(int count, char **words) {
    wanted = count > 1 ? atol(words[1]) : 16000;
    kind = count < 3 ? TAG : !strcmp(words[2], "sip") ? SIP : !strcmp(words[2], "fold") ? FOLD : TAG;
    uint64_t length = LENGTH;
    uint64_t state = folded(START ^ (length & 0xffffffff | (length >> 32) << 32), MULTIPLIER ^ 16);
    name[0] = 'T';
    search(with_byte(state, 'T'), 1);
}
