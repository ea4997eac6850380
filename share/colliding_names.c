/* Prints names that fall together in a table of names whose hash has no key: by the toolchain's
   FoldHasher from its fixed seed, they have one group and one tag. share/large_documents.py builds
   and runs it where there is a C compiler.
   usage: colliding_names COUNT LOG2_GROUPS */
#include <stdint.h>
#include <stdio.h>
#include <stdlib.h>
#include <string.h>

static const uint64_t SEED = 0x243f6a8885a308d3, MULTIPLIER = 0x9e3779b97f4a7c15;
static const char LETTERS[] = "0123456789abcdefghijklmnopqrstuvwxyzABCDEFGHIJKLMNOPQRSTUVWXYZ_-";
enum { FRONT = 6, BACK = 4, LENGTH = FRONT + BACK };

/* the state after the bytes of one write of at most eight bytes, as one number */
static uint64_t after(uint64_t state, uint64_t bytes, uint64_t count) {
  unsigned __int128 product = (unsigned __int128)(state ^ bytes) * (MULTIPLIER ^ 2 * count);
  return (uint64_t)product ^ (uint64_t)(product >> 64);
}

static uint64_t after_letter(uint64_t state, unsigned char c) {
  return after(state, (uint64_t)c * 0x010101, 1);
}

static uint32_t wanted, mask;
static long left;
static char name[LENGTH + 1];

/* each ending from this place on */
static void endings(uint64_t state, int at) {
  if (at == LENGTH) {
    if (((uint32_t)(state ^ state >> 32) & mask) == wanted && left > 0) {
      puts(name);
      left--;
    }
    return;
  }
  for (const char *c = LETTERS; *c && left > 0; c++) {
    name[at] = *c;
    endings(after_letter(state, (unsigned char)*c), at + 1);
  }
}

int main(int count, char **words) {
  if (count != 3) return 1;
  left = atol(words[1]);
  /* the tag is the high byte of 32 bits, the group the low bits */
  mask = 0xff000000u | ((1u << atoi(words[2])) - 1);
  wanted = 0x2a000000u & mask;
  for (uint64_t front = 0; left > 0; front++) {
    uint64_t state = after(SEED, LENGTH, 8), rest = front;
    for (int i = 0; i < FRONT; i++, rest /= 64) {
      name[i] = LETTERS[rest % 64];
      state = after_letter(state, (unsigned char)name[i]);
    }
    endings(state, FRONT);
  }
  return 0;
}
