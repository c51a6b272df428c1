// The time that MurmurHash3 x86 32-bit takes on the keys of `hash.rattle`, written as plain C++.
#include <chrono>
#include <cstdint>
#include <cstdio>
#include <cstring>
#include <vector>

static inline uint32_t rotl(uint32_t x, int by) { return (x << by) | (x >> (32 - by)); }

static inline uint32_t scrambled(uint32_t k) { return rotl(k * 0xcc9e2d51u, 15) * 0x1b873593u; }

__attribute__((noinline)) static uint32_t hash(const uint8_t *bytes, size_t length, uint32_t seed) {
  uint32_t h = seed;
  size_t blocks = length / 4;
  for (size_t i = 0; i < blocks; i++) {
    uint32_t k;
    memcpy(&k, bytes + 4 * i, 4);
    h = rotl(h ^ scrambled(k), 13) * 5 + 0xe6546b64u;
  }
  const uint8_t *tail = bytes + 4 * blocks;
  uint32_t k = 0;
  switch (length & 3) {
  case 3: k ^= uint32_t(tail[2]) << 16; [[fallthrough]];
  case 2: k ^= uint32_t(tail[1]) << 8; [[fallthrough]];
  case 1: h ^= scrambled(k ^ tail[0]);
  }
  h ^= uint32_t(length);
  h = (h ^ (h >> 16)) * 0x85ebca6bu;
  h = (h ^ (h >> 13)) * 0xc2b2ae35u;
  return h ^ (h >> 16);
}

int main() {
  std::vector<uint8_t> text(1 << 20);
  uint32_t state = 1;
  for (auto &b : text) {
    state = state * 1664525u + 1013904223u;
    b = uint8_t(state >> 24);
  }
  using clock = std::chrono::steady_clock;
  auto micros = [](clock::duration d) { return (long long)std::chrono::duration_cast<std::chrono::microseconds>(d).count(); };
  uint32_t all = 0;
  auto start = clock::now();
  for (uint32_t seed = 0; seed < 400; seed++)
    for (size_t i = 0; i < text.size() / 40; i++)
      all ^= hash(text.data() + 40 * i, 16 + i % 25, seed);
  printf("short %lld %08x\n", micros(clock::now() - start), all);
  all = 0;
  start = clock::now();
  for (uint32_t seed = 0; seed < 600; seed++)
    for (size_t i = 0; i < text.size() / 65536; i++)
      all ^= hash(text.data() + 65536 * i, 65536, seed);
  printf("long %lld %08x\n", micros(clock::now() - start), all);
}
