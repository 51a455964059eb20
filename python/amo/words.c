/* A load and a store of a register at an address, sequentially consistent. The shared library
   libamo.so has them, since Python has no such accesses. */
#include <stdatomic.h>
#include <stdint.h>

uint64_t amo_load(const _Atomic uint64_t *word);
void amo_store(_Atomic uint64_t *word, uint64_t value);

uint64_t amo_load(const _Atomic uint64_t *word) { return atomic_load(word); }

void amo_store(_Atomic uint64_t *word, uint64_t value) { atomic_store(word, value); }
