/* WebAssembly: the memory is that of uss.wasm, in which the driver has its part; what it writes goes to the host. */
#include "machine.h"

#define GUARD 32

__attribute__((import_module("host"), import_name("write"))) void host_write(const uint8_t *bytes, size_t len);

static uint8_t arenas[ARENAS][ARENA + GUARD] __attribute__((aligned(16)));
const size_t machine_behind = GUARD;

uint8_t *machine_arena(unsigned which)
{
    return arenas[which] + ARENA;
}

void machine_write(const uint8_t *bytes, size_t len)
{
    host_write(bytes, len);
}

__attribute__((export_name("run"))) int run(void)
{
    return driver();
}
