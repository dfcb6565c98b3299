// flags.c with a fence between the store and the load, which waits until the store is seen: `search` says yes.
#define FENCE
#include "flags.c"
