// All of it in one piece, so that the compiler makes the path of an operation short: a store waits in its buffer only so long.
#include "words.c"
#include "notes.c"
#include "accesses.c"
#include "threads.c"
#include "trace.c"
#include "process.c"
