/* The calls of egw.h under their own names, in the archive and in the shared library, for languages that can't take C's inline
 * functions. packaging/library compiles it. */
#define EGW_CALL
#include "egw.h"
