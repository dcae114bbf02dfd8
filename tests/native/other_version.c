/* The library as one of another version. What is linked with it has -Wl,--wrap=kijolvar_version. */
#include "kijolvar.h"

uint32_t __wrap_kijolvar_version(void);

uint32_t __wrap_kijolvar_version(void) { return KIJOLVAR_VERSION + 1; }
