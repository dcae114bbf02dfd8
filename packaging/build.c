/* What the release's binaries say of themselves: packaging/build.sh gives the text. */
#include "kijolvar_build.h"

const char *kijolvar_build(void) { return KIJOLVAR_BUILD; }
