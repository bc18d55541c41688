/* SPDX-License-Identifier: MIT OR Apache-2.0
 *
 * The version of the library, which tools/build_library compiles with that of its header. */
#include "liktrob.h"

const char *liktrob_version(void) { return LIKTROB_VERSION; }
