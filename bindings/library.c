/* Exports the functions of the header from a shared library, for languages that call libraries but read no headers. */
#define LIMBERLIME_FUNCTION __attribute__((visibility("default")))
#include "limberlime.h"
