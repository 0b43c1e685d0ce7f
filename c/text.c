/* The text of a status as a call of the library, for languages that don't read the header. */
#define cefrodil_text text_of_header
#include "cefrodil.h"
#undef cefrodil_text

const char *cefrodil_text(uint32_t status);

const char *cefrodil_text(uint32_t status) { return text_of_header(status); }
