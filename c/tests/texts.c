/* Each status has its text, in the header and in the archive, and no other number has one. */
#include "cefrodil.h"
#include "must.h"
#include "texts.h"
#include <string.h>

/* The archive's own call, which the header's function of this name hides. */
const char *text_of_archive(uint32_t status) __asm__("cefrodil_text");

static uint32_t seen;

/* The statuses come in the order of their numbers, and each once. */
static void has_text(uint32_t status, const char *text) {
    MUST(status == seen && strcmp(cefrodil_text(status), text) == 0 && strcmp(text_of_archive(status), text) == 0);
    seen++;
}

int main(void) {
#define ROW(name, in_cxx, text) has_text(CEFRODIL_##name, text);
    EACH_STATUS(ROW)
    MUST(seen == CEFRODIL_BAD_POLICY + 1);
    for (uint32_t other = seen; other < seen + 100; other++) {
        MUST(strcmp(cefrodil_text(other), "no status") == 0 && strcmp(text_of_archive(other), "no status") == 0);
    }
    MUST(strcmp(cefrodil_text(UINT32_MAX), "no status") == 0 && strcmp(text_of_archive(UINT32_MAX), "no status") == 0);
    return outcome("texts");
}
