#include "tcpwit.h"

/* The toolchain's allocator, which the library uses, too. Neither number is read. */
void rattle_dealloc(void *block, size_t size, size_t alignment);

void tcpwit_text_free(struct tcpwit_text *text) {
    if (text->bytes != NULL) {
        rattle_dealloc((void *)text->bytes, text->length + 1, 1);
    }
    text->bytes = NULL;
    text->length = 0;
}
