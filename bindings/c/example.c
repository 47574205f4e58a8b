/* Greets by a template. */
#include <stdio.h>
#include <upon.h>

int main(void) {
    const uint8_t source[] = "Hello {{ name }}!\n", context[] = "{\"name\": \"John\"}";
    uint8_t out[256];
    size_t size;
    uint8_t status = upon_render_text(source, sizeof source - 1, context, sizeof context - 1, NULL, 0, out, sizeof out, &size);
    if (status != UPON_TOO_SMALL)
        fwrite(out, 1, size, status == UPON_RENDERED ? stdout : stderr);
    return status;
}
