/* measured TEMPLATE CONTEXT TIMES: renders a file on a file of JSON so often, and prints how many bytes the text has. */
#include <stdio.h>
#include <stdlib.h>
#include <upon.h>

/* The bytes of a file, whose number goes to `size`. */
static uint8_t *read_file(const char *path, size_t *size) {
    FILE *file = fopen(path, "rb");
    uint8_t *bytes;
    if (file == NULL || fseek(file, 0, SEEK_END) != 0) exit(2);
    *size = (size_t)ftell(file);
    bytes = malloc(*size + 1);
    rewind(file);
    if (bytes == NULL || fread(bytes, 1, *size, file) != *size) exit(2);
    fclose(file);
    return bytes;
}

int main(int count, char **words) {
    static uint8_t out[1 << 20];
    size_t source_len, context_len, size = 0;
    uint8_t *source, *context;
    long left;
    if (count != 4) return 2;
    source = read_file(words[1], &source_len);
    context = read_file(words[2], &context_len);
    for (left = atol(words[3]); left > 0; left--)
        if (upon_render_text(source, source_len, context, context_len, NULL, 0, out, sizeof out, &size) != UPON_RENDERED) return 1;
    printf("%lu\n", (unsigned long)size);
    return 0;
}
