/* Shows a word of an image as `forth83 see IMAGE NAME` does, over the C library; of a word without a name it does not say the cell. */
#include "forth83.h"
#include <stdio.h>
#include <string.h>

static const char *why(uint32_t status)
{
    switch (status) {
    case FORTH83_BAD_MAGIC: return "BadMagic";
    case FORTH83_TRUNCATED: return "Truncated";
    case FORTH83_NOT_FOUND: return "NotFound";
    case FORTH83_CHAIN_TOO_LONG: return "ChainTooLong";
    case FORTH83_NOT_COLON: return "NotColon";
    case FORTH83_NOT_STRUCTURED: return "NotStructured";
    case FORTH83_NAMELESS: return "Nameless";
    case FORTH83_SHADOWED: return "Shadowed";
    case FORTH83_BAD_TEXT: return "BadText";
    default: return forth83_status_text(status);
    }
}

int main(int count, char **words)
{
    static forth83 machine;
    static uint8_t image[70000], text[65536];
    FILE *file = count == 3 ? fopen(words[1], "rb") : NULL;
    uint64_t image_size, size;
    uint32_t status;

    if (!file)
        return 2;
    image_size = fread(image, 1, sizeof image, file);
    fclose(file);
    status = forth83_load(image, image_size, 0, &machine);
    if (status != FORTH83_DONE) {
        printf("image: %s\n", why(status));
        return 1;
    }
    status = forth83_see(&machine, (const uint8_t *)words[2], strlen(words[2]), text, sizeof text, &size);
    if (status != FORTH83_DONE) {
        printf("%s: %s\n", words[2], why(status));
        return 1;
    }
    printf("%.*s\n", (int)size, (const char *)text);
    return 0;
}
