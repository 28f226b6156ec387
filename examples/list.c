/* Writes a frame in mode 1, puts a byte of noise before and after it, and lists the three. */
#include <inttypes.h>
#include <stdio.h>
#include "binr.h"

int main(void)
{
    uint8_t line[64] = {0xAA};
    int64_t frame = binr_write(1, 0x26, (const uint8_t *)"", 0, line + 1, sizeof line - 2);
    if (frame < 0) {
        printf("refused by %" PRId64 "\n", -frame);
        return 1;
    }
    line[1 + frame] = 0x55;
    uint8_t text[256];
    int64_t length = binr_list(1, line, (size_t)frame + 2, text, sizeof text);
    if (length < 0) {
        printf("refused by %" PRId64 "\n", -length);
        return 1;
    }
    fwrite(text, 1, (size_t)length, stdout);
    return 0;
}
