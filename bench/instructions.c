/* instructions PIECE TIMES: calls a sheet of up to 64 KiB, made of whole copies of PIECE, TIMES times, for bench/instructions.sh. */
#include <stdio.h>
#include <stdlib.h>
#include <string.h>

#include "howhakiru.h"

static uint8_t sheet[HWK_TEXT_LIMIT];
static uint8_t out[HWK_CALL_MOST(HWK_TEXT_LIMIT)];

int main(int argc, char **argv)
{
    size_t size = argc == 3 ? strlen(argv[1]) : 0, len = 0;
    long left = size > 0 ? strtol(argv[2], NULL, 10) : 0;

    if (left <= 0) {
        fprintf(stderr, "usage: instructions PIECE TIMES\n");
        return 2;
    }
    for (; len + size <= sizeof sheet; len += size) memcpy(sheet + len, argv[1], size);
    for (; left > 0; left--) {
        if (hwk_call_sheet(sheet, len, out, sizeof out).refusal != HWK_ACCEPTED) return 1;
    }
    return 0;
}
