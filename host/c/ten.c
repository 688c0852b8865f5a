#include <stdio.h>
#include "chherbolat.h"

int main(void)
{
    const uint32_t ours[] = {0x100, 0x104};
    const uint8_t data[] = {0x2A};
    uint8_t filter[CHHERBOLAT_REGISTERS_LENGTH], frame[CHHERBOLAT_FRAME_LENGTH];
    char pattern[CHHERBOLAT_STANDARD_WIDTH];
    chherbolat_answer through = chherbolat_filter_from_list(false, ours, 2, pattern, 11, filter, 8);
    chherbolat_answer built = chherbolat_new(false, 0x104, data, 1, frame, 13); /* 0x800 would be refusal 1 */
    if (through.number != 0 || built.number != 0)
        return 1;
    chherbolat_answer wakes = chherbolat_matcher_accepts(CHHERBOLAT_KIND_SINGLE, filter, 8, frame, 13);
    printf("%.11s: a frame from 0x104 %s\n", pattern, wakes.value ? "wakes us" : "passes by");
    return 0;
}
