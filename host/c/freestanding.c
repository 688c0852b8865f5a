/* The library in a program with no C library: memcpy and memset are all that it asks for. The exit status is 0 if all is well. */
#include "chherbolat.h"

void *memcpy(void *to, const void *from, size_t length)
{
    uint8_t *written = to;
    const uint8_t *read = from;
    for (size_t i = 0; i < length; i++)
        written[i] = read[i];
    return to;
}

void *memset(void *to, int value, size_t length)
{
    uint8_t *written = to;
    for (size_t i = 0; i < length; i++)
        written[i] = (uint8_t)value;
    return to;
}

static bool works(void)
{
    static const uint32_t ours[] = {0x100, 0x104};
    static const uint8_t data[] = {0x2A}, state[] = {CHHERBOLAT_CALL_STATE};
    static uint8_t box[CHHERBOLAT_STATE_LENGTH];
    uint8_t frame[CHHERBOLAT_FRAME_LENGTH], filter[CHHERBOLAT_REGISTERS_LENGTH];
    char pattern[CHHERBOLAT_STANDARD_WIDTH];
    return chherbolat_filter_from_list(false, ours, 2, pattern, sizeof pattern, filter, sizeof filter).value == 2 &&
           chherbolat_new(false, 0x104, data, sizeof data, frame, sizeof frame).number == 0 &&
           chherbolat_matcher_accepts(CHHERBOLAT_KIND_SINGLE, filter, sizeof filter, frame, sizeof frame).value == 1 &&
           chherbolat_box_script(state, sizeof state, box, sizeof box).value == 1;
}

/* What Linux starts; its stack is not aligned as a called function's is. */
__attribute__((force_align_arg_pointer, noreturn)) void _start(void)
{
    const long exit_group = 231, status = works() ? 0 : 1;
    for (;;)
        __asm__ volatile("syscall" : : "a"(exit_group), "D"(status) : "rcx", "r11", "memory");
}
