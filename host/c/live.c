#include <stdio.h>
#include <string.h>
#include "chherbolat.h"

/* The box between calls: the byte of the call that loads it, and its state. */
static uint8_t box[CHHERBOLAT_CALL_LOAD_LENGTH] = {CHHERBOLAT_CALL_LOAD}, script[2 * sizeof box], out[2 * sizeof box];

/* Load, call, state. The call's answer stands in out from byte 1 on. */
static bool call(const uint8_t *bytes, size_t length, size_t answer_length)
{
    memcpy(script, box, sizeof box);
    memcpy(script + sizeof box, bytes, length);
    script[sizeof box + length] = CHHERBOLAT_CALL_STATE;
    chherbolat_answer done = chherbolat_box_script(script, sizeof box + length + 1, out, sizeof out);
    memcpy(box + 1, out + 1 + answer_length, CHHERBOLAT_STATE_LENGTH);
    return done.value == 3 && out[0] == 0 && out[1] == 0; /* neither load nor call is refused */
}

int main(void)
{
    const uint8_t arrival[CHHERBOLAT_CALL_ARRIVAL_LENGTH] = {CHHERBOLAT_CALL_ARRIVAL, 0x01, 0x24, 0x80, 0xAB};
    const uint8_t start[] = {CHHERBOLAT_CALL_START, 0, 0, 0, 1, 0, 0, 0, 0xFF, 0, 0, 0, 1}; /* three words */
    const uint8_t step = CHHERBOLAT_CALL_STEP, take = CHHERBOLAT_CALL_TAKE, state = CHHERBOLAT_CALL_STATE;
    chherbolat_box_script(&state, 1, box + 1, CHHERBOLAT_STATE_LENGTH); /* a fresh box's */
    bool good = call(arrival, sizeof arrival, 2) && call(start, sizeof start, 1);
    do good = good && call(&step, 1, 23);
    while (good && out[2] != CHHERBOLAT_STEP_FINISHED);
    if (!good || !call(&take, 1, 16) || out[2] == 0) return 1;
    printf("taken: a frame from 0x%X\n", (unsigned)chherbolat_identifier(out + 4, 13).value);
    return 0;
}
