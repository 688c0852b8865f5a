/* Checks that each constant of chherbolat.h is what the library does, as far as worked.c has not named it. */
#include "answers.h"

/* What a call of the box's script takes and answers: one byte less is no call. */
static void is_a_call(const char *what, uint8_t call, size_t length, size_t answer_length)
{
    run script = {.bytes = {call}, .length = length};
    gives(what, chherbolat_box_script(script.bytes, length, lent(), LENT_LENGTH), 1);
    refuses(what, chherbolat_box_script(script.bytes, length, NULL, 0), OUTPUT_TOO_SHORT, answer_length);
    gives(what, chherbolat_box_script(script.bytes, length - 1, NULL, 0), 0);
}

#define IS_A_CALL(name)                                                                                                \
    is_a_call(#name, CHHERBOLAT_CALL_##name, CHHERBOLAT_CALL_##name##_LENGTH, CHHERBOLAT_CALL_##name##_ANSWER_LENGTH)

static void is(const char *what, uint64_t got, uint64_t due)
{
    if (got != due) {
        fprintf(stderr, "c: %s is %" PRIu64 ", and should be %" PRIu64 "\n", what, got, due);
        exit(1);
    }
}

static void calls(void)
{
    IS_A_CALL(ARRIVAL);
    IS_A_CALL(TAKE);
    IS_A_CALL(START);
    IS_A_CALL(STEP);
    IS_A_CALL(LOAD);
    IS_A_CALL(STATE);
    is("what a load has behind its first byte", CHHERBOLAT_CALL_LOAD_LENGTH - 1, CHHERBOLAT_STATE_LENGTH);
    is("what a state answers", CHHERBOLAT_CALL_STATE_ANSWER_LENGTH, CHHERBOLAT_STATE_LENGTH);
}

/* Runs a script; then its answers are what was lent. */
static void ran(const char *what, const char *script, uint64_t calls_done)
{
    run read = bytes(script);
    gives(what, chherbolat_box_script(read.bytes, read.length, lent(), LENT_LENGTH), calls_done);
}

/* 65 frames that weigh 3 each, into a FIFO that holds 64 entries of a weight of 64. */
static void arrivals(void)
{
    static uint8_t script[65 * CHHERBOLAT_CALL_ARRIVAL_LENGTH];
    for (size_t i = 0; i < 65; i++)
        script[i * CHHERBOLAT_CALL_ARRIVAL_LENGTH] = CHHERBOLAT_CALL_ARRIVAL;
    gives("arrivals", chherbolat_box_script(script, sizeof script, lent(), LENT_LENGTH), 65);
    is("the answer to arrival 20", lent_bytes[2 * 20 + 1], CHHERBOLAT_ARRIVAL_WHOLE);
    is("the answer to arrival 21", lent_bytes[2 * 21 + 1], CHHERBOLAT_ARRIVAL_MARK);
    is("the answer to arrival 63", lent_bytes[2 * 63 + 1], CHHERBOLAT_ARRIVAL_MARK);
    is("the answer to arrival 64", lent_bytes[2 * 64 + 1], CHHERBOLAT_ARRIVAL_NOT_RECORDED);
}

static void refused_calls(void)
{
    ran("two starts", "03 00*12  03 00*12", 2);
    is("the second start's answer", lent_bytes[1], CHHERBOLAT_REFUSAL_DRAIN_RUNS);
    ran("a step without a start", "04", 1);
    is("the step's answer", lent_bytes[0], CHHERBOLAT_REFUSAL_NO_DRAIN_RUNS);
    ran("no state", "05 FF*1376", 1);
    is("the load's answer", lent_bytes[0], CHHERBOLAT_REFUSAL_BROKEN_STATE);
}

/* A frame is moved from the FIFO to the queue, then a mark; then a full queue loses a notice. */
static void drains(void)
{
    const uint8_t *step = lent_bytes + 2 + 1 + 3 * 23, *taken = step + 3 * 23;
    ran("a frame moved", "01 00*13  03 00000001 00*4 00000001  04*6  02", 9);
    is("the release", step[1], CHHERBOLAT_STEP_DONE);
    is("its command", step[2], CHHERBOLAT_STEP_RELEASE);
    is("the offer's command", step[23 + 2], CHHERBOLAT_STEP_NOTHING);
    is("the record of a frame", taken[2], CHHERBOLAT_RECORD_FRAME);
    ran("a mark moved", "05 01 00*896 01 00*451 05 01 00 00*15 01 00*8  04*2  02", 4);
    is("the record of a mark", lent_bytes[1 + 2 * 23 + 2], CHHERBOLAT_RECORD_OVERRUN);
    step = lent_bytes + 1 + 1;
    ran("a notice lost", "05 00*1348 20 00*27  03 00000004 00*4 000000C0  04*2", 4);
    is("the notice", step[1], CHHERBOLAT_STEP_LOST);
    is("its command", step[2], CHHERBOLAT_STEP_ABORT);
    is("the lost record", step[3], CHHERBOLAT_RECORD_BUS_OFF);
    is("the end", step[23 + 1], CHHERBOLAT_STEP_FINISHED);
}

static void limits(void)
{
    static const uint32_t entry[] = {0};
    char pattern[CHHERBOLAT_EXTENDED_WIDTH];
    gives("standard", chherbolat_standard_id_new(CHHERBOLAT_STANDARD_LIMIT), CHHERBOLAT_STANDARD_LIMIT);
    refuses("standard", chherbolat_standard_id_new(CHHERBOLAT_STANDARD_LIMIT + 1), IDENTIFIER_ABOVE_LIMIT, 0);
    gives("extended", chherbolat_extended_id_new(CHHERBOLAT_EXTENDED_LIMIT), CHHERBOLAT_EXTENDED_LIMIT);
    refuses("extended", chherbolat_extended_id_new(CHHERBOLAT_EXTENDED_LIMIT + 1), IDENTIFIER_ABOVE_LIMIT, 0);
    refuses("standard", chherbolat_filter_from_list(false, entry, 1, pattern, 0, lent(), REGISTERS), OUTPUT_TOO_SHORT,
            CHHERBOLAT_STANDARD_WIDTH);
    refuses("extended", chherbolat_filter_from_list(true, entry, 1, pattern, 0, lent(), REGISTERS), OUTPUT_TOO_SHORT,
            CHHERBOLAT_EXTENDED_WIDTH);
}

/* A filter whose two halves accept nothing alike: as a dual one it accepts what its second half does. */
static void kinds(void)
{
    run registers = bytes("FF FF 00 00 00 00 00 00"), frame = bytes("00*13");
    gives("single", chherbolat_matcher_accepts(CHHERBOLAT_KIND_SINGLE, registers.bytes, REGISTERS, frame.bytes, FRAME),
          0);
    gives("dual", chherbolat_matcher_accepts(CHHERBOLAT_KIND_DUAL, registers.bytes, REGISTERS, frame.bytes, FRAME), 1);
}

static void parts_of_a_decision(void)
{
    uint64_t free = chherbolat_poll(0x004, false, false).value, aborted = chherbolat_transmit(0x000, true).value;
    is("poll's answer", CHHERBOLAT_DECISION_ANSWER(free), CHHERBOLAT_ANSWER_PENDING);
    is("poll's command", CHHERBOLAT_DECISION_COMMAND(free), CHHERBOLAT_COMMAND_WRITE);
    is("the frame in flight", CHHERBOLAT_DECISION_IN_FLIGHT(free), 1);
    is("transmit's answer", CHHERBOLAT_DECISION_ANSWER(aborted), CHHERBOLAT_ANSWER_TRANSMISSION_ABORTED);
    is("transmit's command", CHHERBOLAT_DECISION_COMMAND(aborted), CHHERBOLAT_COMMAND_ABORT);
    is("no frame in flight", CHHERBOLAT_DECISION_IN_FLIGHT(aborted), 0);
}

int main(void)
{
    calls();
    arrivals();
    refused_calls();
    drains();
    limits();
    kinds();
    parts_of_a_decision();
    printf("c: %u answers with the header's constants\n", checked);
    return 0;
}
