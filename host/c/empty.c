/* Gives NULL and 0 for each slice of each function of chherbolat.h: it is an empty slice like any other. */
#include "answers.h"

static const uint8_t FRAME_OF_ONE[] = {0x01, 0x24, 0x80, 0xAB, 0, 0, 0, 0, 0, 0, 0, 0, 0};
static const uint8_t FILTER[] = {CHHERBOLAT_KIND_SINGLE, 0, 0, 0, 0, 0xFF, 0xDF, 0xFF, 0xFF};
static const char *const ANY = "xxxxxxxxxxxxxxxxxxxxxxxxxxxxx";

static void building(void)
{
    gives("data", chherbolat_new_from_parameters(false, 0x7FF, false, false, 0, NULL, 0, lent(), FRAME), FRAME);
    wrote("data", bytes("00 FF E0 00*10"));
    refuses("frame", chherbolat_new_from_parameters(false, 0x7FF, false, false, 1, FILTER, 1, NULL, 0), WRONG_LENGTH,
            6);
    gives("data", chherbolat_new_with_remote_length(false, 0x7FF, true, false, 8, NULL, 0, lent(), FRAME), FRAME);
    wrote("data", bytes("48 FF E0 00*10"));
    refuses("frame", chherbolat_new_with_remote_length(false, 0x7FF, false, false, 1, FILTER, 1, NULL, 0),
            WRONG_LENGTH, 6);
    gives("data", chherbolat_new(false, 0x7FF, NULL, 0, lent(), FRAME), FRAME);
    wrote("data", bytes("00 FF E0 00*10"));
    refuses("frame", chherbolat_new(false, 0x7FF, FILTER, 1, NULL, 0), WRONG_LENGTH, 3);
    gives("data", chherbolat_new_self_reception(false, 0x7FF, NULL, 0, lent(), FRAME), FRAME);
    wrote("data", bytes("10 FF E0 00*10"));
    refuses("frame", chherbolat_new_self_reception(false, 0x7FF, FILTER, 1, NULL, 0), WRONG_LENGTH, 3);
}

static void reading(void)
{
    run remote = bytes("40 24 80 00*10");
    refuses("frame", chherbolat_is_extended_format(NULL, 0), WRONG_LENGTH, 0);
    refuses("frame", chherbolat_is_remote_request(NULL, 0), WRONG_LENGTH, 0);
    refuses("frame", chherbolat_is_self_reception(NULL, 0), WRONG_LENGTH, 0);
    refuses("frame", chherbolat_data_length_code(NULL, 0), WRONG_LENGTH, 0);
    refuses("frame", chherbolat_data_length(NULL, 0), WRONG_LENGTH, 0);
    refuses("frame", chherbolat_data_offset(NULL, 0), WRONG_LENGTH, 0);
    refuses("frame", chherbolat_identifier(NULL, 0), WRONG_LENGTH, 0);
    refuses("frame", chherbolat_data(NULL, 0, lent(), 8), WRONG_LENGTH, 0);
    refuses("out", chherbolat_data(FRAME_OF_ONE, FRAME, NULL, 0), OUTPUT_TOO_SHORT, 1);
    gives("out for nothing", chherbolat_data(remote.bytes, FRAME, NULL, 0), 0);
    refuses("frame", chherbolat_as_slice(NULL, 0, lent(), FRAME), WRONG_LENGTH, 0);
    refuses("out", chherbolat_as_slice(FRAME_OF_ONE, FRAME, NULL, 0), OUTPUT_TOO_SHORT, 4);
}

static void single_filters(void)
{
    refuses("id", chherbolat_single_standard_filter_new(NULL, 0, ANY, 1, ANY, 8, ANY, 8, lent(), REGISTERS),
            PATTERN_LENGTH, 0);
    refuses("rtr", chherbolat_single_standard_filter_new(ANY, 11, NULL, 0, ANY, 8, ANY, 8, lent(), REGISTERS),
            PATTERN_LENGTH, 1);
    refuses("first", chherbolat_single_standard_filter_new(ANY, 11, ANY, 1, NULL, 0, ANY, 8, lent(), REGISTERS),
            PATTERN_LENGTH, 2);
    refuses("second", chherbolat_single_standard_filter_new(ANY, 11, ANY, 1, ANY, 8, NULL, 0, lent(), REGISTERS),
            PATTERN_LENGTH, 3);
    refuses("registers", chherbolat_single_standard_filter_new(ANY, 11, ANY, 1, ANY, 8, ANY, 8, NULL, 0), WRONG_LENGTH,
            4);
    refuses("registers", chherbolat_single_standard_filter_new_from_code_mask(0, 0, false, false, 0, 0, 0, 0, NULL, 0),
            WRONG_LENGTH, 8);
    refuses("id", chherbolat_single_extended_filter_new(NULL, 0, ANY, 1, lent(), REGISTERS), PATTERN_LENGTH, 0);
    refuses("rtr", chherbolat_single_extended_filter_new(ANY, 29, NULL, 0, lent(), REGISTERS), PATTERN_LENGTH, 1);
    refuses("registers", chherbolat_single_extended_filter_new(ANY, 29, ANY, 1, NULL, 0), WRONG_LENGTH, 2);
    refuses("registers", chherbolat_single_extended_filter_new_from_code_mask(0, 0, false, false, NULL, 0),
            WRONG_LENGTH, 4);
}

/* A dual standard filter of which the pattern at this place is NULL and 0; from 5 on none is. */
static chherbolat_answer dual_standard_without(unsigned place)
{
    switch (place) {
    case 0:
        return chherbolat_dual_standard_filter_new(NULL, 0, ANY, 1, ANY, 8, ANY, 11, ANY, 1, lent(), REGISTERS);
    case 1:
        return chherbolat_dual_standard_filter_new(ANY, 11, NULL, 0, ANY, 8, ANY, 11, ANY, 1, lent(), REGISTERS);
    case 2:
        return chherbolat_dual_standard_filter_new(ANY, 11, ANY, 1, NULL, 0, ANY, 11, ANY, 1, lent(), REGISTERS);
    case 3:
        return chherbolat_dual_standard_filter_new(ANY, 11, ANY, 1, ANY, 8, NULL, 0, ANY, 1, lent(), REGISTERS);
    case 4:
        return chherbolat_dual_standard_filter_new(ANY, 11, ANY, 1, ANY, 8, ANY, 11, NULL, 0, lent(), REGISTERS);
    default:
        return chherbolat_dual_standard_filter_new(ANY, 11, ANY, 1, ANY, 8, ANY, 11, ANY, 1, NULL, 0);
    }
}

static void dual_filters(void)
{
    for (unsigned place = 0; place < 5; place++)
        refuses("a pattern", dual_standard_without(place), PATTERN_LENGTH, place);
    refuses("registers", dual_standard_without(5), WRONG_LENGTH, 5);
    refuses("registers",
            chherbolat_dual_standard_filter_new_from_code_mask(0, 0, false, false, 0, 0, 0, 0, false, false, NULL, 0),
            WRONG_LENGTH, 10);
    refuses("first", chherbolat_dual_extended_filter_new(NULL, 0, ANY, 16, lent(), REGISTERS), PATTERN_LENGTH, 0);
    refuses("second", chherbolat_dual_extended_filter_new(ANY, 16, NULL, 0, lent(), REGISTERS), PATTERN_LENGTH, 1);
    refuses("registers", chherbolat_dual_extended_filter_new(ANY, 16, ANY, 16, NULL, 0), WRONG_LENGTH, 2);
    refuses("registers", chherbolat_dual_extended_filter_new_from_code_mask(0, 0, 0, 0, NULL, 0), WRONG_LENGTH, 4);
}

static void filters_from_lists(void)
{
    static const uint32_t list[] = {0x100};
    char pattern[CHHERBOLAT_STANDARD_WIDTH];
    refuses("list", chherbolat_filter_from_list(false, NULL, 0, pattern, 11, lent(), REGISTERS), EMPTY_LIST, 0);
    refuses("pattern", chherbolat_filter_from_list(false, list, 1, NULL, 0, lent(), REGISTERS), OUTPUT_TOO_SHORT, 11);
    refuses("registers", chherbolat_filter_from_list(false, list, 1, pattern, 11, NULL, 0), WRONG_LENGTH, 3);
}

static void matching(void)
{
    refuses("registers", chherbolat_matcher_accepts(0, NULL, 0, FRAME_OF_ONE, FRAME), WRONG_LENGTH, 1);
    refuses("frame", chherbolat_matcher_accepts(0, FILTER + 1, REGISTERS, NULL, 0), WRONG_LENGTH, 2);
}

static void files(void)
{
    refuses("file", chherbolat_read_file(NULL, 0), FILE_ENDS, 0);
    gives("filters", chherbolat_write_file(NULL, 0, FRAME_OF_ONE, FRAME, lent(), 16), 16);
    wrote("filters", bytes("00 0001 012480AB 00*9"));
    gives("frames", chherbolat_write_file(FILTER, sizeof FILTER, NULL, 0, lent(), 12), 12);
    wrote("frames", bytes("01 00 00000000FFDFFFFF 0000"));
    refuses("out", chherbolat_write_file(FILTER, sizeof FILTER, FRAME_OF_ONE, FRAME, NULL, 0), OUTPUT_TOO_SHORT, 25);
    gives("file", chherbolat_report(NULL, 0, lent(), 16), 16);
    wrote("file", characters("refused 11 at 0\n"));
    refuses("out", chherbolat_report(FILTER, 1, NULL, 0), OUTPUT_TOO_SHORT, 16);
}

static void box(void)
{
    static const uint8_t take[] = {CHHERBOLAT_CALL_TAKE};
    gives("script", chherbolat_box_script(NULL, 0, lent(), 1), 0);
    wrote_nothing("script");
    refuses("out", chherbolat_box_script(take, 1, NULL, 0), OUTPUT_TOO_SHORT, CHHERBOLAT_CALL_TAKE_ANSWER_LENGTH);
    gives("script and out", chherbolat_box_script(NULL, 0, NULL, 0), 0);
}

int main(void)
{
    building();
    reading();
    single_filters();
    dual_filters();
    filters_from_lists();
    matching();
    files();
    box();
    printf("c: %u answers to NULL and 0\n", checked);
    return 0;
}
