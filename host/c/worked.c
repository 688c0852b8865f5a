/* Calls every function of chherbolat.h from C and checks its answers: the outline's numbers P1 to P11, the whole case,
   and what docs/ABI.md works out: those calls are named as their row there begins, and are printed so. Stops at the
   first wrong answer. */
#include "answers.h"

static void identifiers(void)
{
    gives("standard 0x7FF", chherbolat_standard_id_new(0x7FF), 0x7FF);
    refuses("standard 0x800", chherbolat_standard_id_new(0x800), IDENTIFIER_ABOVE_LIMIT, 0);
    gives("extended 0x1FFFFFFF", chherbolat_extended_id_new(0x1FFFFFFF), 0x1FFFFFFF);
    refuses("extended 0x20000000", chherbolat_extended_id_new(0x20000000), IDENTIFIER_ABOVE_LIMIT, 0);
    gives("P2, standard_id", chherbolat_extended_id_standard_id(0x12345678), 0x48D);
}

static chherbolat_answer coded(bool remote_request, size_t dlc, size_t data_length)
{
    static const uint8_t data[264] = {1, 2, 3, 4, 5, 6, 7, 8};
    return chherbolat_new_from_parameters(false, 0x7FF, remote_request, false, dlc, data, data_length, lent(), FRAME);
}

/* Standard 0x123, remote. */
static chherbolat_answer asking(size_t dlc, size_t data_length)
{
    static const uint8_t data[1] = {0xAB};
    return chherbolat_new_with_remote_length(false, 0x123, true, false, dlc, data, data_length, lent(), FRAME);
}

static void asking_for_a_length(void)
{
    gives("| build, remote, code 8 |", asking(8, 0), FRAME);
    wrote("remote, code 8", bytes("48 24 60 00*10"));
    gives("remote, code 8, its code", chherbolat_data_length_code(lent_bytes, FRAME), 8);
    gives("remote, code 8, its data", chherbolat_data_length(lent_bytes, FRAME), 0);
    refuses("| build, remote, code 9 |", asking(9, 0), NON_COMPLIANT_DLC, 9);
    wrote_nothing("remote, code 9");
    refuses("| build, remote, code 9, one byte |", asking(9, 1), INVALID_DATA_LENGTH, 1);
    wrote_nothing("remote, code 9, one byte");
    refuses("| build in the old way, remote, code 1 |",
            chherbolat_new_from_parameters(false, 0x123, true, false, 1, NULL, 0, lent(), FRAME), NON_COMPLIANT_DLC, 1);
    wrote_nothing("remote, code 1, in the old way");
}

static void building(void)
{
    run one = bytes("AB");
    gives("P1", chherbolat_new(false, 0x7FF, one.bytes, 0, lent(), FRAME), FRAME);
    wrote("P1", bytes("00 FF E0 00*10"));
    refuses("P1, 0x800", chherbolat_new(false, 0x800, one.bytes, 0, lent(), FRAME), IDENTIFIER_ABOVE_LIMIT, 0);
    wrote_nothing("P1, 0x800");
    gives("P2", chherbolat_new(true, 0x12345678, one.bytes, 0, lent(), FRAME), FRAME);
    wrote("P2", bytes("80 91 A2 B3 C0 00*8"));
    gives("P3, code 15", coded(false, 15, 8), FRAME);
    wrote("P3, code 15", bytes("0F FF E0 01 02 03 04 05 06 07 08 00 00"));
    gives("P3, data", chherbolat_data_length(lent_bytes, FRAME), 8);
    refuses("P3, code 16", coded(false, 16, 8), NON_COMPLIANT_DLC, 16);
    refuses("P4", coded(false, 8, 7), NON_COMPLIANT_DLC, 8);
    refuses("P5", coded(false, 99, 264), INVALID_DATA_LENGTH, 8);
    refuses("P6", coded(true, 1, 0), NON_COMPLIANT_DLC, 1);
    wrote_nothing("P6");
    gives("remote", coded(true, 0, 0), FRAME);
    wrote("remote", bytes("40 FF E0 00*10"));
    gives("self-reception", chherbolat_new_self_reception(false, 0x124, one.bytes, 1, lent(), FRAME), FRAME);
    wrote("self-reception", bytes("11 24 80 AB 00*9"));
    refuses("a frame of 12 bytes", chherbolat_new(false, 0x800, one.bytes, 1, lent(), FRAME - 1), WRONG_LENGTH, 3);
    wrote_nothing("a frame of 12 bytes");
}

static void reading(void)
{
    run standard = bytes("11 24 80 AB 00*9"), extended = bytes("C0 91 A2 B3 C0 00*8");
    gives("is_extended_format", chherbolat_is_extended_format(extended.bytes, FRAME), 1);
    gives("is_extended_format", chherbolat_is_extended_format(standard.bytes, FRAME), 0);
    gives("is_remote_request", chherbolat_is_remote_request(extended.bytes, FRAME), 1);
    gives("is_self_reception", chherbolat_is_self_reception(standard.bytes, FRAME), 1);
    gives("data_length_code", chherbolat_data_length_code(standard.bytes, FRAME), 1);
    gives("data_length", chherbolat_data_length(standard.bytes, FRAME), 1);
    gives("data_offset", chherbolat_data_offset(standard.bytes, FRAME), 3);
    gives("data_offset", chherbolat_data_offset(extended.bytes, FRAME), 5);
    gives("identifier", chherbolat_identifier(standard.bytes, FRAME), 0x124);
    gives("identifier", chherbolat_identifier(extended.bytes, FRAME), 0x12345678);
    refuses("identifier of 12 bytes", chherbolat_identifier(extended.bytes, FRAME - 1), WRONG_LENGTH, 0);
    gives("data", chherbolat_data(standard.bytes, FRAME, lent(), 8), 1);
    wrote("data", bytes("AB"));
    refuses("data, no room", chherbolat_data(standard.bytes, FRAME, lent(), 0), OUTPUT_TOO_SHORT, 1);
    wrote_nothing("data, no room");
    gives("as_slice", chherbolat_as_slice(standard.bytes, FRAME, lent(), FRAME), 4);
    wrote("as_slice", bytes("11 24 80 AB"));
    refuses("as_slice, no room", chherbolat_as_slice(standard.bytes, FRAME, lent(), 3), OUTPUT_TOO_SHORT, 4);
    wrote_nothing("as_slice, no room");
}

static chherbolat_answer single_standard(const char *id, const char *first)
{
    return chherbolat_single_standard_filter_new(id, strlen(id), "x", 1, first, strlen(first), "xxxxxxxx", 8, lent(),
                                                 REGISTERS);
}

static chherbolat_answer dual_extended(size_t registers_length)
{
    return chherbolat_dual_extended_filter_new("xxxxxxxxx0000xxx", 16, "xxxxxxxxx1111xxx", 16, lent(),
                                               registers_length);
}

static void filters_by_patterns(void)
{
    const char *any = "xxxxxxxxxxx", *id = "1xxxxxxxxxxxxxxxxxxxxxxxxxxx0";
    gives("P7", single_standard("xxxxxxxxxx0", "xxxxxxxx"), REGISTERS);
    wrote("P7", bytes("00 00 00 00 FF DF FF FF"));
    gives("P10, pattern", single_standard("xxxxxxxxxx1", "xxxxxxxx"), REGISTERS);
    wrote("P10, pattern", bytes("00 20 00 00 FF DF FF FF"));
    refuses("seven characters", single_standard("xxxxxxxxxx0", "xxxxxxx"), PATTERN_LENGTH, 2);
    chherbolat_answer upper = single_standard("xxxxxxxxxx0", "xxxXxxxx");
    refuses("an upper-case X", upper, PATTERN_BYTE, 2 * 65536 + 3 * 256 + 'X');
    gives("its field", ((chherbolat_answer){0, CHHERBOLAT_PATTERN_BYTE_FIELD(upper.value)}), 2);
    gives("its place", ((chherbolat_answer){0, CHHERBOLAT_PATTERN_BYTE_PLACE(upper.value)}), 3);
    gives("its byte", ((chherbolat_answer){0, CHHERBOLAT_PATTERN_BYTE_FOUND(upper.value)}), 'X');
    wrote_nothing("an upper-case X");
    gives("P8", dual_extended(REGISTERS), REGISTERS);
    wrote("P8", bytes("00 00 00 78 FF 87 FF 87"));
    refuses("seven registers", dual_extended(7), WRONG_LENGTH, 2);
    wrote_nothing("seven registers");
    gives("P9", chherbolat_dual_standard_filter_new(any, 11, any, 1, "10100101", 8, any, 11, any, 1, lent(), REGISTERS),
          REGISTERS);
    wrote("P9", bytes("00 0A 00 05 FF F0 FF F0"));
    refuses("| compile a dual standard filter with `2` there |",
            chherbolat_dual_standard_filter_new(any, 11, any, 1, any, 8, "xx2xxxxxxxx", 11, any, 1, lent(), REGISTERS),
            PATTERN_BYTE, 3 * 65536 + 2 * 256 + 0x32);
    wrote_nothing("a wrong byte");
    gives("single extended", chherbolat_single_extended_filter_new(id, 29, "1", 1, lent(), REGISTERS), REGISTERS);
    wrote("single extended", bytes("80 00 00 04 7F FF FF F3"));
}

static void filters_by_code_and_mask(void)
{
    gives("P10",
          chherbolat_single_standard_filter_new_from_code_mask(0x7FF, 1, false, false, 0, 0, 0, 0, lent(), REGISTERS),
          REGISTERS);
    wrote("P10", bytes("FF E0 00 00 FF DF FF FF"));
    refuses(
        "a mask of 12 bits",
        chherbolat_single_standard_filter_new_from_code_mask(0x7FF, 0x800, false, false, 0, 0, 0, 0, lent(), REGISTERS),
        IDENTIFIER_ABOVE_LIMIT, 0);
    wrote_nothing("a mask of 12 bits");
    gives("single extended",
          chherbolat_single_extended_filter_new_from_code_mask(0x10000000, 0x10000001, true, true, lent(), REGISTERS),
          REGISTERS);
    wrote("single extended", bytes("80 00 00 04 7F FF FF F3"));
    gives("dual standard",
          chherbolat_dual_standard_filter_new_from_code_mask(0, 0, false, false, 0xA5, 0xFF, 0, 0, false, false, lent(),
                                                             REGISTERS),
          REGISTERS);
    wrote("dual standard", bytes("00 0A 00 05 FF F0 FF F0"));
    gives("dual extended", chherbolat_dual_extended_filter_new_from_code_mask(0, 0x78, 0x78, 0x78, lent(), REGISTERS),
          REGISTERS);
    wrote("dual extended", bytes("00 00 00 78 FF 87 FF 87"));
}

/* The pattern goes into what is lent, and the registers behind it. */
static chherbolat_answer from_list(bool extended, const uint32_t *list, size_t list_length, size_t pattern_length,
                                   size_t registers_length)
{
    uint8_t *pattern = lent();
    return chherbolat_filter_from_list(extended, list, list_length, (char *)pattern, pattern_length,
                                       pattern + pattern_length, registers_length);
}

static void filters_from_lists(void)
{
    static const uint32_t two[] = {0x100, 0x104}, above[] = {0x100, 0x800, 0x801}, top[] = {0x1FFFFFFF, 0x1FFFFFFE};
    run written = characters("00100000x00");
    gives("| 0x100, 0x104 | 11 bytes |", from_list(false, two, 2, 11, REGISTERS), 2);
    memcpy(written.bytes + 11, bytes("20 00 00 00 00 9F FF FF").bytes, REGISTERS);
    written.length += REGISTERS;
    wrote("list", written);
    refuses("| 0x100, 0x104 | 10 bytes |", from_list(false, two, 2, 10, REGISTERS), OUTPUT_TOO_SHORT, 11);
    wrote_nothing("list, ten characters");
    refuses("| 0x100, 0x800, 0x801 | 10 bytes |", from_list(false, above, 3, 10, REGISTERS), IDENTIFIER_ABOVE_LIMIT, 1);
    wrote_nothing("list, above the limit");
    refuses("| none | 10 bytes |", from_list(false, two, 0, 10, REGISTERS), EMPTY_LIST, 0);
    wrote_nothing("list, none");
    refuses("| none, and seven registers | 10 bytes |", from_list(false, two, 0, 10, 7), WRONG_LENGTH, 3);
    wrote_nothing("list, seven registers");
    gives("list, extended", from_list(true, top, 2, 29, REGISTERS), 2);
    written = characters("1111111111111111111111111111x");
    memcpy(written.bytes + 29, bytes("FF FF FF F0 00 00 00 0F").bytes, REGISTERS);
    written.length += REGISTERS;
    wrote("list, extended", written);
    refuses("list, 28 characters", from_list(true, top, 2, 28, REGISTERS), OUTPUT_TOO_SHORT, 29);
    wrote_nothing("list, 28 characters");
}

static void matching(void)
{
    run registers = bytes("00 00 00 00 FF DF FF FF");
    run frame = bytes("01 24 80 AB 00*9"), no_data = bytes("00 FF E0 00*10");
    gives("| match the frame, kind 0 |",
          chherbolat_matcher_accepts(CHHERBOLAT_KIND_SINGLE, registers.bytes, REGISTERS, frame.bytes, FRAME), 1);
    gives("matcher, 0x7FF",
          chherbolat_matcher_accepts(CHHERBOLAT_KIND_SINGLE, registers.bytes, REGISTERS, no_data.bytes, FRAME), 0);
    refuses("| match the frame, kind 2 |",
            chherbolat_matcher_accepts(2, registers.bytes, REGISTERS, frame.bytes, FRAME), FILTER_KIND, 0);
    refuses("matcher, seven registers", chherbolat_matcher_accepts(2, registers.bytes, 7, frame.bytes, 12),
            WRONG_LENGTH, 1);
    refuses("matcher, 12 bytes", chherbolat_matcher_accepts(2, registers.bytes, REGISTERS, frame.bytes, 12),
            WRONG_LENGTH, 2);
    gives("P11, filter", single_standard("xxxxxxxxxxx", "00000001"), REGISTERS);
    gives("P11", chherbolat_matcher_accepts(CHHERBOLAT_KIND_SINGLE, lent_bytes, REGISTERS, no_data.bytes, FRAME), 1);
}

/* An answer and a command as one value. */
#define DECIDED(answer, command) (CHHERBOLAT_ANSWER_##answer + 256 * CHHERBOLAT_COMMAND_##command)

static void decisions(void)
{
    gives("| receive, status 0x101 |", chherbolat_receive(0x101), DECIDED(OVERRUN, NOTHING));
    gives("receive, ready", chherbolat_receive(0x001), DECIDED(DONE, READ_AND_RELEASE));
    gives("receive, not ready", chherbolat_receive(0x000), DECIDED(WOULD_BLOCK, NOTHING));
    gives("transmit, free", chherbolat_transmit(0x004, false), DECIDED(DONE, WRITE));
    gives("transmit, error-passive", chherbolat_transmit(0x000, true), DECIDED(TRANSMISSION_ABORTED, ABORT));
    gives("transmit, bus-off", chherbolat_transmit(0x084, true), DECIDED(BUS_OFF, NOTHING));
    gives("poll, free", chherbolat_poll(0x004, false, false), DECIDED(PENDING, WRITE) + 65536);
    gives("poll, free and in flight", chherbolat_poll(0x004, false, true), DECIDED(DONE, NOTHING) + 65536);
    gives("poll, not free", chherbolat_poll(0x000, false, false), DECIDED(PENDING, NOTHING));
}

static void box(void)
{
    run script = bytes("01 012480AB 00*9  04  03 00000003 000000FF 00000001  04*7  02");
    run no_state = bytes("05 FF*1376 02");
    run broken = bytes("05 00*897 41 00*478 02");
    run at_release = bytes("05 01 00*896 01 00*451 05 01 00 00*15 01 00*8 04");
    run beside = bytes("05 01 00*896 01 00*451 05 01 07 00*15 01 00*8 04");
    gives("script", chherbolat_box_script(script.bytes, script.length, lent(), 203), 11);
    wrote("script", bytes("00 00  09 00*22  00  00*69  00 00 02 00*20  00*46  00 02 00 00*14 01 00 000000FD"
                          "  00 01 00 012480AB 00*9"));
    refuses("script, 202 bytes", chherbolat_box_script(script.bytes, script.length, lent(), 202), OUTPUT_TOO_SHORT,
            203);
    wrote_nothing("script, 202 bytes");
    gives("script, no state", chherbolat_box_script(no_state.bytes, no_state.length, lent(), 17), 2);
    wrote("script, no state", bytes("0A 00*16"));
    gives("script, a broken state", chherbolat_box_script(broken.bytes, broken.length, lent(), 17), 2);
    wrote("script, a broken state", bytes("00 0A 00*15"));
    gives("script, an Overrun at release", chherbolat_box_script(at_release.bytes, at_release.length, lent(), 24), 2);
    wrote("script, an Overrun at release", bytes("00 00 00 02 00*20"));
    gives("script, a byte beside an Overrun", chherbolat_box_script(beside.bytes, beside.length, lent(), 24), 2);
    wrote("script, a byte beside an Overrun", bytes("00 0A 00*22"));
}

static void files(void)
{
    run file = bytes("01  00 00000000FFDFFFFF  0002  012480AB 00*9  00FFE0 00*10");
    run wrong_kind = bytes("01  02 00000000FFDFFFFF  0002  012480AB 00*9  00FFE0 00*10");
    run too_many = bytes("11");
    const uint8_t *filters = file.bytes + 1, *frames = file.bytes + 12;
    gives("| read the file |", chherbolat_read_file(file.bytes, 38), UINT64_C(0x000C000100020001));
    refuses("| read its first 37 bytes |", chherbolat_read_file(file.bytes, 37), FILE_ENDS, 25);
    refuses("39 bytes", chherbolat_read_file(file.bytes, 39), BYTES_AFTER_END, 38);
    refuses("| read it with the kind `02` |", chherbolat_read_file(wrong_kind.bytes, 38), FILTER_KIND, 1);
    refuses("17 filters", chherbolat_read_file(too_many.bytes, 1), COUNT_ABOVE_LIMIT, 0);
    gives("| write its filter and its frames into 39 bytes |",
          chherbolat_write_file(filters, 9, frames, 26, lent(), 39), 38);
    wrote("written", file);
    refuses("| write them into 37 bytes |", chherbolat_write_file(filters, 9, frames, 26, lent(), 37), OUTPUT_TOO_SHORT,
            38);
    wrote_nothing("written, 37 bytes");
    refuses("written, kind 2", chherbolat_write_file(wrong_kind.bytes + 1, 9, frames, 26, lent(), 39), FILTER_KIND, 0);
    refuses("written, eight bytes of a filter", chherbolat_write_file(filters, 8, frames, 25, lent(), 39), WRONG_LENGTH,
            0);
    refuses("written, 25 bytes of frames", chherbolat_write_file(filters, 9, frames, 25, lent(), 39), WRONG_LENGTH, 1);
    wrote_nothing("written, 25 bytes of frames");
}

static void reports(void)
{
    run file = bytes("01  00 00000000FFDFFFFF  0002  012480AB 00*9  00FFE0 00*10");
    gives("| report on the file |", chherbolat_report(file.bytes, 38, lent(), 100), 19);
    wrote("report", characters("0 1\n1 0\naccepted 1\n"));
    refuses("| report on the file into 18 bytes |", chherbolat_report(file.bytes, 38, lent(), 18), OUTPUT_TOO_SHORT,
            19);
    wrote_nothing("report, 18 bytes");
    gives("| report on its first 37 bytes |", chherbolat_report(file.bytes, 37, lent(), 17), 17);
    wrote("report on 37 bytes", characters("refused 11 at 25\n"));
}

int main(void)
{
    identifiers();
    building();
    asking_for_a_length();
    reading();
    filters_by_patterns();
    filters_by_code_and_mask();
    filters_from_lists();
    matching();
    decisions();
    box();
    files();
    reports();
    printf("c: %u answers checked\n", checked);
    return 0;
}
