/* Answers the examples of docs/FORMATS.md through the library: a line of standard input is an example as the page writes
   it, and its answer is printed as the page writes that. Ends at the first line that is no example. */
#include <inttypes.h>
#include <stdbool.h>
#include <stdio.h>
#include <stdlib.h>
#include <string.h>

#include "chherbolat.h"

enum { FRAME = CHHERBOLAT_FRAME_LENGTH, REGISTERS = CHHERBOLAT_REGISTERS_LENGTH, STATE = CHHERBOLAT_STATE_LENGTH };
/* Where a state tells these, and steps by the numbers that it tells. */
enum { STATE_FIFO_COUNT = 897, STATE_QUEUE_COUNT = 1348, STATE_NEXT_STEP = 1349, NOTICE = 1, LOOK = 2, FINISH = 7 };
enum { LONGEST = 1 << 16 };
/* Bits of the interrupt word, and of the status word. */
enum { RECEIVE = 0x01, ERROR_WARNING = 0x04, READY = 0x01, IN_ERROR = 0x40, IN_BUS_OFF = 0x80 };

typedef struct {
    uint8_t bytes[LONGEST];
    size_t length;
} run;

static char line[LONGEST];
static char *words[LONGEST / 2];
static size_t next, count;

/* The line as words: commas, semicolons and colons end one, as a space does. */
static void split(void)
{
    next = count = 0;
    for (char *word = strtok(line, " ,;:\n"); word; word = strtok(NULL, " ,;:\n")) words[count++] = word;
}

static _Noreturn void not_understood(const char *why)
{
    fprintf(stderr, "formats: no form of an example:");
    for (size_t i = 0; i < count; i++) fprintf(stderr, " %s", words[i]);
    fprintf(stderr, ": %s, at word %zu\n", why, next + 1);
    exit(2);
}

/* Whether these words come next; if so they are passed. */
static bool says(const char *text)
{
    char copy[64];
    size_t at = next;
    snprintf(copy, sizeof copy, "%s", text);
    for (char *word = strtok(copy, " "); word; word = strtok(NULL, " "))
        if (at == count || strcmp(words[at++], word) != 0) return false;
    next = at;
    return true;
}

static bool a_number(void)
{
    char *end = NULL;
    return next < count && (strtoull(words[next], &end, 0), *end == '\0');
}

static uint64_t number(void)
{
    if (!a_number()) not_understood("a number is missing");
    return strtoull(words[next++], NULL, 0);
}

static uint32_t number_to(uint32_t limit)
{
    uint64_t read = number();
    if (read > limit) not_understood("no argument of the call holds the number before this word");
    return (uint32_t)read;
}

static bool some_bytes(void)
{
    size_t digits = next < count ? strspn(words[next], "0123456789ABCDEF") : 0;
    return digits >= 2 && digits % 2 == 0 && words[next][digits] == '\0';
}

static run bytes(void)
{
    run read = {.length = 0};
    for (; some_bytes(); next++)
        for (const char *at = words[next]; *at; at += 2) {
            char digits[] = {at[0], at[1], '\0'};
            read.bytes[read.length++] = (uint8_t)strtoul(digits, NULL, 16);
        }
    return read;
}

static void print_bytes(const uint8_t *from, size_t length)
{
    for (size_t i = 0; i < length; i++) printf("%s%02X", i ? " " : "", from[i]);
}

/* An identifier above its limit carries something in a list alone. */
static bool carries(uint32_t refusal, bool of_list)
{
    switch (refusal) {
    case CHHERBOLAT_REFUSAL_IDENTIFIER_ABOVE_LIMIT:
        return of_list;
    case CHHERBOLAT_REFUSAL_DRAIN_RUNS:
    case CHHERBOLAT_REFUSAL_NO_DRAIN_RUNS:
    case CHHERBOLAT_REFUSAL_BROKEN_STATE:
    case CHHERBOLAT_REFUSAL_EMPTY_LIST:
        return false;
    default:
        return true;
    }
}

static bool refused(chherbolat_answer got, bool of_list)
{
    if (got.number == 0) return false;
    printf("refusal %" PRIu32, got.number);
    if (got.number == CHHERBOLAT_REFUSAL_PATTERN_BYTE)
        printf(" carrying field %u, place %u, byte %02X", (unsigned)CHHERBOLAT_PATTERN_BYTE_FIELD(got.value),
               (unsigned)CHHERBOLAT_PATTERN_BYTE_PLACE(got.value), (unsigned)CHHERBOLAT_PATTERN_BYTE_FOUND(got.value));
    else if (carries(got.number, of_list)) printf(" carrying %" PRIu64, got.value);
    return true;
}

static void told(chherbolat_answer got, const uint8_t *written, size_t length)
{
    if (!refused(got, false)) print_bytes(written, length);
}

static bool format(void)
{
    if (says("extended")) return true;
    if (!says("standard")) not_understood("standard or extended");
    return false;
}

static void identifier(void)
{
    bool extended = format();
    uint32_t raw = number_to(extended ? UINT32_MAX : UINT16_MAX);
    chherbolat_answer got = extended ? chherbolat_extended_id_new(raw) : chherbolat_standard_id_new((uint16_t)raw);
    if (!refused(got, false)) printf("0x%0*" PRIX64, extended ? 8 : 3, got.value);
}

static void top_bits(void)
{
    chherbolat_answer got = chherbolat_extended_id_standard_id(number_to(UINT32_MAX));
    if (!refused(got, false)) printf("0x%03" PRIX64, got.value);
}

/* FORMAT ID[, remote][, self-reception], no data | data BYTES | N bytes of data[, code N | , asking for N] */
static void build(void)
{
    bool extended = format();
    uint32_t id = number_to(UINT32_MAX);
    bool remote = says("remote"), own = says("self-reception");
    run data = {.length = 0};
    uint8_t frame[FRAME];
    if (says("data")) {
        data = bytes();
    } else if (!says("no data")) {
        data.length = number();
        if (!says("bytes of data") || data.length > LONGEST) not_understood("the data");
    }
    bool asking = says("asking for"), coded = asking || says("code");
    if (!coded && !remote) {
        told(own ? chherbolat_new_self_reception(extended, id, data.bytes, data.length, frame, FRAME)
                 : chherbolat_new(extended, id, data.bytes, data.length, frame, FRAME), frame, FRAME);
        return;
    }
    size_t code = coded ? number() : 0;
    told((asking ? chherbolat_new_with_remote_length : chherbolat_new_from_parameters)(
             extended, id, remote, own, code, data.bytes, data.length, frame, FRAME), frame, FRAME);
}

static void read_frame(void)
{
    run from = bytes();
    uint8_t data[8];
    chherbolat_answer id = chherbolat_identifier(from.bytes, from.length);
    if (refused(id, false)) return;
    bool extended = chherbolat_is_extended_format(from.bytes, from.length).value;
    printf("%s 0x%0*" PRIX64, extended ? "extended" : "standard", extended ? 8 : 3, id.value);
    if (chherbolat_is_remote_request(from.bytes, from.length).value) printf(", remote");
    if (chherbolat_is_self_reception(from.bytes, from.length).value) printf(", self-reception");
    printf(", code %" PRIu64, chherbolat_data_length_code(from.bytes, from.length).value);
    size_t length = chherbolat_data(from.bytes, from.length, data, sizeof data).value;
    printf(length ? ", data " : ", no data");
    print_bytes(data, length);
}

static void data_into(void)
{
    run from = bytes();
    uint8_t data[8];
    if (!says("into")) not_understood("into");
    size_t room = number();
    if (room > sizeof data || !says("bytes")) not_understood("the room");
    chherbolat_answer got = chherbolat_data(from.bytes, from.length, data, room);
    told(got, data, got.value);
}

/* The four filters, by the order in which the page draws them. */
enum { SINGLE_STANDARD, SINGLE_EXTENDED, DUAL_STANDARD, DUAL_EXTENDED, FILTERS, FIELDS = 5 };
static const char *const FILTER[] = {"single standard", "single extended", "dual standard", "dual extended"};
static const size_t WIDTH[FILTERS][FIELDS] = {{11, 1, 8, 8, 0}, {29, 1, 0, 0, 0}, {11, 1, 8, 11, 1}, {16, 16, 0, 0, 0}};
/* What the drawing writes for each field, or for each half of one. */
static const char *const LETTER[FILTERS][FIELDS] = {
    {"ii", "rr", "aa", "bb", ""}, {"ii", "rr", "", "", ""}, {"ii", "rr", "hl", "jj", "ss"}, {"ii", "jj", "", "", ""}};

static chherbolat_answer by_patterns(int filter, char *const field[FIELDS], uint8_t *registers)
{
    const void *p[FIELDS];
    size_t n[FIELDS];
    for (int i = 0; i < FIELDS; i++) p[i] = field[i] ? field[i] : "", n[i] = strlen(p[i]);
    switch (filter) {
    case SINGLE_STANDARD:
        return chherbolat_single_standard_filter_new(p[0], n[0], p[1], n[1], p[2], n[2], p[3], n[3], registers,
                                                     REGISTERS);
    case SINGLE_EXTENDED:
        return chherbolat_single_extended_filter_new(p[0], n[0], p[1], n[1], registers, REGISTERS);
    case DUAL_STANDARD:
        return chherbolat_dual_standard_filter_new(p[0], n[0], p[1], n[1], p[2], n[2], p[3], n[3], p[4], n[4],
                                                   registers, REGISTERS);
    default:
        return chherbolat_dual_extended_filter_new(p[0], n[0], p[1], n[1], registers, REGISTERS);
    }
}

static chherbolat_answer by_code_and_mask(int filter, const uint32_t *c, const uint32_t *m, uint8_t *registers)
{
    switch (filter) {
    case SINGLE_STANDARD:
        return chherbolat_single_standard_filter_new_from_code_mask(c[0], m[0], c[1], m[1], c[2], c[3], m[2], m[3],
                                                                    registers, REGISTERS);
    case SINGLE_EXTENDED:
        return chherbolat_single_extended_filter_new_from_code_mask(c[0], m[0], c[1], m[1], registers, REGISTERS);
    case DUAL_STANDARD:
        return chherbolat_dual_standard_filter_new_from_code_mask(c[0], m[0], c[1], m[1], c[2], m[2], c[3], m[3], c[4],
                                                                  m[4], registers, REGISTERS);
    default:
        return chherbolat_dual_extended_filter_new_from_code_mask(c[0], c[1], m[0], m[1], registers, REGISTERS);
    }
}

static int fields_of(int filter)
{
    int fields = 0;
    while (fields < FIELDS && WIDTH[filter][fields]) fields++;
    return fields;
}

/* The largest number that an argument for a field of this width holds. */
static uint32_t argument_limit(size_t width)
{
    return width == 1 ? 1 : width == 8 ? UINT8_MAX : width <= 16 ? UINT16_MAX : UINT32_MAX;
}

/* A pattern for each field; or code, a number for each, and mask, likewise. */
static void filter_from(int filter)
{
    uint8_t registers[REGISTERS];
    int fields = fields_of(filter);
    if (says("code")) {
        uint32_t code[FIELDS], mask[FIELDS];
        for (int i = 0; i < fields; i++) code[i] = number_to(argument_limit(WIDTH[filter][i]));
        if (!says("mask")) not_understood("mask");
        for (int i = 0; i < fields; i++) mask[i] = number_to(argument_limit(WIDTH[filter][i]));
        told(by_code_and_mask(filter, code, mask, registers), registers, REGISTERS);
        return;
    }
    char *field[FIELDS] = {NULL};
    for (int i = 0; i < fields; i++) {
        if (next == count) not_understood("a pattern is missing");
        field[i] = words[next++];
    }
    told(by_patterns(filter, field, registers), registers, REGISTERS);
}

/* The one bit that is set among so many bytes, the last byte's lowest being 0; -1 where there is not one alone. */
static int only_bit(const uint8_t *from, int length)
{
    int found = -1;
    for (int bit = 0; bit < 8 * length; bit++)
        if (from[length - 1 - bit / 8] >> bit % 8 & 1) {
            if (found >= 0) return -1;
            found = bit;
        }
    return found;
}

/* A field's letter at each position where a `1` in its pattern sets the code; its places fall from left to right. */
static void draw_field(int filter, int at, char *drawn)
{
    char pattern[FIELDS][32] = {{0}}, *field[FIELDS];
    int width = (int)WIDTH[filter][at], above = 32;
    for (int i = 0; i < FIELDS; i++) field[i] = memset(pattern[i], 'x', WIDTH[filter][i]);
    for (int place = 0; place < width; place++) {
        uint8_t registers[REGISTERS];
        pattern[at][place] = '1';
        chherbolat_answer got = by_patterns(filter, field, registers);
        int position = got.number ? -1 : only_bit(registers, 4);
        if (position < 0 || position >= above || drawn[31 - position] != '-')
            not_understood("a field does not go from left to right");
        drawn[31 - position] = LETTER[filter][at][2 * place >= width];
        above = position;
        pattern[at][place] = 'x';
    }
}

static void draw_filter(int filter)
{
    char drawn[33] = "--------------------------------";
    for (int i = 0; i < fields_of(filter); i++) draw_field(filter, i, drawn);
    printf("%.8s %.8s %.8s %.8s", drawn, drawn + 8, drawn + 16, drawn + 24);
}

/* One byte of the identifier: which of its bits each bit of the byte is. */
static void draw_identifier(void)
{
    bool extended = format();
    if (!says("byte")) not_understood("byte");
    int byte = (int)number(), length = extended ? 4 : 2, drawn[8] = {-1, -1, -1, -1, -1, -1, -1, -1};
    for (int bit = 0; bit < (extended ? CHHERBOLAT_EXTENDED_WIDTH : CHHERBOLAT_STANDARD_WIDTH); bit++) {
        uint8_t frame[FRAME];
        chherbolat_new(extended, UINT32_C(1) << bit, frame, 0, frame, FRAME);
        int found = only_bit(frame + 1, length);
        if (found >= 0 && byte == length - found / 8) drawn[found % 8] = bit;
    }
    for (int bit = 7; bit >= 0; bit--) {
        if (drawn[bit] < 0) printf("-"); else printf("i%d", drawn[bit]);
        if (bit) printf(" ");
    }
}

/* Byte 0: the bit that each yes or no sets, and those of the code. */
static void draw_information(void)
{
    static const char *const NAME[] = {"extended", "remote", "self", "c0", "c1", "c2", "c3"};
    const char *drawn[] = {"0", "0", "0", "0", "0", "0", "0", "0"};
    static const uint8_t data[8];
    for (int i = 0; i < 7; i++) {
        uint8_t frame[FRAME];
        size_t code = i < 3 ? 0 : (size_t)1 << (i - 3);
        chherbolat_new_from_parameters(i == 0, 0, i == 1, i == 2, code, data, code, frame, FRAME);
        int bit = only_bit(frame, 1);
        if (bit >= 0) drawn[bit] = NAME[i];
    }
    for (int bit = 7; bit >= 0; bit--) printf("%s%s", drawn[bit], bit ? " " : "");
}

static void list(void)
{
    static uint32_t listed[LONGEST];
    bool extended = format();
    size_t length = 0, width = extended ? CHHERBOLAT_EXTENDED_WIDTH : CHHERBOLAT_STANDARD_WIDTH;
    char pattern[CHHERBOLAT_EXTENDED_WIDTH + 1] = {0};
    uint8_t registers[REGISTERS];
    while (a_number()) listed[length++] = number_to(UINT32_MAX);
    void *lent = pattern;
    chherbolat_answer got = chherbolat_filter_from_list(extended, listed, length, lent, width, registers, REGISTERS);
    if (refused(got, true)) return;
    printf("%s, ", pattern);
    print_bytes(registers, REGISTERS);
    printf(", %" PRIu64 " let through", got.value);
}

static uint8_t kind(void)
{
    if (says("single")) return CHHERBOLAT_KIND_SINGLE;
    if (says("dual")) return CHHERBOLAT_KIND_DUAL;
    if (!says("kind")) not_understood("single or dual");
    return (uint8_t)number_to(UINT8_MAX);
}

static void match(void)
{
    uint8_t given = kind();
    run registers = bytes();
    if (!says("with")) not_understood("with");
    run frame = bytes();
    chherbolat_answer got = chherbolat_matcher_accepts(given, registers.bytes, registers.length, frame.bytes, frame.length);
    if (!refused(got, false)) printf(got.value ? "accepted" : "not accepted");
}

static uint32_t word(const char *name)
{
    if (!says(name)) not_understood(name);
    return number_to(UINT32_MAX);
}

static void decision(chherbolat_answer got)
{
    static const char *const ANSWER[] = {"done", "WouldBlock", "Pending", "BusOff", "TransmissionAborted", "Overrun"};
    static const char *const COMMAND[] = {"no command", "abort", "write the frame", "read and release"};
    printf("%s, %s", ANSWER[CHHERBOLAT_DECISION_ANSWER(got.value)], COMMAND[CHHERBOLAT_DECISION_COMMAND(got.value)]);
    if (CHHERBOLAT_DECISION_IN_FLIGHT(got.value)) printf(", in flight");
}

static void transmit(void)
{
    uint32_t status = word("status");
    bool passive = says("error-passive");
    decision(chherbolat_transmit(status, passive));
}

static void poll(void)
{
    uint32_t status = word("status");
    bool passive = says("error-passive"), in_flight = says("in flight");
    decision(chherbolat_poll(status, passive, in_flight));
}

/* A script for a fresh box, and the answers that it was given so far. */
static run script, answers;

static void call(const void *from, size_t length)
{
    if (script.length + length > LONGEST) not_understood("too many calls");
    memcpy(script.bytes + script.length, from, length);
    script.length += length;
    chherbolat_answer got = chherbolat_box_script(script.bytes, script.length, answers.bytes, LONGEST);
    if (got.number != 0) not_understood("the script's answers are too long");
}

/* Makes a call, and answers where its own answer begins. */
static const uint8_t *answered(const void *from, size_t length, size_t answer_length)
{
    call(from, length);
    const uint8_t *answer = answers.bytes + answers.length;
    answers.length += answer_length;
    return answer;
}

static const uint8_t *step(void)
{
    static const uint8_t from = CHHERBOLAT_CALL_STEP;
    return answered(&from, 1, CHHERBOLAT_CALL_STEP_ANSWER_LENGTH);
}

/* The state as it is now; the call that asks for it does not stay in the script. */
static const uint8_t *state(void)
{
    static uint8_t told_state[STATE];
    static const uint8_t ask = CHHERBOLAT_CALL_STATE;
    call(&ask, 1);
    script.length--;
    return memcpy(told_state, answers.bytes + answers.length, STATE);
}

static const uint8_t *take(void)
{
    static const uint8_t from = CHHERBOLAT_CALL_TAKE;
    return answered(&from, 1, CHHERBOLAT_CALL_TAKE_ANSWER_LENGTH);
}

static uint8_t start(uint32_t interrupt, uint32_t enable, uint32_t status)
{
    const uint32_t given[] = {interrupt, enable, status};
    uint8_t from[CHHERBOLAT_CALL_START_LENGTH] = {CHHERBOLAT_CALL_START};
    for (int i = 0; i < 12; i++) from[1 + i] = (uint8_t)(given[i / 4] >> (24 - 8 * (i % 4)));
    return *answered(from, sizeof from, CHHERBOLAT_CALL_START_ANSWER_LENGTH);
}

static const uint8_t *arrive(const uint8_t *frame)
{
    uint8_t from[CHHERBOLAT_CALL_ARRIVAL_LENGTH] = {CHHERBOLAT_CALL_ARRIVAL};
    memcpy(from + 1, frame, FRAME);
    return answered(from, sizeof from, CHHERBOLAT_CALL_ARRIVAL_ANSWER_LENGTH);
}

static run a_frame(void)
{
    run frame = bytes();
    if (frame.length != FRAME) not_understood("a frame has 13 bytes");
    return frame;
}

/* The fresh box's state with another number of entries, which are marks. */
static void load_marks(uint8_t entries)
{
    uint8_t from[CHHERBOLAT_CALL_LOAD_LENGTH] = {CHHERBOLAT_CALL_LOAD};
    memcpy(from + 1, state(), STATE);
    from[1 + STATE_FIFO_COUNT] = entries;
    answered(from, sizeof from, CHHERBOLAT_CALL_LOAD_ANSWER_LENGTH);
}

static void fresh(void)
{
    script.length = answers.length = 0;
}

static void print_arrivals(unsigned times, unsigned answer)
{
    static const char *const ANSWER[] = {"whole", "mark", "not recorded"};
    printf("%u %s%s", times, ANSWER[answer], answer == CHHERBOLAT_ARRIVAL_MARK && times > 1 ? "s" : "");
}

/* arrivals N of FRAME, N of FRAME, ..: runs of equal answers. */
static void arrivals(void)
{
    unsigned same = 0, last = 0;
    fresh();
    while (a_number()) {
        uint64_t times = number();
        if (!says("of")) not_understood("of");
        run frame = a_frame();
        for (; times > 0; times--) {
            unsigned answer = arrive(frame.bytes)[1];
            if (same && answer != last) {
                print_arrivals(same, last);
                printf(", ");
                same = 0;
            }
            last = answer;
            same++;
        }
    }
    if (!same) not_understood("no arrival");
    print_arrivals(same, last);
}

static void wait_for_drain(void)
{
    if (says("a mark")) {
        load_marks(1);
    } else if (says("a frame")) {
        arrive((const uint8_t[FRAME]){0});
    } else if (!says("nothing")) {
        not_understood("what waits in the FIFO");
    }
}

static void start_given(void)
{
    uint32_t interrupt = word("interrupt"), enable = says("enable") ? number_to(UINT32_MAX) : 0, status = word("status");
    if (start(interrupt, enable, status)) not_understood("the start was refused");
}

/* The steps of one drain, by name. */
static void steps(void)
{
    static const char *const STEP[] = {"", "notice", "look", "miss read", "copy", "release", "offer", "finish"};
    fresh();
    wait_for_drain();
    start_given();
    for (uint8_t due = state()[STATE_NEXT_STEP]; due; due = state()[STATE_NEXT_STEP]) {
        printf("%s%s", STEP[due], due == FINISH ? "" : ", ");
        step();
    }
}

static void finish(void)
{
    const uint8_t *answer;
    fresh();
    start_given();
    do answer = step(); while (answer[1] != CHHERBOLAT_STEP_FINISHED);
    uint32_t enable = 0;
    for (int i = 19; i < CHHERBOLAT_CALL_STEP_ANSWER_LENGTH; i++) enable = enable << 8 | answer[i];
    printf("transmit wakes %u, error wakes %u, enable 0x%02" PRIX32, answer[17], answer[18], enable);
}

/* N queued, M in the FIFO: one drain over so many notices in the queue and frames in the FIFO. */
static void drain(void)
{
    unsigned queued = number_to(32), lost = 0, ended = 0;
    if (!says("queued")) not_understood("queued");
    unsigned waiting = number_to(64);
    if (!says("in the FIFO")) not_understood("in the FIFO");
    fresh();
    for (unsigned i = 0; i < queued; i++) start(ERROR_WARNING, 0, IN_BUS_OFF | IN_ERROR), step(), step();
    for (unsigned i = 0; i < waiting; i++) arrive((const uint8_t[FRAME]){0});
    if (state()[STATE_QUEUE_COUNT] != queued || state()[STATE_FIFO_COUNT] != waiting) not_understood("so many do not fit");
    start(RECEIVE, 0, READY);
    while (!ended) {
        const uint8_t *answer = step();
        lost += answer[1] == CHHERBOLAT_STEP_LOST;
        ended = answer[1] == CHHERBOLAT_STEP_FINISHED;
    }
    printf("%u stored, %u lost, %u left", state()[STATE_QUEUE_COUNT] - queued, lost, state()[STATE_FIFO_COUNT]);
}

/* Calls on a fresh box; the answer is that of the last. */
static void box(void)
{
    uint8_t refusal = 0;
    bool called = false;
    fresh();
    for (; next < count; called = true) {
        if (says("start")) {
            refusal = start(0, 0, 0);
        } else if (says("step")) {
            refusal = *step();
        } else if (says("take")) {
            refusal = *take();
        } else {
            load_marks((uint8_t)number_to(UINT8_MAX));
            if (!says("entries")) not_understood("entries");
        }
    }
    if (!called) not_understood("no call");
    if (!refused((chherbolat_answer){refusal, 0}, false)) printf("done");
}

static const char *status_bit(uint32_t bit)
{
    uint64_t received = chherbolat_receive(bit).value;
    if (CHHERBOLAT_DECISION_ANSWER(received) == CHHERBOLAT_ANSWER_BUS_OFF) return "bus-off";
    if (CHHERBOLAT_DECISION_COMMAND(received) == CHHERBOLAT_COMMAND_READ_AND_RELEASE) return "ready";
    if (CHHERBOLAT_DECISION_COMMAND(chherbolat_transmit(bit, false).value) == CHHERBOLAT_COMMAND_WRITE) return "free";
    if (CHHERBOLAT_DECISION_ANSWER(chherbolat_receive(READY | bit).value) == CHHERBOLAT_ANSWER_OVERRUN) return "miss";
    fresh();
    start(ERROR_WARNING, 0, IN_BUS_OFF | bit);
    return state()[STATE_NEXT_STEP] == NOTICE ? "error" : "-";
}

/* Which error it is shows in the notice alone, and so for the warning alone. */
static const char *interrupt_bit(uint32_t bit)
{
    fresh();
    start(bit, 0, 0);
    if (state()[STATE_NEXT_STEP] == LOOK) return "receive";
    const uint8_t *answer = step();
    return answer[18] ? "error" : answer[17] ? "transmit" : "-";
}

/* A word's bits from the highest that the page draws; those above it are not looked at. */
static void draw_word(const char *(*name)(uint32_t), int highest)
{
    for (int bit = 31; bit >= 0; bit--) {
        const char *shown = name(UINT32_C(1) << bit);
        if (bit > highest && strcmp(shown, "-") != 0) not_understood("a bit that is not drawn");
        if (bit <= highest) printf("%s%s", shown, bit ? " " : "");
    }
}

static void draw(void)
{
    if (says("information byte 0")) {
        draw_information();
        return;
    }
    if (says("status")) {
        draw_word(status_bit, 8);
        return;
    }
    if (says("interrupt")) {
        draw_word(interrupt_bit, 7);
        return;
    }
    for (int filter = 0; filter < FILTERS; filter++)
        if (says(FILTER[filter])) {
            draw_filter(filter);
            return;
        }
    draw_identifier();
}

static void file(void)
{
    run from = bytes();
    chherbolat_answer got = chherbolat_read_file(from.bytes, from.length);
    if (refused(got, false)) return;
    printf("counts %" PRIu64 " and %" PRIu64 ", ", got.value & 0xFFFF, got.value >> 16 & 0xFFFF);
    printf("starts %" PRIu64 " and %" PRIu64, got.value >> 32 & 0xFFFF, got.value >> 48);
}

static void write_file(void)
{
    static uint8_t out[LONGEST];
    run filters = {.length = 0}, frames = {.length = 0};
    if (says("filters")) filters = bytes(); else if (!says("no filters")) not_understood("the filters");
    if (says("frames")) frames = bytes(); else if (!says("no frames")) not_understood("the frames");
    size_t room = says("into") ? number() : LONGEST;
    if (room > LONGEST || (room < LONGEST && !says("bytes"))) not_understood("the room");
    chherbolat_answer got = chherbolat_write_file(filters.bytes, filters.length, frames.bytes, frames.length, out, room);
    told(got, out, got.value);
}

typedef struct {
    const char *first;
    void (*answer)(void);
} form;

static const form FORM[] = {
    {"identifier", identifier}, {"top 11 bits of", top_bits}, {"build", build},       {"read", read_frame},
    {"data of", data_into},     {"draw", draw},               {"list", list},         {"match", match},
    {"transmit", transmit},     {"poll", poll},               {"arrivals", arrivals}, {"steps", steps},
    {"finish", finish},         {"drain", drain},             {"box", box},           {"file", file},
    {"write", write_file},
};

static void answer(void)
{
    for (int filter = 0; filter < FILTERS; filter++)
        if (says(FILTER[filter])) {
            filter_from(filter);
            return;
        }
    if (says("receive")) {
        decision(chherbolat_receive(word("status")));
        return;
    }
    for (size_t i = 0; i < sizeof FORM / sizeof *FORM; i++)
        if (says(FORM[i].first)) {
            FORM[i].answer();
            return;
        }
    not_understood("none begins so");
}

int main(void)
{
    while (fgets(line, sizeof line, stdin)) {
        split();
        answer();
        if (next != count) not_understood("more words than the form has");
        printf("\n");
        fflush(stdout);
    }
    return 0;
}
