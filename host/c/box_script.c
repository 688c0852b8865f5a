/* Runs a script of calls on a fresh box and prints each answer, its bytes first (docs/ABI.md, "The box's script").
   Standard input: the script in hexadecimal; spaces and line ends stand anywhere, `#` begins a remark. */
#include <ctype.h>
#include <stdio.h>
#include <stdlib.h>
#include "chherbolat.h"

#define SCRIPT_LIMIT (1 << 20)

static const struct {
    const char *name;
    size_t length, answer_length;
} CALLS[] = {
    [CHHERBOLAT_CALL_ARRIVAL] = {"arrival", CHHERBOLAT_CALL_ARRIVAL_LENGTH, CHHERBOLAT_CALL_ARRIVAL_ANSWER_LENGTH},
    [CHHERBOLAT_CALL_TAKE] = {"take", CHHERBOLAT_CALL_TAKE_LENGTH, CHHERBOLAT_CALL_TAKE_ANSWER_LENGTH},
    [CHHERBOLAT_CALL_START] = {"start", CHHERBOLAT_CALL_START_LENGTH, CHHERBOLAT_CALL_START_ANSWER_LENGTH},
    [CHHERBOLAT_CALL_STEP] = {"step", CHHERBOLAT_CALL_STEP_LENGTH, CHHERBOLAT_CALL_STEP_ANSWER_LENGTH},
    [CHHERBOLAT_CALL_LOAD] = {"load", CHHERBOLAT_CALL_LOAD_LENGTH, CHHERBOLAT_CALL_LOAD_ANSWER_LENGTH},
    [CHHERBOLAT_CALL_STATE] = {"state", CHHERBOLAT_CALL_STATE_LENGTH, CHHERBOLAT_CALL_STATE_ANSWER_LENGTH},
};

static void fail(const char *why) {
    fprintf(stderr, "box_script: %s\n", why);
    exit(2);
}

static int digit(int c) { return isdigit(c) ? c - '0' : toupper(c) - 'A' + 10; }

static size_t read_script(uint8_t *script) {
    size_t digits = 0;
    int remark = 0;
    for (int c = getchar(); c != EOF; c = getchar()) {
        remark = c == '\n' ? 0 : remark || c == '#';
        if (remark || isspace(c)) continue;
        if (!isxdigit(c)) fail("a character that is no hexadecimal digit");
        if (digits == 2 * SCRIPT_LIMIT) fail("the script is longer than 1 MiB");
        script[digits / 2] = (uint8_t)(digits % 2 ? script[digits / 2] * 16 + digit(c) : digit(c));
        digits++;
    }
    if (digits % 2) fail("an odd number of digits");
    return digits / 2;
}

static void print_bytes(const uint8_t *bytes, size_t length) {
    for (size_t i = 0; i < length; i++) printf("%02X", bytes[i]);
}

static void print_record(const uint8_t *record) {
    if (record[0] == CHHERBOLAT_RECORD_FRAME) {
        printf("frame ");
        print_bytes(record + 1, CHHERBOLAT_FRAME_LENGTH);
    } else {
        printf("%s", record[0] == CHHERBOLAT_RECORD_OVERRUN ? "Overrun" : "BusOff");
    }
}

static void print_step(const uint8_t *answer) {
    static const char *const COMMAND[] = {"", "abort", "release"};
    if (answer[1] == CHHERBOLAT_STEP_FINISHED) {
        printf("finished, transmit wakes %u, error wakes %u, enable ", answer[17], answer[18]);
        print_bytes(answer + 19, 4);
        return;
    }
    printf("%s", answer[1] ? COMMAND[answer[2]] : answer[2] ? COMMAND[answer[2]] : "done");
    if (answer[1] == CHHERBOLAT_STEP_LOST) {
        printf("%slost ", answer[2] ? ", " : "");
        print_record(answer + 3);
    }
}

static void print_answer(int call, const uint8_t *answer) {
    static const char *const ARRIVAL[] = {"stored whole", "a mark", "not recorded"};
    bool is_state = call == CHHERBOLAT_CALL_STATE;
    print_bytes(answer, is_state ? 0 : CALLS[call].answer_length);
    printf("%s%s: ", is_state ? "" : "  ", CALLS[call].name);
    if (is_state) {
        print_bytes(answer, CHHERBOLAT_STATE_LENGTH);
    } else if (answer[0] != 0) {
        printf("refused %u", answer[0]);
    } else if (call == CHHERBOLAT_CALL_ARRIVAL) {
        printf("%s", ARRIVAL[answer[1]]);
    } else if (call == CHHERBOLAT_CALL_TAKE) {
        if (answer[1]) print_record(answer + 2); else printf("nothing");
    } else if (call == CHHERBOLAT_CALL_START) {
        printf("started");
    } else if (call == CHHERBOLAT_CALL_STEP) {
        print_step(answer);
    }
    printf("\n");
}

int main(void) {
    uint8_t *script = calloc(SCRIPT_LIMIT, 1);
    if (!script) fail("no memory");
    size_t length = read_script(script);
    chherbolat_answer told = chherbolat_box_script(script, length, NULL, 0);
    size_t needed = told.number == CHHERBOLAT_REFUSAL_OUTPUT_TOO_SHORT ? told.value : 0;
    uint8_t *answers = calloc(needed + 1, 1);
    if (!answers) fail("no memory");
    told = chherbolat_box_script(script, length, answers, needed);
    if (told.number != 0) fail("refused");
    const uint8_t *call = script, *answer = answers;
    for (uint64_t i = 0; i < told.value; i++) {
        print_answer(*call, answer);
        answer += CALLS[*call].answer_length;
        call += CALLS[*call].length;
    }
    if (call != script + length) {
        printf("the script ends here: what follows is no whole call\n");
        return 1;
    }
    return 0;
}
