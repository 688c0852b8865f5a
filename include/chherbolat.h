/* The functions of libchherbolat.a, which ./library makes, for x86-64. docs/ABI.md says the same at length.

   Every function judges all that it is given and never traps; a call that is refused writes nothing. A slice is a
   pointer and then a length; an empty one may be NULL and 0. One that is written to overlaps no other. */
#ifndef CHHERBOLAT_H
#define CHHERBOLAT_H

#include <stdbool.h>
#include <stddef.h>
#include <stdint.h>

#ifdef __cplusplus
extern "C" {
#endif

#define CHHERBOLAT_VERSION "0.1.0"

/* number 0: accepted, and value is what is given; else the refusal's number and what it carries. */
typedef struct {
    uint32_t number;
    uint64_t value;
} chherbolat_answer;

/* The refusals, and what each carries. */
#define CHHERBOLAT_REFUSAL_IDENTIFIER_ABOVE_LIMIT 1 /* of a list: the entry's index; else 0 */
#define CHHERBOLAT_REFUSAL_INVALID_DATA_LENGTH 2    /* the length modulo 256 */
#define CHHERBOLAT_REFUSAL_NON_COMPLIANT_DLC 3      /* the code modulo 256 */
#define CHHERBOLAT_REFUSAL_PATTERN_LENGTH 4         /* the first such pattern, from 0 */
#define CHHERBOLAT_REFUSAL_PATTERN_BYTE 5           /* its pattern, place and byte, as below */
#define CHHERBOLAT_REFUSAL_OUTPUT_TOO_SHORT 6       /* the length that is needed */
#define CHHERBOLAT_REFUSAL_FILTER_KIND 7            /* its offset in a file, its entry, or 0 */
#define CHHERBOLAT_REFUSAL_DRAIN_RUNS 8             /* 0 */
#define CHHERBOLAT_REFUSAL_NO_DRAIN_RUNS 9          /* 0 */
#define CHHERBOLAT_REFUSAL_BROKEN_STATE 10          /* 0 */
#define CHHERBOLAT_REFUSAL_FILE_ENDS 11             /* the offset of the field that is not whole */
#define CHHERBOLAT_REFUSAL_COUNT_ABOVE_LIMIT 12     /* its offset in a file, or its section */
#define CHHERBOLAT_REFUSAL_BYTES_AFTER_END 13       /* the offset of the first */
#define CHHERBOLAT_REFUSAL_WRONG_LENGTH 14          /* the argument from 0, a slice being one; or the section */
#define CHHERBOLAT_REFUSAL_EMPTY_LIST 15            /* 0 */

/* What the value of refusal 5 holds: the pattern, from 0 in the order of the arguments, the place inside it, from 0, and
   the byte found there. */
#define CHHERBOLAT_PATTERN_BYTE_FIELD(value) ((value) >> 16 & 0xFF)
#define CHHERBOLAT_PATTERN_BYTE_PLACE(value) ((value) >> 8 & 0xFF)
#define CHHERBOLAT_PATTERN_BYTE_FOUND(value) ((value) & 0xFF)

/* Lengths in bytes. */
#define CHHERBOLAT_FRAME_LENGTH 13
#define CHHERBOLAT_REGISTERS_LENGTH 8
#define CHHERBOLAT_STATE_LENGTH 1376

/* An identifier's bits, which are the characters of its pattern, and its limit. */
#define CHHERBOLAT_STANDARD_WIDTH 11
#define CHHERBOLAT_STANDARD_LIMIT 0x7FF
#define CHHERBOLAT_EXTENDED_WIDTH 29
#define CHHERBOLAT_EXTENDED_LIMIT 0x1FFFFFFF

/* A filter's kind. */
#define CHHERBOLAT_KIND_SINGLE 0
#define CHHERBOLAT_KIND_DUAL 1

/* What transmit, poll and receive give: an answer, a command, and whether the frame is in flight. */
#define CHHERBOLAT_DECISION_ANSWER(value) ((value) & 0xFF)
#define CHHERBOLAT_DECISION_COMMAND(value) ((value) >> 8 & 0xFF)
#define CHHERBOLAT_DECISION_IN_FLIGHT(value) ((value) >> 16 & 1)
#define CHHERBOLAT_ANSWER_DONE 0
#define CHHERBOLAT_ANSWER_WOULD_BLOCK 1
#define CHHERBOLAT_ANSWER_PENDING 2
#define CHHERBOLAT_ANSWER_BUS_OFF 3
#define CHHERBOLAT_ANSWER_TRANSMISSION_ABORTED 4
#define CHHERBOLAT_ANSWER_OVERRUN 5
#define CHHERBOLAT_COMMAND_NOTHING 0
#define CHHERBOLAT_COMMAND_ABORT 1
#define CHHERBOLAT_COMMAND_WRITE 2
#define CHHERBOLAT_COMMAND_READ_AND_RELEASE 3

/* The calls of the box's script: a call's first byte, its length, and its answer's length. */
#define CHHERBOLAT_CALL_ARRIVAL 1
#define CHHERBOLAT_CALL_ARRIVAL_LENGTH 14
#define CHHERBOLAT_CALL_ARRIVAL_ANSWER_LENGTH 2
#define CHHERBOLAT_CALL_TAKE 2
#define CHHERBOLAT_CALL_TAKE_LENGTH 1
#define CHHERBOLAT_CALL_TAKE_ANSWER_LENGTH 16
#define CHHERBOLAT_CALL_START 3
#define CHHERBOLAT_CALL_START_LENGTH 13
#define CHHERBOLAT_CALL_START_ANSWER_LENGTH 1
#define CHHERBOLAT_CALL_STEP 4
#define CHHERBOLAT_CALL_STEP_LENGTH 1
#define CHHERBOLAT_CALL_STEP_ANSWER_LENGTH 23
#define CHHERBOLAT_CALL_LOAD 5
#define CHHERBOLAT_CALL_LOAD_LENGTH 1377
#define CHHERBOLAT_CALL_LOAD_ANSWER_LENGTH 1
#define CHHERBOLAT_CALL_STATE 6
#define CHHERBOLAT_CALL_STATE_LENGTH 1
#define CHHERBOLAT_CALL_STATE_ANSWER_LENGTH CHHERBOLAT_STATE_LENGTH

/* The second byte of an arrival's answer; the first of a record; the second of a step's answer, and its third. */
#define CHHERBOLAT_ARRIVAL_WHOLE 0
#define CHHERBOLAT_ARRIVAL_MARK 1
#define CHHERBOLAT_ARRIVAL_NOT_RECORDED 2
#define CHHERBOLAT_RECORD_FRAME 0
#define CHHERBOLAT_RECORD_OVERRUN 1
#define CHHERBOLAT_RECORD_BUS_OFF 2
#define CHHERBOLAT_STEP_DONE 0
#define CHHERBOLAT_STEP_LOST 1
#define CHHERBOLAT_STEP_FINISHED 2
#define CHHERBOLAT_STEP_NOTHING 0
#define CHHERBOLAT_STEP_ABORT 1
#define CHHERBOLAT_STEP_RELEASE 2

/* Identifiers. */

/* Gives raw. Refuses 1 above 0x7FF. */
chherbolat_answer chherbolat_standard_id_new(uint16_t raw);
/* Gives raw. Refuses 1 above 0x1FFFFFFF. */
chherbolat_answer chherbolat_extended_id_new(uint32_t raw);
/* Gives the top 11 of its 29 bits. Refuses 1 above 0x1FFFFFFF. */
chherbolat_answer chherbolat_extended_id_standard_id(uint32_t raw);

/* Frames. A frame is its buffer of 13 bytes; any other length is refused with 14, before all else. */

/* Gives 13, and the buffer in frame. Refuses 14, 1, then 2 and 3 for data and code that make no frame. */
chherbolat_answer chherbolat_new_from_parameters(bool extended, uint32_t id, bool remote_request, bool self_reception,
                                                 size_t dlc, const uint8_t *data, size_t data_length, uint8_t *frame,
                                                 size_t frame_length);
/* The same by ISO 11898-1: a remote frame may have a code, 0 to 8, which asks for that many bytes. */
chherbolat_answer chherbolat_new_with_remote_length(bool extended, uint32_t id, bool remote_request,
                                                    bool self_reception, size_t dlc, const uint8_t *data,
                                                    size_t data_length, uint8_t *frame, size_t frame_length);
/* Gives 13, and the buffer of a data frame in frame. Refuses 14, 1, then 2 for data longer than 8. */
chherbolat_answer chherbolat_new(bool extended, uint32_t id, const uint8_t *data, size_t data_length, uint8_t *frame,
                                 size_t frame_length);
/* The same for a frame that its sender receives too. */
chherbolat_answer chherbolat_new_self_reception(bool extended, uint32_t id, const uint8_t *data, size_t data_length,
                                                uint8_t *frame, size_t frame_length);

/* Gives 1 or 0. Refuses 14. */
chherbolat_answer chherbolat_is_extended_format(const uint8_t *frame, size_t frame_length);
/* Gives 1 or 0. Refuses 14. */
chherbolat_answer chherbolat_is_remote_request(const uint8_t *frame, size_t frame_length);
/* Gives 1 or 0. Refuses 14. */
chherbolat_answer chherbolat_is_self_reception(const uint8_t *frame, size_t frame_length);
/* Gives 0 to 15. Refuses 14. */
chherbolat_answer chherbolat_data_length_code(const uint8_t *frame, size_t frame_length);
/* Gives 0 to 8. Refuses 14. */
chherbolat_answer chherbolat_data_length(const uint8_t *frame, size_t frame_length);
/* Gives 3 or 5. Refuses 14. */
chherbolat_answer chherbolat_data_offset(const uint8_t *frame, size_t frame_length);
/* Gives the identifier's number; its format is chherbolat_is_extended_format. Refuses 14. */
chherbolat_answer chherbolat_identifier(const uint8_t *frame, size_t frame_length);

/* Gives how many data bytes it wrote to the front of out. Refuses 14, then 6. */
chherbolat_answer chherbolat_data(const uint8_t *frame, size_t frame_length, uint8_t *out, size_t out_length);
/* Gives how many bytes of the frame are in use, which it wrote to the front of out. Refuses 14, then 6. */
chherbolat_answer chherbolat_as_slice(const uint8_t *frame, size_t frame_length, uint8_t *out, size_t out_length);

/* Filters. A pattern is characters `0`, `1` and `x`, one for each bit, the highest first. Each function gives 8, and
   the filter in registers, which are 8 bytes; any other length is refused with 14, before all else. */

/* 11, 1, 8 and 8 characters. Refuses 14, 4, then 5. */
chherbolat_answer chherbolat_single_standard_filter_new(const char *id, size_t id_length, const char *rtr,
                                                        size_t rtr_length, const char *first, size_t first_length,
                                                        const char *second, size_t second_length, uint8_t *registers,
                                                        size_t registers_length);
/* Refuses 14, then 1 for an id_code or id_mask above 0x7FF. */
chherbolat_answer chherbolat_single_standard_filter_new_from_code_mask(uint16_t id_code, uint16_t id_mask,
                                                                       bool rtr_code, bool rtr_mask, uint8_t first_code,
                                                                       uint8_t second_code, uint8_t first_mask,
                                                                       uint8_t second_mask, uint8_t *registers,
                                                                       size_t registers_length);
/* 29 and 1 characters. Refuses 14, 4, then 5. */
chherbolat_answer chherbolat_single_extended_filter_new(const char *id, size_t id_length, const char *rtr,
                                                        size_t rtr_length, uint8_t *registers, size_t registers_length);
/* Refuses 14, then 1 for an id_code or id_mask above 0x1FFFFFFF. */
chherbolat_answer chherbolat_single_extended_filter_new_from_code_mask(uint32_t id_code, uint32_t id_mask,
                                                                       bool rtr_code, bool rtr_mask, uint8_t *registers,
                                                                       size_t registers_length);
/* 11, 1, 8, 11 and 1 characters. Refuses 14, 4, then 5. */
chherbolat_answer chherbolat_dual_standard_filter_new(const char *first_id, size_t first_id_length,
                                                      const char *first_rtr, size_t first_rtr_length,
                                                      const char *first_payload, size_t first_payload_length,
                                                      const char *second_id, size_t second_id_length,
                                                      const char *second_rtr, size_t second_rtr_length,
                                                      uint8_t *registers, size_t registers_length);
/* Refuses 14, then 1 for a code or mask of an identifier above 0x7FF. */
chherbolat_answer chherbolat_dual_standard_filter_new_from_code_mask(uint16_t first_id_code, uint16_t first_id_mask,
                                                                     bool first_rtr_code, bool first_rtr_mask,
                                                                     uint8_t first_payload_code,
                                                                     uint8_t first_payload_mask,
                                                                     uint16_t second_id_code, uint16_t second_id_mask,
                                                                     bool second_rtr_code, bool second_rtr_mask,
                                                                     uint8_t *registers, size_t registers_length);
/* 16 and 16 characters. Refuses 14, 4, then 5. */
chherbolat_answer chherbolat_dual_extended_filter_new(const char *first, size_t first_length, const char *second,
                                                      size_t second_length, uint8_t *registers,
                                                      size_t registers_length);
/* Refuses 14. */
chherbolat_answer chherbolat_dual_extended_filter_new_from_code_mask(uint16_t first_code, uint16_t second_code,
                                                                     uint16_t first_mask, uint16_t second_mask,
                                                                     uint8_t *registers, size_t registers_length);

/* Gives how many identifiers get through, the identifier pattern in the front of pattern, and the filter in registers.
   Refuses 14, 15, 1 with the index, then 6 for a pattern shorter than 11 or 29. */
chherbolat_answer chherbolat_filter_from_list(bool extended, const uint32_t *list, size_t list_length, char *pattern,
                                              size_t pattern_length, uint8_t *registers, size_t registers_length);

/* Gives 1 if the filter accepts the frame, else 0. Refuses 14 for the registers, 14 for the frame, then 7. */
chherbolat_answer chherbolat_matcher_accepts(uint8_t kind, const uint8_t *registers, size_t registers_length,
                                             const uint8_t *frame, size_t frame_length);

/* Files of filters and frames (examples/README.md has the format). */

/* Gives the number of filters + 2^16 * the number of frames + 2^32 * where the filters start + 2^48 * where the frames
   start. Refuses 11, 12, 7 and 13, each with the offset. */
chherbolat_answer chherbolat_read_file(const uint8_t *file, size_t file_length);
/* Gives the file's length, and the file in the front of out. Filters are entries of 9 bytes, a kind and its registers;
   frames are entries of 13. Refuses 14, 12, 7, then 6. */
chherbolat_answer chherbolat_write_file(const uint8_t *filters, size_t filters_length, const uint8_t *frames,
                                        size_t frames_length, uint8_t *out, size_t out_length);
/* Gives the report's length, and its text in the front of out. Refuses 6; the text says if the file is refused. */
chherbolat_answer chherbolat_report(const uint8_t *file, size_t file_length, uint8_t *out, size_t out_length);

/* Decisions by the status word. */

/* Gives answer + 256 * command. Refuses nothing. */
chherbolat_answer chherbolat_transmit(uint32_t status, bool error_passive);
/* Gives answer + 256 * command, + 65536 where the frame is in flight after it. Refuses nothing. */
chherbolat_answer chherbolat_poll(uint32_t status, bool error_passive, bool in_flight);
/* Gives answer + 256 * command. Refuses nothing. */
chherbolat_answer chherbolat_receive(uint32_t status);

/* The box. Gives the number of calls of the script that were done, and their answers in the front of out; the box is
   fresh at the start. Refuses 6. */
chherbolat_answer chherbolat_box_script(const uint8_t *script, size_t script_length, uint8_t *out, size_t out_length);

#ifdef __cplusplus
}
#endif

#endif
