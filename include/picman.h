/* The proved picture manager for C and C++, on memory that the caller lends.
 *
 *   1. The running machine: a struct of 6,400 bytes on which every call works in place. Use this to keep pictures.
 *   2. The image: a machine as 6,407 bytes, big-endian, the form for exchange and comparison.
 *   3. The depth tables and the group planner.
 *   4. Answer lines read and call lines written.
 *
 * The library allocates nothing, keeps no pointer and has no state of its own. It calls memcpy and memset, which the
 * compiler puts in, and nothing else. No pointer may be null, and what a call writes may overlap nothing else that it is
 * given. Two threads may not use one machine at once. */
#ifndef PICMAN_H
#define PICMAN_H

#include <stddef.h>
#include <stdint.h>

#ifdef __cplusplus
extern "C" {
#endif

/* What a call comes to. The refusals are 1 to 20 but 10 and 12, which are withdrawn and not used again. Under a refusal no
 * machine, image, reason, plan or record of derivations and no target of the writer has changed. Two things may be written
 * all the same: the answer line of a call by bytes, and what picman_read_answer shows of a bad line. */
enum picman_status {
    PICMAN_DONE = 0,
    PICMAN_SIZE_TOO_BIG = 1,
    PICMAN_STORE_FULL = 2,
    PICMAN_PICTURE_LEASED = 3,
    PICMAN_NO_LEASE = 4,
    PICMAN_SLOT_TAKEN = 5,
    PICMAN_NUMBER_TOO_HIGH = 6,
    PICMAN_STATE_NOT_WHOLE = 7,
    PICMAN_TOO_MANY_REFERENCES = 8,
    PICMAN_NO_REFERENCES = 9,
    PICMAN_FORWARD_LIST_EMPTY = 11,
    PICMAN_SAME_NUMBER = 13,
    PICMAN_NO_SUCH_PLACE = 14,
    PICMAN_BAD_LAYER = 15,
    PICMAN_BAD_RECORD = 16,
    PICMAN_BAD_LENGTH = 17,
    PICMAN_BAD = 18,      /* a size, a flag byte or a call that does not fit; reading: no answer line */
    PICMAN_BAD_PLAN = 19, /* the planner alone */
    PICMAN_NO_ROOM = 20,  /* the writer of call lines alone */
    PICMAN_NOT_YET = 0x40, /* out: a picture is wanted and none is due */
    PICMAN_NO_MORE = 0x41  /* out: no picture is wanted; reading: no line is left */
};

#define PICMAN_SLOTS 27
#define PICMAN_PLACES 21
#define PICMAN_ROWS 73
#define PICMAN_REGISTERS 13
#define PICMAN_IMAGE 6407
#define PICMAN_ANSWER 8
#define PICMAN_ENTRY 90
#define PICMAN_RECORD 12
#define PICMAN_PLAN 7
#define PICMAN_READ 15
#define PICMAN_LONGEST_LINE 27
#define PICMAN_REASON 2

/* ---- 1. The running machine ------------------------------------------------------------------------------------------ */

/* All zero is the new machine. Any bits may stand in it: every call ends, and a call that reads the state gives
 * PICMAN_STATE_NOT_WHOLE where it is not whole, and leaves the machine as it was. The others are a derivation, which reads
 * the record alone, a copy, which reads the lists alone, a reset and a load; and what is turned down with 18 is so before
 * the state is read. A state is whole when
 *   - an empty slot is 0, a full one holds a number up to 2,147,483,647 and a buffer up to 26 that no other one and not the
 *     lease holds; the lease likewise;
 *   - max_pb_size is at most 27, max_num_ref_pics and both list counts at most 21;
 *   - cur_pb_size counts the full slots and cur_num_ref_pics the marked ones.
 * Calls keep it so. A program may read every field; it has no need to write one. (The last seven registers are counts of a
 * byte: a number over 255 is read as 255, and a call that is not turned down may write it so.)
 *
 * A call that is turned down changes no bit. An accepted one keeps every row of a buffer but that of the picture in its
 * answer, and unless it is a list call every row of the lists; a copy writes its entry and nothing else. What the library's
 * promise leaves open: after a list call and a load, bits 9 to 31 of the entries' head words, in rows 27 and 28; after a load
 * the rows of buffers that no picture of the image is in; and counts over 255, which a call may write back as 255. */
typedef struct picman_machine {
    /* Slot i: number << 16 | layer << 8 | buffer << 3 | wanted << 2 | marked << 1 | 1, and 0 where it is empty. */
    uint64_t keys[PICMAN_SLOTS];
    /* Rows 0 to 26: the list numbers of the picture in buffer 0 to 26. 27 and 28: the head words of the 21 forward and of
     * the 21 backward entries, each 2 * buffer + flag, with flag 1 where the entry holds a picture and else 0. 29 and 30:
     * the entries' numbers. 31 to 51 and 52 to 72: the list numbers of each forward and of each backward entry. */
    uint32_t rows[PICMAN_ROWS][PICMAN_PLACES];
    uint32_t registers[PICMAN_REGISTERS];
} picman_machine;

/* The registers by place. The lease is a key as in a slot, 0 where there is none, in two halves. */
enum picman_register {
    PICMAN_LEASE_LOW,
    PICMAN_LEASE_HIGH,
    PICMAN_POC_NEXT_OUTPUT,
    PICMAN_POC_VAL,         /* these three are the record of derivations; */
    PICMAN_PREV_POC_VAL,
    PICMAN_PREV_DOC_OFFSET, /* the first and the last in two's complement */
    PICMAN_MAX_PB_SIZE,
    PICMAN_MAX_NUM_REF_PICS,
    PICMAN_CUR_PB_SIZE,
    PICMAN_CUR_NUM_REF_PICS,
    PICMAN_NUM_REFP_0,
    PICMAN_NUM_REFP_1,
    PICMAN_POC_INCREASE
};

/* An answer: the status in bits 0 to 7, the buffer number (0xff where there is none) in bits 8 to 15, the value in bits 32
 * to 63. The value is the picture number of a get, a put and an out, forward count * 256 + backward count of a list call,
 * the signed number of a derivation, and else 0. */
typedef uint64_t picman_answer;

#define PICMAN_STATUS(answer) ((uint8_t)(answer))
#define PICMAN_BUFFER(answer) ((uint8_t)((answer) >> 8))
#define PICMAN_VALUE(answer) ((uint32_t)((answer) >> 32))
#define PICMAN_FORWARD(answer) ((uint8_t)((answer) >> 40))
#define PICMAN_BACKWARD(answer) ((uint8_t)((answer) >> 32))
#define PICMAN_NUMBER(answer) ((int32_t)PICMAN_VALUE(answer))

/* A put's flags. */
#define PICMAN_IDR 1
#define PICMAN_WANTED 2
#define PICMAN_REFERENCE 4
#define PICMAN_NO_PICTURE 8

/* Slice types; any other number is an unknown one. */
#define PICMAN_SLICE_I 1
#define PICMAN_SLICE_P 2
#define PICMAN_SLICE_B 3

/* Why a picture is or is not in the forward list: the first byte of a reason. The second is the place of a picture that is
 * taken, counted from 0, and else 0. The earliest of the row that holds is given, and slice I alone gets the last. */
enum picman_reason {
    PICMAN_TAKEN = 0,
    PICMAN_NOT_MARKED = 1,
    PICMAN_LIST_FULL = 2,        /* before the picture's turn */
    PICMAN_OLD = 3,
    PICMAN_CURRENT_NUMBER = 4,   /* the same number as the current picture's */
    PICMAN_OTHER_SIDE = 5,       /* the slice type does not take that side */
    PICMAN_LAYER_OVER_BOUND = 6, /* at the picture's turn */
    PICMAN_NO_LIST_ASKED = 7     /* slice I */
};

/* What the library defines: each array is a pointer and its length, 27, 1,533 and 13 (21 for list_poc, 8 for an answer's
 * bytes, 2 for a reason, 6,407 for an image). Where a length is another they give 18 (as an answer: status 18, no buffer,
 * value 0) and write nothing at all, an answer's bytes and an image neither. The functions below this block pass the
 * lengths. */
uint8_t picman_machine_new(uint64_t *keys, size_t keys_len, uint32_t *rows, size_t rows_len, uint32_t *registers,
                           size_t registers_len);
picman_answer picman_machine_init(uint64_t *keys, size_t keys_len, uint32_t *rows, size_t rows_len, uint32_t *registers,
                                  size_t registers_len, uint8_t max_pb_size, uint8_t max_num_ref_pics);
picman_answer picman_machine_get(uint64_t *keys, size_t keys_len, uint32_t *rows, size_t rows_len, uint32_t *registers,
                                 size_t registers_len);
picman_answer picman_machine_put(uint64_t *keys, size_t keys_len, uint32_t *rows, size_t rows_len, uint32_t *registers,
                                 size_t registers_len, uint8_t flags, uint32_t poc, uint8_t temporal_id,
                                 uint32_t ref_pic_gap_length);
picman_answer picman_machine_out(uint64_t *keys, size_t keys_len, uint32_t *rows, size_t rows_len, uint32_t *registers,
                                 size_t registers_len);
picman_answer picman_machine_lists(uint64_t *keys, size_t keys_len, uint32_t *rows, size_t rows_len, uint32_t *registers,
                                   size_t registers_len, uint8_t slice_type, uint32_t poc, uint8_t layer_id,
                                   uint32_t last_intra, uint8_t max_num_ref_pics);
picman_answer picman_machine_derive(uint64_t *keys, size_t keys_len, uint32_t *rows, size_t rows_len, uint32_t *registers,
                                    size_t registers_len, uint8_t log2_sub_gop_length, uint8_t tid);
uint8_t picman_machine_copy(uint32_t *rows, size_t rows_len, uint64_t cnt, uint64_t lidx, uint8_t present, uint8_t buf,
                            uint32_t poc, const uint32_t *list_poc, size_t list_poc_len);
uint8_t picman_machine_call(uint64_t *keys, size_t keys_len, uint32_t *rows, size_t rows_len, uint32_t *registers,
                            size_t registers_len, const uint8_t *call, size_t call_len, uint8_t *answer,
                            size_t answer_len);
uint8_t picman_machine_load(uint64_t *keys, size_t keys_len, uint32_t *rows, size_t rows_len, uint32_t *registers,
                            size_t registers_len, const uint8_t *image, size_t image_len);
uint8_t picman_machine_save(const uint64_t *keys, size_t keys_len, const uint32_t *rows, size_t rows_len,
                            const uint32_t *registers, size_t registers_len, uint8_t *image, size_t image_len);
uint8_t picman_machine_why(const uint64_t *keys, size_t keys_len, const uint32_t *rows, size_t rows_len,
                           const uint32_t *registers, size_t registers_len, const uint8_t *call, size_t call_len,
                           uint8_t slot, uint8_t *reason, size_t reason_len);

#define PICMAN_PARTS(m) \
    (m)->keys, PICMAN_SLOTS, &(m)->rows[0][0], PICMAN_ROWS *PICMAN_PLACES, (m)->registers, PICMAN_REGISTERS

/* The new machine, whatever stood there: 0. It is all zero, so a machine may also begin as `picman_machine m = {0};`. */
static inline uint8_t picman_reset(picman_machine *m) { return picman_machine_new(PICMAN_PARTS(m)); }

/* Sets the limits of the store and its references, and gives up the lease; 1 where the one is over 27 or the other over 21. */
static inline picman_answer picman_init(picman_machine *m, uint8_t max_pb_size, uint8_t max_num_ref_pics) {
    return picman_machine_init(PICMAN_PARTS(m), max_pb_size, max_num_ref_pics);
}

/* Leases a picture, the idle one in the lowest slot as it is, else a new one with number 0: its buffer and number. */
static inline picman_answer picman_get(picman_machine *m) { return picman_machine_get(PICMAN_PARTS(m)); }

/* Marks, and puts the leased picture into the store (without PICMAN_NO_PICTURE): its buffer and number. Flags over 15 are
 * turned down with 18, as a call line with them is: nothing is written. */
static inline picman_answer picman_put(picman_machine *m, uint8_t flags, uint32_t poc, uint8_t temporal_id,
                                       uint32_t ref_pic_gap_length) {
    return picman_machine_put(PICMAN_PARTS(m), flags, poc, temporal_id, ref_pic_gap_length);
}

/* The next picture for output: its buffer and number, or PICMAN_NOT_YET, or PICMAN_NO_MORE. */
static inline picman_answer picman_out(picman_machine *m) { return picman_machine_out(PICMAN_PARTS(m)); }

/* Builds the reference lists of a slice: both counts. */
static inline picman_answer picman_lists(picman_machine *m, uint8_t slice_type, uint32_t poc, uint8_t layer_id,
                                         int32_t last_intra, uint8_t max_num_ref_pics) {
    return picman_machine_lists(PICMAN_PARTS(m), slice_type, poc, layer_id, (uint32_t)last_intra, max_num_ref_pics);
}

/* Derives the number of the next picture of a layer in a group of 2^log2_sub_gop_length. It has to do with the record alone,
 * so it also works where the state is not whole. */
static inline picman_answer picman_derive(picman_machine *m, uint8_t log2_sub_gop_length, uint8_t tid) {
    return picman_machine_derive(PICMAN_PARTS(m), log2_sub_gop_length, tid);
}

/* Writes an entry at place cnt of list lidx (0 forward, 1 backward): 0; 13 where its number stands among the first cnt
 * entries there, 14 where there is no such place, 18 where `present` is neither 0 nor 1. Only 0 has written. It has to do
 * with the lists alone, so it also works where the state is not whole. */
static inline uint8_t picman_copy(picman_machine *m, uint64_t cnt, uint64_t lidx, uint8_t present, uint8_t buf, uint32_t poc,
                                  const uint32_t list_poc[PICMAN_PLACES]) {
    return picman_machine_copy(&m->rows[0][0], PICMAN_ROWS * PICMAN_PLACES, cnt, lidx, present, buf, poc, list_poc,
                               PICMAN_PLACES);
}

/* One call from the bytes of a call line, check byte too, not in hex. Writes the 8 bytes of the answer line (the call's byte,
 * 0 for a bad call; the status; the buffer number, 0xff where there is none; the value, 4 bytes, highest first; and the check
 * byte, which makes the sum of all eight 0), always, and gives its status; bytes that are no call are answered as a bad line
 * is, 18, and the machine stays as it was. */
static inline uint8_t picman_call_bytes(picman_machine *m, const uint8_t *call, size_t call_len,
                                        uint8_t answer[PICMAN_ANSWER]) {
    return picman_machine_call(PICMAN_PARTS(m), call, call_len, answer, PICMAN_ANSWER);
}

/* Why the picture of a slot is or is not in the forward list of a list call, given by the bytes of its line, check byte too,
 * not in hex: 0 and the two bytes of the reason. The list call's refusals come first, then 14 where the slot is empty or
 * missing; 18 where the bytes are no list call. A refusal writes nothing, and the machine never changes. */
static inline uint8_t picman_why_bytes(const picman_machine *m, const uint8_t *call, size_t call_len, uint8_t slot,
                                       uint8_t reason[PICMAN_REASON]) {
    return picman_machine_why(PICMAN_PARTS(m), call, call_len, slot, reason, PICMAN_REASON);
}

/* The machine of an image: 0. Where a flag byte of the image is neither 0 nor 1 it gives 18, and where the image's state is
 * not whole 7; the machine then stays as it was. Rows of buffers that no picture of the image is in are left open. */
static inline uint8_t picman_load(picman_machine *m, const uint8_t image[PICMAN_IMAGE]) {
    return picman_machine_load(PICMAN_PARTS(m), image, PICMAN_IMAGE);
}

/* The image of a machine: 0. Where the state is not whole it gives 7, and the image stays as it was. */
static inline uint8_t picman_save(const picman_machine *m, uint8_t image[PICMAN_IMAGE]) {
    return picman_machine_save(PICMAN_PARTS(m), image, PICMAN_IMAGE);
}

/* ---- 2. The image ---------------------------------------------------------------------------------------------------- */

/* An image holds a machine, big-endian: 27 slots and then the lease, 93 bytes each (present, buffer number, is_ref,
 * need_for_out, temporal_id, poc 4, list_poc 21 x 4); max_pb_size, max_num_ref_pics, cur_pb_size, cur_num_ref_pics,
 * num_refp[0], num_refp[1], poc_next_output 4, poc_increase; 42 list entries, forward first, 90 bytes each (present, buffer
 * number, poc 4, list_poc 21 x 4); poc_val 4, prev_poc_val 4, prev_doc_offset 4. It can also say states that keys cannot, none
 * of them whole, such as an empty slot with list numbers.
 *
 * picman_new, picman_call, picman_copy_refp and picman_why are what the library defines; picman_image_* pass the lengths.
 * Calls on an image convert it both ways: they are for comparison, not for speed. */
uint8_t picman_new(uint8_t *image, size_t len);
uint8_t picman_call(uint8_t *image, size_t len, const uint8_t *call, size_t call_len, uint8_t *answer, size_t answer_len);
uint8_t picman_copy_refp(uint8_t *image, size_t len, uint64_t cnt, uint64_t lidx, const uint8_t *entry, size_t entry_len);
uint8_t picman_why(const uint8_t *image, size_t len, const uint8_t *call, size_t call_len, uint8_t slot, uint8_t *reason,
                   size_t reason_len);

/* Writes the new machine, whatever the image held: 0. A wrong length gives 18 and nothing is written. */
static inline uint8_t picman_image_new(uint8_t image[PICMAN_IMAGE]) { return picman_new(image, PICMAN_IMAGE); }

/* One call, as picman_call_bytes. There are two ways to 18: bytes that are no call are answered, with status 18 in the
 * answer and the image as it was; where a flag byte of the image is neither 0 nor 1 (or a length is wrong, in picman_call)
 * nothing is written, the answer neither. So set the answer before the call, or test the image once. */
static inline uint8_t picman_image_call(uint8_t image[PICMAN_IMAGE], const uint8_t *call, size_t call_len,
                                        uint8_t answer[PICMAN_ANSWER]) {
    return picman_call(image, PICMAN_IMAGE, call, call_len, answer, PICMAN_ANSWER);
}

/* As picman_copy, with the 90 bytes of an entry. 18 where a flag byte of the image or the entry is neither 0 nor 1 (or a
 * length is wrong, in picman_copy_refp): nothing is written. */
static inline uint8_t picman_image_copy_refp(uint8_t image[PICMAN_IMAGE], uint64_t cnt, uint64_t lidx,
                                             const uint8_t entry[PICMAN_ENTRY]) {
    return picman_copy_refp(image, PICMAN_IMAGE, cnt, lidx, entry, PICMAN_ENTRY);
}

/* As picman_why_bytes. 18 where a flag byte of the image is neither 0 nor 1 or the bytes are no list call (or a length is
 * wrong, in picman_why): nothing is written. The image never changes. */
static inline uint8_t picman_image_why(const uint8_t image[PICMAN_IMAGE], const uint8_t *call, size_t call_len, uint8_t slot,
                                       uint8_t reason[PICMAN_REASON]) {
    return picman_why(image, PICMAN_IMAGE, call, call_len, slot, reason, PICMAN_REASON);
}

/* ---- 3. The depth tables and the group planner ------------------------------------------------------------------------ */

/* The depth at a position of a group with a hierarchy of B slices, and of a group of P slices; 0 where there is none. */
uint8_t picman_slice_depth(uint64_t length, uint64_t position);
uint8_t picman_slice_depth_p(uint64_t length, uint64_t position);

/* Plans one picture: 0, or 18 where record_len is another than PICMAN_RECORD, plan_len another than PICMAN_PLAN, or hierarchy
 * neither 0 nor 1, then 17 for a length other than 2, 4, 8 and 16, then 19 for a bad plan (inter neither 2 nor 3, a count
 * over 2,147,483,647, or without the hierarchy a count below the length that is neither 0 nor a key picture), then 16 or 6
 * where a number is derived. interval is the key interval, 0 for none; inter the slice type between, 2 for P and 3 for B.
 * record, big-endian (poc_val 4, prev_poc_val 4, prev_doc_offset 4), is read and written; plan gets slice type, depth,
 * reference flag and number 4. A refusal writes nothing. */
uint8_t picman_plan(uint64_t count, uint64_t length, uint64_t interval, uint8_t inter, uint8_t hierarchy,
                    uint8_t *record, size_t record_len, uint8_t *plan, size_t plan_len);

/* ---- 4. Answer lines read and call lines written ---------------------------------------------------------------------- */

/* What the library defines; picman_read passes record's length. Where record_len is another than PICMAN_READ it gives
 * PICMAN_BAD and writes nothing, so that going on at the place in record would never end. */
uint8_t picman_read_answer(const uint8_t *lines, size_t len, uint64_t at, uint8_t *record, size_t record_len);

/* What stands at a place, counted from 0, of a buffer of answer lines. Begin at 0 and go on at the place that was written:
 * that gives every line, in order. 0 where the line that begins there is an answer, any eight bytes that sum to zero in
 * lower-case hex; PICMAN_BAD where it is none; PICMAN_NO_MORE at the end or past it. record is written in all three cases:
 * the seven field bytes (call, status, buffer number, value 4), zero where there is no answer, and then the next place, 8
 * bytes big-endian: behind the newline that ends the line, the end of the buffer where none does, and `at` itself where there
 * is no more. A newline ends a line and nothing else does; the last line may lack it. */
static inline uint8_t picman_read(const uint8_t *lines, size_t len, uint64_t at, uint8_t record[PICMAN_READ]) {
    return picman_read_answer(lines, len, at, record, PICMAN_READ);
}

/* What the writer gives: the status in bits 0 to 7 (PICMAN_STATUS) and, where that is 0, the length of the line, newline
 * counted, in the bits above. Under a refusal the length is 0. */
typedef uint32_t picman_written;

#define PICMAN_LENGTH(written) ((size_t)((written) >> 8))

/* Writes the line of a call, newline last, at the front of target, and no byte behind it: 0 and the line's length,
 * PICMAN_LONGEST_LINE at most. fields are the call byte and its fields, without a check byte. PICMAN_BAD where they are no
 * call, a put with flags over 15 too; then PICMAN_NO_ROOM where target is shorter than the line. Neither writes anything. */
picman_written picman_write_call(const uint8_t *fields, size_t fields_len, uint8_t *target, size_t target_len);

#ifdef __cplusplus
}
#endif

#endif
