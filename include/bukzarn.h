/* The watch engine for C: the functions of libbukzarn.a.

   Build the library in the repository's root with
       (cd crates/bukzarn && rt lib)
   which writes crates/bukzarn/out/libbukzarn.a, for x86-64. It needs memcpy and memset and nothing else: no heap, no files,
   no global state, so calls from several threads at once are safe as long as the memory that they write is different.
   Recursion is at most 64 deep; docs/STATIONS.md has the stack that calls were measured to take.

   "Document 01" is the paper that decides layouts, numbers and limits; document 02 asks for changes, card by card. What
   bukzarn_run answers and leaves is the definition `called` in crates/call_spec/specs/Calls.antt, and the library is proved
   to meet it for every input; the other functions have such definitions too (crates/bukzarn/src names them). */
#ifndef BUKZARN_H
#define BUKZARN_H

#include <stddef.h>
#include <stdint.h>

#ifdef __cplusplus
extern "C" {
#endif

/* Lengths, in bytes. */
enum {
    BUKZARN_IMAGE_LIMIT = 16384,   /* longest image that can be accepted */
    BUKZARN_WORK_LENGTH = 35857,   /* published length of the work area */
    BUKZARN_REPORT_LENGTH = 17994, /* every report fits in this */
    BUKZARN_LOAD_LENGTH = 16384    /* least length of an output for a load */
};

/* The greatest depth of a load (document 02, card 12). */
enum { BUKZARN_LOAD_DEPTH = 9 };

/* How a run ended (document 01, "A run"; document 02, card 9). Bindings, cells and pieces are halved: one half is domain
   0's, the mainline's, the other that of all other domains together. */
enum bukzarn_outcome {
    BUKZARN_DONE = 0,
    BUKZARN_SPENT = 1,    /* the steps equal the budget, and the next step lacks no room */
    BUKZARN_ABORTED = 2,  /* the program aborted */
    BUKZARN_FRAMES = 3,   /* more than 512 unfinished terms */
    BUKZARN_BINDINGS = 4, /* domain 0's 1,024 */
    BUKZARN_CELLS = 5,    /* domain 0's 128 */
    BUKZARN_LABELS = 6,   /* 64 */
    BUKZARN_ADVICE = 7,   /* 64 installed at one time */
    BUKZARN_PIECES = 8,   /* domain 0's 256 */
    BUKZARN_LOG = 9,      /* a print found under 10 bytes left in the log */
    BUKZARN_OTHER_BINDINGS = 10, /* the other domains' 1,024 */
    BUKZARN_OTHER_CELLS = 11,    /* the other domains' 128 */
    BUKZARN_OTHER_PIECES = 12    /* the other domains' 256 */
};

/* Why a call is refused (document 01, "Turned back at the gate"; document 02). The place is an offset in the image, or
   0, or the image's length, as said here. */
enum bukzarn_refusal {
    BUKZARN_ACCEPTED = 0,
    BUKZARN_IMAGE_TOO_LONG = 1,    /* over 16,384 bytes; place 0 */
    BUKZARN_BROKEN_RECORD = 2,     /* 1 to 3 bytes left, a length under 4 or past the end; the record */
    BUKZARN_UNKNOWN_KIND = 3,      /* the record */
    BUKZARN_WRONG_LENGTH = 4,      /* too short, or a pointcut, object, its type or match of wrong length; the record */
    BUKZARN_SECTION_ORDER = 5,     /* the record */
    BUKZARN_TOO_MANY_RECORDS = 6,  /* in one section; the record */
    BUKZARN_FIELD_RANGE = 7,       /* a type, child, domain, op, truth, entry or close out of range; the record */
    BUKZARN_REPEATED_TYPE = 8,     /* the later record */
    BUKZARN_EMPTY_SECTION = 9,     /* the image's length */
    BUKZARN_DOMAIN_ORDER = 10,     /* the first domain at fault */
    BUKZARN_USE_COUNT = 11,        /* the first term, other than the root, not used exactly once */
    BUKZARN_TOO_DEEP = 12,         /* the first term deeper than 64 */
    BUKZARN_UNBOUND_VARIABLE = 13, /* the record */
    BUKZARN_TYPE_RULE = 14,        /* the record */
    BUKZARN_DOMAIN_RULE = 15,      /* the record */
    BUKZARN_ROOT_NOT_PLAIN = 16,   /* the root */
    BUKZARN_SHORT_WORK_AREA = 17,  /* place 0 */
    BUKZARN_SHORT_REPORT = 18,     /* place 0 */
    BUKZARN_OUTSIDE_CLASS = 19,    /* of bukzarn_need alone; the lowest term that is outside its class */
    BUKZARN_SHORT_OUTPUT = 20,     /* of bukzarn_fixed alone; place 0 */
    BUKZARN_WRONG_DEPTH = 21,      /* of bukzarn_load alone: a depth of 0 or over 9; place 0 */
    BUKZARN_SHORT_LOAD = 22,       /* of bukzarn_load alone: an output under 16,384 bytes; place 0 */
    BUKZARN_WRONG_SET = 23,        /* of bukzarn_strip alone: no set of high domains; place 0 */
    BUKZARN_SHORT_STRIPPED_OUTPUT = 24, /* of bukzarn_strip alone; place 0 */
    BUKZARN_TOO_FEW_PLACES = 25    /* of bukzarn_need alone: fewer than BUKZARN_NEEDS places; place 0 */
};

/* Kinds of the records in log and report. A record is its length in bytes, its kind, then its fields; all are
   unsigned, 16 bits, little-endian, but for numbers and steps, which are 4 bytes, little-endian (a number in two's
   complement). */
enum bukzarn_record {
    BUKZARN_PRINTED = 64,    /* 10 bytes, log: domain, number */
    BUKZARN_UNIT = 65,       /* 4 bytes, a leaf */
    BUKZARN_TRUTH = 66,      /* 6 bytes, a leaf: 0 or 1 */
    BUKZARN_NUMBER = 67,     /* 8 bytes, a leaf: number */
    BUKZARN_PLAIN_CELL = 68, /* its domain, then its leaves inside its length */
    BUKZARN_OTHER_CELL = 69, /* 6 bytes: its domain */
    BUKZARN_REPORT = 70      /* 10 bytes, first in the report: outcome, steps */
};

/* One call: accepts or refuses the image, and runs an accepted one over the frame for at most `budget` steps.

   Lent: five parts, each a pointer and a length in bytes. Every pointer is to that many bytes and not NULL, also where
   the length is 0. `image` and `frame` are only read. `log`, `report` and `work` are written; none of them overlaps any
   other part. Every length and every content is allowed: a report shorter than BUKZARN_REPORT_LENGTH or a work area
   shorter than BUKZARN_WORK_LENGTH is refused, and no log is too short to start.

   Answered, one number (take it apart with the functions below):
     of a run      the bytes written to the report, which are never 0, plus 2^16 times the bytes written to the log;
     of a refusal  2^16 times its number plus 2^24 times its place; its low 16 bits are 0.

   Left by a run: the log begins with the written records, one of 10 bytes for each number printed, in order; the report
   begins with the record of outcome and steps, then, if the outcome is done, the leaves of the result, then, done or
   not, each cell in order of creation. Bytes of log and report past the written ones are unchanged. The work area is
   zero over BUKZARN_WORK_LENGTH bytes and unchanged past them.

   Left by a refusal: all lent memory as it was. */
uint64_t bukzarn_run(const uint8_t *image, size_t image_length,
                     const uint8_t *frame, size_t frame_length,
                     uint32_t budget,
                     uint8_t *log, size_t log_length,
                     uint8_t *report, size_t report_length,
                     uint8_t *work, size_t work_length);

/* One call for each of `count` frames, one after another, with one check of the image for all of them, which saves most
   of the time of short runs (docs/STATIONS.md has when to use it).

   Lent: as to bukzarn_run, with a place of `numbers` for each answer; none of what is written overlaps any other part.
   `frames`, `logs` and `reports` are each cut into `count` equal parts, of their length divided by `count`, rounded down;
   the bytes that are left over at the end belong to no part. Call i runs the image over part i of the frames, with part i
   of the logs and part i of the reports; all share the work area. So a part of the reports is refused if it is shorter
   than BUKZARN_REPORT_LENGTH, and frames may have no bytes. Every length and every content is allowed.

   Answered, and left: numbers[i] is what bukzarn_run would answer of call i (bukzarn_is_run and the other functions below
   take it apart), and logs, reports and work area are left as by these calls. If the call is refused, every number is the
   same, and nothing else is written. Where `count` is 0, nothing happens. */
void bukzarn_run_frames(const uint8_t *image, size_t image_length,
                        const uint8_t *frames, size_t frames_length,
                        uint32_t budget,
                        uint8_t *logs, size_t logs_length,
                        uint8_t *reports, size_t reports_length,
                        uint64_t *numbers, size_t count,
                        uint8_t *work, size_t work_length);

/* The verdict on an image that would be run with a work area and a report of so many bytes, without a run: 0 if the
   call would run, else what bukzarn_run would answer of its refusal (bukzarn_refusal_number, bukzarn_place). Only reads
   the image. */
uint64_t bukzarn_validate(const uint8_t *image, size_t image_length, size_t work_length, size_t report_length);

/* The numbers of bukzarn_need (document 02, card 10), by their places. */
enum bukzarn_need_number {
    BUKZARN_NEED_STEPS,
    BUKZARN_NEED_BINDINGS,       /* of domain 0's half */
    BUKZARN_NEED_OTHER_BINDINGS, /* of the half of all other domains */
    BUKZARN_NEED_PIECES,
    BUKZARN_NEED_OTHER_PIECES,
    BUKZARN_NEED_CELLS,
    BUKZARN_NEED_OTHER_CELLS,
    BUKZARN_NEED_LABELS,
    BUKZARN_NEED_ADVICE, /* places of installed advice */
    BUKZARN_NEED_FRAMES, /* unfinished terms around a term that is reduced */
    BUKZARN_NEED_LOG,    /* log records, of 10 bytes each */
    BUKZARN_NEEDS        /* how many numbers there are */
};

/* What any run of the image uses at most, whatever the frame, the budget and the log, without a run. Answers 0, and
   writes the numbers to the first BUKZARN_NEEDS places; or refuses: with 1 to 16 if the check refuses the image, else
   with 19 if the image has an apply, a call, an install that does not stand directly over an advice, or a mark or an
   install in the body of an advice, else with 25 if there are fewer places. Of a refusal the numbers are as they were, and the answer is 2^16 times
   its number plus 2^24 times its place (bukzarn_refusal_number, bukzarn_place). Where every number is within the
   engine's room, the steps within the budget, and 10 times the log records within the log, a run is done or aborted.
   The image is only read, and does not overlap the numbers. */
uint64_t bukzarn_need(const uint8_t *image, size_t image_length, uint32_t *numbers, size_t count);

/* Writes the fixed form of the image (document 02, card 11) over the front of the output: of two accepted images it is
   the same bytes exactly if they have the same domains and the same program. It is never longer than the image.

   Answers how many bytes were written, which are never 0 (bukzarn_image_bytes); or of a refusal 2^16 times
   its number plus 2^24 times its place: 1 to 16 if the check refuses the image, then 20 if the output is shorter than the
   image. Output past what was written is unchanged; of a refusal all of it is. Every length and every content is allowed.
   The image is only read, and does not overlap the output. */
uint64_t bukzarn_fixed(const uint8_t *image, size_t image_length, uint8_t *output, size_t output_length);

/* Writes the image of a seed and a depth over the front of the output (document 02, card 12): a load that is the same
   wherever it is made. Answers its length in bytes, which is never 0 (bukzarn_image_bytes); or of a refusal 2^16 times
   its number: 21 if the depth is 0 or over BUKZARN_LOAD_DEPTH, then 22 if the output is shorter than
   BUKZARN_LOAD_LENGTH. Bytes past the image are unchanged, and of a refusal all are. Every image is accepted, and has at
   most 6,146 bytes. */
uint64_t bukzarn_load(uint32_t seed, size_t depth, uint8_t *output, size_t output_length);

/* Writes the image without its watches (document 02, card 13) over the front of the output: bit p of `high` is set for
   each domain p that is kept, and every body of a lower or an advice at another domain gives way to unit, in the fixed
   form. The result is always accepted, and never longer than the image.

   Answers as bukzarn_fixed does; refused are, after the check's 1 to 16, with 23 a set that lacks domain 0, names an
   absent domain, or lacks a domain above a member, then with 24 an output shorter than the image. */
uint64_t bukzarn_strip(const uint8_t *image, size_t image_length, uint16_t high, uint8_t *output,
                       size_t output_length);

/* Is this the answer of a run, not of a refusal? */
static inline int bukzarn_is_run(uint64_t answer)
{
    return (answer & 0xFFFFu) != 0;
}

/* Of a run: the bytes written to the report. */
static inline size_t bukzarn_report_bytes(uint64_t answer)
{
    return (size_t)(answer & 0xFFFFu);
}

/* Of a call that writes an image: the bytes written; 0 of a refusal. */
static inline size_t bukzarn_image_bytes(uint64_t answer)
{
    return (size_t)(answer & 0xFFFFu);
}

/* Of a run: the bytes written to the log. */
static inline size_t bukzarn_log_bytes(uint64_t answer)
{
    return (size_t)(answer >> 16);
}

/* The number of a refusal; BUKZARN_ACCEPTED for the answer of a call that was not refused. */
static inline enum bukzarn_refusal bukzarn_refusal_number(uint64_t answer)
{
    return bukzarn_is_run(answer) ? BUKZARN_ACCEPTED : (enum bukzarn_refusal)((answer >> 16) & 0xFFu);
}

/* Of a refusal: its place. */
static inline size_t bukzarn_place(uint64_t answer)
{
    return (size_t)(answer >> 24);
}

/* A 16-bit field at a byte of log or report. */
static inline uint16_t bukzarn_word(const uint8_t *at)
{
    return (uint16_t)(at[0] | (uint16_t)(at[1] << 8));
}

/* A count of steps, or the bits of a number. */
static inline uint32_t bukzarn_double_word(const uint8_t *at)
{
    return (uint32_t)bukzarn_word(at) | ((uint32_t)bukzarn_word(at + 2) << 16);
}

/* A printed or reported number. */
static inline int32_t bukzarn_number(const uint8_t *at)
{
    uint32_t bits = bukzarn_double_word(at);
    return bits <= INT32_MAX ? (int32_t)bits : (int32_t)(bits - 0x80000000u) + INT32_MIN;
}

/* How the run that wrote this report ended. */
static inline enum bukzarn_outcome bukzarn_outcome_of(const uint8_t *report)
{
    return (enum bukzarn_outcome)bukzarn_word(report + 4);
}

/* The steps of the run that wrote this report. */
static inline uint32_t bukzarn_steps_of(const uint8_t *report)
{
    return bukzarn_double_word(report + 6);
}

#ifdef __cplusplus
}
#endif

#endif
