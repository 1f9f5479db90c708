/* hintcheck: checks the hint programs of TrueType fonts before an interpreter runs them.
 *
 * A font is handed in as bytes, or as a face of a font collection, and the answer says whether its font program ('fpgm'), its CVT program
 * ('prep') and each of its glyph programs keep to the limits that its 'maxp' table declares. A hintcheck_request says what is asked: the
 * font, the face, the profile, and how much may be done.
 *
 * Where hintcheck_verdict or hintcheck_check answers HINTCHECK_ACCEPTED by the strict profile, no run of any of these programs reaches a
 * fault of the hint machine: no stack underflow, no stack above maxStackElements, no CVT, storage, function, zone, contour or point number
 * out of range, and no step outside the program's bytes. That is proved, for every font and every certificate
 * (crates/hintcheck_c/src/lib.rt, the clauses `accepted`), and so is the rest of the answer, except that `steps` is how many were made (the
 * clauses `verdict` and `fault`).
 *
 * hintcheck_verdict also says of each glyph of a font whether it may be drawn with hints, also where some programs are refused: that no run
 * of what is run to draw it reaches a fault is proved too (the clauses `hinted`).
 *
 * The symbolic profile follows values that are computed, and accepts far more fonts. Its acceptance is a theorem too, but about a machine
 * that works more as interpreters do: it keeps control values, and computes exactly. docs/EMBEDDING.md says which premises that adds. Both
 * profiles can be asked in one call: the strict one first, and the symbolic one where the strict one doesn't accept. The answer tells which
 * of the two gave it.
 *
 * The proofs are of the library's own functions. The inline functions of this header, which take a request and null pointers and hand on to
 * them, are tested.
 *
 * Units: lengths, offsets and places are in bytes. Ownership: everything that is handed in stays the caller's, is only read (except for
 * `refusals`, `may_hint` and `answer`, which are written), and isn't kept: there is no state between calls. What is handed in is aligned as
 * C asks, and `refusals`, `may_hint` and `answer` overlap neither each other nor the request, the bytes of the font or those of the
 * certificate. Memory is taken with malloc while a call runs, and given back before it returns. Threads: calls may run at once in several
 * threads, each with its own `refusals`, `may_hint` and `answer`; not from a signal handler, and not in the forked child of a process with
 * threads. Time: a request's limit bounds the steps of each profile. A step of the strict profile carries a state on from a place of a
 * program, and a step of the symbolic profile carries a state over an instruction. docs/EMBEDDING.md says how many steps real fonts need,
 * and what time that takes. That the strict profile counts no more steps than the limit is proved. That all of its work is counted so, and
 * that the limit bounds the symbolic search, is tested.
 */
#ifndef HINTCHECK_H
#define HINTCHECK_H

#include <stdbool.h>
#include <stddef.h>
#include <stdint.h>

#ifdef __cplusplus
extern "C" {
#endif

/* The version of this header. */
#define HINTCHECK_VERSION 0x000900
#define HINTCHECK_VERSION_TEXT "0.9.0"

/* What a call returns, and answer->status says again. */
enum hintcheck_status {
    HINTCHECK_ACCEPTED = 0,      /* every program keeps to the limits: its hints may be run */
    HINTCHECK_REFUSED = 1,       /* a program is refused: answer->refused says how many */
    HINTCHECK_FAULT = 2,         /* there is no verdict: no font that can be read (answer->fault is 1 to 8), no such face (10 to 15), or no
                                  * certificate for the font (43) */
    HINTCHECK_OUT_OF_MEMORY = 3, /* there is no verdict: memory ran out (answer->fault is 9) */
    HINTCHECK_BUDGET = 4,        /* there is no verdict: the strict profile needs more steps than may be made (answer->fault is 46) */
    HINTCHECK_USAGE = 5          /* there is no verdict: what was handed in can't be taken, as each call says */
};

/* What a reason tells. */
enum hintcheck_reason_class {
    HINTCHECK_POSSIBLE_FAULT = 0, /* what is known at the place doesn't rule the fault out */
    HINTCHECK_UNDECIDED = 1,      /* no fault is shown: the analysis can't tell */
    HINTCHECK_LEFT_OUT = 2,       /* the program does what hintcheck doesn't follow */
    HINTCHECK_CERTIFICATE = 3     /* the certificate doesn't fit the program */
};

/* Why a program is refused. docs/REASONS.md says more of each, and hintcheck_reason_text gives its text. */
enum hintcheck_reason {
    HINTCHECK_REASON_CANNOT_CUT = 20,
    HINTCHECK_REASON_STRUCTURE = 21,
    HINTCHECK_REASON_PROGRAM_TOO_LONG = 22,
    HINTCHECK_REASON_OPCODE = 23,
    HINTCHECK_REASON_INSTRUCTION_DEFINITION = 24,
    HINTCHECK_REASON_RECURSION = 25,
    HINTCHECK_REASON_UNDERFLOW = 26,
    HINTCHECK_REASON_OVERFLOW = 27,
    HINTCHECK_REASON_UNKNOWN_OPERAND = 28,
    HINTCHECK_REASON_CVT = 29,
    HINTCHECK_REASON_STORAGE = 30,
    HINTCHECK_REASON_FUNCTION = 31,
    HINTCHECK_REASON_POINT = 32,
    HINTCHECK_REASON_ZONE = 33,
    HINTCHECK_REASON_CONTOUR = 34,
    HINTCHECK_REASON_TARGET = 35,
    HINTCHECK_REASON_COUNT = 36,
    HINTCHECK_REASON_DEFINITION = 37,
    HINTCHECK_REASON_DEPTH_MISMATCH = 38,
    HINTCHECK_REASON_TOO_MANY_CONTEXTS = 39,
    HINTCHECK_REASON_NEVER_ENDS = 40,
    HINTCHECK_REASON_MISSING_POINT = 41,
    HINTCHECK_REASON_NOT_COVERED = 42,
    HINTCHECK_REASON_TOO_MANY_STEPS = 46,
    HINTCHECK_REASON_KEPT_ENTRY = 47
};

/* A request's limit: as many steps as the font asks for. */
#define HINTCHECK_UNLIMITED UINT64_MAX

/* A request's limit: as many steps as the symbolic profile of the command makes for a font at most. */
#define HINTCHECK_USUAL_STEPS UINT64_C(1000000000)

/* By which profile a font is checked: what an acceptance by each means is said above. */
enum hintcheck_profile {
    HINTCHECK_STRICT = 0,   /* no further premises */
    HINTCHECK_SYMBOLIC = 1, /* values that are computed are followed: far more fonts are accepted, under further premises */
    HINTCHECK_BOTH = 2      /* the strict profile, and where it doesn't accept the font the symbolic one; answer->profile tells which */
};

/* What is asked. A later version may have more fields, at the end, in which 0 stands for what holds today: initialize the struct, and the
 * fields for which you give nothing are 0. */
typedef struct hintcheck_request {
    const uint8_t *font; /* the bytes of a font file or of a font collection: may be null where there are none */
    size_t font_length;  /* how many they are */
    uint32_t profile;    /* an enum hintcheck_profile */
    uint32_t face;       /* the number of a collection's face, from 0; of a font file 0 */
    uint64_t limit;      /* how many steps each profile makes at most */
} hintcheck_request;

/* The numbers of the two programs that no glyph has. */
#define HINTCHECK_FONT_PROGRAM 65536u
#define HINTCHECK_CVT_PROGRAM 65537u

/* A refused program, with where and why. */
typedef struct hintcheck_refusal {
    uint32_t program;      /* which program: a glyph's number, or HINTCHECK_FONT_PROGRAM, or HINTCHECK_CVT_PROGRAM */
    uint32_t place;        /* the program in which the place is: for a function's instruction the one that defines the function */
    uint32_t offset;       /* the place's offset there */
    uint32_t reason;       /* an enum hintcheck_reason */
    uint32_t reason_class; /* an enum hintcheck_reason_class */
} hintcheck_refusal;

/* What a call answers. */
typedef struct hintcheck_answer {
    uint32_t status;   /* an enum hintcheck_status */
    uint32_t fault;    /* the fault's number, as docs/REASONS.md lists them; 0 where there is a verdict, and at HINTCHECK_USAGE */
    uint64_t place;    /* at fault 43, the first byte of the certificate that is wrong; otherwise 0 */
    uint64_t steps;    /* how many steps the profile that answers made, also where there is no verdict: how often the strict one carried a
                        * state on from a place of a program, or the symbolic one carried a state over an instruction */
    uint32_t programs; /* how many programs the font has: its glyphs and 2; 0 where there is no verdict */
    uint32_t refused;  /* how many of them are refused */
    size_t listed;     /* how many of these were written to `refusals`: the first ones, as many as there was room for */
    uint32_t profile;  /* which profile answers: HINTCHECK_STRICT or HINTCHECK_SYMBOLIC, and 0 at HINTCHECK_USAGE */
} hintcheck_answer;

/* Where the status is HINTCHECK_REFUSED, hints may stay on for some glyphs: the array `may_hint` of hintcheck_verdict says for which. There
 * is none where the font program or the CVT program is refused. */

/* Compiles only where the compiler lays out these two structs as the library does: the array has no length that is allowed otherwise. No
 * request gets to the library. */
typedef char hintcheck_layout_is_right[
    sizeof(size_t) == 8 && sizeof(hintcheck_refusal) == 20 && offsetof(hintcheck_refusal, program) == 0 &&
    offsetof(hintcheck_refusal, place) == 4 && offsetof(hintcheck_refusal, offset) == 8 && offsetof(hintcheck_refusal, reason) == 12 &&
    offsetof(hintcheck_refusal, reason_class) == 16 && sizeof(hintcheck_answer) == 48 && offsetof(hintcheck_answer, status) == 0 &&
    offsetof(hintcheck_answer, fault) == 4 && offsetof(hintcheck_answer, place) == 8 && offsetof(hintcheck_answer, steps) == 16 &&
    offsetof(hintcheck_answer, programs) == 24 && offsetof(hintcheck_answer, refused) == 28 && offsetof(hintcheck_answer, listed) == 32 &&
    offsetof(hintcheck_answer, profile) == 40
    ? 1 : -1];

/* The version of the library: a byte each for its three numbers, as HINTCHECK_VERSION. */
uint32_t hintcheck_version(void);

/* The library's own functions, one for each call below and each profile that it takes. They take no null pointer, also where a length is
 * 0: no array without room and no `*text` may be null. Use the calls below, which see to that. */
uint32_t hintcheck_verdict_of_bytes(const uint8_t *font, size_t font_length, uint32_t face, uint64_t steps, hintcheck_refusal *refusals,
                                    size_t room, uint8_t *may_hint, size_t glyphs, hintcheck_answer *answer);
uint32_t hintcheck_verdict_symbolic_of_bytes(const uint8_t *font, size_t font_length, uint32_t face, uint64_t steps,
                                             hintcheck_refusal *refusals, size_t room, uint8_t *may_hint, size_t glyphs,
                                             hintcheck_answer *answer);
uint32_t hintcheck_verdict_both_of_bytes(const uint8_t *font, size_t font_length, uint32_t face, uint64_t steps,
                                         hintcheck_refusal *refusals, size_t room, uint8_t *may_hint, size_t glyphs,
                                         hintcheck_answer *answer);
uint32_t hintcheck_check_of_bytes(const uint8_t *font, size_t font_length, uint32_t face, const uint8_t *certificate,
                                  size_t certificate_length, uint64_t steps, hintcheck_refusal *refusals, size_t room,
                                  hintcheck_answer *answer);

/* Points `*text` to the text of a reason, 24 bytes that stay: the text, and zeros after it. Returns whether the number is a reason's; where
 * it isn't, `*text` stays. Neither `text` nor `*text` may be null: when you call, `*text` points to 24 bytes of yours that can be read,
 * whatever they are. */
bool hintcheck_reason_text_of_number(uint32_t number, const uint8_t **text);

/* The text of a reason, as the command prints it, "underflow" for HINTCHECK_REASON_UNDERFLOW: a constant string, which stays. A null
 * pointer where the number is no reason's. */
static inline const char *hintcheck_reason_text(uint32_t reason)
{
    static const uint8_t no_text[24] = {0};
    const uint8_t *text = no_text;
    return hintcheck_reason_text_of_number(reason, &text) ? (const char *)text : NULL;
}

/* Whether the request can be taken: there is one, its font isn't null where its length isn't 0, and its profile is one of the three. */
static inline bool hintcheck_can_take(const hintcheck_request *request)
{
    return request && (request->font || !request->font_length) && request->profile <= HINTCHECK_BOTH;
}

/* The bytes as the library's own functions take them: in the place of a null pointer, the pointer to a byte of this header's own. */
static inline const uint8_t *hintcheck_bytes(const uint8_t *bytes)
{
    static const uint8_t no_bytes[1] = {0};
    return bytes ? bytes : no_bytes;
}

/* Answers that what was handed in can't be taken. */
static inline uint32_t hintcheck_usage(hintcheck_answer *answer)
{
    if (answer) {
        answer->status = HINTCHECK_USAGE;
        answer->fault = 0;
        answer->place = 0;
        answer->steps = 0;
        answer->programs = 0;
        answer->refused = 0;
        answer->listed = 0;
        answer->profile = 0;
    }
    return HINTCHECK_USAGE;
}

/* Answers so, and says that no glyph may be drawn with hints. */
static inline uint32_t hintcheck_no_hints(uint8_t *may_hint, size_t room, hintcheck_answer *answer)
{
    for (size_t i = 0; may_hint && i < room; i++) {
        may_hint[i] = 0;
    }
    return hintcheck_usage(answer);
}

/* Checks the programs of the request's font by its profile, and returns the status. Both arrays are optional: for none, hand in a null
 * pointer and a length of 0.
 *
 * The first refusals, at most `room`, are written to `refusals`; what was there after them stays.
 *
 * `may_hint` has `glyphs` entries, which say of each glyph whether it may be drawn with hints. To draw a composite glyph, a renderer runs
 * the glyph programs of its components too. So `may_hint[g]` is 1 exactly where the font program, the CVT program, the program of glyph g
 * and those of its components, at any depth, are accepted: then no run of one of them reaches a fault, also where the status is
 * HINTCHECK_REFUSED. Where the symbolic profile answers, that holds as long as no glyph whose entry is 0 is drawn with hints
 * (docs/EMBEDDING.md, "The symbolic profile"). All entries are written: the others are 0, those past the last glyph too, and all of them
 * where the font program or the CVT program is refused, and at any status but HINTCHECK_ACCEPTED and HINTCHECK_REFUSED. 65,535 entries are
 * room enough for any font; with fewer than there are glyphs, nothing is said of the glyphs after these.
 *
 * The font is the face request->face, from 0, where the bytes are a font collection: they begin with 'ttcf'. The library unpacks the face
 * into a copy of the collection. Other bytes are a font file, whose only face is 0. Where there is no such face, the status is
 * HINTCHECK_FAULT and answer->fault is 10 to 15.
 *
 * By HINTCHECK_STRICT at most request->limit steps are made, or as many as the font asks for with HINTCHECK_UNLIMITED: where that is too
 * few, the status is HINTCHECK_BUDGET.
 *
 * By HINTCHECK_SYMBOLIC the search makes at most request->limit steps for the font (HINTCHECK_USUAL_STEPS is what the command allows), and
 * at most 20,000,000 for a program: a program for which that is too little is refused (46), and so is each after it that needs a step,
 * where the font's steps are used up. The status is never HINTCHECK_BUDGET. A program is refused where this search found no way to accept
 * it, which says no more.
 *
 * By HINTCHECK_BOTH the strict profile is asked first. Where it refuses a program, or needs more than request->limit steps, the answer is
 * the symbolic profile's, which also makes at most request->limit steps. answer->profile tells whose answer it is, and answer->steps the
 * steps of that profile alone: the same call with that number as the limit comes to the same verdict. The status is never HINTCHECK_BUDGET.
 *
 * Statuses: each of enum hintcheck_status. HINTCHECK_USAGE is for a null request or answer, a null pointer with a length that isn't 0, and
 * a profile that isn't one of enum hintcheck_profile. A length above 2^31 is taken like any other. */
static inline uint32_t hintcheck_verdict(const hintcheck_request *request, hintcheck_refusal *refusals, size_t room, uint8_t *may_hint,
                                         size_t glyphs, hintcheck_answer *answer)
{
    hintcheck_refusal no_refusal;
    uint8_t no_glyph;
    if (!answer || !hintcheck_can_take(request) || (!refusals && room) || (!may_hint && glyphs)) {
        return hintcheck_no_hints(may_hint, glyphs, answer);
    }
    const uint8_t *font = hintcheck_bytes(request->font);
    hintcheck_refusal *list = refusals ? refusals : &no_refusal;
    uint8_t *entries = may_hint ? may_hint : &no_glyph;
    if (request->profile == HINTCHECK_BOTH) {
        return hintcheck_verdict_both_of_bytes(font, request->font_length, request->face, request->limit, list, room, entries, glyphs,
                                               answer);
    }
    if (request->profile == HINTCHECK_SYMBOLIC) {
        return hintcheck_verdict_symbolic_of_bytes(font, request->font_length, request->face, request->limit, list, room, entries, glyphs,
                                                   answer);
    }
    return hintcheck_verdict_of_bytes(font, request->font_length, request->face, request->limit, list, room, entries, glyphs, answer);
}

/* hintcheck_verdict without a list of refusals. */
static inline uint32_t hintcheck_may_hint(const hintcheck_request *request, uint8_t *may_hint, size_t glyphs, hintcheck_answer *answer)
{
    return hintcheck_verdict(request, NULL, 0, may_hint, glyphs, answer);
}

/* Checks the programs of the request's font by the certificate in `certificate_length` bytes at `certificate`, as `hintcheck find` writes
 * it, and returns the status. Nothing is asked of the certificate or of who made it: an acceptance means the same as that of
 * hintcheck_verdict by HINTCHECK_STRICT. A certificate that was made for another font mostly comes to HINTCHECK_FAULT (43) or to
 * HINTCHECK_REFUSED (41, 42 among the reasons), or to HINTCHECK_BUDGET before that; where it fits this font too, to HINTCHECK_ACCEPTED,
 * which is right: an acceptance is a theorem about the font's bytes, whatever the certificate is. A certificate is checked by the strict
 * profile: where the request's is another than HINTCHECK_STRICT, the status is HINTCHECK_USAGE. It says nothing of single glyphs. All else
 * is as for hintcheck_verdict. */
static inline uint32_t hintcheck_check(const hintcheck_request *request, const uint8_t *certificate, size_t certificate_length,
                                       hintcheck_refusal *refusals, size_t room, hintcheck_answer *answer)
{
    hintcheck_refusal no_room;
    if (!answer || !hintcheck_can_take(request) || request->profile != HINTCHECK_STRICT || (!certificate && certificate_length) ||
        (!refusals && room)) {
        return hintcheck_usage(answer);
    }
    return hintcheck_check_of_bytes(hintcheck_bytes(request->font), request->font_length, request->face, hintcheck_bytes(certificate),
                                    certificate_length, request->limit, refusals ? refusals : &no_room, room, answer);
}

#ifdef __cplusplus
}
#endif

#endif
