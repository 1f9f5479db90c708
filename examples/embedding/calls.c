/* Calls the library with requests, pointers and lengths of all kinds, and says where an answer isn't what the header says.
 * Usage: calls ACCEPTED.ttf REFUSED.ttf CERT COMPOSITES.ttf CVT.ttf CIRCLE.ttf FACES.ttc [short]
 * CERT is the accepted font's certificate; COMPOSITES.ttf has composite glyphs, the CVT program of CVT.ttf is refused, and the glyphs of
 * CIRCLE.ttf are made of each other. FACES.ttc is a collection: the accepted font is its face 0 and the refused one its face 1. `short`
 * leaves out what takes much memory. */
#include <hintcheck.h>
#include <stdio.h>
#include <stdlib.h>
#include <string.h>

static int failed;

/* Says so where a condition doesn't hold. */
static void expect(int holds, const char *what)
{
    if (!holds) {
        printf("not so: %s\n", what);
        failed = 1;
    }
}

/* The bytes of a file. */
static uint8_t *read_file(const char *name, size_t *length)
{
    FILE *file = fopen(name, "rb");
    uint8_t *bytes = (uint8_t *)malloc(1 << 20);
    if (!file || !bytes) {
        perror(name);
        exit(2);
    }
    *length = fread(bytes, 1, 1 << 20, file);
    fclose(file);
    return bytes;
}

static void call_verdict(const uint8_t *accepted, size_t accepted_length, const uint8_t *refused, size_t refused_length)
{
    hintcheck_request request = {accepted, accepted_length, HINTCHECK_STRICT, 0, HINTCHECK_UNLIMITED};
    hintcheck_answer answer;
    hintcheck_refusal refusals[4];
    memset(refusals, 0x55, sizeof refusals);
    expect(hintcheck_verdict(&request, refusals, 4, NULL, 0, &answer) == HINTCHECK_ACCEPTED, "an accepted font");
    expect(answer.status == HINTCHECK_ACCEPTED && answer.fault == 0, "its status");
    expect(answer.programs == 5 && answer.refused == 0 && answer.listed == 0, "its counts");
    expect(answer.steps > 0 && answer.profile == HINTCHECK_STRICT, "its steps, and the profile");
    request.font = refused;
    request.font_length = refused_length;
    expect(hintcheck_verdict(&request, refusals, 4, NULL, 0, &answer) == HINTCHECK_REFUSED, "a refused font");
    expect(answer.programs == 5 && answer.refused == 2 && answer.listed == 2, "counts of a refused font");
    expect(refusals[0].program == 1 && refusals[0].place == HINTCHECK_FONT_PROGRAM && refusals[0].offset == 10, "the first refusal");
    expect(refusals[0].reason == 26 && refusals[0].reason_class == HINTCHECK_POSSIBLE_FAULT, "its reason");
    expect(refusals[1].program == 2 && refusals[1].place == 2 && refusals[1].offset == 8, "the second refusal");
    expect(refusals[1].reason == 38 && refusals[1].reason_class == HINTCHECK_UNDECIDED, "its reason");
    expect(refusals[2].program == 0x55555555u, "what is after the refusals");
    expect(hintcheck_verdict(&request, refusals, 1, NULL, 0, &answer) == HINTCHECK_REFUSED, "room for one");
    expect(answer.refused == 2 && answer.listed == 1, "counts with room for one");
    expect(hintcheck_verdict(&request, NULL, 0, NULL, 0, &answer) == HINTCHECK_REFUSED, "no room");
    expect(answer.refused == 2 && answer.listed == 0, "counts with no room");
}

static void call_check(const uint8_t *accepted, size_t accepted_length, const uint8_t *refused, size_t refused_length,
                       const uint8_t *certificate, size_t certificate_length)
{
    hintcheck_request request = {accepted, accepted_length, HINTCHECK_STRICT, 0, HINTCHECK_UNLIMITED};
    hintcheck_request another = {refused, refused_length, HINTCHECK_STRICT, 0, HINTCHECK_UNLIMITED};
    hintcheck_answer answer;
    hintcheck_refusal refusals[4];
    expect(hintcheck_check(&request, certificate, certificate_length, refusals, 4, &answer) == HINTCHECK_ACCEPTED, "a certificate");
    expect(hintcheck_check(&another, certificate, certificate_length, refusals, 4, &answer) != HINTCHECK_ACCEPTED,
           "another font's certificate");
    expect(answer.status == HINTCHECK_REFUSED || answer.fault == 43, "what is told of it");
    expect(hintcheck_check(&request, certificate, certificate_length - 1, refusals, 4, &answer) == HINTCHECK_FAULT, "a cut certificate");
    expect(answer.fault == 43 && answer.place == certificate_length - 1, "where it is cut");
    expect(hintcheck_check(&request, NULL, 0, refusals, 4, &answer) == HINTCHECK_FAULT, "no certificate");
    expect(answer.fault == 43 && answer.place == 0, "where it is at fault");
    expect(hintcheck_check(&request, NULL, 1, refusals, 4, &answer) == HINTCHECK_USAGE, "a null certificate");
}

static void call_oddly(const uint8_t *accepted, size_t accepted_length)
{
    hintcheck_request request = {NULL, 0, HINTCHECK_STRICT, 0, HINTCHECK_UNLIMITED};
    hintcheck_answer answer;
    expect(hintcheck_verdict(&request, NULL, 0, NULL, 0, &answer) == HINTCHECK_FAULT, "no bytes");
    expect(answer.fault == 2 && answer.programs == 0, "what is told of no bytes");
    request.font_length = 1;
    expect(hintcheck_verdict(&request, NULL, 0, NULL, 0, &answer) == HINTCHECK_USAGE, "a null font");
    expect(answer.status == HINTCHECK_USAGE && answer.programs == 0, "what is told of it");
    request.font = accepted;
    request.font_length = accepted_length;
    expect(hintcheck_verdict(&request, NULL, 1, NULL, 0, &answer) == HINTCHECK_USAGE, "null room");
    expect(hintcheck_verdict(&request, NULL, 0, NULL, 1, &answer) == HINTCHECK_USAGE, "null room for a glyph beside no refusals");
    expect(hintcheck_verdict(&request, NULL, 0, NULL, 0, NULL) == HINTCHECK_USAGE, "a null answer");
    expect(hintcheck_version() == HINTCHECK_VERSION, "the version");
}

/* Whether an answer says that what was handed in can't be taken, and nothing else. */
static int says_usage(const hintcheck_answer *answer)
{
    return answer->status == HINTCHECK_USAGE && answer->fault == 0 && answer->place == 0 && answer->steps == 0 && answer->programs == 0 &&
           answer->refused == 0 && answer->listed == 0 && answer->profile == 0;
}

/* Whether an array has these entries, and then zeros. */
static int has(const uint8_t *may_hint, size_t room, const uint8_t *entries, size_t count)
{
    for (size_t i = 0; i < room; i++) {
        if (may_hint[i] != (i < count ? entries[i] : 0)) {
            return 0;
        }
    }
    return 1;
}

/* Each call by this request, which none can take. */
static void call_by(const hintcheck_request *request, const uint8_t *certificate, size_t certificate_length, const char *what)
{
    hintcheck_answer answer;
    hintcheck_refusal refusals[1];
    uint8_t may_hint[4];
    memset(refusals, 0x55, sizeof refusals);
    memset(&answer, 0x55, sizeof answer);
    memset(may_hint, 0x55, sizeof may_hint);
    expect(hintcheck_verdict(request, refusals, 1, may_hint, 4, &answer) == HINTCHECK_USAGE && says_usage(&answer), what);
    expect(has(may_hint, 4, NULL, 0), "no glyph of it beside no refusal");
    memset(&answer, 0x55, sizeof answer);
    expect(hintcheck_check(request, certificate, certificate_length, refusals, 1, &answer) == HINTCHECK_USAGE && says_usage(&answer), what);
    expect(refusals[0].program == 0x55555555u, "no refusal of it");
    memset(&answer, 0x55, sizeof answer);
    memset(may_hint, 0x55, sizeof may_hint);
    expect(hintcheck_may_hint(request, may_hint, 4, &answer) == HINTCHECK_USAGE && says_usage(&answer), what);
    expect(has(may_hint, 4, NULL, 0), "no glyph of it");
    expect(hintcheck_may_hint(request, NULL, 4, NULL) == HINTCHECK_USAGE, what);
}

/* Requests of a font that is accepted, but for one field. */
static void call_by_odd_requests(const uint8_t *accepted, size_t accepted_length, const uint8_t *certificate, size_t certificate_length)
{
    hintcheck_request request = {accepted, accepted_length, HINTCHECK_STRICT, 0, HINTCHECK_UNLIMITED};
    hintcheck_answer answer;
    call_by(NULL, certificate, certificate_length, "a null request");
    request.profile = 3;
    call_by(&request, certificate, certificate_length, "profile 3");
    request.profile = UINT32_MAX;
    call_by(&request, certificate, certificate_length, "the last profile");
    request.profile = HINTCHECK_BOTH;
    expect(hintcheck_check(&request, certificate, certificate_length, NULL, 0, &answer) == HINTCHECK_USAGE, "a check by both profiles");
    expect(says_usage(&answer), "what is told of it");
    request.profile = HINTCHECK_SYMBOLIC;
    expect(hintcheck_check(&request, certificate, certificate_length, NULL, 0, &answer) == HINTCHECK_USAGE, "a check by symbolic states");
    expect(says_usage(&answer), "what is told of that");
    request.font = NULL;
    call_by(&request, certificate, certificate_length, "a null font by symbolic states");
    request.font_length = 0;
    expect(hintcheck_verdict(&request, NULL, 0, NULL, 0, &answer) == HINTCHECK_FAULT && answer.fault == 2, "no bytes by symbolic states");
    expect(hintcheck_verdict(&request, NULL, 1, NULL, 0, &answer) == HINTCHECK_USAGE, "null room by symbolic states");
    expect(hintcheck_verdict(&request, NULL, 0, NULL, 0, NULL) == HINTCHECK_USAGE, "a null answer by symbolic states");
}

static void call_may_hint(const uint8_t *composites, size_t length)
{
    /* As bench/embedding.py makes the glyphs of COMPOSITES.ttf: 1 and 6 are refused, 3 and 8 are made of 1, 4 of 3, and 7 of 6. */
    static const uint8_t entries[11] = {1, 0, 1, 0, 0, 1, 0, 0, 0, 1, 1};
    hintcheck_request request = {composites, length, HINTCHECK_STRICT, 0, HINTCHECK_UNLIMITED};
    hintcheck_request symbolic = {composites, length, HINTCHECK_SYMBOLIC, 0, HINTCHECK_USUAL_STEPS};
    hintcheck_answer answer;
    uint8_t may_hint[16];
    memset(may_hint, 0x55, sizeof may_hint);
    expect(hintcheck_may_hint(&request, may_hint, 16, &answer) == HINTCHECK_REFUSED, "composite glyphs");
    expect(has(may_hint, 16, entries, 11), "which may be drawn with hints");
    expect(answer.status == HINTCHECK_REFUSED && answer.fault == 0 && answer.steps > 0, "the status beside it");
    expect(answer.programs == 13 && answer.refused == 2 && answer.listed == 0, "the counts beside it");
    uint64_t needed = answer.steps;
    request.limit = needed;
    memset(may_hint, 0x55, sizeof may_hint);
    expect(hintcheck_may_hint(&request, may_hint, 4, &answer) == HINTCHECK_REFUSED, "room for four glyphs");
    expect(has(may_hint, 4, entries, 4) && may_hint[4] == 0x55, "four entries");
    expect(hintcheck_may_hint(&request, NULL, 0, &answer) == HINTCHECK_REFUSED && answer.refused == 2, "room for no glyph");
    request.limit = needed - 1;
    expect(hintcheck_may_hint(&request, may_hint, 16, &answer) == HINTCHECK_BUDGET, "glyphs with too few steps");
    expect(has(may_hint, 16, NULL, 0) && answer.fault == 46 && answer.steps == needed - 1, "no glyph then");
    memset(may_hint, 0x55, sizeof may_hint);
    expect(hintcheck_may_hint(&symbolic, may_hint, 16, &answer) == HINTCHECK_REFUSED, "composite glyphs by symbolic states");
    expect(has(may_hint, 16, entries, 11), "which may be drawn with hints by symbolic states");
    expect(answer.refused == 2 && answer.profile == HINTCHECK_SYMBOLIC, "the counts beside it by symbolic states");
}

/* Refusals and glyphs by one call: what each of the two tells alone, by each profile and by both. */
static void call_for_both(const uint8_t *composites, size_t length)
{
    static const uint8_t entries[11] = {1, 0, 1, 0, 0, 1, 0, 0, 0, 1, 1};
    static const uint32_t profiles[3] = {HINTCHECK_STRICT, HINTCHECK_SYMBOLIC, HINTCHECK_BOTH};
    for (size_t i = 0; i < 3; i++) {
        hintcheck_request request = {composites, length, profiles[i], 0, HINTCHECK_USUAL_STEPS};
        hintcheck_answer answer, alone;
        hintcheck_refusal refusals[4];
        uint8_t may_hint[16];
        memset(refusals, 0x55, sizeof refusals);
        memset(may_hint, 0x55, sizeof may_hint);
        expect(hintcheck_verdict(&request, refusals, 4, may_hint, 16, &answer) == HINTCHECK_REFUSED, "refusals and glyphs");
        expect(has(may_hint, 16, entries, 11), "which may be drawn with hints beside the refusals");
        expect(answer.refused == 2 && answer.listed == 2, "how many refusals are listed beside the glyphs");
        expect(refusals[0].program == 1 && refusals[1].program == 6, "which refusals they are");
        expect(refusals[2].program == 0x55555555u, "what is after them");
        expect(answer.profile == (i == 0 ? HINTCHECK_STRICT : HINTCHECK_SYMBOLIC) && answer.steps > 0, "by which profile, in some steps");
        expect(hintcheck_may_hint(&request, may_hint, 16, &alone) == HINTCHECK_REFUSED, "glyphs alone");
        expect(alone.profile == answer.profile && alone.steps == answer.steps, "as many steps for glyphs alone");
        expect(hintcheck_verdict(&request, refusals, 1, may_hint, 2, &answer) == HINTCHECK_REFUSED, "room for one and for two");
        expect(answer.listed == 1 && refusals[0].program == 1 && has(may_hint, 2, entries, 2), "one refusal and two glyphs");
    }
}

static void call_may_hint_of_none(const uint8_t *cvt, size_t cvt_length, const uint8_t *circle, size_t circle_length)
{
    hintcheck_request request = {cvt, cvt_length, HINTCHECK_STRICT, 0, HINTCHECK_UNLIMITED};
    hintcheck_answer answer;
    uint8_t may_hint[4];
    memset(may_hint, 0x55, sizeof may_hint);
    expect(hintcheck_may_hint(&request, may_hint, 4, &answer) == HINTCHECK_REFUSED, "a refused CVT program");
    expect(has(may_hint, 4, NULL, 0) && answer.refused == 1, "no glyph after it");
    hintcheck_refusal refusal;
    memset(may_hint, 0x55, sizeof may_hint);
    expect(hintcheck_verdict(&request, &refusal, 1, may_hint, 4, &answer) == HINTCHECK_REFUSED, "a refused CVT program, listed");
    expect(has(may_hint, 4, NULL, 0) && refusal.program == HINTCHECK_CVT_PROGRAM, "the program, and no glyph after it");
    request.profile = HINTCHECK_SYMBOLIC;
    request.limit = HINTCHECK_USUAL_STEPS;
    memset(may_hint, 0x55, sizeof may_hint);
    expect(hintcheck_may_hint(&request, may_hint, 4, &answer) == HINTCHECK_REFUSED, "the same by symbolic states");
    expect(has(may_hint, 4, NULL, 0) && answer.refused == 1, "no glyph after it by symbolic states");
    request.font = circle;
    request.font_length = circle_length;
    request.profile = HINTCHECK_STRICT;
    request.limit = HINTCHECK_UNLIMITED;
    memset(may_hint, 0x55, sizeof may_hint);
    expect(hintcheck_may_hint(&request, may_hint, 4, &answer) == HINTCHECK_FAULT, "a glyph that is made of itself");
    expect(has(may_hint, 4, NULL, 0) && answer.fault == 8, "no glyph of such a font");
    request.limit = 0;
    expect(hintcheck_may_hint(&request, NULL, 1, &answer) == HINTCHECK_USAGE, "null room for a glyph");
    request.profile = HINTCHECK_SYMBOLIC;
    memset(may_hint, 0x55, sizeof may_hint);
    expect(hintcheck_may_hint(&request, may_hint, 4, NULL) == HINTCHECK_USAGE, "a null answer with room for glyphs");
    expect(has(may_hint, 4, NULL, 0), "no glyph without an answer");
    request.profile = HINTCHECK_STRICT;
    request.font = NULL;
    request.font_length = 1;
    request.limit = HINTCHECK_UNLIMITED;
    memset(may_hint, 0x55, sizeof may_hint);
    expect(hintcheck_may_hint(&request, may_hint, 4, &answer) == HINTCHECK_USAGE, "a null font with room for glyphs");
    expect(has(may_hint, 4, NULL, 0) && answer.status == HINTCHECK_USAGE, "no glyph of it");
}

/* The text of each number from 0 on: of a reason its own, and else none. */
static void call_reason_text(void)
{
    static const struct {
        uint32_t reason;
        uint32_t number;
        const char *text;
    } reasons[] = {
        {HINTCHECK_REASON_CANNOT_CUT, 20, "cannot cut"},
        {HINTCHECK_REASON_STRUCTURE, 21, "structure"},
        {HINTCHECK_REASON_PROGRAM_TOO_LONG, 22, "program too long"},
        {HINTCHECK_REASON_OPCODE, 23, "opcode"},
        {HINTCHECK_REASON_INSTRUCTION_DEFINITION, 24, "instruction definition"},
        {HINTCHECK_REASON_RECURSION, 25, "recursion"},
        {HINTCHECK_REASON_UNDERFLOW, 26, "underflow"},
        {HINTCHECK_REASON_OVERFLOW, 27, "overflow"},
        {HINTCHECK_REASON_UNKNOWN_OPERAND, 28, "unknown operand"},
        {HINTCHECK_REASON_CVT, 29, "cvt"},
        {HINTCHECK_REASON_STORAGE, 30, "storage"},
        {HINTCHECK_REASON_FUNCTION, 31, "function"},
        {HINTCHECK_REASON_POINT, 32, "point"},
        {HINTCHECK_REASON_ZONE, 33, "zone"},
        {HINTCHECK_REASON_CONTOUR, 34, "contour"},
        {HINTCHECK_REASON_TARGET, 35, "target"},
        {HINTCHECK_REASON_COUNT, 36, "count"},
        {HINTCHECK_REASON_DEFINITION, 37, "definition"},
        {HINTCHECK_REASON_DEPTH_MISMATCH, 38, "depth mismatch"},
        {HINTCHECK_REASON_TOO_MANY_CONTEXTS, 39, "too many contexts"},
        {HINTCHECK_REASON_NEVER_ENDS, 40, "never ends"},
        {HINTCHECK_REASON_MISSING_POINT, 41, "missing point"},
        {HINTCHECK_REASON_NOT_COVERED, 42, "not covered"},
        {HINTCHECK_REASON_TOO_MANY_STEPS, 46, "too many steps"},
        {HINTCHECK_REASON_KEPT_ENTRY, 47, "kept entry"},
    };
    size_t next = 0, count = sizeof reasons / sizeof reasons[0];
    for (uint32_t number = 0; number < 300; number++) {
        const char *text = hintcheck_reason_text(number);
        if (next < count && reasons[next].reason == number) {
            expect(reasons[next].number == number && text && strcmp(text, reasons[next].text) == 0, reasons[next].text);
            next++;
        } else {
            expect(!text, "no text of a number that is no reason's");
        }
    }
    expect(next == count && !hintcheck_reason_text(UINT32_MAX), "each reason has a text");
}

/* The library's own function for texts: the pointer that is handed in points to 24 bytes, of any kind, and stays where the number is no
 * reason's. */
static void call_text_of_number(void)
{
    uint8_t own[24];
    const uint8_t *text = own;
    memset(own, 0x55, sizeof own);
    expect(!hintcheck_reason_text_of_number(0, &text) && text == own, "a pointer stays where the number is no reason's");
    expect(!hintcheck_reason_text_of_number(48, &text) && text == own, "a pointer stays after the last reason");
    expect(hintcheck_reason_text_of_number(HINTCHECK_REASON_CVT, &text) && text != own, "a pointer to a reason's text");
    expect(strcmp((const char *)text, "cvt") == 0 && has(text, 24, (const uint8_t *)"cvt", 3), "a text, and zeros after it");
    expect(hintcheck_reason_text_of_number(HINTCHECK_REASON_INSTRUCTION_DEFINITION, &text), "another text over the first one");
    expect(strcmp((const char *)text, "instruction definition") == 0 && text[23] == 0 && own[0] == 0x55, "that text");
}

/* With each number of steps up to the one that the font needs, and with that one. */
static void call_within(const uint8_t *font, size_t length, uint32_t status, const uint8_t *certificate, size_t certificate_length)
{
    hintcheck_request request = {font, length, HINTCHECK_STRICT, 0, HINTCHECK_UNLIMITED};
    hintcheck_answer answer;
    hintcheck_refusal refusals[4];
    hintcheck_verdict(&request, refusals, 4, NULL, 0, &answer);
    uint64_t needed = answer.steps;
    expect(needed > 0, "steps are counted");
    for (uint64_t steps = 0; steps < needed; steps++) {
        request.limit = steps;
        memset(refusals, 0x55, sizeof refusals);
        expect(hintcheck_verdict(&request, refusals, 4, NULL, 0, &answer) == HINTCHECK_BUDGET, "too few steps");
        expect(answer.status == HINTCHECK_BUDGET && answer.fault == 46 && answer.steps == steps, "what is told of them");
        expect(answer.programs == 0 && answer.listed == 0 && refusals[0].program == 0x55555555u, "nothing else");
    }
    request.limit = needed;
    expect(hintcheck_verdict(&request, refusals, 4, NULL, 0, &answer) == status, "enough steps");
    expect(answer.steps == needed, "how many they are");
    request.limit = 0;
    expect(hintcheck_check(&request, certificate, certificate_length, refusals, 4, &answer) == HINTCHECK_BUDGET, "a check without steps");
    request.limit = HINTCHECK_UNLIMITED;
    hintcheck_check(&request, certificate, certificate_length, refusals, 4, &answer);
    expect(answer.steps > 0 && answer.steps <= needed, "a check makes no more steps");
}

/* By symbolic states, with each number of steps up to the one that the font needs: programs are refused for want of steps until there are
 * enough, and no longer then. */
static void call_within_steps(const uint8_t *font, size_t length)
{
    hintcheck_request request = {font, length, HINTCHECK_SYMBOLIC, 0, 0};
    hintcheck_answer answer;
    hintcheck_refusal refusals[4];
    uint8_t may_hint[4];
    while (request.limit < 10000 && hintcheck_verdict(&request, refusals, 4, NULL, 0, &answer) == HINTCHECK_REFUSED) {
        expect(answer.refused > 0 && refusals[0].reason == HINTCHECK_REASON_TOO_MANY_STEPS, "what is told of too few steps");
        expect(answer.steps <= request.limit && answer.profile == HINTCHECK_SYMBOLIC, "how many were made");
        request.limit++;
    }
    uint64_t steps = request.limit;
    expect(steps > 0, "steps are counted by symbolic states");
    expect(answer.status == HINTCHECK_ACCEPTED && answer.steps == steps, "enough steps by symbolic states");
    request.limit = HINTCHECK_USUAL_STEPS;
    expect(hintcheck_verdict(&request, refusals, 4, NULL, 0, &answer) == HINTCHECK_ACCEPTED && answer.steps == steps, "more steps");
    request.limit = HINTCHECK_UNLIMITED;
    expect(hintcheck_verdict(&request, refusals, 4, NULL, 0, &answer) == HINTCHECK_ACCEPTED && answer.steps == steps,
           "as many steps as are made");
    request.font_length -= 40;
    expect(hintcheck_verdict(&request, refusals, 4, NULL, 0, &answer) == HINTCHECK_FAULT && answer.steps == 0, "no step for no font");
    request.font_length = length;
    request.limit = steps;
    expect(hintcheck_may_hint(&request, may_hint, 4, &answer) == HINTCHECK_ACCEPTED, "enough steps for glyphs");
    request.limit = steps - 1;
    expect(hintcheck_may_hint(&request, may_hint, 4, &answer) == HINTCHECK_REFUSED, "too few steps for glyphs");
    request.limit = 0;
    expect(hintcheck_may_hint(&request, may_hint, 4, &answer) == HINTCHECK_REFUSED, "no step for glyphs");
    expect(has(may_hint, 4, NULL, 0), "no glyph then");
}

/* Whether two answers have the same numbers. */
static int is_same(const hintcheck_answer *one, const hintcheck_answer *other)
{
    return one->status == other->status && one->fault == other->fault && one->place == other->place && one->steps == other->steps &&
           one->programs == other->programs && one->refused == other->refused && one->listed == other->listed &&
           one->profile == other->profile;
}

/* By both profiles with each number of steps up to `most`: the strict profile's answer where that accepts the font or can't read it, and
 * otherwise the symbolic one's. With as many steps as an answer tells, the same answer comes. */
static void call_by_both(const uint8_t *font, size_t length, uint64_t most)
{
    for (uint64_t limit = 0; limit <= most; limit++) {
        hintcheck_request request = {font, length, HINTCHECK_STRICT, 0, limit};
        hintcheck_answer wanted, answer;
        hintcheck_refusal listed[4], refusals[4];
        uint8_t entries[16], may_hint[16];
        memset(listed, 0x55, sizeof listed);
        memset(refusals, 0x55, sizeof refusals);
        uint32_t status = hintcheck_verdict(&request, NULL, 0, entries, 16, &wanted);
        if (status == HINTCHECK_REFUSED || status == HINTCHECK_BUDGET) {
            request.profile = HINTCHECK_SYMBOLIC;
            status = hintcheck_verdict(&request, listed, 4, entries, 16, &wanted);
        }
        request.profile = HINTCHECK_BOTH;
        expect(hintcheck_verdict(&request, refusals, 4, may_hint, 16, &answer) == status, "the status by both profiles");
        expect(is_same(&answer, &wanted), "the answer by both profiles");
        expect(memcmp(refusals, listed, sizeof listed) == 0, "the refusals by both profiles, and what is after them");
        expect(has(may_hint, 16, entries, 16), "the glyphs by both profiles");
        request.limit = answer.steps;
        expect(hintcheck_verdict(&request, refusals, 4, may_hint, 16, &answer) == status && is_same(&answer, &wanted),
               "the same with as many steps as were made");
    }
}

/* The faces of a collection: each is answered as the font file is of which it was made, by each profile and by both. */
static void call_faces(const uint8_t *collection, size_t length, const uint8_t *const *fonts, const size_t *lengths)
{
    for (uint32_t profile = HINTCHECK_STRICT; profile <= HINTCHECK_BOTH; profile++) {
        for (uint32_t face = 0; face < 2; face++) {
            hintcheck_request request = {collection, length, profile, face, HINTCHECK_USUAL_STEPS};
            hintcheck_request alone = {fonts[face], lengths[face], profile, 0, HINTCHECK_USUAL_STEPS};
            hintcheck_answer answer, wanted;
            hintcheck_refusal refusals[4], listed[4];
            uint8_t may_hint[16], entries[16];
            memset(refusals, 0x55, sizeof refusals);
            memset(listed, 0x55, sizeof listed);
            hintcheck_verdict(&request, refusals, 4, may_hint, 16, &answer);
            hintcheck_verdict(&alone, listed, 4, entries, 16, &wanted);
            expect(is_same(&answer, &wanted) && answer.programs > 0, "a face, and the font of which it was made");
            expect(memcmp(refusals, listed, sizeof listed) == 0, "the refusals of a face");
            expect(has(may_hint, 16, entries, 16), "the glyphs of a face");
        }
    }
}

/* Whether an answer is this fault, by the strict profile, with no glyph. */
static int is_fault(const hintcheck_answer *answer, uint32_t fault, const uint8_t *may_hint)
{
    return answer->status == HINTCHECK_FAULT && answer->fault == fault && answer->place == 0 && answer->steps == 0 &&
           answer->programs == 0 && answer->refused == 0 && answer->listed == 0 && answer->profile == HINTCHECK_STRICT &&
           has(may_hint, 4, NULL, 0);
}

/* Faces that aren't there, collections that can't be read, and a face's certificate. */
static void call_other_faces(const uint8_t *collection, size_t length, const uint8_t *font, size_t font_length, const uint8_t *certificate,
                             size_t certificate_length)
{
    hintcheck_request request = {collection, length, HINTCHECK_BOTH, 2, HINTCHECK_USUAL_STEPS};
    hintcheck_answer answer;
    uint8_t may_hint[4];
    memset(may_hint, 0x55, sizeof may_hint);
    expect(hintcheck_may_hint(&request, may_hint, 4, &answer) == HINTCHECK_FAULT && is_fault(&answer, 13, may_hint), "no such face");
    request.face = UINT32_MAX;
    expect(hintcheck_may_hint(&request, may_hint, 4, &answer) == HINTCHECK_FAULT && is_fault(&answer, 13, may_hint), "the last number");
    request.face = 0;
    request.font_length = 11;
    expect(hintcheck_may_hint(&request, may_hint, 4, &answer) == HINTCHECK_FAULT && is_fault(&answer, 11, may_hint), "half a header");
    request.font_length = 40;
    expect(hintcheck_may_hint(&request, may_hint, 4, &answer) == HINTCHECK_FAULT && is_fault(&answer, 14, may_hint), "half a directory");
    hintcheck_request other = {font, font_length, HINTCHECK_BOTH, 1, HINTCHECK_USUAL_STEPS};
    expect(hintcheck_may_hint(&other, may_hint, 4, &answer) == HINTCHECK_FAULT && is_fault(&answer, 13, may_hint), "face 1 of a font file");
    request.font_length = length;
    request.profile = other.profile = HINTCHECK_STRICT;
    expect(hintcheck_check(&request, certificate, certificate_length, NULL, 0, &answer) == HINTCHECK_ACCEPTED, "a face's certificate");
    expect(answer.profile == HINTCHECK_STRICT && answer.steps > 0, "the profile of a check");
    request.face = 2;
    expect(hintcheck_check(&request, certificate, certificate_length, NULL, 0, &answer) == HINTCHECK_FAULT && answer.fault == 13,
           "a certificate of no face");
    expect(hintcheck_check(&other, certificate, certificate_length, NULL, 0, &answer) == HINTCHECK_FAULT && answer.fault == 13,
           "a certificate of face 1 of a font file");
}

/* More than 2^31 bytes: zeros alone, and a font with zeros after it. */
static void call_with_many_bytes(const uint8_t *accepted, size_t accepted_length)
{
    hintcheck_answer answer;
    size_t length = ((size_t)1 << 31) + 5;
    uint8_t *bytes = (uint8_t *)calloc(length, 1);
    expect(bytes != NULL, "memory for many bytes (`short` leaves them out)");
    if (!bytes) {
        return;
    }
    hintcheck_request request = {bytes, length, HINTCHECK_STRICT, 0, HINTCHECK_UNLIMITED};
    expect(hintcheck_verdict(&request, NULL, 0, NULL, 0, &answer) == HINTCHECK_FAULT && answer.fault == 1, "many zeros");
    memcpy(bytes, accepted, accepted_length);
    expect(hintcheck_verdict(&request, NULL, 0, NULL, 0, &answer) == HINTCHECK_ACCEPTED, "a font before many zeros");
    free(bytes);
}

int main(int argc, char **argv)
{
    if (argc < 8) {
        fprintf(stderr, "usage: calls ACCEPTED.ttf REFUSED.ttf CERT COMPOSITES.ttf CVT.ttf CIRCLE.ttf FACES.ttc [short]\n");
        return 2;
    }
    size_t accepted_length = 0, refused_length = 0, certificate_length = 0;
    size_t composites_length = 0, cvt_length = 0, circle_length = 0, faces_length = 0;
    uint8_t *accepted = read_file(argv[1], &accepted_length);
    uint8_t *refused = read_file(argv[2], &refused_length);
    uint8_t *certificate = read_file(argv[3], &certificate_length);
    uint8_t *composites = read_file(argv[4], &composites_length);
    uint8_t *cvt = read_file(argv[5], &cvt_length);
    uint8_t *circle = read_file(argv[6], &circle_length);
    uint8_t *faces = read_file(argv[7], &faces_length);
    const uint8_t *fonts[2] = {accepted, refused};
    size_t lengths[2] = {accepted_length, refused_length};
    call_verdict(accepted, accepted_length, refused, refused_length);
    call_check(accepted, accepted_length, refused, refused_length, certificate, certificate_length);
    call_oddly(accepted, accepted_length);
    call_by_odd_requests(accepted, accepted_length, certificate, certificate_length);
    call_may_hint(composites, composites_length);
    call_for_both(composites, composites_length);
    call_may_hint_of_none(cvt, cvt_length, circle, circle_length);
    call_reason_text();
    call_text_of_number();
    call_within(accepted, accepted_length, HINTCHECK_ACCEPTED, certificate, certificate_length);
    call_within_steps(accepted, accepted_length);
    call_by_both(accepted, accepted_length, 400);
    call_by_both(refused, refused_length, 400);
    call_by_both(composites, composites_length, 400);
    call_by_both(cvt, cvt_length, 40);
    call_by_both(circle, circle_length, 4);
    call_faces(faces, faces_length, fonts, lengths);
    call_other_faces(faces, faces_length, accepted, accepted_length, certificate, certificate_length);
    if (argc == 8) {
        call_with_many_bytes(accepted, accepted_length);
    }
    free(accepted);
    free(refused);
    free(certificate);
    free(composites);
    free(cvt);
    free(circle);
    free(faces);
    if (!failed) {
        printf("all calls answered as the header says\n");
    }
    return failed;
}
