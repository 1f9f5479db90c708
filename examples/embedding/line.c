/* Draws a line of text to a PGM file by FreeType, each glyph with hints only where hintcheck accepts all that is run to draw it.
 * Usage: line FONT TEXT OUTPUT.pgm [CERT]
 * With CERT, a certificate that `hintcheck find FONT CERT` has written, the font is checked by it: all glyphs have hints then, or none. */
#include <hintcheck.h>
#include <stdio.h>
#include <stdlib.h>
#include <string.h>

#include <ft2build.h>
#include FT_FREETYPE_H

enum { SIZE = 24, WIDTH = 480, HEIGHT = 40, BASELINE = 30, LISTED = 3 };

/* More than three times what the strict profile needs for real fonts, and a bound on the time: some seconds. */
#define STEPS 20000000u

/* How glyphs are loaded without hints: under FT_LOAD_NO_HINTING alone FreeType runs the programs of a font that it takes for a "tricky" one
 * all the same, for example by its family name, which the font's maker chooses. */
#define NO_HINTS (FT_LOAD_NO_HINTING | FT_LOAD_NO_AUTOHINT)

static unsigned char image[HEIGHT][WIDTH];

/* Whether each glyph may be drawn with hints: room enough for any font. */
static uint8_t may_hint[65535];

/* The bytes of a file, or null. */
static unsigned char *read_file(const char *name, size_t *length)
{
    FILE *file = fopen(name, "rb");
    if (!file) {
        return NULL;
    }
    unsigned char *bytes = NULL;
    long size;
    if (fseek(file, 0, SEEK_END) == 0 && (size = ftell(file)) >= 0 && fseek(file, 0, SEEK_SET) == 0) {
        bytes = malloc((size_t)size + 1);
        if (bytes) {
            *length = fread(bytes, 1, (size_t)size, file);
        }
    }
    fclose(file);
    return bytes;
}

/* A program's name, as hintcheck prints it. */
static const char *name_of(uint32_t program, char *room, size_t size)
{
    if (program == HINTCHECK_FONT_PROGRAM) {
        return "f";
    }
    if (program == HINTCHECK_CVT_PROGRAM) {
        return "p";
    }
    snprintf(room, size, "g%u", (unsigned)program);
    return room;
}

/* Says which programs are refused: the first ones. */
static void print_refusals(const hintcheck_refusal *refusals, size_t count)
{
    for (size_t i = 0; i < count; i++) {
        char program[16], place[16];
        printf("refused %s at %s:%u: %u %s\n", name_of(refusals[i].program, program, sizeof program),
               name_of(refusals[i].place, place, sizeof place), (unsigned)refusals[i].offset, (unsigned)refusals[i].reason,
               hintcheck_reason_text(refusals[i].reason));
    }
}

/* Asks hintcheck by a certificate: all glyphs may be drawn with hints, or none. */
static uint32_t check(const hintcheck_request *request, const char *certificate_name, hintcheck_refusal *refusals, hintcheck_answer *answer)
{
    size_t size = 0;
    unsigned char *certificate = read_file(certificate_name, &size);
    uint32_t status = hintcheck_check(request, certificate, certificate ? size : 0, refusals, LISTED, answer);
    free(certificate);
    memset(may_hint, status == HINTCHECK_ACCEPTED, sizeof may_hint);
    return status;
}

/* Asks hintcheck which glyphs may be drawn with hints, and says what it answers. */
static void ask(const unsigned char *font, size_t length, const char *certificate_name)
{
    hintcheck_request request = {.font = font, .font_length = length, .profile = HINTCHECK_STRICT, .limit = STEPS};
    hintcheck_refusal refusals[LISTED];
    hintcheck_answer answer;
    uint32_t status = certificate_name ? check(&request, certificate_name, refusals, &answer)
                                       : hintcheck_verdict(&request, refusals, LISTED, may_hint, sizeof may_hint, &answer);
    unsigned hinted = 0;
    switch (status) {
    case HINTCHECK_ACCEPTED:
        printf("accepted: %u programs, hinted\n", (unsigned)answer.programs);
        break;
    case HINTCHECK_REFUSED:
        for (size_t glyph = 0; glyph < sizeof may_hint; glyph++) {
            hinted += may_hint[glyph];
        }
        print_refusals(refusals, answer.listed);
        printf("refused: %u of %u programs, glyphs with hints: %u\n", (unsigned)answer.refused, (unsigned)answer.programs, hinted);
        break;
    default:
        printf("status %u, fault %u, not hinted\n", (unsigned)status, (unsigned)answer.fault);
    }
}

/* Adds a glyph's bitmap to the image, if it has a byte for each pixel: a font without outlines may have one with a bit for each. */
static void draw(const FT_Bitmap *bitmap, int left, int top)
{
    if (bitmap->pixel_mode != FT_PIXEL_MODE_GRAY) {
        return;
    }
    for (unsigned y = 0; y < bitmap->rows; y++) {
        for (unsigned x = 0; x < bitmap->width; x++) {
            int row = top + (int)y, column = left + (int)x;
            if (row >= 0 && row < HEIGHT && column >= 0 && column < WIDTH) {
                image[row][column] |= bitmap->buffer[(int)y * bitmap->pitch + (int)x];
            }
        }
    }
}

/* How FreeType is to load a glyph. */
static FT_Int32 load_flags(FT_UInt glyph)
{
    return glyph < sizeof may_hint && may_hint[glyph] ? FT_LOAD_DEFAULT : NO_HINTS;
}

/* Draws the text by its outlines, and returns how many glyphs were drawn. */
static int draw_text(FT_Face face, const char *text)
{
    int drawn = 0, at = 4;
    for (const char *c = text; *c; c++) {
        FT_UInt glyph = FT_Get_Char_Index(face, (unsigned char)*c);
        if (FT_Load_Glyph(face, glyph, load_flags(glyph) | FT_LOAD_RENDER | FT_LOAD_NO_BITMAP) == 0) {
            draw(&face->glyph->bitmap, at + face->glyph->bitmap_left, BASELINE - face->glyph->bitmap_top);
            at += (int)(face->glyph->advance.x >> 6);
            drawn++;
        }
    }
    return drawn;
}

/* Writes the image, black on white, and returns 0 where that worked. */
static int write_image(const char *name)
{
    FILE *file = fopen(name, "wb");
    if (!file) {
        return 1;
    }
    fprintf(file, "P5\n%d %d\n255\n", WIDTH, HEIGHT);
    for (int y = 0; y < HEIGHT; y++) {
        for (int x = 0; x < WIDTH; x++) {
            fputc(255 - image[y][x], file);
        }
    }
    int failed = ferror(file);
    return fclose(file) == 0 && !failed ? 0 : 1;
}

int main(int argc, char **argv)
{
    if (argc < 4) {
        fprintf(stderr, "usage: line FONT TEXT OUTPUT.pgm [CERT]\n");
        return 2;
    }
    size_t length = 0;
    unsigned char *font = read_file(argv[1], &length);
    if (!font) {
        fprintf(stderr, "line: %s can't be read\n", argv[1]);
        return 2;
    }
    ask(font, length, argc > 4 ? argv[4] : NULL);
    FT_Library library;
    FT_Face face;
    int status = 1;
    if (FT_Init_FreeType(&library) == 0) {
        if (FT_New_Memory_Face(library, font, (FT_Long)length, 0, &face) == 0) {
            FT_Set_Pixel_Sizes(face, 0, SIZE);
            printf("%d glyphs drawn\n", draw_text(face, argv[2]));
            status = write_image(argv[3]);
            FT_Done_Face(face);
        } else {
            printf("no face\n");
        }
        FT_Done_FreeType(library);
    }
    free(font);
    return status;
}
