/* Loads the fonts of a list with FreeType's pedantic interpreter, in the way that the list says, at
 * several sizes and in several orders of their glyphs, and says of each whether its loads fail as
 * expected.
 * Usage: premises FOLDER, where fonts.py has written the fonts and fonts.txt. */
#include <ft2build.h>
#include FT_FREETYPE_H
#include FT_MODULE_H
#include FT_SIZES_H
#include <stdio.h>
#include <stdlib.h>
#include <string.h>

#define NAME 128
#define COUNT(array) (sizeof(array) / sizeof *(array))

/* Interpreter versions, sizes in sixty-fourths of a point, resolutions, and what is drawn. A face
 * goes through the sizes in this order, so that it comes back to some. */
static const FT_UInt versions[] = {35, 40};
static const FT_F26Dot6 usual[] = {8 * 64, 11 * 64, 12 * 64, 16 * 64, 10 * 64 + 29, 24 * 64,
                                   48 * 64, 96 * 64, 12 * 64, 8 * 64, 200 * 64};
static const FT_F26Dot6 small_large_small[] = {12 * 64, 30 * 64, 12 * 64};
static const FT_F26Dot6 huge[] = {20000 * 64};
static const FT_UInt equal[][2] = {{72, 72}, {96, 96}};
static const FT_UInt unequal[][2] = {{72, 96}, {96, 72}, {72, 200}};
static const FT_Int32 targets[] = {FT_LOAD_TARGET_NORMAL, FT_LOAD_TARGET_MONO, FT_LOAD_TARGET_LCD};
static const char *const target_names[] = {"normal", "mono", "lcd"};

/* A way in which a font is loaded: at which sizes, at how many of these first ones the loads don't
 * count, and whether each of them is an FT_Size of its own. */
struct way {
    const char *name;
    FT_Int32 flags;
    const FT_F26Dot6 *sizes;
    size_t count, uncounted;
    int apart;
};

/* With its hints, with flags that are to keep its programs from being run, and with its hints at
 * other sizes. */
static const struct way ways[] = {
    {"hinted", FT_LOAD_NO_AUTOHINT, usual, COUNT(usual), 0, 0},
    {"no-hinting", FT_LOAD_NO_HINTING, usual, COUNT(usual), 0, 0},
    {"no-scale", FT_LOAD_NO_SCALE, usual, COUNT(usual), 0, 0},
    {"force-autohint", FT_LOAD_FORCE_AUTOHINT, usual, COUNT(usual), 0, 0},
    {"both-flags", FT_LOAD_NO_HINTING | FT_LOAD_NO_AUTOHINT, usual, COUNT(usual), 0, 0},
    {"at-12", FT_LOAD_NO_AUTOHINT, small_large_small, 1, 0, 0},
    {"at-12-30-12", FT_LOAD_NO_AUTOHINT, small_large_small, 3, 2, 0},
    {"sizes-apart", FT_LOAD_NO_AUTOHINT, small_large_small, 3, 2, 1},
    {"at-20000", FT_LOAD_NO_AUTOHINT, huge, COUNT(huge), 0, 0}};

/* A line of the list. */
struct line {
    char font[NAME], way[NAME], equal[NAME], unequal[NAME];
};

/* What came of a font's loads, and where the first failed one was. */
struct tally {
    unsigned long loads, failures;
    char first[4 * NAME];
};

/* Where a load is. */
struct place {
    FT_Int32 flags;
    FT_UInt version, target;
    const FT_UInt *resolution;
    FT_F26Dot6 size;
    const char *order;
};

/* Ends the program where FreeType can't do what isn't tried here. */
static void must(FT_Error error, const char *what)
{
    if (error) {
        fprintf(stderr, "%s: error %#x\n", what, (unsigned)error);
        exit(2);
    }
}

/* The way of this name. */
static const struct way *way_of(const char *name)
{
    for (size_t each = 0; each < COUNT(ways); each++)
        if (!strcmp(ways[each].name, name))
            return &ways[each];
    fprintf(stderr, "%s: not a way to load a font\n", name);
    exit(2);
}

static void load(FT_Face face, FT_UInt glyph, const struct place *place, struct tally *tally)
{
    FT_Int32 flags = FT_LOAD_PEDANTIC | FT_LOAD_NO_BITMAP | place->flags;
    FT_Error error = FT_Load_Glyph(face, glyph, flags | targets[place->target]);
    tally->loads++;
    if (!error)
        return;
    if (!tally->failures++) {
        char name[NAME] = "";
        FT_Get_Glyph_Name(face, glyph, name, NAME);
        snprintf(tally->first, sizeof tally->first,
                 "glyph %u (%s), %.2f points at %u x %u, version %u, %s, %s: error %#x", glyph,
                 name, place->size / 64.0, place->resolution[0], place->resolution[1],
                 place->version, target_names[place->target], place->order, (unsigned)error);
    }
}

/* All glyphs from the first to the last and back; where they are few, also each after each other,
 * and then the other one again. */
static void load_in_orders(FT_Face face, struct place *place, struct tally *tally)
{
    FT_UInt count = (FT_UInt)face->num_glyphs;
    place->order = "ascending";
    for (FT_UInt glyph = 0; glyph < count; glyph++)
        load(face, glyph, place, tally);
    place->order = "descending";
    for (FT_UInt glyph = count; glyph-- > 0;)
        load(face, glyph, place, tally);
    place->order = "one, another, and the first";
    for (FT_UInt pair = 0; count <= 16 && pair < count * count; pair++) {
        load(face, pair / count, place, tally);
        load(face, pair % count, place, tally);
        load(face, pair / count, place, tally);
    }
}

/* At two sizes of one face in turn, each with what its CVT program has left. */
static void load_at_two_sizes(FT_Face face, struct place *place, struct tally *tally)
{
    FT_Size first = face->size, second;
    must(FT_New_Size(face, &second), "second size");
    must(FT_Activate_Size(second), "second size");
    must(FT_Set_Char_Size(face, 2 * place->size, 0, place->resolution[0], place->resolution[1]),
         "second size");
    place->order = "at one of two sizes";
    for (FT_UInt glyph = 0; glyph < (FT_UInt)face->num_glyphs; glyph++) {
        for (int turn = 0; turn < 4; turn++) {
            must(FT_Activate_Size(turn % 2 ? first : second), "size");
            load(face, glyph, place, tally);
        }
    }
    must(FT_Done_Size(second), "second size");
    must(FT_Activate_Size(first), "size");
}

/* All glyphs at one size, for each of what is drawn. */
static void load_at_size(FT_Face face, const struct way *way, struct place *place,
                         struct tally *tally)
{
    FT_Size size;
    if (way->apart) {
        must(FT_New_Size(face, &size), "size of its own");
        must(FT_Activate_Size(size), "size of its own");
    }
    must(FT_Set_Char_Size(face, place->size, 0, place->resolution[0], place->resolution[1]),
         "size");
    for (place->target = 0; place->target < COUNT(targets); place->target++)
        load_in_orders(face, place, tally);
    place->target = 0;
    if (way->sizes == usual)
        load_at_two_sizes(face, place, tally);
}

/* A face of its own for a version and a resolution, at all sizes of a way. */
static void load_font(const char *file, const struct way *way, FT_UInt version,
                      const FT_UInt *resolution, struct tally *tally)
{
    FT_Library library;
    FT_Face face;
    must(FT_Init_FreeType(&library), "FreeType");
    must(FT_Property_Set(library, "truetype", "interpreter-version", &version), "version");
    must(FT_New_Face(library, file, 0, &face), file);
    struct place place = {.flags = way->flags, .version = version, .resolution = resolution};
    for (size_t size = 0; size < way->count; size++) {
        struct tally uncounted = {0};
        place.size = way->sizes[size];
        load_at_size(face, way, &place, size < way->uncounted ? &uncounted : tally);
    }
    must(FT_Done_Face(face), "face");
    must(FT_Done_FreeType(library), "FreeType");
}

/* Whether this FreeType scales to numbers of more than 32 bits: 2.12.1 doesn't on x86-64, where it
 * multiplies in assembler, unless it was built with FT_CONFIG_OPTION_NO_ASSEMBLER. */
static int scales_wide(void)
{
    return FT_MulFix(0x7FFFFFFF, 0x20000) > 0x7FFFFFFF;
}

/* Whether the loads came out as expected, which is printed. */
static int is_as_expected(const struct line *line, const char *where, const char *expected,
                          const struct tally *tally)
{
    if (!strcmp(expected, "scaled"))
        expected = scales_wide() ? "faults" : "holds";
    const char *found = tally->failures == 0              ? "holds"
                        : tally->failures < tally->loads ? "fails"
                                                          : "faults";
    int as_expected = !strcmp(expected, found) || !strcmp(expected, "any")
                      || (!strcmp(expected, "fails") && tally->failures > 0);
    printf("%-28s %-14s %-8s %-6s %s, %lu of %lu loads fail\n", line->font, line->way, where, found,
           as_expected ? "as expected" : "NOT EXPECTED", tally->failures, tally->loads);
    if (tally->failures > 0 && (strcmp(expected, "faults") || !as_expected))
        printf("    first: %s\n", tally->first);
    return as_expected;
}

/* Whether a font's loads come out as expected at resolutions of one kind. */
static int tries(const char *folder, const struct line *line, const char *where,
                 const char *expected, const FT_UInt (*resolutions)[2], size_t count)
{
    char file[4 * NAME];
    const struct way *way = way_of(line->way);
    struct tally tally = {0};
    snprintf(file, sizeof file, "%s/%s.ttf", folder, line->font);
    for (size_t version = 0; version < COUNT(versions); version++)
        for (size_t each = 0; each < count; each++)
            load_font(file, way, versions[version], resolutions[each], &tally);
    return is_as_expected(line, where, expected, &tally);
}

static void print_version(void)
{
    FT_Library library;
    FT_Int major, minor, patch;
    must(FT_Init_FreeType(&library), "FreeType");
    FT_Library_Version(library, &major, &minor, &patch);
    printf("FreeType %d.%d.%d, FT_Long of %zu bits, scaled numbers of %s\n", major, minor, patch,
           8 * sizeof(FT_Long), scales_wide() ? "more than 32" : "32");
    FT_Done_FreeType(library);
}

int main(int argc, char **argv)
{
    char list[4 * NAME];
    struct line line;
    if (argc != 2) {
        fprintf(stderr, "usage: premises FOLDER\n");
        return 2;
    }
    snprintf(list, sizeof list, "%s/fonts.txt", argv[1]);
    FILE *lines = fopen(list, "r");
    if (!lines) {
        perror(list);
        return 2;
    }
    print_version();
    int all = 1;
    while (fscanf(lines, "%127s %127s %127s %127s", line.font, line.way, line.equal, line.unequal)
           == 4) {
        all &= tries(argv[1], &line, "equal", line.equal, equal, COUNT(equal));
        all &= tries(argv[1], &line, "unequal", line.unequal, unequal, COUNT(unequal));
    }
    fclose(lines);
    puts(all ? "all as expected" : "not all as expected");
    return !all;
}
