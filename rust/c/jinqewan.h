/* The proved calls, for C. Link with libexports.a.
 *
 * A slice is a pointer with its count of elements. A joint is 66 words: its fields in order (docs/rules.md, 2.1) with eight levers, spare
 * ones 0, then the second face's fields 1, 2, 6, 7 and 14 to 29 with its eight levers. These last 28 words are looked at only where field 1
 * is 16 to 24, and jinqewan_read puts 0 there for a joint with one face. A face may have no rows: then its field 1 is 0, or 16 where a
 * second face follows, its field 2 is 0, and all its levers are spare ones. The axial force is its two's complement. A bolt table is 25
 * words: its count of sizes, twelve diameters in millimetres and twelve areas in tenths of a square millimetre, of which only the counted
 * ones are looked at. An area is the tensile stress area of the thread, not the shank's, and nothing here can tell them apart. Slices that
 * a call reads and slices that it writes don't overlap.
 *
 * Each call but jinqewan_rest answers 0 where it did what it is for, and else one number that tells why not: the refusal's number
 * (JINQEWAN_NUMBER), for refusal 10 the field (JINQEWAN_FIELD) and, where jinqewan_work refuses a joint with two faces, the face
 * (JINQEWAN_FACE); or JINQEWAN_SHORT where a slice can't hold a joint, a bolt table, a result or eight forces; or, of the sheet
 * alone, JINQEWAN_NO_ROOM. Whatever is answered but 0, every slice and place that was lent is as it was. */
#ifndef JINQEWAN_H
#define JINQEWAN_H

#include <stddef.h>
#include <stdint.h>

#ifdef __cplusplus
extern "C" {
#endif

enum {
    JINQEWAN_JOINT_WORDS = 66,
    JINQEWAN_SECOND_FACE_FIELDS = 38,   /* where the second face's words begin in a joint */
    JINQEWAN_TABLE_WORDS = 25,
    JINQEWAN_TABLE_SIZES = 12,          /* most sizes of a bolt table */
    JINQEWAN_FORCES = 8,
    JINQEWAN_RESULT_WORDS = 35,
    JINQEWAN_LONGEST_FILE = 322,
    JINQEWAN_LONGEST_INPUT = 65536,
    JINQEWAN_SHORT = 100,
    JINQEWAN_NO_ROOM = 101
};

/* The words of a bolt table: how many sizes it has, and where the twelve diameters and the twelve areas begin. */
enum {
    JINQEWAN_TABLE_COUNT = 0,
    JINQEWAN_TABLE_DIAMETERS = 1,       /* millimetres */
    JINQEWAN_TABLE_AREAS = 13           /* tensile stress areas, tenths of a square millimetre: 3030 for an M22 of 303 mm2 */
};

/* The kinds of joint file: one of the old kind has no field 30, and gives 15000 for it. Any number but 1 is taken for the new kind. */
enum {
    JINQEWAN_OLD_KIND = 1,
    JINQEWAN_NEW_KIND = 2
};

/* The parts of an answer. The face is 1 or 2 where jinqewan_work refuses a joint with two faces, else 0. */
#define JINQEWAN_NUMBER(answer) ((answer) & 255u)
#define JINQEWAN_FIELD(answer) (((answer) >> 8) & 255u)
#define JINQEWAN_FACE(answer) (((answer) >> 16) & 255u)

/* No sheet of so many bytes of input is longer, up to JINQEWAN_LONGEST_INPUT of them: it has at most a line for each 25 of them, and one
 * for what is left. */
#define JINQEWAN_LONGEST_SHEET(bytes) (((size_t)(bytes) + 24) / 25 * 285)

/* The words of a result. Those of the second face stand JINQEWAN_SECOND_FACE places further on; they are 0 where there is none. */
enum {
    JINQEWAN_FORCE = 0,         /* eight row forces, newtons */
    JINQEWAN_SUM = 8,           /* newtons */
    JINQEWAN_MOMENT = 9,        /* newton metres */
    JINQEWAN_CAP = 10,          /* newtons */
    JINQEWAN_CHECK = 11,        /* 0 flange, 1 bearing, 2 buckling, 3 panel */
    JINQEWAN_GOVERNING = 12,    /* newtons */
    JINQEWAN_BENDING = 13,      /* 1 where the face passes, else 0 */
    JINQEWAN_BOLTS = 14,
    JINQEWAN_FLANGE_WELD = 15,
    JINQEWAN_WEB_WELD = 16,
    JINQEWAN_SECOND_FACE = 17,
    JINQEWAN_PANEL = 34         /* of two faces: 1 where the column's web panel passes, else 0 */
};

/* Row forces under the limits of row groups 1-1, 1-2, .. 1-n, 2-2 and so on, for 0 to 8 rows; no rows need no limits. `forces` has 8
 * places. */
uint32_t jinqewan_allocate(size_t count, const uint64_t *limits, size_t limits_length, uint64_t *forces, size_t forces_length);

/* The joint that the bytes, files of this kind, begin with, into `fields`, which has 66 places, and the place after it into `next`. */
uint32_t jinqewan_read(const uint8_t *bytes, size_t bytes_length, uint32_t kind, uint32_t *fields, size_t fields_length, size_t *next);

/* The place where the bytes after the first joint begin: the end when it can't be read. */
size_t jinqewan_rest(const uint8_t *bytes, size_t bytes_length, uint32_t kind);

/* The joint's file, of the new kind, into `buffer`, and its length into `length`. */
uint32_t jinqewan_write(const uint32_t *fields, size_t fields_length, uint8_t *buffer, size_t buffer_length, size_t *length);

/* The five sizes built in, as a bolt table, into `table`, which has 25 places. */
uint32_t jinqewan_built_in(uint32_t *table, size_t table_length);

/* Puts a bolt table in force: its 25 words go to the front of `in_force`, those past the count too. One that isn't taken leaves the table
 * before in force, so look at the answer: after a refusal jinqewan_work goes on with the bolts of before. `in_force` is read as well: let it
 * hold a table, jinqewan_built_in's at first. Refused are, each tried over all sizes before the next: by 16 a count that isn't 1 to 12, a diameter that isn't 6 to 64,
 * an area that isn't 1 to 40000; by 17 diameters of which one isn't above the one before it; by 18 an area above 785 times the diameter's
 * square divided by 100. */
uint32_t jinqewan_load(const uint32_t *table, size_t table_length, uint32_t *in_force, size_t in_force_length);

/* The joint worked by a bolt table, into `result`, which has 35 places. To this call a table that jinqewan_load would refuse has no sizes:
 * field 4 is then refused by 10, whatever it is. Where column flange and plate are both too thick for the bolts, which was refused by 14
 * once, the rows go by P207's triangle. A face with no rows comes to no forces, sum 0 and moment 0, and the rest is worked as ever. */
uint32_t jinqewan_work(const uint32_t *table, size_t table_length, const uint32_t *fields, size_t fields_length, uint64_t *result,
    size_t result_length);

/* The sheet of joint files of the new kind end to end, by the bolts built in, into `output`, and its length into `length`. The sheet's
 * refusals are its lines, `R 4` too: they are printed, and the answer is 0; or JINQEWAN_NO_ROOM where `output` can't hold all lines. An
 * output of JINQEWAN_LONGEST_SHEET bytes always can; in a shorter one the lines are measured before they are printed, which takes about as
 * long again. */
uint32_t jinqewan_sheet(const uint8_t *input, size_t input_length, uint8_t *output, size_t output_length, size_t *length);

#ifdef __cplusplus
}
#endif

#endif
