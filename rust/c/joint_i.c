/* Works the checked joint I (docs/rules.md, 14), alone and on both faces of its column, and prints the figures. */
#include "jinqewan.h"
#include <inttypes.h>
#include <stdio.h>

static void print_face(const uint64_t *face)
{
    printf("row 1 %" PRIu64 " N, sum %" PRIu64 " N, moment %" PRIu64 " N m, cap %" PRIu64 " N\n",
        face[JINQEWAN_FORCE], face[JINQEWAN_SUM], face[JINQEWAN_MOMENT], face[JINQEWAN_CAP]);
    printf("governed by %c with %" PRIu64 " N\n", "FBKS"[face[JINQEWAN_CHECK]], face[JINQEWAN_GOVERNING]);
    printf("bending %c, bolts %c, flange weld %c, web weld %c\n", "FP"[face[JINQEWAN_BENDING]],
        "FP"[face[JINQEWAN_BOLTS]], "FP"[face[JINQEWAN_FLANGE_WELD]], "FP"[face[JINQEWAN_WEB_WELD]]);
}

/* Answers 0, or 1 where the joint is refused. */
static int work(const uint32_t *table, const uint32_t *joint, uint64_t *result)
{
    uint32_t answer = jinqewan_work(table, JINQEWAN_TABLE_WORDS, joint, JINQEWAN_JOINT_WORDS, result, JINQEWAN_RESULT_WORDS);
    if (answer != 0) {
        printf("refused by %" PRIu32 ", field %" PRIu32 ", face %" PRIu32 "\n", JINQEWAN_NUMBER(answer),
            JINQEWAN_FIELD(answer), JINQEWAN_FACE(answer));
        return 1;
    }
    return 0;
}

int main(void)
{
    const uint32_t alone[JINQEWAN_JOINT_WORDS] = {
        1, 0, 88, 20, 275, 275, 275, 5283, 2087, 132, 96, 127, 4765, 3071, 1657, 118, 67, 2000, 200,
        900, 0, 600, 80, 60, 2000, 1, 0, 57000, 50000, 15000, 2400};
    const uint32_t both[JINQEWAN_JOINT_WORDS] = {
        17, 0, 88, 20, 275, 275, 275, 5283, 2087, 132, 96, 127, 4765, 3071, 1657, 118, 67, 2000, 200,
        900, 0, 600, 80, 60, 2000, 1, 0, 57000, 50000, 15000, 2400, 0, 0, 0, 0, 0, 0, 0,
        1, 0, 275, 275, 3071, 1657, 118, 67, 2000, 200,
        900, 0, 600, 80, 60, 2000, 1, 0, 57000, 50000, 2400};
    uint32_t built_in[JINQEWAN_TABLE_WORDS];
    uint64_t result[JINQEWAN_RESULT_WORDS];
    if (jinqewan_built_in(built_in, JINQEWAN_TABLE_WORDS) != 0 || work(built_in, alone, result) != 0) {
        return 1;
    }
    print_face(result);
    if (work(built_in, both, result) != 0) {
        return 1;
    }
    printf("on both faces\n");
    print_face(result);
    print_face(result + JINQEWAN_SECOND_FACE);
    printf("panel %c\n", "FP"[result[JINQEWAN_PANEL]]);
    return 0;
}
