/* Works the checked joint I (docs/rules.md, 14) with M22, a size that isn't built in, by a bolt table of another maker, and prints the
 * figures. A second table, with the same diameter twice, isn't taken and leaves the first in force. */
#include "jinqewan.h"
#include <inttypes.h>
#include <stdio.h>

/* Prints what loading the table came to, and answers it. */
static uint32_t load(const char *name, const uint32_t *table, uint32_t *in_force)
{
    uint32_t answer = jinqewan_load(table, JINQEWAN_TABLE_WORDS, in_force, JINQEWAN_TABLE_WORDS);
    if (answer == 0) {
        printf("%s: taken\n", name);
    } else {
        printf("%s: refused by %" PRIu32 "\n", name, JINQEWAN_NUMBER(answer));
    }
    return answer;
}

/* Prints the figures, and answers 0 where the joint is worked. */
static uint32_t work(const char *name, const uint32_t *table, const uint32_t *joint)
{
    uint64_t result[JINQEWAN_RESULT_WORDS];
    uint32_t answer = jinqewan_work(table, JINQEWAN_TABLE_WORDS, joint, JINQEWAN_JOINT_WORDS, result, JINQEWAN_RESULT_WORDS);
    if (answer != 0) {
        printf("%s: refused by %" PRIu32 ", field %" PRIu32 "\n", name, JINQEWAN_NUMBER(answer), JINQEWAN_FIELD(answer));
        return answer;
    }
    printf("%s: row 1 %" PRIu64 " N, sum %" PRIu64 " N, moment %" PRIu64 " N m, cap %" PRIu64 " N\n", name,
        result[JINQEWAN_FORCE], result[JINQEWAN_SUM], result[JINQEWAN_MOMENT], result[JINQEWAN_CAP]);
    printf("bending %c, bolts %c, flange weld %c, web weld %c\n", "FP"[result[JINQEWAN_BENDING]],
        "FP"[result[JINQEWAN_BOLTS]], "FP"[result[JINQEWAN_FLANGE_WELD]], "FP"[result[JINQEWAN_WEB_WELD]]);
    return 0;
}

int main(void)
{
    const uint32_t other_maker[JINQEWAN_TABLE_WORDS] = {
        [JINQEWAN_TABLE_COUNT] = 4,
        [JINQEWAN_TABLE_DIAMETERS] = 16, 20, 22, 27,
        [JINQEWAN_TABLE_AREAS] = 1570, 2450, 3030, 4590};
    const uint32_t equal_diameters[JINQEWAN_TABLE_WORDS] = {
        [JINQEWAN_TABLE_COUNT] = 2,
        [JINQEWAN_TABLE_DIAMETERS] = 24, 24,
        [JINQEWAN_TABLE_AREAS] = 3530, 3530};
    const uint32_t joint[JINQEWAN_JOINT_WORDS] = {
        1, 0, 88, 22, 275, 275, 275, 5283, 2087, 132, 96, 127, 4765, 3071, 1657, 118, 67, 2000, 200,
        900, 0, 600, 80, 60, 2000, 1, 0, 57000, 50000, 15000, 2400};
    uint32_t in_force[JINQEWAN_TABLE_WORDS];
    if (jinqewan_built_in(in_force, JINQEWAN_TABLE_WORDS) != 0) {
        return 1;
    }
    if (work("M22 by the bolts built in", in_force, joint) == 0) {
        return 1;
    }
    if (load("the other maker's table", other_maker, in_force) != 0) {
        return 1;
    }
    if (load("a table with equal diameters", equal_diameters, in_force) != 17) {
        return 1;
    }
    return work("M22 by the table in force", in_force, joint) == 0 ? 0 : 1;
}
