/* Every macro of the header on every kind of result, from the calls and from numbers. Says which line is wrong. */
#include <stdio.h>
#include <string.h>

#include "foqtirel.h"
#include "foqtirel.h"

#define DEMAND(holds)        \
    do {                     \
        if (!(holds)) {      \
            return __LINE__; \
        }                    \
    } while (0)

/* The program F of the vectors: 0, d 2<0, d 3<0, the first beats the second. */
static const uint8_t image[] = {2, 0, 3, 0, 1, 0, 0, 0, 24, 0, 2, 0, 26, 0, 3, 0, 29,
                                0, 3, 0, 32, 0, 2, 0, 0, 0, 1, 2, 0, 1, 3, 0, 1, 2};
/* The same with rules 1 and 2 in each other's places. */
static const uint8_t turned[] = {2, 0, 3, 0, 1, 0, 0, 0, 24, 0, 2, 0, 26, 0, 3, 0, 29,
                                 0, 3, 0, 32, 0, 2, 0, 0, 0, 1, 3, 0, 1, 2, 0, 2, 1};
/* 0, d 2<0, 1: the first and the last clash. */
static const uint8_t clashing[] = {2, 0, 3, 0, 0, 0, 0, 0, 24, 0, 2, 0, 26, 0, 3, 0,
                                   29, 0, 2, 0, 31, 0, 0, 0, 0, 0, 1, 2, 0, 0, 1};
/* The program F with the kind of rule 2 out of range. */
static uint8_t damaged[sizeof image];

static uint8_t form[FOQTIREL_MOST_IMAGE];
static uint8_t typed[FOQTIREL_MOST_IMAGE];
static uint8_t numbers[FOQTIREL_MOST_RULES];
static uint8_t marks[FOQTIREL_MOST_RULES];
static uint32_t arguments[FOQTIREL_ARGUMENTS];
static struct foqtirel_node nodes[FOQTIREL_MOST_NODES];
static uint64_t lines[FOQTIREL_MOST_LINES + 1u];
static int asked;

static uint64_t file(size_t room)
{
    asked++;
    return foqtirel_file(image, sizeof image, form, room, numbers, sizeof numbers);
}

static uint64_t unfile(const uint8_t *from, size_t count, size_t room)
{
    asked++;
    return foqtirel_unfile(from, sizeof image, numbers, count, typed, room);
}

static uint64_t trees(uint32_t literal, uint32_t budget, size_t room, size_t node_room)
{
    asked++;
    return foqtirel_trees(image, sizeof image, literal, budget, arguments, room, nodes, node_room);
}

static uint32_t query(uint32_t literal, uint32_t budget)
{
    asked++;
    return foqtirel_query(image, sizeof image, literal, budget);
}

static int results_of_check(void)
{
    uint64_t result = foqtirel_check(image, sizeof image);

    DEMAND(result == 0 && !FOQTIREL_REFUSED64(result) && FOQTIREL_NUMBER64(result) == 0u);
    result = foqtirel_check(damaged, sizeof damaged);
    DEMAND(FOQTIREL_REFUSED64(result) && FOQTIREL_NUMBER64(result) == FOQTIREL_RULE_KIND);
    DEMAND(FOQTIREL_PLACE64(result) == 2u && FOQTIREL_CODE64(result) == 0u);
    result = foqtirel_check(NULL, 0);
    DEMAND(FOQTIREL_REFUSED64(result) && FOQTIREL_NUMBER64(result) == FOQTIREL_IMAGE_LENGTH);
    DEMAND(FOQTIREL_PLACE64(result) == 0u);
    return 0;
}

static int results_of_clash(void)
{
    uint64_t result = foqtirel_clash(clashing, sizeof clashing, marks, 2);

    DEMAND(FOQTIREL_REFUSED64(result) && FOQTIREL_NUMBER64(result) == FOQTIREL_MARK_TABLE);
    DEMAND(FOQTIREL_PLACE64(result) == 0u && marks[0] == 0u);
    marks[1] = 7;
    marks[3] = 7;
    result = foqtirel_clash(clashing, sizeof clashing, marks, sizeof marks);
    DEMAND(!FOQTIREL_REFUSED64(result) && FOQTIREL_NUMBER64(result) == 0u && FOQTIREL_COUNT64(result) == 3u);
    DEMAND(marks[0] == 1u && marks[1] == 0u && marks[2] == 1u && marks[3] == 7u);
    result = foqtirel_check(clashing, sizeof clashing);
    DEMAND(FOQTIREL_NUMBER64(result) == FOQTIREL_STRICT_CONTRADICTION);
    result = foqtirel_clash(image, sizeof image, NULL, 0);
    DEMAND(FOQTIREL_REFUSED64(result) && FOQTIREL_NUMBER64(result) == FOQTIREL_IMAGE_ACCEPTED);
    DEMAND(FOQTIREL_PLACE64(result) == 0u);
    result = foqtirel_clash(damaged, sizeof damaged, marks, sizeof marks);
    DEMAND(FOQTIREL_REFUSED64(result) && FOQTIREL_NUMBER64(result) == FOQTIREL_RULE_KIND);
    DEMAND(FOQTIREL_PLACE64(result) == 2u);
    return 0;
}

static int results_of_file(void)
{
    uint64_t result = file(sizeof form);

    DEMAND(!FOQTIREL_REFUSED64(result) && FOQTIREL_NUMBER64(result) == 0u && FOQTIREL_LENGTH64(result) == sizeof image);
    DEMAND(form[2] == 3u && form[sizeof image - 1] == 2u && form[sizeof image] == 0u);
    DEMAND(numbers[0] == 0u && numbers[1] == 1u && numbers[2] == 2u && numbers[3] == 0u);
    result = file(sizeof image - 1);
    DEMAND(FOQTIREL_REFUSED64(result) && FOQTIREL_NUMBER64(result) == FOQTIREL_OUTPUT_TABLE);
    DEMAND(FOQTIREL_PLACE64(result) == 0u);
    result = foqtirel_file(image, sizeof image, form, sizeof form, numbers, 2);
    DEMAND(FOQTIREL_REFUSED64(result) && FOQTIREL_NUMBER64(result) == FOQTIREL_NUMBER_TABLE);
    DEMAND(FOQTIREL_PLACE64(result) == 0u);
    result = foqtirel_file(damaged, sizeof damaged, form, 0, NULL, 0);
    DEMAND(FOQTIREL_REFUSED64(result) && FOQTIREL_NUMBER64(result) == FOQTIREL_RULE_KIND);
    DEMAND(FOQTIREL_PLACE64(result) == 2u);
    DEMAND(FOQTIREL_LENGTH64((uint64_t)FOQTIREL_MOST_IMAGE) == FOQTIREL_MOST_IMAGE);
    return 0;
}

static int results_of_unfile(void)
{
    uint64_t result;

    numbers[0] = 0;
    numbers[1] = 2;
    numbers[2] = 1;
    result = unfile(image, 3, sizeof image);
    DEMAND(!FOQTIREL_REFUSED64(result) && FOQTIREL_NUMBER64(result) == 0u && FOQTIREL_LENGTH64(result) == sizeof image);
    DEMAND(memcmp(typed, turned, sizeof turned) == 0 && typed[sizeof image] == 0u);
    result = unfile(image, 3, sizeof image - 1);
    DEMAND(FOQTIREL_REFUSED64(result) && FOQTIREL_NUMBER64(result) == FOQTIREL_OUTPUT_TABLE);
    result = unfile(image, 2, sizeof typed);
    DEMAND(FOQTIREL_REFUSED64(result) && FOQTIREL_NUMBER64(result) == FOQTIREL_NUMBER_TABLE);
    result = unfile(turned, 3, sizeof typed);
    DEMAND(FOQTIREL_REFUSED64(result) && FOQTIREL_NUMBER64(result) == FOQTIREL_MISFILED);
    numbers[2] = 3;
    result = unfile(image, 3, sizeof typed);
    DEMAND(FOQTIREL_REFUSED64(result) && FOQTIREL_NUMBER64(result) == FOQTIREL_MISFILED);
    DEMAND(FOQTIREL_PLACE64(result) == 0u);
    result = unfile(damaged, 3, sizeof typed);
    DEMAND(FOQTIREL_REFUSED64(result) && FOQTIREL_NUMBER64(result) == FOQTIREL_RULE_KIND);
    DEMAND(FOQTIREL_PLACE64(result) == 2u);
    return 0;
}

static int results_of_list(void)
{
    uint64_t result = foqtirel_list(image, sizeof image, arguments, 3);

    DEMAND(!FOQTIREL_REFUSED64(result) && FOQTIREL_NUMBER64(result) == 0u && FOQTIREL_COUNT64(result) == 3u);
    DEMAND(FOQTIREL_MASK(arguments[0]) == 0u && FOQTIREL_LITERAL(arguments[0]) == 0u);
    DEMAND(FOQTIREL_MASK(arguments[1]) == 1u && FOQTIREL_LITERAL(arguments[1]) == 2u);
    DEMAND(FOQTIREL_MASK(arguments[2]) == 2u && FOQTIREL_LITERAL(arguments[2]) == 3u);
    DEMAND(FOQTIREL_MASK(65535u * 128u + 127u) == 65535u && FOQTIREL_LITERAL(65535u * 128u + 127u) == 127u);
    result = foqtirel_list(image, sizeof image, NULL, 0);
    DEMAND(FOQTIREL_REFUSED64(result) && FOQTIREL_NUMBER64(result) == FOQTIREL_ARGUMENT_TABLE);
    DEMAND(FOQTIREL_PLACE64(result) == 0u);
    DEMAND(FOQTIREL_COUNT64((uint64_t)100000u) == 100000u && !FOQTIREL_REFUSED64((uint64_t)100000u));
    return 0;
}

static int results_of_trees(void)
{
    uint64_t result = trees(2, 3, 3, 3);

    DEMAND(!FOQTIREL_REFUSED64(result) && FOQTIREL_NUMBER64(result) == 0u);
    DEMAND(FOQTIREL_CODE64(result) == FOQTIREL_YES && FOQTIREL_NODES64(result) == 3u);
    DEMAND(nodes[0].kind == FOQTIREL_ROOT && nodes[0].mark == FOQTIREL_UNDEFEATED && nodes[0].parent == 0u);
    DEMAND(nodes[1].kind == FOQTIREL_ROOT && nodes[1].mark == FOQTIREL_DEFEATED && nodes[1].parent == 1u);
    DEMAND(nodes[2].kind == FOQTIREL_PROPER && nodes[2].mark == FOQTIREL_UNDEFEATED && nodes[2].parent == 1u);
    DEMAND(nodes[0].argument == 1u && nodes[1].argument == 2u && nodes[2].argument == 1u);
    result = trees(3, 4096, 3, 4096);
    DEMAND(!FOQTIREL_REFUSED64(result) && FOQTIREL_CODE64(result) == FOQTIREL_NO && FOQTIREL_NODES64(result) == 3u);
    result = trees(100, 0, 3, 0);
    DEMAND(!FOQTIREL_REFUSED64(result) && FOQTIREL_CODE64(result) == FOQTIREL_UNKNOWN && FOQTIREL_NODES64(result) == 0u);
    result = trees(2, 2, 3, 2);
    DEMAND(!FOQTIREL_REFUSED64(result) && FOQTIREL_CODE64(result) == FOQTIREL_UNFINISHED);
    DEMAND(FOQTIREL_NODES64(result) == 2u && nodes[0].argument == 0u && nodes[1].mark == 0u);
    result = FOQTIREL_UNDECIDED * (uint64_t)65536u + FOQTIREL_MOST_NODES;
    DEMAND(!FOQTIREL_REFUSED64(result) && FOQTIREL_CODE64(result) == FOQTIREL_UNDECIDED);
    DEMAND(FOQTIREL_NODES64(result) == FOQTIREL_MOST_NODES);
    result = trees(FOQTIREL_LITERALS, 0, 3, 0);
    DEMAND(FOQTIREL_REFUSED64(result) && FOQTIREL_NUMBER64(result) == FOQTIREL_QUERY_LITERAL);
    DEMAND(FOQTIREL_CODE64(result) == 0u && FOQTIREL_PLACE64(result) == 0u);
    result = trees(2, FOQTIREL_MOST_NODES + 1u, 3, FOQTIREL_MOST_NODES);
    DEMAND(FOQTIREL_REFUSED64(result) && FOQTIREL_NUMBER64(result) == FOQTIREL_BUDGET);
    result = trees(2, 3, 3, 2);
    DEMAND(FOQTIREL_REFUSED64(result) && FOQTIREL_NUMBER64(result) == FOQTIREL_NODE_TABLE);
    result = trees(2, 3, 2, 3);
    DEMAND(FOQTIREL_REFUSED64(result) && FOQTIREL_NUMBER64(result) == FOQTIREL_ARGUMENT_TABLE);
    return 0;
}

static int results_of_query(void)
{
    uint32_t result = query(2, FOQTIREL_MOST_NODES);

    DEMAND(!FOQTIREL_REFUSED(result) && FOQTIREL_CODE(result) == FOQTIREL_YES && FOQTIREL_NODES(result) == 3u);
    result = query(3, 3);
    DEMAND(!FOQTIREL_REFUSED(result) && FOQTIREL_CODE(result) == FOQTIREL_NO && FOQTIREL_NODES(result) == 3u);
    result = query(100, 0);
    DEMAND(!FOQTIREL_REFUSED(result) && FOQTIREL_CODE(result) == FOQTIREL_UNKNOWN && FOQTIREL_NODES(result) == 0u);
    result = query(2, 2);
    DEMAND(!FOQTIREL_REFUSED(result) && FOQTIREL_CODE(result) == FOQTIREL_UNFINISHED && FOQTIREL_NODES(result) == 2u);
    result = 3u * 65536u + 7u;
    DEMAND(!FOQTIREL_REFUSED(result) && FOQTIREL_CODE(result) == FOQTIREL_UNDECIDED && FOQTIREL_NODES(result) == 7u);
    DEMAND(FOQTIREL_REFUSED(FOQTIREL_BUDGET) && FOQTIREL_CODE(5u * 65536u) == 5u && FOQTIREL_NODES(result + 1u) == 8u);
    DEMAND(!FOQTIREL_REFUSED(UINT32_MAX) && FOQTIREL_CODE(UINT32_MAX) == 65535u && FOQTIREL_NODES(UINT32_MAX) == 65535u);
    result = query(128, 0);
    DEMAND(FOQTIREL_REFUSED(result) && result == FOQTIREL_QUERY_LITERAL && FOQTIREL_CODE(result) == 0u);
    result = foqtirel_query(NULL, 0, 2, FOQTIREL_MOST_NODES);
    DEMAND(FOQTIREL_REFUSED(result) && result == FOQTIREL_IMAGE_LENGTH && FOQTIREL_CODE(result) == 0u);
    return 0;
}

/* The sum of all shares: 0 with a refusal. */
static uint32_t paid(const struct foqtirel_billed *bill)
{
    uint32_t sum = 0;
    size_t branch;

    for (branch = 0; branch < FOQTIREL_BRANCHES; branch++) {
        sum += bill->shares[branch];
    }
    return sum;
}

static int results_of_bill(void)
{
    struct foqtirel_billed bill = foqtirel_bill(NULL, 0);
    size_t i;

    DEMAND(bill.number == 0u && bill.place == 0u && paid(&bill) == 0u);
    /* 183 cents each: the parts are 161.04, and 322.08 in all */
    lines[0] = FOQTIREL_LINE(4, query(2, FOQTIREL_MOST_NODES));
    lines[1] = FOQTIREL_LINE(11u, trees(3, 3, 3, 3));
    lines[2] = FOQTIREL_LINE(0, query(100, 0));
    lines[3] = FOQTIREL_LINE(0, query(2, 2));
    bill = foqtirel_bill(lines, 4);
    DEMAND(bill.number == 0u && bill.place == 0u && paid(&bill) == 322u);
    DEMAND(bill.shares[4] == 161u && bill.shares[11] == 161u && bill.shares[0] == 0u);
    /* 186 cents more: 163.68, and 485.76 in all */
    lines[4] = FOQTIREL_LINE(7, FOQTIREL_YES * 65536u + 16u);
    bill = foqtirel_bill(lines, 5);
    DEMAND(bill.shares[4] == 161u && bill.shares[7] == 164u && bill.shares[11] == 161u && paid(&bill) == 486u);
    /* refusals of query and trees, alone in their lines or not */
    lines[5] = FOQTIREL_LINE(3, query(FOQTIREL_LITERALS, 0));
    bill = foqtirel_bill(lines, 6);
    DEMAND(bill.number == FOQTIREL_BAD_LINE && bill.place == 5u && paid(&bill) == 0u);
    lines[3] = FOQTIREL_LINE(3, trees(FOQTIREL_LITERALS, 0, 3, 0));
    bill = foqtirel_bill(lines, 6);
    DEMAND(bill.number == FOQTIREL_BAD_LINE && bill.place == 3u && paid(&bill) == 0u);
    lines[1] = FOQTIREL_LINE(FOQTIREL_BRANCHES, query(2, 3));
    bill = foqtirel_bill(lines, 6);
    DEMAND(bill.number == FOQTIREL_BAD_LINE && bill.place == 1u && paid(&bill) == 0u);
    for (i = 0; i < FOQTIREL_MOST_LINES + 1u; i++) {
        lines[i] = FOQTIREL_LINE(2, FOQTIREL_YES * 65536u + FOQTIREL_MOST_NODES);
    }
    bill = foqtirel_bill(lines, FOQTIREL_MOST_LINES);
    DEMAND(bill.number == 0u && bill.place == 0u && bill.shares[2] == 773161u && paid(&bill) == 773161u);
    bill = foqtirel_bill(lines, FOQTIREL_MOST_LINES + 1u);
    DEMAND(bill.number == FOQTIREL_TOO_MANY_LINES && bill.place == 0u && paid(&bill) == 0u);
    return 0;
}

/* A branch of each width, and results of 32 and of 64 bits; a negative branch is none below 12. */
static int lines_of_a_bill(void)
{
    const uint8_t narrow = 255;
    const uint16_t middle = 65535;
    const int8_t below = -1;
    const uint32_t result = FOQTIREL_UNDECIDED * 65536u + FOQTIREL_MOST_NODES;
    const uint64_t half = (uint64_t)1 << 32;

    DEMAND(sizeof(FOQTIREL_LINE(0, result)) == sizeof(uint64_t) && FOQTIREL_LINE(0, 0u) == 0u);
    DEMAND(FOQTIREL_LINE(11, result) == 11u * half + 3u * 65536u + 4096u);
    DEMAND(FOQTIREL_LINE(11, (uint64_t)result) == FOQTIREL_LINE(11, result));
    DEMAND(FOQTIREL_LINE(1 ? 5 : 6, result) == 5u * half + result);
    DEMAND(FOQTIREL_LINE(5, 1 ? result : 0u) == 5u * half + result);
    DEMAND(FOQTIREL_LINE(narrow, result) == 255u * half + result);
    DEMAND(FOQTIREL_LINE(middle, result) == 65535u * half + result);
    DEMAND(FOQTIREL_LINE(UINT32_MAX, UINT32_MAX) == UINT64_MAX);
    DEMAND(FOQTIREL_LINE(below, result) == UINT32_MAX * half + result);
    return 0;
}

/* Each macro asks for its argument once. */
static int arguments_once(void)
{
    uint32_t entry[2];
    const uint32_t *at = entry;

    entry[0] = 259u;
    entry[1] = 0u;
    asked = 0;
    DEMAND(!FOQTIREL_REFUSED64(trees(2, 3, 3, 3)) && asked == 1);
    DEMAND(FOQTIREL_NUMBER64(trees(2, 3, 3, 3)) == 0u && asked == 2);
    DEMAND(FOQTIREL_PLACE64(trees(128, 3, 3, 3)) == 0u && asked == 3);
    DEMAND(FOQTIREL_COUNT64(trees(100, 0, 3, 0)) == 4u * 65536u && asked == 4);
    DEMAND(FOQTIREL_CODE64(trees(2, 3, 3, 3)) == FOQTIREL_YES && asked == 5);
    DEMAND(FOQTIREL_NODES64(trees(2, 3, 3, 3)) == 3u && asked == 6);
    DEMAND(!FOQTIREL_REFUSED(query(2, 3)) && asked == 7);
    DEMAND(FOQTIREL_CODE(query(2, 3)) == FOQTIREL_YES && asked == 8);
    DEMAND(FOQTIREL_NODES(query(2, 3)) == 3u && asked == 9);
    DEMAND(FOQTIREL_LENGTH64(file(sizeof form)) == sizeof image && asked == 10);
    DEMAND(FOQTIREL_MASK(*at++) == 2u && at == entry + 1);
    at = entry;
    DEMAND(FOQTIREL_LITERAL(*at++) == 3u && at == entry + 1);
    at = entry;
    DEMAND(FOQTIREL_LINE(*at++, query(2, 3)) == ((uint64_t)259u << 32) + 65539u && at == entry + 1 && asked == 11);
    DEMAND(FOQTIREL_LINE(*at++, trees(2, 3, 3, 3)) == 65539u && at == entry + 2 && asked == 12);
    return 0;
}

static int layout_of_a_node(void)
{
    DEMAND(sizeof(struct foqtirel_node) == 12 && offsetof(struct foqtirel_node, parent) == 4);
    DEMAND(offsetof(struct foqtirel_node, kind) == 8 && offsetof(struct foqtirel_node, mark) == 9);
    return 0;
}

static int layout_of_a_bill(void)
{
    DEMAND(sizeof(struct foqtirel_billed) == 56 && offsetof(struct foqtirel_billed, number) == 0);
    DEMAND(offsetof(struct foqtirel_billed, place) == 4 && offsetof(struct foqtirel_billed, shares) == 8);
    return 0;
}

int main(void)
{
    size_t i;
    int line;

    for (i = 0; i < sizeof image; i++) {
        damaged[i] = image[i];
    }
    damaged[29] = 7;
    line = layout_of_a_node();
    line = line != 0 ? line : layout_of_a_bill();
    line = line != 0 ? line : results_of_check();
    line = line != 0 ? line : results_of_clash();
    line = line != 0 ? line : results_of_file();
    line = line != 0 ? line : results_of_unfile();
    line = line != 0 ? line : results_of_list();
    line = line != 0 ? line : results_of_trees();
    line = line != 0 ? line : results_of_query();
    line = line != 0 ? line : results_of_bill();
    line = line != 0 ? line : lines_of_a_bill();
    line = line != 0 ? line : arguments_once();
    if (line != 0) {
        fprintf(stderr, "line %d\n", line);
    }
    return line != 0;
}
