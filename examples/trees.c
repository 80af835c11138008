/*
 * An example host program: the dialectical trees of a literal of the program in an image file.
 *
 *     trees IMAGE LITERAL [BUDGET]
 *
 * It prints the trees of the arguments for the literal, then those for its complement, each node below its parent: its mark
 * (U undefeated, D defeated), its kind (root, proper or blocking defeater of its parent), its argument's mask and its
 * literal. Then it prints the answer; UNKNOWN and UNFINISHED have no trees. The exit status is 0 for an answer, 1 for a
 * refusal, 2 where there was nothing to ask, and 3 where the image could not be read or the trees not be written.
 *
 *     tools/build
 *     cc -std=c99 -Iinclude examples/trees.c target/staticlib/libfoqtirel.a -o target/trees
 */
#include "asking.h"

static uint32_t arguments[FOQTIREL_ARGUMENTS];
static struct foqtirel_node nodes[FOQTIREL_MOST_NODES];
static uint32_t depths[FOQTIREL_MOST_NODES];

static const char *kind_name(uint8_t kind)
{
    return kind == FOQTIREL_ROOT ? "root" : kind == FOQTIREL_PROPER ? "proper" : "blocking";
}

/* Nodes stand in preorder, so a parent's depth is known before its children's. */
static void print_node(uint32_t number)
{
    const struct foqtirel_node *node = &nodes[number];
    uint32_t argument = arguments[node->argument];

    depths[number] = node->kind == FOQTIREL_ROOT ? 1u : depths[node->parent] + 1u;
    printf("%*s%c %s 0x%04lx %lu\n", 2 * (int)depths[number], "", node->mark == FOQTIREL_UNDEFEATED ? 'U' : 'D',
           kind_name(node->kind), (unsigned long)FOQTIREL_MASK(argument), (unsigned long)FOQTIREL_LITERAL(argument));
}

/* Prints the trees for a literal that begin at a node, and returns the number of the node after them. */
static uint32_t print_trees(uint32_t literal, uint32_t number, uint32_t count)
{
    printf("for %lu:\n", (unsigned long)literal);
    while (number < count
           && (nodes[number].kind != FOQTIREL_ROOT || FOQTIREL_LITERAL(arguments[nodes[number].argument]) == literal)) {
        print_node(number);
        number++;
    }
    return number;
}

int main(int count, char **words)
{
    static struct question asked;
    uint64_t result;

    read_question("trees", count, words, &asked);
    result = foqtirel_trees(asked.image, asked.length, asked.literal, asked.budget, arguments, FOQTIREL_ARGUMENTS, nodes,
                            FOQTIREL_MOST_NODES);
    if (FOQTIREL_REFUSED64(result)) {
        const struct word *word = find(refusals, sizeof refusals / sizeof refusals[0], FOQTIREL_NUMBER64(result));

        printf("%s %lu at %lu: %s\n", word->name, (unsigned long)FOQTIREL_NUMBER64(result),
               (unsigned long)FOQTIREL_PLACE64(result), word->meaning);
        return end(REFUSED);
    }
    if (FOQTIREL_CODE64(result) != FOQTIREL_UNKNOWN && FOQTIREL_CODE64(result) != FOQTIREL_UNFINISHED) {
        uint32_t next = print_trees(asked.literal, 0, FOQTIREL_NODES64(result));

        print_trees(asked.literal ^ 1u, next, FOQTIREL_NODES64(result));
    }
    print_answer(FOQTIREL_CODE64(result), FOQTIREL_NODES64(result));
    return end(ANSWERED);
}
