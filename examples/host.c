/*
 * An example host program: asks one literal of the program in an image file.
 *
 *     host IMAGE LITERAL [BUDGET]
 *
 * It prints the answer with its number of nodes and what it means. The exit status is 0 for an answer, 1 for a refusal, 2
 * where there was nothing to ask, and 3 where the image could not be read or the answer not be written.
 *
 *     tools/build
 *     cc -std=c99 -Iinclude examples/host.c target/staticlib/libfoqtirel.a -o target/host
 */
#include "asking.h"

int main(int count, char **words)
{
    static struct question asked;
    uint32_t result;

    read_question("host", count, words, &asked);
    result = foqtirel_query(asked.image, asked.length, asked.literal, asked.budget);
    if (FOQTIREL_REFUSED(result)) {
        const struct word *word = find(refusals, sizeof refusals / sizeof refusals[0], result);

        printf("%s %lu: %s\n", word->name, (unsigned long)result, word->meaning);
        return end(REFUSED);
    }
    print_answer(FOQTIREL_CODE(result), FOQTIREL_NODES(result));
    return end(ANSWERED);
}
