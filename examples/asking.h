/* What the example programs share: their exit statuses, words for results, and the reading of numbers and images. */
#ifndef ASKING_H
#define ASKING_H

#include <ctype.h>
#include <errno.h>
#include <stdio.h>
#include <stdlib.h>

#include "foqtirel.h"

/* So that no script takes anything else for an answer. */
enum status {
    ANSWERED = 0,
    REFUSED = 1,
    MISUSED = 2,
    FAILED = 3 /* a file that can't be read, or an output that can't be written */
};

/* One byte more than the longest image: a file that is too long is handed over too long, and refused. */
#define ROOM (FOQTIREL_MOST_IMAGE + 1u)

struct word {
    uint32_t number;
    const char *name;
    const char *meaning;
};

static const struct word answers[] = {
    {FOQTIREL_YES, "YES", "the literal is warranted"},
    {FOQTIREL_NO, "NO", "the complement is warranted"},
    {FOQTIREL_UNDECIDED, "UNDECIDED", "neither the literal nor its complement is warranted"},
    {FOQTIREL_UNKNOWN, "UNKNOWN", "no rule mentions the atom"},
    {FOQTIREL_UNFINISHED, "UNFINISHED", "the trees have more nodes than the budget"},
};

static const struct word refusals[] = {
    {FOQTIREL_IMAGE_LENGTH, "refused", "an image has 12 to 1,836 bytes"},
    {FOQTIREL_HEADER, "refused", "a count is over its limit, or bytes 6 and 7 are not zero"},
    {FOQTIREL_DIRECTORY, "refused", "the directory does not fit the image"},
    {FOQTIREL_RULE_LENGTH, "refused", "a rule has 2 to 10 bytes"},
    {FOQTIREL_RULE_KIND, "refused", "a rule is strict (0) or defeasible (1)"},
    {FOQTIREL_LITERAL_RANGE, "refused", "a rule has a literal of an atom that is not there"},
    {FOQTIREL_BODY_ORDER, "refused", "a body does not ascend"},
    {FOQTIREL_DEFEASIBLE_WITHOUT_BODY, "refused", "a defeasible rule has no body"},
    {FOQTIREL_TOO_MANY_DEFEASIBLE, "refused", "more than 16 rules are defeasible"},
    {FOQTIREL_REPEATED_RULE, "refused", "a rule stands there twice"},
    {FOQTIREL_LAST_PART_LENGTH, "refused", "the last part does not hold the pairs"},
    {FOQTIREL_PAIR_NAMES, "refused", "a pair is not of two defeasible rules"},
    {FOQTIREL_PAIR_ORDER, "refused", "the pairs do not ascend"},
    {FOQTIREL_STRICT_CONTRADICTION, "refused", "the strict rules contradict each other"},
    {FOQTIREL_QUERY_LITERAL, "refused", "a literal is below 128"},
    {FOQTIREL_BUDGET, "refused", "a budget is at most 4,096"},
    {FOQTIREL_NODE_TABLE, "refused", "the node table has fewer entries than the budget"},
    {FOQTIREL_ARGUMENT_TABLE, "refused", "the program has more than 4,096 arguments"},
};

static const struct word *find(const struct word *words, size_t count, uint32_t number)
{
    size_t i;

    for (i = 0; i < count; i++) {
        if (words[i].number == number) {
            return &words[i];
        }
    }
    fprintf(stderr, "the header does not name %lu\n", (unsigned long)number);
    exit(FAILED);
}

/* A number without sign that fits 32 bits: 4,294,967,296 must not pass for 0. */
static int read_number(const char *text, uint32_t *number)
{
    unsigned long long value;
    char *end;

    if (!isdigit((unsigned char)text[0])) {
        return 0;
    }
    errno = 0;
    value = strtoull(text, &end, 10);
    if (errno != 0 || *end != '\0' || value > UINT32_MAX) {
        return 0;
    }
    *number = (uint32_t)value;
    return 1;
}

static int read_image(const char *path, uint8_t *image, size_t *length)
{
    FILE *file = fopen(path, "rb");
    int sound;

    if (file == NULL) {
        return 0;
    }
    *length = fread(image, 1, ROOM, file);
    sound = !ferror(file);
    fclose(file);
    return sound;
}

/* What is asked: PROGRAM IMAGE LITERAL [BUDGET]. Ends the program where that can't be made out. */
struct question {
    uint8_t image[ROOM];
    size_t length;
    uint32_t literal;
    uint32_t budget;
};

static void read_question(const char *program, int count, char **words, struct question *question)
{
    question->budget = FOQTIREL_MOST_NODES;
    if (count < 3 || count > 4 || !read_number(words[2], &question->literal)
        || (count == 4 && !read_number(words[3], &question->budget))) {
        fprintf(stderr, "usage: %s IMAGE LITERAL [BUDGET]\n", program);
        exit(MISUSED);
    }
    if (!read_image(words[1], question->image, &question->length)) {
        fprintf(stderr, "cannot read %s\n", words[1]);
        exit(FAILED);
    }
}

static void print_answer(uint32_t code, uint32_t nodes)
{
    const struct word *word = find(answers, sizeof answers / sizeof answers[0], code);

    printf("%s %lu: %s\n", word->name, (unsigned long)nodes, word->meaning);
}

/* The exit status, unless something that was printed did not get out. */
static int end(enum status status)
{
    if (fflush(stdout) != 0 || ferror(stdout)) {
        fprintf(stderr, "cannot write the output\n");
        return FAILED;
    }
    return status;
}

#endif
