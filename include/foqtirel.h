/*
 * Foqtirel: checks the program of an image, marks what clashes in it, writes its filed form and goes back from it, lists
 * its arguments, and says whether it warrants a literal, with the literal's dialectical trees or without. Beside that it
 * shares out among the branches of a group what such answers cost.
 *
 * Link with libfoqtirel.a, which `tools/build` writes to target/staticlib/, for x86-64 and the System V calling
 * convention. It needs nothing else but the memory functions of a C library: memset, memcpy, memmove, memcmp.
 *
 * Its code is position independent, so that a shared library can be made of it, which offers the eight calls:
 *
 *     cc -shared -Wl,--whole-archive target/staticlib/libfoqtirel.a -Wl,--no-whole-archive -o target/libfoqtirel.so
 *
 * docs/IMAGE.md has the image's format, docs/GUARANTEES.md what is proved of the calls.
 */
#ifndef FOQTIREL_H
#define FOQTIREL_H

#include <stddef.h>
#include <stdint.h>

#ifdef __cplusplus
extern "C" {
#endif

/* The least and the greatest image in bytes. Others are refused with FOQTIREL_IMAGE_LENGTH. */
#define FOQTIREL_LEAST_IMAGE 12u
#define FOQTIREL_MOST_IMAGE 1836u

/* The most rules of an image. */
#define FOQTIREL_MOST_RULES 96u

/* A literal is 2 * atom + sign, sign 1 for the strongly negated one, and below this. */
#define FOQTIREL_LITERALS 128u

/* The greatest budget, in nodes of the literal's dialectical trees. */
#define FOQTIREL_MOST_NODES 4096u

/*
 * Entries of foqtirel_query's own argument table: with one of so many, and with a node table of at least budget entries,
 * foqtirel_trees gives the same answers and refusals.
 */
#define FOQTIREL_ARGUMENTS 4096u

/*
 * An argument is mask * 128 + literal: bit b of the mask is set if it uses the b-th defeasible rule of the table, counted
 * from 0. A node has its argument's place in the list: its literal is FOQTIREL_LITERAL(arguments[node.argument]).
 */
#define FOQTIREL_MASK(argument) ((uint32_t)(argument) >> 7)
#define FOQTIREL_LITERAL(argument) ((uint32_t)(argument) & 127u)

/* A node of a literal's trees. They stand in preorder; a call may write the padding, too. */
struct foqtirel_node {
    uint32_t argument; /* its argument's place in the argument list: arguments[node.argument] is the argument */
    uint32_t parent;   /* its parent's number among the nodes; a root has its own */
    uint8_t kind;
    uint8_t mark;
};

/* The kinds of a node: the root of a tree, or a defeater of the node's parent. */
#define FOQTIREL_ROOT 0u
#define FOQTIREL_PROPER 1u
#define FOQTIREL_BLOCKING 2u

/* The marks of a node, U and D. */
#define FOQTIREL_UNDEFEATED 1u
#define FOQTIREL_DEFEATED 2u

/* The branches of a group that is billed, numbered from 0, and the most lines of a bill. */
#define FOQTIREL_BRANCHES 12u
#define FOQTIREL_MOST_LINES 512u

/*
 * A line of a bill: branch * 2^32 + code * 65,536 + nodes, made of a branch and of the result of foqtirel_query or
 * foqtirel_trees. A refusal of either has code 0, so that its line is refused with FOQTIREL_BAD_LINE. A branch of 64 bits
 * or one that is no integer does not compile here: it could pass for another branch. Where a line is made without this
 * macro, code and nodes have to be below 65,536 and the branch below 2^32, or it passes for another line.
 */
#define FOQTIREL_LINE(branch, result) (((uint64_t)FOQTIREL_32_BITS((branch) | 0) << 32) + (uint64_t)(result))

/*
 * A bill: what each branch pays, in cents, with number and place 0; or, where it is refused, the number and the place of
 * the refusal, with every share 0.
 */
struct foqtirel_billed {
    uint32_t number;
    uint32_t place;
    uint32_t shares[FOQTIREL_BRANCHES];
};

/*
 * Bytes of stack that a call needs: it keeps all its own tables there, and walks down the lines of the trees.
 *
 * FOQTIREL_STACK_MOST bytes are enough for every call, image, literal and budget. FOQTIREL_STACK_12_RULES bytes are
 * enough for a program with at most 12 defeasible rules, as long as no line that the call goes down has more than
 * FOQTIREL_STACK_12_LINE arguments: none has where the budget is below that (a call goes one argument past its budget),
 * where the argument list has no more different masks other than 0, or where at most 9 rules are defeasible. One argument
 * more on a line takes at most FOQTIREL_STACK_LEVEL bytes; the lines are counted in the figures above. foqtirel_check,
 * foqtirel_clash, foqtirel_file, foqtirel_unfile, foqtirel_list and foqtirel_bill grow no trees: FOQTIREL_STACK_CHECK
 * bytes are enough for every check, every clash and every bill, FOQTIREL_STACK_FILE bytes for every filing and every way
 * back, FOQTIREL_STACK_LIST bytes for every list, and FOQTIREL_STACK_LIST_12 bytes for one of a program with at most 12
 * defeasible rules.
 *
 * How many arguments a line can have is proved: no more than there are different masks other than 0 in the argument list,
 * or one where there are none, whatever the budget and the preferences. With d defeasible rules that is at most 2^d - 1, and
 * one without any. In a list the arguments of one mask stand side by side: count those whose FOQTIREL_MASK is not 0 and
 * differs from the one before.
 *
 * That a call has one frame for each argument of one line at a time, and what a frame takes, is measured, not proved: the
 * tests run the calls on threads with such stacks. For programs with up to 12 defeasible rules they found enough, with
 * short lines: 84 KiB for foqtirel_list, 148 KiB for foqtirel_trees, 212 KiB for foqtirel_query; programs with more rules
 * whose rows are long take 1,040 KiB more; and 275 bytes for each argument more on a line. For foqtirel_check, foqtirel_clash,
 * foqtirel_file, foqtirel_unfile and foqtirel_bill 16 KiB are enough, and glibc makes no thread with less. A smaller
 * stack is overrun, as it would be by any C function.
 */
#define FOQTIREL_STACK_MOST (4u * 1024u * 1024u)
#define FOQTIREL_STACK_12_RULES (512u * 1024u)
#define FOQTIREL_STACK_12_LINE 512u
#define FOQTIREL_STACK_LEVEL 512u
#define FOQTIREL_STACK_CHECK (16u * 1024u)
#define FOQTIREL_STACK_FILE (16u * 1024u)
#define FOQTIREL_STACK_LIST (2u * 1024u * 1024u)
#define FOQTIREL_STACK_LIST_12 (128u * 1024u)

/*
 * The answers: what FOQTIREL_CODE or FOQTIREL_CODE64 gives for a result that is no refusal. After FOQTIREL_UNFINISHED a
 * larger budget, up to FOQTIREL_MOST_NODES, may be enough. Every other answer stays the same with any larger budget that is
 * not refused: its code, its number of nodes, and that many first entries of the node table, but for their padding.
 */
#define FOQTIREL_YES 1u        /* the literal is warranted */
#define FOQTIREL_NO 2u         /* its complement is warranted */
#define FOQTIREL_UNDECIDED 3u  /* neither is */
#define FOQTIREL_UNKNOWN 4u    /* its atom stands in no rule; 0 nodes */
#define FOQTIREL_UNFINISHED 5u /* the trees have more nodes than the budget; nodes = budget */

/*
 * The refusals: the first cause that applies, in this order (4 to 10 for each rule in turn, 12 and 13 for each pair). The
 * first 14 are about the image and can come from every call that takes one, but for 14, which foqtirel_clash never gives:
 * it is for such an image. The others come only from the calls that are named.
 */
#define FOQTIREL_IMAGE_LENGTH 1u            /* image under 12 or over 1,836 bytes */
#define FOQTIREL_HEADER 2u                  /* a count over its limit, or bytes 6 and 7 not zero */
#define FOQTIREL_DIRECTORY 3u               /* the directory doesn't fit the image, or the parts don't fill the rest */
#define FOQTIREL_RULE_LENGTH 4u             /* a rule under 2 or over 10 bytes */
#define FOQTIREL_RULE_KIND 5u               /* a kind that is neither 0 nor 1 */
#define FOQTIREL_LITERAL_RANGE 6u           /* a literal not below 2 * the atom count */
#define FOQTIREL_BODY_ORDER 7u              /* a body that doesn't ascend strictly */
#define FOQTIREL_DEFEASIBLE_WITHOUT_BODY 8u /* a defeasible rule with an empty body */
#define FOQTIREL_TOO_MANY_DEFEASIBLE 9u     /* a 17th defeasible rule */
#define FOQTIREL_REPEATED_RULE 10u          /* a rule with the same bytes as an earlier one */
#define FOQTIREL_LAST_PART_LENGTH 11u       /* the last part isn't 2 * the pair count */
#define FOQTIREL_PAIR_NAMES 12u             /* a pair of a rule with itself, or with an absent or a strict one */
#define FOQTIREL_PAIR_ORDER 13u             /* pairs that don't ascend strictly */
#define FOQTIREL_STRICT_CONTRADICTION 14u   /* the facts and strict rules contradict each other */
#define FOQTIREL_QUERY_LITERAL 20u          /* trees, query: the literal asked about is 128 or more */
#define FOQTIREL_BUDGET 21u                 /* trees, query: the budget is over 4,096 */
#define FOQTIREL_NODE_TABLE 22u             /* trees: the node table has fewer entries than the budget */
#define FOQTIREL_ARGUMENT_TABLE 23u         /* list, trees, query: more arguments than the argument table has entries */
#define FOQTIREL_OUTPUT_TABLE 24u           /* file, unfile: the byte table is shorter than the image */
#define FOQTIREL_NUMBER_TABLE 25u           /* file, unfile: the number table has fewer entries than the image has rules */
#define FOQTIREL_MISFILED 26u               /* unfile: a number out of range or used twice, or an image not in filed form */
#define FOQTIREL_IMAGE_ACCEPTED 28u         /* clash: the image is accepted, so nothing clashes in it */
#define FOQTIREL_MARK_TABLE 29u             /* clash: the byte table is shorter than the image's rule count */
#define FOQTIREL_TOO_MANY_LINES 34u         /* bill: more than 512 lines */
#define FOQTIREL_BAD_LINE 35u               /* bill: a line with branch over 11, code outside 1 to 5 or nodes over 4,096 */

/*
 * A result of foqtirel_query taken apart. A refused result has code 0, so a refusal is never taken for an answer. A number
 * of 64 bits, such as a result of the other calls, does not compile here.
 */
#define FOQTIREL_REFUSED(result) (FOQTIREL_32_BITS(result) < 65536u)
#define FOQTIREL_CODE(result) (FOQTIREL_32_BITS(result) >> 16)
#define FOQTIREL_NODES(result) (FOQTIREL_32_BITS(result) & 65535u)

/*
 * A result of foqtirel_check, foqtirel_clash, foqtirel_file, foqtirel_unfile, foqtirel_list or foqtirel_trees taken apart:
 * whether it is a refusal; of a refusal its number and place; where it is none, of a clash the number of rules, of a filing
 * or a way back the number of bytes, of a list the number of arguments, of trees the answer's code and its number of nodes.
 * Again a refused result has code 0. A number of 32 bits, such as a result of foqtirel_query, does not compile here: that
 * call has its refusals elsewhere.
 */
#define FOQTIREL_REFUSED64(result) (FOQTIREL_64_BITS(result) >> 32 != 0u)
#define FOQTIREL_NUMBER64(result) ((uint32_t)(FOQTIREL_64_BITS(result) >> 32))
#define FOQTIREL_PLACE64(result) ((uint32_t)FOQTIREL_64_BITS(result))
#define FOQTIREL_LENGTH64(result) ((uint32_t)FOQTIREL_64_BITS(result))
#define FOQTIREL_COUNT64(result) ((uint32_t)FOQTIREL_64_BITS(result))
#define FOQTIREL_CODE64(result) ((uint32_t)FOQTIREL_64_BITS(result) >> 16)
#define FOQTIREL_NODES64(result) ((uint32_t)FOQTIREL_64_BITS(result) & 65535u)

/* The number itself, or an array of -1 entries, which no compiler takes. */
#define FOQTIREL_32_BITS(result) \
    ((uint32_t)(result) + 0u * (uint32_t)sizeof(char[sizeof(result) == sizeof(uint32_t) ? 1 : -1]))
#define FOQTIREL_64_BITS(result) ((uint64_t)(result) + 0u * sizeof(char[sizeof(result) == sizeof(uint64_t) ? 1 : -1]))

/*
 * Of all eight calls, of which foqtirel_bill takes no image and no table that is written to:
 *
 *   image, length   the image's bytes. They stay the caller's, are only read, and have to stay as they are during the call.
 *                   Any bytes will do: what isn't a sound image is refused. NULL with length 0 is an empty image, refused
 *                   with FOQTIREL_IMAGE_LENGTH. With any other length, image has to point to that many readable bytes.
 *   a table, room   what a call writes to, and the numbers that foqtirel_unfile reads: a table of that many entries, with
 *                   any contents. NULL with 0 entries is a table without entries. Tables must not overlap each other or the
 *                   image.
 *
 * Keep all 64 bits of a result that has them: the lower half of a refusal is its place, often 0, so that in an int it would
 * read as success.
 *
 * A refusal leaves every table as it was. After any other result the entries that the call is said to write have the
 * contents it is said to write, and all others keep theirs.
 *
 * The result, and what is written, depend on the parameters, the image's bytes, the numbers that foqtirel_unfile reads
 * and the lines that foqtirel_bill reads alone. A call keeps nothing, allocates nothing, has no global data and takes no
 * locks, so it may run on any number of threads at once, on one image too, each with tables of its own, and in a signal
 * handler with enough stack. It ends on every input.
 */

/*
 * Checks an image. Returns 0 if it is sound and its facts and strict rules don't contradict each other, or a refusal:
 * number * 2^32 + place, where place is the rule's number for 4 to 10, the pair's for 12 and 13, and 0 for the others. See
 * FOQTIREL_REFUSED64, FOQTIREL_NUMBER64 and FOQTIREL_PLACE64.
 */
uint64_t foqtirel_check(const uint8_t *image, size_t length);

/*
 * Marks one small clash of an image that foqtirel_check refuses with FOQTIREL_STRICT_CONTRADICTION: facts and strict rules
 * that contradict each other, and no longer do so if any single one of them is left out. Which clash it is depends on the
 * order of the rules: it starts from all facts and strict rules and goes from the highest number down, leaving out each
 * without which the rest stays contradictory, and marks what remains.
 *
 *   marks, room   the byte table. Its front gets one byte for each rule of the image: 1 for a rule of the clash, 0 for every
 *                 other, the defeasible ones among them; the bytes past the rule count stay as they were. The rule count is
 *                 image[2] + 256 * image[3]. If there are fewer bytes than rules, the call is refused with
 *                 FOQTIREL_MARK_TABLE; FOQTIREL_MOST_RULES bytes are always enough.
 *
 * An image that foqtirel_check accepts has no clash and is refused with FOQTIREL_IMAGE_ACCEPTED, whatever room there is. The
 * call is never refused with FOQTIREL_STRICT_CONTRADICTION: these two causes stand in its place. Once a rule of the clash is
 * gone there may be another clash, which a further call marks.
 *
 * Returns the rule count, or a refusal as foqtirel_check does. See FOQTIREL_REFUSED64 and FOQTIREL_COUNT64.
 */
uint64_t foqtirel_clash(const uint8_t *image, size_t length, uint8_t *marks, size_t room);

/*
 * Writes the filed form of an image: the same program with its rules and pairs in one order, whatever order they were typed
 * in. Rules ascend by kind, then by head, then by the number of body literals, then by the body's bytes; pairs name the
 * rules by their new numbers, and ascend. The atom count and the numbers of the literals stay.
 *
 * Two sound images have the same filed form exactly when they have the same atom count, the same rules and the same listed
 * pairs between these rules: memcmp on the two forms tells. The filed form is sound too, and its own filed form. Every call
 * that answers gives the same refusal or answer and number of nodes for both, where the tables have the same lengths. Which
 * rule has which bit in a mask may differ, and with it the order of lists and nodes.
 *
 *   out, room              the byte table. The filed form is written to its front and is as long as the image; the bytes
 *                          past it stay as they were. If the table is shorter than the image, the call is refused with
 *                          FOQTIREL_OUTPUT_TABLE; FOQTIREL_MOST_IMAGE bytes are always enough. It may not be the image
 *                          itself.
 *   numbers, number_room   the number table, of bytes. The number that each rule of the filed form has in the image is
 *                          written to its front, in the order of the filed form; the entries past the rule count stay as
 *                          they were. The rule count is image[2] + 256 * image[3]. If there are fewer entries than rules,
 *                          the call is refused with FOQTIREL_NUMBER_TABLE; FOQTIREL_MOST_RULES entries are always enough.
 *                          Note that foqtirel_unfile has its two tables the other way round: what it reads comes first.
 *
 * Returns the length of the filed form, or a refusal as foqtirel_check does. See FOQTIREL_REFUSED64 and FOQTIREL_LENGTH64.
 */
uint64_t foqtirel_file(const uint8_t *image, size_t length, uint8_t *out, size_t room, uint8_t *numbers,
                       size_t number_room);

/*
 * Writes a filed image with its rules in the order in which they were typed: each rule gets its old number back, and the
 * pairs name the rules by these and ascend. For every sound image, foqtirel_file and then this call give back its exact
 * bytes.
 *
 *   numbers, count   the number table as foqtirel_file leaves it: the old number of each rule of the image. Like the image
 *                    it is only read, and only as many of its entries as the image has rules; those past them have no
 *                    effect. If there are fewer, the call is refused with FOQTIREL_NUMBER_TABLE.
 *   out, room        the byte table. What is written to its front is as long as the image; the bytes past it stay as they
 *                    were. If the table is shorter than the image, the call is refused with FOQTIREL_OUTPUT_TABLE. It may
 *                    not be the image itself.
 *
 * If a number among those read is not below the rule count or is used twice, or if the image is not its own filed form, the
 * call is refused with FOQTIREL_MISFILED. Any order of the numbers below the rule count will do, so keep them with their
 * form: those of another image with as many rules give a sound image in a wrong order.
 *
 * Returns the length of what was written, or a refusal as foqtirel_check does. See FOQTIREL_REFUSED64 and
 * FOQTIREL_LENGTH64.
 */
uint64_t foqtirel_unfile(const uint8_t *image, size_t length, const uint8_t *numbers, size_t count, uint8_t *out,
                         size_t room);

/*
 * Lists the arguments of the program in an image.
 *
 *   arguments, room   the argument table. The list is written to its front: each argument once, as mask * 128 + literal,
 *                     ascending (see FOQTIREL_MASK and FOQTIREL_LITERAL). If it has too few entries for that, the call is
 *                     refused with FOQTIREL_ARGUMENT_TABLE. How many would do is not told; 1,235,520 are always enough: at
 *                     most 96 literals are heads, and each has at most 12,870 masks, since none is within another.
 *
 * Returns how many arguments there are, or a refusal as foqtirel_check does. See FOQTIREL_REFUSED64 and FOQTIREL_COUNT64.
 */
uint64_t foqtirel_list(const uint8_t *image, size_t length, uint32_t *arguments, size_t room);

/*
 * Answers whether the program in an image warrants a literal, and gives the trees that the answer rests on.
 *
 *   literal            the literal asked about, below 128. One whose atom stands in no rule is answered UNKNOWN.
 *   budget             the most nodes that the literal's trees may have, 0 to 4,096.
 *   arguments, room    the argument table. After every answer it begins with the list of foqtirel_list. If it has too few
 *                      entries for that, the call is refused with FOQTIREL_ARGUMENT_TABLE.
 *   nodes, node_room   the node table, with at least as many entries as the budget; with fewer the call is refused with
 *                      FOQTIREL_NODE_TABLE. After YES, NO and UNDECIDED the trees stand at its front in preorder: the tree
 *                      of each argument for the literal in the order of the list, then those for its complement. After
 *                      UNFINISHED the first budget entries are zero. After UNKNOWN nothing is written to it.
 *
 * Returns code * 65,536 + nodes, or a refusal as foqtirel_check does: see FOQTIREL_REFUSED64, FOQTIREL_CODE64 and
 * FOQTIREL_NODES64. With YES, NO and UNDECIDED, nodes is the number of nodes of all the literal's and its complement's
 * trees.
 */
uint64_t foqtirel_trees(const uint8_t *image, size_t length, uint32_t literal, uint32_t budget, uint32_t *arguments,
                        size_t room, struct foqtirel_node *nodes, size_t node_room);

/*
 * Answers as foqtirel_trees does, with tables of its own, which it doesn't give back.
 *
 *   literal, budget   as for foqtirel_trees.
 *
 * Returns code * 65,536 + nodes, or the bare number of a refusal, which is below 65,536: see FOQTIREL_REFUSED,
 * FOQTIREL_CODE and FOQTIREL_NODES.
 */
uint32_t foqtirel_query(const uint8_t *image, size_t length, uint32_t literal, uint32_t budget);

/*
 * Shares out among the twelve branches of a group what its answers cost, in cents.
 *
 *   lines, count   the lines of the bill, made by FOQTIREL_LINE, in any order. They stay the caller's, are only read, and have
 *                  to stay as they are during the call. NULL with count 0 is a bill without lines, on which nobody pays. With
 *                  any other count, lines has to point to that many readable numbers.
 *
 * A line with YES or NO costs 180 cents and one with UNDECIDED 90, each with 3 cents more for every started 8 nodes.
 * Lines with UNKNOWN and UNFINISHED are free. The group pays 88 hundredths of the sum of all lines, rounded to the
 * nearest cent, and that is the sum of the twelve shares. Each branch pays 88 hundredths of the sum of its own lines,
 * rounded down, or one cent more: the cents that are still missing go one each to the branches with the largest fraction
 * cut off, the lower branch first among equals. A branch with no fraction cut off gets none.
 *
 * A bill with more than FOQTIREL_MOST_LINES lines is refused with FOQTIREL_TOO_MANY_LINES and place 0, one with a line
 * that has a branch over 11, a code outside 1 to 5 or more than 4,096 nodes with FOQTIREL_BAD_LINE and the place of the
 * first such line, counted from 0. No share is above 773,161 cents.
 *
 * Returns the shares by value, or a refusal: see struct foqtirel_billed.
 */
struct foqtirel_billed foqtirel_bill(const uint64_t *lines, size_t count);

#ifdef __cplusplus
}
#endif

#endif
