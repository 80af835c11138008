//! What `--help` prints.

pub const ALL: &str = "\
foqtirel: answers from rules that have exceptions, by a proved engine

    foqtirel compile FILE -o IMAGE       a program text to an image
    foqtirel file FILE -o IMAGE          an image that shows no order of typing
    foqtirel unfile IMAGE --numbers NUMS a filed image back in that order
    foqtirel same FILE FILE              whether two programs hold the same
    foqtirel show IMAGE                  an image back to text
    foqtirel ask FILE LITERAL            the answer to one literal
    foqtirel explain FILE LITERAL        the answer with its dialectical trees
    foqtirel tree FILE LITERAL --svg OUT the trees as a picture
    foqtirel advise FILE                 the answers to all literals
    foqtirel bill BILL                   what each branch pays for its answers

FILE is a program text or, where its name ends in .img, an image; `-` is a text
from standard input. `foqtirel COMMAND --help` says more, `foqtirel --version`
which version this is.

    % comments go to the line's end
    base_a.                               a fact
    fixed <- base_a.                      a strict rule: always holds
    b3: fits -< base_a.                   a defeasible rule with a label
    b7: ~fits -< base_a, heavy.           ~ is strong negation
    b7 > b3.                              rule b7 beats rule b3
    b12 > b7.                             so b12 beats b3 too, through b7
    flies(tina) -< bird(tina).            ground terms are names
    :- atoms base_a, fits.                numbers atoms, names ones in no rule

YES, NO, UNDECIDED, UNKNOWN and UNFINISHED are all answers. `ask` prints the
answer as its first word, and a script tells them apart by that.

Preferences that run in a circle are noted on standard error.

Exit status: 0 with any answer, 1 for an error in the text or a refusal,
2 for wrong usage or a file that can't be read or written. Of `same`: 0 where
they hold the same, 1 where they don't, 2 for any error.
";

pub const COMPILE: &str = "\
foqtirel compile FILE [-o IMAGE] [--names]

Compiles a program text and writes its image. Nothing is written where the text
has an error, or where its facts and strict rules contradict each other.
Atoms are numbered by first occurrence, or as a line `:- atoms a, b, c.` says.
An image holds no names: --names prints each literal's number, which is what the
C call takes, with its name, one literal a line.
IMAGE ends in .img where this tool is to read it.
";

pub const FILE: &str = "\
foqtirel file FILE [-o IMAGE] [--numbers NUMBERS] [--names]

Writes the filed image of a program: it is the same, byte for byte, in whatever
order the program was typed, and it gives the same answers. Rules ascend by kind
(strict first), head, number of body literals and body; preferences follow them.
A text's atoms are numbered as its lines `:- atoms a, b, c.` say, and the others
after those in the order of their names, not by first occurrence as `compile`
does: --names prints each literal's number with its name, one literal a line.
The atoms of an image keep their numbers.
--numbers writes the way back: for each rule of the image the number that it had
before, one a line. Rules are counted from 0 in the order of typing.
IMAGE ends in .img where this tool is to read it.
";

pub const UNFILE: &str = "\
foqtirel unfile IMAGE --numbers NUMBERS -o OUT

Writes a filed image with its rules in the order in which they were typed, by the
numbers that `file --numbers` wrote beside it. Filing an image and going back
gives its exact bytes. Of a text it gives the image with the rules in the order
of the text, where the atoms have the numbers that `file` gave them.
NUMBERS is text: a number for each rule of the image, from 0 on, each once, with
white space between them; `-` is the standard input. What is past them is not
used.
OUT ends in .img where this tool is to read it.
";

pub const SAME: &str = "\
foqtirel same FILE FILE

Says whether two programs hold the same atoms, rules and preferences, in whatever
order, and if not, what stands in one of them only. Labels are not compared.
Atoms of two texts are matched by their names. An image has no names: two images
are matched by their atoms' numbers, and so are a text and an image, where the
text's atoms have the numbers of `compile` or those of `file`, whichever makes
fewer differences. Rules and pairs of an image are counted from 0.

Exit status: 0 where they hold the same, 1 where they don't, 2 for any error.
";

pub const SHOW: &str = "\
foqtirel show IMAGE

Prints an image as text: atoms are named a0, a1, .. and rules labelled r0, r1, ..
where a preference names them. Compiling that text gives the same image.
";

pub const ASK: &str = "\
foqtirel ask FILE LITERAL [--budget N]

Prints the answer, the number of nodes of the trees it rests on, and what it means.

    YES         the literal is warranted
    NO          its complement is
    UNDECIDED   neither is
    UNKNOWN     no rule mentions its atom
    UNFINISHED  its trees have more nodes than the budget

All five are answers, with exit status 0; a script tells them apart by the first
word: `foqtirel ask FILE LITERAL | cut -d' ' -f1`.

N is 0 to 4096, and 4096 where it is not given. After UNFINISHED with less, ask
again with more; any other answer stays the same with a larger budget, and so do
its trees.

Quote a literal with `~` or `(` for the shell: '~fits'. In an image, atoms are
a0, a1, .., and a literal may be given by its number.
";

pub const EXPLAIN: &str = "\
foqtirel explain FILE LITERAL [--ascii] [--budget N]

Prints the dialectical trees of all arguments for the literal and for its
complement, then the answer. Each node shows its mark, what it concludes and by
which defeasible rules; below a defeater stands what it attacks, and what makes
it proper or blocking.

    U  undefeated: each defeater below it is D
    D  defeated: some defeater below it is U

--ascii draws the branches with plain characters. The budget is that of `ask`.
";

pub const TREE: &str = "\
foqtirel tree FILE LITERAL --svg OUT [--budget N]

Writes the trees of `explain` as an SVG picture. Undefeated nodes are blue with
round ends, defeated ones orange with cut corners; a solid line leads from a
proper defeater, a dashed one from a blocking one. The budget is that of `ask`.
";

pub const ADVISE: &str = "\
foqtirel advise FILE

Prints the number of arguments, then each literal with its answer and nodes.
";

pub const BILL: &str = "\
foqtirel bill BILL

Shares out what the branches of a group pay for their answers, in cents.
BILL is text with at most 512 lines: a branch 0 to 11, and an answer with its
number of nodes, as `ask` tells both; `-` is the standard input. An answer is
its word, in capitals or not, or its code: 1 YES, 2 NO, 3 UNDECIDED, 4 UNKNOWN,
5 UNFINISHED. Lines that are empty or a comment do not count.

    % comments go to the line's end
    0 YES 6
    11 UNDECIDED 15

YES and NO cost 180 cents and UNDECIDED 90, with 3 more for every started 8
nodes; UNKNOWN and UNFINISHED are free. The row of a branch has

    lines   the number of its lines
    sum     what they cost
    88%     88 hundredths of that
    down    the same rounded down
    cut     what was cut off by that
    more    1 where it pays one of the cents that are missing, else 0
    share   what it pays: down and more

The group pays 88 hundredths of the grand sum, rounded to the nearest cent. What
is missing from that after rounding down goes, one cent each, to the branches
with the largest fraction cut off, the lower branch first among equals. The row
of the group has each column added up.

A bill that breaks a limit is refused, as in `refused 35 2: orders:7:1: ..`: 34
for too many lines, or 35 and which line is the first bad one, counted from 0
without those that do not count, and then where it stands in the text.
";
