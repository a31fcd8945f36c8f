//! What `opb help` says of each command, beyond its words.

pub const CHECK: &str = "\
Of a file that is accepted it says on standard output how many rows it has (comments, constraints and objectives), terms and variables (different ones that its terms name), the highest number of a variable, and how many variables have names (comments `* output x1 NAME`).

Of a file that is refused it says, for each refused line, the refusal's number and meaning, line and column (in bytes) of the statement at fault, that line with a mark under the place, and what to do. Bytes that cannot be shown are `?`. The first is what the library says of the whole file. Then it goes on with the next line, as if the refused one were not there; blank lines one after another are one finding. At the end it says how many lines are refused.

Warnings and remarks on an accepted file go to standard error and change no exit status: a header (`* #variable= N #constraint= M`) that is not true or not the first line, a plan without constraint and objective, more than one objective, names of variables that no row has, second names, names used twice or not closed by `* 0`, comments with a CR in them. With --quiet there are none, and nothing is said of an accepted file.

With --json each file is one object on one line: name, accepted, rows, comments, constraints, objectives, terms, variables, highest, names, header (variables, constraints), refusals (each with number, meaning, place, line, column, text, advice and last_line), refused (lines), warnings, remark, and status, the exit status of this file alone. What does not apply is null or empty. Refusals are 20 at most, unless --all asks for all.

The file is held in memory, and beside it one mebibyte's rows, or those of a longer line.

Exit status: 0 accepted, 1 refused, 2 wrong usage or trouble with a file or memory. Of several files, the greatest.";

pub const LIST: &str = "\
The first line is `opb`, rows, terms, first index. Then comes a line for each row: `c` and a comment's length, or `ge`, `le`, `eq` or `min`, the bound, and weight and literal of each term. A refusal is one line: `refused`, number, place. With --output a refusal is said on standard error instead, and FILE stays as it was.

The file is held in memory, with 25 bytes for each row, 12 for each term, and what is printed.

Exit status: 0 listed, 1 refused, 2 wrong usage or trouble with a file or memory.";

pub const NORMAL: &str = "\
A negative weight w on a literal becomes -w on the opposite literal, and the bound grows by -w. `opb help rewrite` says what holds for both.";

pub const REWRITE: &str = "\
What is rewritten is normalised first, since only rows without negative weights can be written. A `<=` row becomes a `>=` row on the opposite literals. Comments stay. Where an objective's terms change, its values shift by a constant; unless that is 0, the line

    * objective offset for previous objective: N

behind the objective says what to add. An offset line that the file has already is a comment like any other and stays; its number is to be added too. Rows that would need a number beyond 64 bits are refused, with their line and their row (counted from 0). Nothing is then written; standard error has the refusal, as check says it.

With --for-solvers the header (`* #variable= N #constraint= M`) stands first, N the greatest variable number and M the constraints, and an old one is left out; then the objective, left out if it has no terms; then the rest. Variables are numbered from x1, whatever --first is, and names (comments `* output x1 NAME`) with them. A plan with more than one objective is refused.

The file is held in memory, with 25 bytes for each row and 12 for each term, twice, and what is written.

Exit status: 0 written, 1 refused, 2 wrong usage or trouble with a file or memory.";

pub const EVALUATE: &str = "\
Prints a line for each row but comments, parted by tabs: `ge`, `le` or `eq`, the sum, the bound, and `holds` or `fails`; or `min` and the objective's value. Where a constraint fails, standard error says where the first one is. Offset lines are comments: their numbers are to be added to an objective's value.

Of ANSWER it takes the value lines: those that begin with `v` and stand behind the last line of `o` and a number; all that begin with `v`, where none stands behind it. They say the values in one of three ways: `v 1 -2`, `v x1 -x2` (or `~x2`), or, all in one line, `v 10`. Their numbers count from 1, whatever --first is: `1`, `x1` and the first of zeros and ones are the variable that has the first index in PLAN. So with --first 0 the plan's x0 is x1 in value lines.

A value that is not understood, or is at odds with another, is refused with its line and column in ANSWER, and a row that has a variable without a value with its line in PLAN; nothing is printed then, and standard error has the refusal.

PLAN is held in memory, with 25 bytes for each row and 12 for each term; so are ANSWER, once more its value lines, and what is printed.

Exit status: 0 every constraint holds, 1 refused, 2 wrong usage or trouble with a file or memory, 3 a constraint fails.";

pub const SOLVE: &str = "\
Checks the plan, writes it as `opb rewrite --for-solvers` does, runs the solver on that, reads its `s`, `o` and `v` lines, and judges every row of the plan as it was read, and the objective's value against the one that the solver claims. It prints status and value, the true variables, by name where the plan has names, and what was checked. That there is no plan, or no better one, is the solver's word alone, and is said to be.

Exit status: 0 a plan is found, and every row holds; 1 refused; 2 wrong usage or trouble with a file or memory; 3 the solver's answer or claim is false; 4 the solver is missing, died, or its lines cannot be read; 5 the solver says that there is no plan, or has no answer in time.";
