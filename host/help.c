#include "help.h"

const char HELP_PROGRAM[] =
    "usage: leskofar COMMAND ...\n"
    "\n"
    "  check BOOK                            test a book\n"
    "  print BOOK TERM                       print a term as the solver gets it\n"
    "  trace BOOK NODE                       print the traces on the way to a node\n"
    "  listing BOOK NODE TERM                print a node's premises and a goal\n"
    "  nodes BOOK [NODE ..]                  test whether nodes can be reached\n"
    "  audit BOOK SCRIPT NODE TERM [NODE TERM ..]\n"
    "                                        test a script of another writer\n"
    "  prove BOOK NODE TERM [NODE TERM ..]   ask a solver whether terms follow at nodes\n"
    "  new -o BOOK                           write a book without records\n"
    "  append WHAT BOOK .. -o NEW            append a name, constant, term or node\n"
    "  extend BOOK PARENT TERM -o NEW        append a node, with its trace's name\n"
    "  equate BOOK PARENT CONSTANT TERM -o NEW\n"
    "                                        the same: a constant equals a term\n"
    "  record BOOK PARENT TERM TYPE -o NEW   the same of a new constant\n"
    "  point BOOK PARENT TRACE -o NEW        append a point of the trace\n"
    "  work BOOK [-o NEW]                    let a book grow while it is asked\n"
    "\n"
    "leskofar COMMAND --help says more of each.\n"
    "\n"
    "Exit status: 0 done, and all proved, reached or accepted; 1 something is not;\n"
    "2 refused, or wrong usage; 3 the solver failed. Of several the largest is given.\n";

const char HELP_CHECK[] =
    "usage: leskofar check BOOK [--raw-names] [--raw-sorts]\n"
    "\n"
    "Tests a book, a file as `plan book` or `leskofar append` writes it. A bad one\n"
    "gets the number of its refusal and what it means. Then looks at the names: that\n"
    "of an operator, which is sent as it is, must be one token of SMT-LIB; that of a\n"
    "type, constant or function must not look like a negative number; and no name may\n"
    "be another's, bars not counted. Then at the sorts and the numbers of arguments,\n"
    "of all operators of SMT-LIB's core and integers, and of functions; other\n"
    "operators are not checked. The first fault is told, with the number of its\n"
    "record.\n"
    "\n"
    "  --raw-names   a bad name only gets a warning\n"
    "  --raw-sorts   a bad sort or number of arguments only gets a warning\n"
    "\n"
    "Exit status: 0 a good book; 2 a bad one, or wrong usage.\n";

const char HELP_PRINT[] =
    "usage: leskofar print BOOK TERM [--lines] [--indent N] [--tag N]\n"
    "\n"
    "Prints the term with number TERM as the solver gets it: a name that is no simple\n"
    "symbol of SMT-LIB stands between bars.\n"
    "\n"
    "  --lines      a line for each part of a row\n"
    "  --indent N   with --lines: so many spaces before each line but the first\n"
    "               (0 if not given)\n"
    "  --tag N      the number that stands for %tag (0 if not given)\n"
    "\n"
    "Exit status: 0 printed; 2 refused, or wrong usage.\n";

const char HELP_TRACE[] =
    "usage: leskofar trace BOOK NODE\n"
    "\n"
    "Prints the traces of the nodes on the way from the root to node NODE, a line\n"
    "for each that has one. Node 0 is the root.\n"
    "\n"
    "Exit status: 0 printed; 2 refused, or wrong usage.\n";

const char HELP_LISTING[] =
    "usage: leskofar listing BOOK NODE TERM\n"
    "\n"
    "Prints what is to be proved where the term with number TERM is asked at node\n"
    "NODE: the premises of the nodes on the way from the root, a line for each, and\n"
    "behind |- the term, which is the goal. They are in B3's notation, with names as\n"
    "the book has them. Node 0 is the root, and has no premise. Axioms are not\n"
    "listed.\n"
    "\n"
    "Exit status: 0 printed; 2 refused, or wrong usage.\n";

const char HELP_NODES[] =
    "usage: leskofar nodes BOOK [NODE ..]\n"
    "\n"
    "Tells beforehand whether each node NODE can be reached: whether a question there\n"
    "would not be refused 9 for an axiom without a term that the premises need. Where\n"
    "no node is named, all nodes of the book are tested, from node 1 on. At most 512\n"
    "may be named; one that is named twice counts twice. Node 0 is the root, which\n"
    "can always be reached.\n"
    "\n"
    "The first node that would be refused is told, with its position in the list, of\n"
    "which the first is 0, and with its trace. Of goals nothing is said: a question\n"
    "may still be refused 9 for its goal. No solver is started, and neither names nor\n"
    "sorts are checked.\n"
    "\n"
    "Exit status: 0 all can be reached; 1 one would be refused; 2 refused, or wrong\n"
    "usage.\n";

const char HELP_AUDIT[] =
    "usage: leskofar audit BOOK SCRIPT NODE TERM [NODE TERM ..]\n"
    "       leskofar audit BOOK SCRIPT --questions FILE\n"
    "\n"
    "Compares a script of another writer with what this program would send. At its\n"
    "first check-sat it must ask the first question, whether the first TERM follows\n"
    "at the first NODE, and so on: the levels that are live there must be as many as\n"
    "ours, and each must have the same lines, each as often, in any order. How the\n"
    "script comes there, and what it pops in between, is its own affair.\n"
    "\n"
    "  --questions FILE   take the questions from FILE, in the lines that plan book\n"
    "                     --goals prints\n"
    "\n"
    "One of BOOK, SCRIPT and FILE may be -, for standard input.\n"
    "\n"
    "A rejection names the first check-sat that differs, counted from 1, its line,\n"
    "and its node and term. A script has at most 65,536 bytes, and each line of it is\n"
    "(push 1), (pop 1), (check-sat), (get-model), an assert, a declare-fun or a\n"
    "declare-sort; else it is refused, and the first other line is told. So is a file\n"
    "of prove --log, which has options, marks and comments. A book with a %tag\n"
    "literal is refused. No solver is started, and neither names nor sorts are\n"
    "checked.\n"
    "\n"
    "Exit status: 0 accepted; 1 rejected; 2 refused, or wrong usage.\n";

const char HELP_PROVE[] =
    "usage: leskofar prove BOOK NODE TERM [NODE TERM ..] [OPTIONS]\n"
    "\n"
    "Asks a solver, for each pair of numbers, whether the term follows at the node.\n"
    "One solver answers all questions; after a failure the next one gets a new\n"
    "solver. Each question gets a line, and below it the reason and the node's\n"
    "trace where it is not proved. The book's names and sorts are checked first.\n"
    "z3 is not asked where a type, constant or function is called by a general\n"
    "reserved word of SMT-LIB, such as ! or let, with bars or without: it would take\n"
    "some of these for its own, and could prove what does not follow.\n"
    "\n"
    "  --solver z3|cvc5|COMMAND   the solver, z3 if not given; a path that ends in\n"
    "                             /z3 or /cvc5 is that solver; any other COMMAND\n"
    "                             is run by the shell, and reads SMT-LIB from its\n"
    "                             standard input\n"
    "  --timeout SECONDS          for each answer of the solver (60 if not given)\n"
    "  --memory MIB               the most memory that the solver may have (no\n"
    "                             limit if not given)\n"
    "  --premises                 ask first, at each node with a question, whether\n"
    "                             its premises contradict each other\n"
    "  --show-proof-obligations   print for each question, before it is asked, what\n"
    "                             is to be proved, as leskofar listing does; what\n"
    "                             is not in the book has no listing\n"
    "  --log FILE                 write the whole conversation to FILE, as a\n"
    "                             script that gives the same answers when it is\n"
    "                             run again, with the answers as comments\n"
    "  --raw-names                go on where an operator is not one token of\n"
    "                             SMT-LIB, or a name means two things, but not\n"
    "                             where z3 would misread a name\n"
    "  --raw-sorts                go on where a term has arguments of wrong sort\n"
    "                             or number\n"
    "  --quiet                    say nothing but what is refused or fails, and\n"
    "                             which premises contradict each other\n"
    "  --verbose                  say what the solver writes to its standard error\n"
    "\n"
    "Exit status: 0 all proved; 1 some not proved; 2 refused, wrong usage, or what\n"
    "is said or logged cannot be written; 3 the solver failed. Of several the\n"
    "largest is given.\n";

/* What all commands that append say at their end. */
#define GROWN_FILES \
    "\n" \
    "The grown book goes to NEW, which may be BOOK, whole or not at all; old records\n" \
    "keep their numbers. A text that begins with - stands behind a --.\n" \
    "\n" \
    "Exit status: 0 appended; 2 refused, wrong usage, or something cannot be\n" \
    "written: then NEW is as it was, unless only the number cannot be printed.\n"

const char HELP_NEW[] =
    "usage: leskofar new -o BOOK\n"
    "\n"
    "Writes a book without records, which has only the root, node 0.\n"
    "\n"
    "Exit status: 0 written; 2 not written, or wrong usage.\n";

const char HELP_APPEND[] =
    "usage: leskofar append name BOOK TEXT -o NEW\n"
    "       leskofar append constant BOOK NAME TYPE -o NEW\n"
    "       leskofar append term BOOK KIND [FIELD ..] [--first N,..] [--second N,..]\n"
    "                        -o NEW\n"
    "       leskofar append node BOOK PARENT TERM TRACE -o NEW\n"
    "\n"
    "Appends a record to a book, and prints its number, of a node the node's. All\n"
    "but a name's text are numbers. TYPE is 0 for Bool, 1 for Int, and from 2 up the\n"
    "book's own. TRACE is the number of a name + 1, or 0 for none. A term is of KIND\n"
    "\n"
    "  0 VALUE               false or true: 0 or 1\n"
    "  1 LOW HIGH            an integer, its lower and its upper 32 bits\n"
    "  2 NAME TYPE           a literal\n"
    "  3 CONSTANT            a constant\n"
    "  4 NAME                a built-in operator, applied to the terms of --first\n"
    "  5 FUNCTION            a function, applied to the terms of --first\n"
    "  6 TERM TERM TERM      if, then, else\n"
    "  7 CONSTANT TERM TERM  let the constant be a term in another\n"
    "  8 IS_FORALL 0 0 0 0 TERM\n"
    "                        exists or forall, 0 or 1, with the constants of --first\n"
    "                        and the patterns of --second\n"
    "\n"
    "Fields that are not given are 0. A term that is referred to already cannot be\n"
    "referred to again.\n" GROWN_FILES;

const char HELP_EXTEND[] =
    "usage: leskofar extend BOOK PARENT TERM [TRACE] -o NEW\n"
    "\n"
    "Appends a node below node PARENT with the premise TERM, and prints its number.\n"
    "TRACE is a text; its name is found in the book, or appended.\n" GROWN_FILES;

const char HELP_EQUATE[] =
    "usage: leskofar equate BOOK PARENT CONSTANT TERM -o NEW\n"
    "\n"
    "Appends a node below node PARENT with the premise that a constant equals a\n"
    "term, and prints its number. It has no trace. The name = is found in the book,\n"
    "or appended.\n" GROWN_FILES;

const char HELP_RECORD[] =
    "usage: leskofar record BOOK PARENT TERM TYPE [TRACE] -o NEW\n"
    "\n"
    "Appends a node below node PARENT with the premise that a new constant of type\n"
    "TYPE equals a term, and prints the node's number; a model then tells what the\n"
    "term is there. The constant is called probe% and PARENT's depth, and that is\n"
    "the trace where no text TRACE is given. Names are found in the book, or\n"
    "appended. Two such constants of one depth have one name, and no solver is asked\n"
    "with a book that has both, but with --raw-names.\n" GROWN_FILES;

const char HELP_POINT[] =
    "usage: leskofar point BOOK PARENT TRACE -o NEW\n"
    "\n"
    "Appends a point of the trace below node PARENT: a node as leskofar record does,\n"
    "of a new term true. It prints the node's number.\n" GROWN_FILES;

const char HELP_WORK[] =
    "usage: leskofar work BOOK [-o NEW] [OPTIONS]\n"
    "\n"
    "Reads lines from standard input, lets the book grow as they say, and asks a\n"
    "solver in between: one solver and one session, which goes on with the grown\n"
    "book; after a failure the next question gets a new solver. A line is one of\n"
    "\n"
    "  append name TEXT\n"
    "  append constant NAME TYPE\n"
    "  append term KIND [FIELD ..] [--first N,..] [--second N,..]\n"
    "  append node PARENT TERM TRACE\n"
    "  extend PARENT TERM [TRACE]\n"
    "  equate PARENT CONSTANT TERM\n"
    "  record PARENT TERM TYPE [TRACE]\n"
    "  point PARENT TRACE\n"
    "  ask NODE TERM\n"
    "\n"
    "A word that is empty or holds blanks stands in quotes, \"\" in it is a quote; a\n"
    "text that begins with - stands behind a --. What begins with ; is a comment.\n"
    "Each line is answered at once: by the number that leskofar append and the others\n"
    "print, or as leskofar prove answers a question. The names and sorts of the book\n"
    "are checked before the first question, and again wherever the book has grown. A\n"
    "line that is refused says so, changes nothing, and the next is read. A line that\n"
    "cannot be read is told with its number and ends the work, and nothing is written\n"
    "to NEW; so does one without its line end.\n"
    "\n"
    "  -o NEW   write the grown book to NEW, which may be BOOK, behind the last line\n"
    "\n"
    "--solver, --timeout, --memory, --show-proof-obligations, --log, --raw-names,\n"
    "--raw-sorts and --verbose are as in leskofar prove.\n"
    "\n"
    "Exit status: 0 all done and proved; 1 some not proved; 2 refused, a line that\n"
    "cannot be read, wrong usage, or something cannot be written; 3 the solver\n"
    "failed. Of several the largest is given.\n";
