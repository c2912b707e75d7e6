//! The help texts.

/// How the command is called.
pub const USAGE: &str =
    "usage: yenuslap check|show|sheet|split|join|verdict|quotient|write|table|aut FILE...";

/// The help of the whole command.
pub const ALL: &str = "\
yenuslap: casebooks of the line setter's certificate, checked, shown, written and marked

usage: yenuslap check FILE...        say of each casebook whether it is sound
       yenuslap show FILE            show a casebook: machines, log, question, splittings
       yenuslap write FILE           turn the text form into a casebook
       yenuslap sheet FILE           print the sheet
       yenuslap split FILE           print the splittings of the log
       yenuslap join FILE            join two halves to their log
       yenuslap verdict FILE         print verdicts
       yenuslap quotient FILE        print the quotient of the question by a half
       yenuslap table FILE           read a machine that another tool saved as Aldebaran text
       yenuslap aut FILE             write a machine of a casebook as Aldebaran text

FILE is a casebook (for write and table a text); - is standard input.
yenuslap SUBCOMMAND --help says more.

  -h, --help       print this help; help SUBCOMMAND prints that of a subcommand
  -V, --version    print the version

Every answer is the proved engine's. Bytes, states, points and splittings are counted from 0,
records, rows, steps and nodes from 1.

exit status: 0 fine, 1 refused (numbers of documents 01 and 02), 2 misuse: options, files, syntax
";

/// The help of `check`.
pub const CHECK: &str = "\
usage: yenuslap check FILE...

Prints a line for each casebook: that it is sound, with its sizes and its number of splittings,
or the number under which it is refused and where the fault lies.

  -h, --help    print this help

example:
  $ yenuslap check cases/a.casebook cases/refused_6_rows_fall.casebook
  cases/a.casebook: sound: k 2, left 2 states and 2 rows, right 2 states and 2 rows, log of 1 step, question of 2 nodes, 2 splittings
  cases/refused_6_rows_fall.casebook: refused 6: row 2 of the right table (bytes 24 to 26: 00 02 01): 0 2 1 is not above the row before it, 0 4 1; rows rise strictly by from, label and to

exit status: 1 if a casebook is refused, 2 if a file cannot be read
";

/// The help of `show`.
pub const SHOW: &str = "\
usage: yenuslap show FILE [--all | --splitting N | --text | --dot]

Shows a casebook: the pairs of labels, both tables by state, the log, the question, and the first
splittings with their halves as lanes in time. 1->2 is a move by label 1 to state 2, . an idle.

  --all            show all splittings
  --splitting N    show the splitting of this number
  --text           print the text form, which write turns into the same bytes
  --dot            print both machines as a Graphviz graph
  -h, --help       print this help

example:
  $ yenuslap show --text cases/a.casebook
  pairs 2
  left 2
    0 1 1
    0 3 1
  right 2
    0 2 1
    0 4 1
  log 0 0
    0 1 1
  question <-0> true
";

/// The help of `sheet`.
pub const SHEET: &str = "\
usage: yenuslap sheet FILE

Prints the sheet: for each point and each splitting the joint verdict, the quotient by the right
half and the left half's verdict. A refused casebook's sheet is one line, as R 8; the reason goes
to standard error.

  -h, --help    print this help

example:
  $ yenuslap sheet cases/a.casebook
  0 0 F 0100 F
  0 1 F 0100 F
  1 0 T 06010000 T
  1 1 T 06030000 T
";

/// The help of `split`.
pub const SPLIT: &str = "\
usage: yenuslap split FILE [--number N] [--hex]

Prints the splittings of the log, each with its number and its halves as join takes them. A half
is its start state and its steps, one comma apart: label:target for a move, idle for an idle.

  --number N    print only the splitting of this number
  --hex         print the halves' bytes in hexadecimal
  -h, --help    print this help

example:
  $ yenuslap split cases/a.casebook
  0 --left 0,1:1 --right 0,2:1
  1 --left 0,3:1 --right 0,4:1
";

/// The help of `join`.
pub const JOIN: &str = "\
usage: yenuslap join FILE --left HALF --right HALF [--hex]

Joins two halves on the casebook's machines and prints their log as the text form has it. Halves
are written as split prints them.

  --left HALF     the left half
  --right HALF    the right half
  --hex           the halves are bytes in hexadecimal, and so is the log
  -h, --help      print this help

example:
  $ yenuslap join cases/a.casebook --left 0,1:1 --right 0,2:1
  log 0 0
    0 1 1
";

/// The help of `verdict`.
pub const VERDICT: &str = "\
usage: yenuslap verdict FILE [--point P] [--formula STATEMENT]
       yenuslap verdict FILE --splitting N --half left|right [..]
       yenuslap verdict FILE --splitting N --line-office [--known left|right] [..]

Prints the verdict on the log stopped at each point: T if the question holds, F if it fails.

  --point P              print only the verdict at this point
  --formula STATEMENT    judge this statement and not the casebook's question
  --splitting N          the splitting whose halves are meant
  --left HALF --right HALF
                         these halves are meant, as split prints them: no number is needed, so a
                         log may have over 65,535 splittings
  --half left|right      judge this half and not the log (also --side)
  --line-office          print two verdicts: the line's, and the machine's that is not known under
                         the quotient by the known half
  --known left|right     the known half; without it the left one is, and standard error says so
  -h, --help             print this help

example:
  $ yenuslap verdict cases/a.casebook --formula '<-1> true or <-0> true'
  point 0: F
  point 1: T
";

/// The help of `quotient`.
pub const QUOTIENT: &str = "\
usage: yenuslap quotient FILE [--splitting N] [--known left|right] [--point P] [--hex]
       yenuslap quotient FILE --left HALF --right HALF [..]

Prints the quotient of the question by the known half, a line for each splitting: its number, and
the quotient in the usual notation.

  --splitting N         print only the quotient for this splitting
  --left HALF --right HALF
                        print only the quotient for these halves, as split prints them: no number
                        is needed, so a log may have over 65,535 splittings
  --known left|right    the known half; without it the left one is, and standard error says so
  --point P             stop the halves at this point; if none is given, at the log's end
  --hex                 print the quotient's bytes in hexadecimal; halves are given so too
  -h, --help            print this help

example:
  $ yenuslap quotient cases/a.casebook --known right
  0 <-1> true
  1 <-3> true
";

/// The help of `write`.
pub const WRITE: &str = "\
usage: yenuslap write FILE [-o FILE]

Reads the text form of a casebook (docs/TEXT-FORM.md) and writes its bytes. What the engine
refuses is not written; the refusal names the text's line.

  -o, --output FILE    write to this file and not to standard output; - is standard output, also
                       if that is a terminal
  -h, --help           print this help

example:
  $ yenuslap show --text cases/a.casebook | yenuslap write - -o a.casebook
";

/// The help of `table`.
pub const TABLE: &str = "\
usage: yenuslap table FILE [--left | --right | --dot] [--tidy] [--labels MAP] [-o FILE]

Reads a machine in the Aldebaran text form (docs/ALDEBARAN.md), as other tools save it, and prints
its table as a section of the text form, to be pasted into a casebook's text. The comment above it
has the first state, which the log starts in, and the least number of pairs. A refusal names the
text's line and column.

  --left               print the section of the left table; if none is named, this one
  --right              print the section of the right table
  --dot                print the machine as a Graphviz graph
  --tidy               repair what other tools write differently, and tell on standard error what
                       was repaired: blanks and tabs outside labels, des(, leading zeros, labels
                       without quotes, tau for i, CR LF, no line feed at the end, blank lines at
                       the end, a byte order mark
  --labels MAP         rename labels by this file, which has lines as: SEND !1 = a1!
  -o, --output FILE    write to this file and not to standard output; - is standard output
  -h, --help           print this help

example:
  $ yenuslap table cases/stand.aut
  # first state 0, pairs 2 or more
  left 2
    0 1 1
    0 3 1
    1 0 0
";

/// The help of `aut`.
pub const AUT: &str = "\
usage: yenuslap aut FILE --left|--right [--first N] [-o FILE]

Writes a machine of a casebook in the Aldebaran text form (docs/ALDEBARAN.md), which other tools
read. Its first state is the one that the log starts in.

  --left               write the left machine
  --right              write the right machine
  --first N            name this first state
  -o, --output FILE    write to this file and not to standard output; - is standard output
  -h, --help           print this help

example:
  $ yenuslap aut cases/a.casebook --left
  des (0,2,2)
  (0,\"a1!\",1)
  (0,\"a2!\",1)
";
