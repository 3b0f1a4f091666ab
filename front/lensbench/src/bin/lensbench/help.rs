//! What `--help` says.

pub const USAGE: &str = "\
usage: lensbench COMMAND [OPTIONS] FILE...        (a FILE `-` is standard input)
  run       play the jobs of job files and print what is found
  check     say what the bench would refuse, with line, field and value, and what is hardly meant
  evaluate  each operand's value and the merit of the lens as it stands
  trace     the paraxial ray at each surface, slot by slot
  convert   job files to job lines of hexadecimal words, and back
  import    a plain sequential Zemax file as a job file
  batch     every job file of a folder, several processes at a time
  help      help COMMAND, or COMMAND --help, has the options
status: 0 done, 1 some job is refused, 2 bad form, bad usage, or input and output
job files are in docs/JOBS.md
";

const RUN: &str = "\
usage: lensbench run [OPTIONS] FILE...
Plays the jobs of the files, up to four at a time on one bench, and prints in the order of the files: the lens found (what was changed is marked),
each operand's value, residual and part of the merit, merits, iterations, turns and their bound. Numbers read back to the same bits.
  --json         one JSON object a line for each job, numbers with 17 digits and their bits
  --svg FILE     a picture of the lens found; of several jobs FILE-1.svg, FILE-2.svg ..
  --bits         the numbers as 16 hexadecimal digits too
  --progress     say on standard error how far the jobs are; on a terminal that is so anyway
  --no-progress  do not
";

const CHECK: &str = "\
usage: lensbench check FILE...
Says for each job whether the bench would take it, and its greatest number of turns. On standard error: every cause of a refusal, as
`file:line: refused with NUMBER: field, value and rule`, and warnings of what is taken but hardly meant.
";

const EVALUATE: &str = "\
usage: lensbench evaluate [--json] [--bits] FILE...
The merit of each job's lens as it stands. Variables and run are not looked at, and need not be there.
";

const TRACE: &str = "\
usage: lensbench trace [--slot NAME] [--json] [--bits] FILE...
The paraxial ray from the edge of the pupil: its height at each surface and its slope behind it, in each slot or in one.
";

const CONVERT: &str = "\
usage: lensbench convert --to-line [--evaluate | --trace SLOT] FILE...
       lensbench convert --from-line FILE...
Job files to the job lines of oracle/README.md, which target/bin/replay takes, and back; no bit is lost.
  --evaluate     lines of kind 4: the lens's merit
  --trace SLOT   lines of kind 5: its rays in that slot
";

const IMPORT: &str = "\
usage: lensbench import [OPTIONS] FILE.zmx
A plain sequential prescription as a job file, to which `vary`, `want` and `run` are added by hand. What is not known is named and refused.
  --glass NAME=N[,N..]  the index of a glass at each wavelength, in their order; once for each glass
                        a model glass goes by its nd and Vd: --glass 1.6/50=N,N..
  --waves K[,K..]       which of the file's wavelengths become slots, by number, where there are more than four
  --semi MM             the semi-diameter of surfaces that the file gives none
  --solved              take a number that the file solves for or picks up as it was when the file was saved
  --skip WORD[,WORD..]  pass over lines of these keywords, which are not known here and do not change the lens
";

const BATCH: &str = "\
usage: lensbench batch [OPTIONS] FOLDER
Runs `lensbench run --json` on every *.lens of the folder, each in a process of its own.
  --jobs N       processes at a time; else as many as the machine has processors
  --out FOLDER   where NAME.json and, where something was said, NAME.err are written; else beside the job files
  --again        also those whose NAME.json is there and newer than the job file
";

/// What is said of a command, if there is one of that name.
pub fn of(command: &str) -> Option<&'static str> {
    Some(match command {
        "run" => RUN,
        "check" => CHECK,
        "evaluate" => EVALUATE,
        "trace" => TRACE,
        "convert" => CONVERT,
        "import" => IMPORT,
        "batch" => BATCH,
        "help" | "--help" | "-h" | "version" | "--version" | "-V" => USAGE,
        _ => return None,
    })
}

pub fn version() -> String {
    format!("lensbench {}, records of layout {}\n", env!("CARGO_PKG_VERSION"), lensbench::linked_abi())
}
