//! `rules help` and `rules version`.

pub const USAGE: &str = "\
usage: rules COMMAND ...

  rules ask RULES QUESTION             can it ever happen? Never, or the steps that do it
  rules explain RULES QUESTION         the same, and why
  rules check RULES...                 faults, warnings, and every `expect` line
  rules replay RULES STEPS             carries out steps in words, one line each
  rules assemble [TEXT] [-o FILE]      makes a rule file of a text
  rules list [FILE] [-o TEXT]          makes a text of a rule file
  rules example                        prints a text to begin with
  rules help [COMMAND]                 more about a command
  rules version                        this program's version, and the library's stamp

RULES is a text or a rule file; `-` is standard input. A question: anna agree on line_4711
";

/// Each command, with its own help.
pub const COMMANDS: [(&str, &str); 9] = [
    (
        "ask",
        "\
usage: rules ask RULES WHO PERMISSION [on ITEM]
       rules ask RULES -                    one question a line, from standard input
       rules ask RULES --question 418000    the question's three bytes in hex

Answers whether it can ever happen, after any run of work, with sessions opened without limit.

  WHO    anna, user anna, user 0, session night_run, anyone
  ITEM   line_4711, item line_4711, item 1, any item (that is also meant where no item is named)

A name with a blank is one argument: rules ask RULES 'Anna Berg' 'sign off'
With --names TEXT a rule file gets the names of its text; with --strict a warning is a fault.
Exit status: 0 never, 1 can happen, 2 no answer, 3 internal error.
",
    ),
    (
        "explain",
        "\
usage: rules explain RULES WHO PERMISSION [on ITEM]

As ask, and why: of Never which parts of the permission's formula never can be true, of a leak why the rules allow each step.
Exit status: 0 never, 1 can happen, 2 no answer, 3 internal error.
",
    ),
    (
        "check",
        "\
usage: rules check RULES...

Shows all faults and warnings of texts, and asks the question of every line `expect anna never agree` or `expect carla can agree on line_4711`.
With --strict a warning is a fault; with --names TEXT a rule file is checked by the expectations of its text.
With -v it also says how many bits of the rule file were read; of a text, of the rule file that it makes.
Exit status: 0 all are met, 1 one is not, 2 no answer, 3 internal error.
",
    ),
    (
        "replay",
        "\
usage: rules replay RULES STEPS [for WHO PERMISSION [on ITEM]]

Carries out steps in words, one on each line of the file STEPS, up to the first that the rules refuse, and says why.
With `for`, the last step must be what the question asks about. Lines as `rules ask` prints them will do.

  USER opens NAME: VALUES         SESSION makes NAME: VALUES
  USER closes NAME                SESSION changes NAME: VALUES
  USER changes NAME: VALUES       SESSION uses PERMISSION on NAME

`opens` and `makes` give every value, `changes` those that change: anna opens desk: role = clerk, ledgers = {bank}
Exit status: 0 all were done, 1 one was refused, 2 no answer, 3 internal error.
",
    ),
    (
        "assemble",
        "\
usage: rules assemble [TEXT] [-o FILE]

Makes a rule file of a text. With -o the file is written whole or not at all: a bad text leaves an old file as it was.
Exit status: 0 written, 2 not written, 3 internal error.
",
    ),
    (
        "list",
        "\
usage: rules list [FILE] [-o TEXT] [--names TEXT]

Makes a text of a rule file; it assembles to the same bytes. A rule file has no names: they are user0, a0, list5 and so on, or those of a
text that assembles to exactly this file.
Exit status: 0 written, 2 not written, 3 internal error.
",
    ),
    ("example", "usage: rules example\n\nPrints the rules of a wholesaler as a text.\n"),
    ("help", "usage: rules help [COMMAND]\n"),
    ("version", "usage: rules version\n"),
];

const OPTIONS: &str = "
Options of all commands: --json (one object on one line), --colour auto|always|never, -q (less),
-v (more: question bytes and rows; of check also how many bits were read), -h (help), -- (no options follow).
";

/// The help for a command, or for all.
pub fn of(command: Option<&str>) -> Option<String> {
    let found = match command {
        None => Some(USAGE),
        Some(command) => COMMANDS.iter().find(|c| c.0 == command).map(|c| c.1),
    };
    found.map(|help| format!("{help}{OPTIONS}"))
}

/// The version, and the stamp of the library that this program was linked with.
pub fn version() -> [&'static str; 2] {
    ["1.0", option_env!("RIGHTS_STAMP").unwrap_or("unknown")]
}
