//! What can be asked of `night`: its commands and options, as `--help` shows them and as the command line is read.

pub struct Command {
    pub name: &'static str,
    pub usage: &'static str,
    pub does: &'static str,
    pub options: &'static [&'static str],
}

pub struct Opt {
    pub name: &'static str,
    /// What its value is called, if it takes one.
    pub value: Option<&'static str>,
    pub does: &'static str,
}

const fn valued(name: &'static str, value: &'static str, does: &'static str) -> Opt {
    Opt { name, value: Some(value), does }
}

const fn flag(name: &'static str, does: &'static str) -> Opt {
    Opt { name, value: None, does }
}

pub const OPTIONS: [Opt; 15] = [
    valued("--journal", "FILE", "the night's journal; without it, NIGHT_JOURNAL of the environment names it"),
    flag("--new", "begin a new journal, and refuse one that is there"),
    flag("--resume", "go on with a journal, and refuse one that is not there"),
    valued("--at", "WHEN", "one moment: after a call (34), or by the clock in UTC (02:40, 2026-11-17T02:40:07)"),
    valued("--from", "WHEN", "from this call or time on"),
    valued("--to", "WHEN", "up to this call or time"),
    valued("--job", "ID", "only what this job had"),
    valued("--sheet", "K", "which sheet of the picture, counted from 1"),
    valued("--sheets", "FOLDER", "an empty folder for all sheets of the picture"),
    valued("--deck", "DECK", "a deck to check"),
    flag("--json", "objects of JSON, one a line"),
    valued("--shift", "PROGRAM", "the shift program, if not the one beside night"),
    valued("--programs", "FOLDER", "where the proved programs are, if not beside night"),
    flag("--help", "this page; behind a command, that command's"),
    flag("--version", "the version"),
];

const fn command(
    name: &'static str,
    usage: &'static str,
    does: &'static str,
    options: &'static [&'static str],
) -> Command {
    Command { name, usage, does, options }
}

pub const COMMANDS: [Command; 10] = [
    command(
        "run",
        "night run --journal FILE [--new | --resume] [--shift PROGRAM] CONFIG",
        "runs a night, or goes on with one: calls on standard input, answers on standard output",
        &["--journal", "--new", "--resume", "--shift", "--programs"],
    ),
    command(
        "who",
        "night who --journal FILE [cc uu] [--job ID] [--at WHEN] [--json]",
        "says which jobs had head cc/uu (or word uu of the drum, channel cc), or what a job had, from when to when",
        &["--journal", "--job", "--at", "--json"],
    ),
    command(
        "log",
        "night log --journal FILE [--from WHEN] [--to WHEN] [--json]",
        "shows the calls and their answers, with their times",
        &["--journal", "--from", "--to", "--json"],
    ),
    command(
        "board",
        "night board --journal FILE [--at WHEN] [--json] [--shift PROGRAM]",
        "shows the board, at the journal's end or at a moment, as the proved program gives it",
        &["--journal", "--at", "--json", "--shift", "--programs"],
    ),
    command(
        "show",
        "night show --journal FILE [--from WHEN] [--to WHEN] [--sheet K | --sheets FOLDER]",
        "draws the night as SVG, on sheets of A4: the first or another on standard output, or all into a folder",
        &["--journal", "--from", "--to", "--sheet", "--sheets"],
    ),
    command(
        "check",
        "night check CONFIG | night check --deck DECK [--journal FILE]",
        "tries a configuration or a deck, with --journal against the schedule of a night; status 1 if it has errors",
        &["--deck", "--journal", "--shift", "--programs"],
    ),
    command(
        "listing",
        "night listing [FILE]",
        "prints each channel of a configuration with its assignable units",
        &["--programs"],
    ),
    command("deck", "night deck [FILE]", "prints a deck's errors and the schedule that comes of it", &["--programs"]),
    command("cards", "night cards [FILE]", "prints each request of a deck as it was read", &["--programs"]),
    command(
        "desk",
        "night desk REPAIR DAY [ID..]",
        "prints the requests' own cards, from the repair deck or the day's; IDs from standard input if none is named",
        &["--programs"],
    ),
];

/// The proved programs, for their own `--help`.
pub const PROGRAMS: [(&str, &str); 5] = [
    ("listing", "reads a configuration and prints each channel with its assignable units"),
    ("deck", "reads a deck of job requests and prints its errors and the schedule that comes of it"),
    ("cards", "reads a deck of job requests and prints each request's cards written again"),
    ("desk", "reads a repair deck, the day's deck and then IDs, and prints each request's own cards"),
    ("shift", "reads a configuration and then calls, a line each, and answers each call"),
];

fn option(name: &str) -> Option<&'static Opt> {
    OPTIONS.iter().find(|option| option.name == name)
}

pub fn takes_value(name: &str) -> bool {
    option(name).is_some_and(|option| option.value.is_some())
}

/// What the value of an option is called.
pub fn value_of(name: &str) -> &'static str {
    option(name).and_then(|option| option.value).unwrap_or("value")
}

/// The page of all commands, or of one.
pub fn page(command: Option<&Command>) -> String {
    let Some(command) = command else {
        let lines = COMMANDS.iter().map(|command| format!("  {}\n      {}\n", command.usage, command.does));
        let first = "night: the shift program with a journal, so that a night is not lost and can be asked";
        let last = "night COMMAND --help shows a command's options, man night the rest.";
        return format!("{first}\n\n{}\n{last}\n", lines.collect::<String>());
    };
    let options = OPTIONS.iter().filter(|option| command.options.contains(&option.name));
    let word = |option: &Opt| format!("{} {}", option.name, option.value.unwrap_or_default());
    let lines = options.map(|option| format!("  {:<18} {}\n", word(option), option.does));
    format!("usage: {}\n{}\n\n{}", command.usage, command.does, lines.collect::<String>())
}

/// The page of a proved program, which reads standard input.
pub fn program_page(name: &str) -> Option<String> {
    let (name, does) = PROGRAMS.iter().find(|(program, _)| *program == name)?;
    Some(format!("usage: {name} < INPUT\n{name} {does}.\nIt takes no words. man {name} has more.\n"))
}
