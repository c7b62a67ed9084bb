//! Colours on a terminal; the words alone say all.

use std::env::var_os;

#[derive(Clone, Copy)]
pub enum Style {
    Never,
    CanHappen,
    Error,
    Warning,
}

/// What `--colour` says.
#[derive(Clone, Copy, Debug, PartialEq, Eq)]
pub enum Choice {
    Auto,
    Always,
    Never,
}

extern "C" {
    fn isatty(fd: i32) -> i32;
}

/// Words in the colour of a style, or as they are.
pub fn paint(on: bool, style: Style, words: &str) -> String {
    if !on {
        return words.to_string();
    }
    let code = match style {
        Style::Never => "1;32",
        Style::CanHappen => "1;33",
        Style::Error => "31",
        Style::Warning => "35",
    };
    format!("\x1b[{code}m{words}\x1b[0m")
}

/// Whether to use colours: by itself only on a terminal that has them, and where `NO_COLOR` does not say otherwise.
pub fn wanted(choice: Choice, descriptor: i32) -> bool {
    match choice {
        Choice::Always => true,
        Choice::Never => false,
        Choice::Auto => {
            let refused = var_os("NO_COLOR").map_or(false, |value| !value.is_empty());
            let dumb = var_os("TERM").map_or(false, |value| value == "dumb");
            !refused && !dumb && is_terminal(descriptor)
        }
    }
}

/// Whether a descriptor is a terminal: 1 is standard output, 2 standard error.
pub fn is_terminal(descriptor: i32) -> bool {
    // SAFETY: `isatty` only looks at the number of the descriptor.
    unsafe { isatty(descriptor) == 1 }
}
