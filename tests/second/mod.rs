//! The second program: a plain and slow account of the papers on rule files, steps and verdicts, written from the
//! papers alone, and of readable rules, written from docs/TEXT.md alone. Other programs take it in by
//! `#[path = "../second/mod.rs"] mod second;` and compare.
//!
//! In the paper's order:
//! - `rules`, `value`: the rules and the values of attributes;
//! - `read`, `write`: rule files; `formula`: what formulas say;
//! - `monitor`: steps on lent cells; `question`: the three bytes; `run`: steps on lists without limits;
//! - `replay`, `analyse`: the two calls on a whole file; `leak`, `exhaustive`: two ways to check the analyser;
//! - `text`, with its parts `words`, `names`, `lists`, `expression` and `expectation`: readable rules, by docs/TEXT.md.

// Each program that takes this module in uses a part of it.
#![allow(dead_code)]

pub mod analyse;
pub mod exhaustive;
pub mod expectation;
pub mod expression;
pub mod formula;
pub mod leak;
pub mod lists;
pub mod monitor;
pub mod names;
pub mod question;
pub mod read;
pub mod replay;
pub mod rules;
pub mod run;
pub mod text;
pub mod value;
pub mod words;
pub mod write;
