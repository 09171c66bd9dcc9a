//! A call of the host, as a line of the text has it.

use super::field::{
    fields, missing, no_more, shortened, CLEAR_LEVEL, DECAY, END, INPUT, PLACE, SET, SET_LEVEL,
    SIZE, START,
};
use super::place::place;
use crate::step::{Call, MOST_WINDOWS};
use crate::week::Window;

/// What a call's line says, or why it says nothing that can be understood; None
/// if the word is not that of a call.
pub fn call(word: &str, rest: &[&str]) -> Result<Option<Call>, String> {
    let call = match word {
        "bucket" => {
            let numbers = [SET, SIZE, SET_LEVEL, CLEAR_LEVEL, DECAY];
            let numbers = fields(word, numbers, rest)?.map(|number| number as u8);
            let [set, size, set_level, clear_level, decay] = numbers;
            let numbers = [size, set_level, clear_level, decay];
            Call::SetBucket { set, numbers }
        }
        "assign" => {
            let [input, set] = fields(word, [INPUT, SET], rest)?.map(|number| number as u8);
            Call::AssignBucket { input, set }
        }
        "week" => {
            let (place, rest) = place(word, &PLACE, rest)?;
            no_more(word, rest)?;
            Call::SetWeek { place }
        }
        "windows" => {
            let windows = windows(word, rest)?.into();
            Call::SetWindows { windows }
        }
        _ => return Ok(None),
    };
    Ok(Some(call))
}

/// All windows of a call, with a comma between each two; or none.
fn windows(statement: &str, words: &[&str]) -> Result<Vec<Window>, String> {
    match words {
        [] => return Err(missing(statement, &START)),
        ["none", rest @ ..] => {
            let statement = format!("{} none", statement);
            return no_more(&statement, rest).map(|()| vec![]);
        }
        _ => {}
    }
    let list = words.join(" ");
    let windows = list.split(',').map(|part| window(statement, part));
    let windows = windows.collect::<Result<Vec<_>, _>>()?;
    match windows.len() > MOST_WINDOWS {
        true => Err(format!("more than {} windows", MOST_WINDOWS)),
        false => Ok(windows),
    }
}

/// One window: START to END.
fn window(statement: &str, part: &str) -> Result<Window, String> {
    let words: Vec<&str> = part.split_whitespace().collect();
    if words.is_empty() {
        return Err("a window is missing beside a comma".to_string());
    }
    let (start, rest) = place(statement, &START, &words)?;
    let rest = match rest {
        ["to", rest @ ..] => rest,
        _ => return Err(NO_TO.to_string()),
    };
    let (end, rest) = place(statement, &END, rest)?;
    match rest {
        [] => Ok(Window { start, end }),
        [word, ..] => Err(format!(
            "after END may stand a comma and the next window, not \"{}\"",
            shortened(word)
        )),
    }
}

const NO_TO: &str = "after START a to is missing, as in windows mon 08:00 to mon 18:00";
