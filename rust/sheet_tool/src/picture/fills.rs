//! The colours of the areas.

/// The fills of the states, by their numbers: those that follow each other differ
/// in lightness too.
const STATE_FILLS: [&str; 6] = [
    "#e9a58c", "#f6dc8c", "#e6f1fb", "#7dbd8d", "#b98ac6", "#b5d3f0",
];

pub fn selected_fill(selected: u8) -> &'static str {
    match selected {
        0 => "#fff",
        9 => STATE_FILLS[0],
        _ => "#ececec",
    }
}

pub fn state_fill(number: u8) -> &'static str {
    STATE_FILLS.get(usize::from(number)).unwrap_or(&"#fff")
}
