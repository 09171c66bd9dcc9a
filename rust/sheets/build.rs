//! Links the real controller's run sheets, librun.a and libprint.a.

#[path = "../controller/library.rs"]
mod library;

fn main() {
    library::link("run");
    library::link("print");
}
