//! Links the real controller, libhost.a.

mod library;

fn main() {
    library::link("host");
}
