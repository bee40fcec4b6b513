include!("../link.rs");

fn main() {
    link("eremothyn");
}
