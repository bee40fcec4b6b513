include!("../link.rs");

fn main() {
    link("test_calls");
}
