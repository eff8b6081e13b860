// Without an archive our side is the plain definition of src/model.rs, and the program says so.
#[path = "archive.rs"]
mod archive;

fn main() {
    archive::link();
}
