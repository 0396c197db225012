//! The README's example is the one in examples/, which the gate runs and holds to its output.

#[test]
fn the_readme_has_the_example() {
    let (readme, example) = (include_str!("../README.md"), include_str!("../examples/segments.rs"));
    assert!(readme.contains(&format!("```rust\n{example}```\n")));
}
