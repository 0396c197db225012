// The scores of four segments, with the links of reuse 0 to 1, 0 to 2, 2 to 1 and 3 to 2. Segment 0 is accepted. Nothing
// accepted leads to segment 3, so it has no score.
use talwighest::{Links, Refusal, Settings};

fn main() -> Result<(), Refusal> {
    let links = Links { n: 4, from: &[0, 0, 2, 3], to: &[1, 2, 1, 2], weight: &[1.0, 3.0, 1.0, 1.0] };
    let solved = links.solve_multi_source(&[0], Settings::default())?;
    println!("{} pushes on {} nodes, norm {:.2e}", solved.push_count, solved.nodes_visited, solved.residual_norm);
    for (node, (score, remainder)) in solved.estimate.iter().zip(&solved.residual).enumerate() {
        println!("node {node}: score {score:.6}, remainder {remainder:.2e}");
    }
    let wrong = Links { weight: &[1.0, 3.0, -1.0, 1.0], ..links };
    println!("{}", wrong.solve_multi_source(&[0], Settings::default()).unwrap_err());
    Ok(())
}
