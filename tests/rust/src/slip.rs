//! The slip of the space that a plan needs: the size of each thread's procedure, and
//! their sum.

use crate::reference::{sized, Plan};

fn slip(plan: &Plan) -> String {
    let size = |(thread, proc): (usize, &usize)| format!("(size {thread} {})\n", plan.sizes[*proc]);
    let sizes: String = plan.threads.iter().enumerate().map(size).collect();
    format!("{sizes}(sum {})\n", plan.size_of_threads())
}

/// What the program `slip` prints of a text.
pub fn printed(text: &[u8]) -> Vec<u8> {
    sized(text).map_or_else(|refusal| format!("{refusal}\n"), |plan| slip(&plan)).into_bytes()
}
