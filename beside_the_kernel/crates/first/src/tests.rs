//! What the visitor is told.

use crate::visit;

#[test]
fn each_ring_is_heard_before_the_job_behind_it(rt: HostRuntime) {
    let told = visit(&rt, rt.alloc()).ok().unwrap_or([0; 3]);
    assert_eq!(rt; told, [1, 2, 3]);
}
