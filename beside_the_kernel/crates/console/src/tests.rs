//! A console on a pipe.

use crate::count_bytes;
use std::io::{Write, pipe};
use vmm_sys::epoll::Fd;

#[test]
fn what_comes_through_a_pipe_is_counted(rt: HostRuntime) {
    let (reader, mut writer) = pipe(&rt).expect(&rt, "a pipe");
    let written = writer.write_all(b"one\ntwo\n");
    assert!(rt; written.is_ok());
    drop(writer);
    let input = Fd::of(&reader).expect(&rt, "its descriptor");
    let counted = count_bytes(rt.alloc(), input).ok();
    assert_eq!(rt; counted, Some(8));
}
