//! Tests over the kernel's epoll and eventfd.
#![tactic(auto)]

#[cfg(test)]
mod descriptors;
#[cfg(test)]
mod timers;
#[cfg(test)]
mod woken;
