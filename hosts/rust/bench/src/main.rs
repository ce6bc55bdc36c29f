//! The proved part against the plain Rust reference, same inputs, both built for release.
//!
//! Ratios are the part's speed over the reference's: above 1 the part is faster. Each time is the best of several rounds, in
//! which part and reference take turns.

mod applications;
mod calls;
mod programs;
mod timing;

fn main() {
    timing::print_heading();
    let lowest = calls::measure().min(applications::measure());
    println!("lowest ratio of the calls: {lowest:.2}\n");
    programs::measure();
}
