//! Tests of the exported calls beside a brute force of documents 01 and 02.

mod bands;
mod batch;
mod c_program;
mod calls;
mod campaigns;
mod case_listing;
mod comparison;
mod customers;
mod examples;
mod forecasts;
mod halves;
mod harness;
mod height_0;
mod heights;
mod lists;
mod model;
mod pair_lists;
mod plane;
mod random;
mod raw;
mod removals;
mod site_files;
mod site_lists;
mod smaller_k;

fn main() {
    let mut h = harness::Harness::default();
    examples::run(&mut h);
    comparison::run(&mut h);
    site_lists::run_check(&mut h);
    site_lists::run_add(&mut h);
    removals::run(&mut h);
    pair_lists::run_k_list(&mut h);
    pair_lists::run_distance_list(&mut h);
    forecasts::run(&mut h);
    bands::run(&mut h);
    campaigns::run(&mut h);
    customers::run(&mut h);
    smaller_k::run(&mut h);
    batch::run(&mut h);
    halves::run(&mut h);
    heights::run(&mut h);
    height_0::run(&mut h);
    site_files::run(&mut h);
    case_listing::run(&mut h);
    c_program::run(&mut h);
    println!("{} passed, {} failed", h.passed, h.failed);
    std::process::exit((h.failed > 0) as i32);
}
