//! The model's own tests: the rules' cases and example, outside vectors, points that can be read in two ways, laws over streams.

mod scene;

mod addresses;
mod arrival;
mod cases;
mod example;
mod input;
mod laws;
mod leaving;
mod outside_vectors;
mod queues;
mod refusals;
mod slips;
