//! All tests of the port, in one program.

mod alike;
mod captures;
mod cut_law;
mod examples;
mod form_b;
mod gates;
mod gates_model;
mod in_flight;
mod in_flight_model;
mod moves;
mod moves_model;
mod no_panic;
mod not_served;
mod numbers;
mod order;
mod positions;
mod profiles;
mod read_back;
mod rules;
mod sound;
mod soundness;
mod subscriptions;
