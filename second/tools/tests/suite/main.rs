//! All tests of the tools, and of the streams that are stored with the proved programs, in one program.

mod breaks;
mod captured_lines;
mod compare;
mod gate;
mod gates_streams;
mod in_flight_streams;
mod limits;
mod measure;
mod measured_rigs;
mod moves_streams;
mod not_served_streams;
mod other_calls;
mod process;
mod profiles_streams;
mod shapes;
mod stack;
mod stored;
mod stored_desk;
mod stored_gates;
mod stored_positions;
mod stored_script;
mod streams;
mod traffic;
mod worst;
