//! All tests of the programs `bridge`, `rig` and `desk` and of what starts them, of the documents and their examples, and of the files, in one program.

mod bridge;
mod check;
mod clauses;
mod desk;
mod documents;
mod edits;
mod files;
mod place;
mod process;
mod rig;
mod rig_gates;
mod rig_moves;
mod rig_profiles;
mod samples;
mod starters;
mod told;
mod toolchain;
mod wire;
