//! Random inputs: joints with one face and two that mostly make sense and joints at and past every end, bolt tables that are taken and
//! refused, limit tables and raises of one limit, and damaged byte streams.

mod bolt_tables;
mod joints;
mod limit_tables;
mod own_bolts;
mod random;
mod streams;
mod two_faces;

pub use bolt_tables::{any_bolt_table, good_bolt_table};
pub use joints::{
    any_joint, goes_by_triangle, sensible_joint, worked_joint, worked_joint_in_triangle,
};
pub use limit_tables::{any_raise, falling_levers, limit_table, LimitTable};
pub use own_bolts::any_joint_with_own_table;
pub use random::Random;
pub use streams::{file_of, file_of_kind, stream};
pub use two_faces::{sensible_two_faced_joint, worked_two_faced_joint};
