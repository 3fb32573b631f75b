pub mod b2_math;
