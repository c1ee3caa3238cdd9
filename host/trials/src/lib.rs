//! Above the proved library and the second implementation: safe calls of the proved one, what makes every call with both, runs of several
//! controllers over the calls, how other programs are run, and how many rounds are made.
pub mod both;
pub mod programs;
pub mod proved;
pub mod rounds;
pub mod run;
