// The host's own tests: what document 01 says of the rebuild, the reader and the sound ledger, and that the comparison finds differences.

mod clauses;
mod comparison;
mod example;
mod generated;
mod layout;
mod reader;
mod refusals;
