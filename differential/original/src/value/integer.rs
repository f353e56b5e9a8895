// The text of value/integer.rs, unchanged.
include!(concat!(env!("BOA_SRC_FOUND"), "/value/integer.rs"));
