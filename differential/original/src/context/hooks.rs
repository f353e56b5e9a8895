// The text of context/hooks.rs, unchanged.
include!(concat!(env!("BOA_SRC_FOUND"), "/context/hooks.rs"));
