pub mod inst;

pub mod lower {
    pub mod isle {
        pub use crate::standins::generated as generated_code;
    }
}
