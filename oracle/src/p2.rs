//! The published crate's `p2`, as far as the four files reach: two of them, and the names that they import.

pub use wasmtime_wasi_io::poll::Pollable;
pub use wasmtime_wasi_io::streams::{OutputStream, StreamError, StreamResult};

#[allow(dead_code)]
#[path = "../target/published/src/p2/pipe.rs"]
pub mod pipe;

// Included, not declared: what stands below the published text can see its private fields.
pub mod write_stream {
    include!("../target/published/src/p2/write_stream.rs");

    /// What the driver must know of a worker stream, and no call tells.
    pub struct Inside {
        pub free_budget: usize,
        pub flush_pending: bool,
        pub alive: bool,
        pub cancelled: bool,
    }

    impl AsyncWriteStream {
        pub fn inside(&self) -> Inside {
            let state = self.worker.state();
            Inside {
                free_budget: state.write_budget,
                flush_pending: state.flush_pending,
                alive: state.alive,
                cancelled: self.join_handle.is_none(),
            }
        }
    }
}
