//! The published crate's `cli`, as far as the four files reach: its three traits, and the shared stream.

use tokio::io::{AsyncRead, AsyncWrite};
use wasmtime_wasi_io::streams::{InputStream, OutputStream};

pub trait IsTerminal {
    fn is_terminal(&self) -> bool;
}

pub trait StdinStream: IsTerminal + Send {
    fn p2_stream(&self) -> Box<dyn InputStream>;
    fn async_stream(&self) -> Box<dyn AsyncRead + Send + Sync>;
}

pub trait StdoutStream: IsTerminal + Send {
    fn p2_stream(&self) -> Box<dyn OutputStream>;
    fn async_stream(&self) -> Box<dyn AsyncWrite + Send + Sync>;
}

// Included, not declared: what stands below the published text can see its private types and fields.
pub mod locked_async {
    include!("../target/published/src/cli/locked_async.rs");

    impl AsyncStdoutStream {
        /// Where the stream under the lock stands. To be asked before the lock has a holder.
        pub fn inner(&self) -> *mut p2::pipe::AsyncWriteStream {
            &mut *self.0.try_lock().expect("a free lock")
        }
    }

    /// The flushing mark of a handle that `AsyncStdoutStream::async_stream` made.
    pub fn flushing(handle: &(dyn AsyncWrite + Send + Sync)) -> bool {
        let handle = handle as *const (dyn AsyncWrite + Send + Sync) as *const StdoutHandle;
        // SAFETY: `async_stream` makes no other type.
        unsafe { (*handle).flushing }
    }
}
