//! What the published files name of wasmtime-wasi-io: the traits of streams, and their errors.
//! A default method stands here only where a published type leaves that method out.

pub mod poll {
    #[async_trait::async_trait]
    pub trait Pollable: Send + 'static {
        async fn ready(&mut self);
    }
}

pub mod streams {
    use crate::poll::Pollable;
    use bytes::Bytes;

    pub type StreamResult<T> = Result<T, StreamError>;

    #[derive(Debug)]
    pub enum StreamError {
        Closed,
        LastOperationFailed(wasmtime::Error),
        Trap(wasmtime::Error),
    }

    impl StreamError {
        pub fn trap(message: &str) -> StreamError {
            StreamError::Trap(wasmtime::format_err!("{message}"))
        }
    }

    #[async_trait::async_trait]
    pub trait InputStream: Pollable {
        fn read(&mut self, size: usize) -> StreamResult<Bytes>;

        fn skip(&mut self, size: usize) -> StreamResult<usize> {
            self.read(size).map(|bytes| bytes.len())
        }

        async fn cancel(&mut self) {}
    }

    #[async_trait::async_trait]
    pub trait OutputStream: Pollable {
        fn write(&mut self, bytes: Bytes) -> StreamResult<()>;
        fn flush(&mut self) -> StreamResult<()>;
        fn check_write(&mut self) -> StreamResult<usize>;

        async fn cancel(&mut self) {}
    }
}
