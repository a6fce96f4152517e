//! The host: files, words of the command line, and the standard output.

pub mod io {
    pub use std::io::{BufRead, Error, ErrorKind, Read, Result, Write};
}

pub mod rt {
    use crate::alloc::Global;
    use std::fs::File;
    use std::os::fd::AsFd;

    pub trait Files {}

    pub trait Env {}

    pub trait AllocGlobal {
        fn alloc(&self) -> Global;
    }

    #[derive(Clone, Copy)]
    pub struct HostRuntime;

    impl Files for HostRuntime {}

    impl Env for HostRuntime {}

    impl AllocGlobal for HostRuntime {
        fn alloc(&self) -> Global {
            Global
        }
    }

    impl HostRuntime {
        /// The standard output, without the buffer that Rust's has: the program writes in large pieces. If it is closed, Rust opens
        /// /dev/null in its place, so that nothing is written and no write fails.
        pub fn stdout(&self) -> File {
            let descriptor = std::io::stdout().as_fd().try_clone_to_owned();
            File::from(descriptor.expect("a descriptor for the standard output"))
        }
    }
}

pub mod env {
    use std::env::args_os;
    use std::io;
    use std::vec;

    /// The words of the command line, or an error if one of them is not UTF-8.
    pub fn args<R>(_rt: &R) -> io::Result<vec::IntoIter<String>> {
        let words: Result<Vec<String>, _> = args_os().map(|word| word.into_string()).collect();
        Ok(words
            .map_err(|_| io::Error::from(io::ErrorKind::InvalidData))?
            .into_iter())
    }
}

pub mod fs {
    pub use std::fs::File;

    pub fn open<R>(_rt: &R, path: &str) -> std::io::Result<File> {
        File::open(path)
    }
}
