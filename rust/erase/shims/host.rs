//! The streams, files and arguments of the program, from a runtime that is passed down.

use std::os::fd::{AsFd, BorrowedFd};

/// What `main` gets.
pub struct HostRuntime;

/// What is a text.
pub trait AsStr {
    fn as_str(&self) -> &str;
}
impl AsStr for String {
    fn as_str(&self) -> &str {
        self
    }
}
impl AsStr for &str {
    fn as_str(&self) -> &str {
        self
    }
}

// A stream of its own, without the buffer of std.
fn stream(fd: BorrowedFd<'_>) -> std::fs::File {
    fd.try_clone_to_owned().map(std::fs::File::from).unwrap_or_else(|_| std::fs::File::open("/dev/null").expect("/dev/null"))
}

/// A copy of an error, with its kind and its number.
pub fn copied(error: &std::io::Error) -> std::io::Error {
    error.raw_os_error().map_or_else(|| error.kind().into(), std::io::Error::from_raw_os_error)
}

pub fn copied_if_any(error: &Option<std::io::Error>) -> Option<std::io::Error> {
    error.as_ref().map(copied)
}

impl HostRuntime {
    pub fn stderr(&self) -> std::fs::File {
        stream(std::io::stderr().as_fd())
    }
}

pub mod io {
    use super::{AsFd, HostRuntime, stream};
    pub use std::io::{BufRead, Error, ErrorKind, Read, Result, Write};

    pub trait Input {
        fn reader(&self) -> std::fs::File;
    }
    impl Input for HostRuntime {
        fn reader(&self) -> std::fs::File {
            stream(std::io::stdin().as_fd())
        }
    }
    pub trait Print {
        fn out(&self) -> std::fs::File;
    }
    impl Print for HostRuntime {
        fn out(&self) -> std::fs::File {
            stream(std::io::stdout().as_fd())
        }
    }
    pub fn writer<R: Print>(rt: &R) -> std::fs::File {
        rt.out()
    }

    /// A reader with a buffer, whose memory may not be there.
    pub struct BufReader<R>(std::io::BufReader<R>);

    impl<R: Read> BufReader<R> {
        pub fn new(reader: R) -> Result<Self> {
            Ok(BufReader(std::io::BufReader::new(reader)))
        }
        #[cfg(test)]
        pub fn with_capacity(most: usize, reader: R) -> Self {
            BufReader(std::io::BufReader::with_capacity(most, reader))
        }
        pub fn get_ref(&self) -> &R {
            self.0.get_ref()
        }
    }

    impl<R: Read> Read for BufReader<R> {
        fn read(&mut self, buf: &mut [u8]) -> Result<usize> {
            self.0.read(buf)
        }
    }

    impl<R: Read> BufRead for BufReader<R> {
        fn fill_buf(&mut self) -> Result<&[u8]> {
            self.0.fill_buf()
        }
        fn consume(&mut self, amount: usize) {
            self.0.consume(amount);
        }
    }
}

pub mod rt {
    pub trait Env {}
    impl Env for super::HostRuntime {}
    pub trait Files {}
    impl Files for super::HostRuntime {}
}

pub mod env {
    use std::io::{Error, ErrorKind};

    pub type Args = std::vec::IntoIter<String>;

    /// The arguments, the program's name first, or an error if one is no text.
    pub fn args<R: super::rt::Env>(_rt: &R) -> Result<Args, Error> {
        let words: Result<Vec<String>, _> = std::env::args_os().map(|word| word.into_string()).collect();
        words.map(Vec::into_iter).map_err(|_| ErrorKind::InvalidInput.into())
    }

    /// What a variable of the environment says.
    pub fn var<R: super::rt::Env>(_rt: &R, name: &str) -> Result<String, std::env::VarError> {
        std::env::var(name)
    }
}

pub mod fs {
    use std::io::Error;

    pub fn open<R: super::rt::Files>(_rt: &R, path: &str) -> Result<std::fs::File, Error> {
        std::fs::File::open(path)
    }
    pub fn read_to_string<R: super::rt::Files>(_rt: &R, path: &str) -> Result<String, Error> {
        std::fs::read_to_string(path)
    }
}
