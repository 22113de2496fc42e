//! The published Rust with the least around it that lets it compile, and three
//! programs that run it. The files of core/src are put beside this one by
//! `oracle/build`, unchanged.
#![allow(dead_code, unused_imports, unused_variables)]

extern crate alloc;

/// A switch of a module that is not published, named by `accept`: off.
macro_rules! node_fault {
    ($f:ident) => {
        false
    };
}

/// Stand-in: addresses are ordered bytes, and a key is its own address.
pub mod identity {
    #[derive(Clone, Copy, Debug, PartialEq, Eq, PartialOrd, Ord, Hash)]
    pub struct NodeAddr([u8; 16]);
    impl NodeAddr {
        pub fn from_bytes(bytes: [u8; 16]) -> Self {
            Self(bytes)
        }
    }
    #[derive(Clone, Copy, Debug, PartialEq, Eq)]
    pub struct PeerKey(pub NodeAddr);
    impl PeerKey {
        pub fn addr(&self) -> NodeAddr {
            self.0
        }
    }
    pub fn secp() {}
}

/// Stand-in: named by lease.rs and testutil.rs, never called.
pub mod entropy {
    pub trait EntropySource {
        fn fill(dest: &mut [u8]);
    }
}

/// Stand-in: a bound on handshake states, never called.
pub mod noise {
    pub trait Fork {}
}

/// Stand-in: named by lease.rs, never called.
pub mod utils {
    pub mod index {
        pub struct Index;
        impl Index {
            pub fn as_u32(&self) -> u32 {
                unreachable!()
            }
        }
        pub struct IndexAllocator<E>(core::marker::PhantomData<E>);
        impl<E> IndexAllocator<E> {
            pub fn allocate(&mut self) -> Result<Index, ()> {
                unreachable!()
            }
        }
    }
}

pub mod proto {
    pub mod rekey;
}
mod testutil;
pub mod time;

/// The program `leaves`.
pub fn leaves() {
    proto::rekey::tests::leaves::main();
}

/// The program `machine`.
pub fn machine() {
    proto::rekey::tests::play::main();
}

/// The program `outside`.
pub fn outside() {
    proto::rekey::tests::outside();
}
