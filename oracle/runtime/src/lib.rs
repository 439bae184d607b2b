//! The crate that structure.rs calls `eqlog_runtime`: unification.rs as
//! published, and beside it what the published text lacks.

#[allow(dead_code, clippy::all)]
mod unification {
    include!("../../eqlog/src/unification.rs");

    impl<T: Copy + PartialEq + From<u32> + Into<u32>> Unification<T> {
        /// The end of the links, which stay as they are. It is cut from the
        /// published text; document 01 says what it does.
        pub fn root_const(&self, mut el: T) -> T {
            let mut parent = self.link(el);
            while el != parent {
                el = parent;
                parent = self.link(el);
            }
            el
        }

        /// A table with these links.
        pub fn with_links(links: Vec<T>) -> Self {
            Unification { parents: links, sizes: Vec::new() }
        }

        /// What `el` links to. The published text keeps its links private.
        pub fn link(&self, el: T) -> T {
            self.parents[el.into() as usize]
        }
    }
}

pub use unification::Unification;
