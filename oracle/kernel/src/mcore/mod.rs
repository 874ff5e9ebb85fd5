//! Stands in for the kernel's process modules; `mem` is the kernel's own file, unchanged, with our
//! probe of its private state beside it.

pub mod mtask {
    pub mod process {
        use core::marker::PhantomData;

        /// The proof that no other task of a process is live: here there are no tasks.
        #[derive(Default)]
        pub struct SoleLiveTask<'a>(PhantomData<&'a ()>);

        pub mod mem {
            include!(env!("MEM_RS"));

            pub mod probe;
        }
    }
}
