//! A stand-in for the crate `arm_sysregs`: a CPU's identifier is its number.
pub mod el1 {
    pub mod accessors {
        /// Never asked: the platform's stand-in answers whether an interrupt is pending.
        pub fn read_isr_el1() -> &'static [u8] {
            &[]
        }
    }
    pub mod registers {
        #[derive(Clone, Copy)]
        pub struct MpidrEl1(pub u64);
        impl MpidrEl1 {
            pub fn from_psci_mpidr(mpidr: u64) -> Self {
                Self(mpidr)
            }
        }
    }
}
