//! The two that are compared, behind one trait: the model, and the library through the C interface.

use model::Model;
use plumbsorrel::slices;

/// The trait, and both who have its operations: each is a method of the model and a function on slices.
macro_rules! operations {
    ($($name:ident($($argument:ident: $kind:ty),*);)*) => {
        /// The operations of the C interface, each answering its number.
        #[allow(clippy::too_many_arguments)]
        pub trait Library {
            $(fn $name(&mut self, $($argument: $kind),*) -> u64;)*
        }

        impl Library for Model {
            $(fn $name(&mut self, $($argument: $kind),*) -> u64 {
                Model::$name(self, $($argument),*)
            })*
        }

        impl Library for Linked {
            $(fn $name(&mut self, $($argument: $kind),*) -> u64 {
                slices::$name($($argument),*)
            })*
        }
    };
}

/// The library that the program is linked with.
pub struct Linked;

operations! {
    load(image: &[u8], code: &mut [u16], common: &mut [u16], private: &mut [u16], state: &mut [u16]);
    step(code: &[u16], common: &mut [u16], private: &mut [u16], state: &mut [u16]);
    run(code: &[u16], budget: u32, common: &mut [u16], private: &mut [u16], state: &mut [u16]);
    tick(state: &mut [u16]);
    bell(state: &mut [u16]);
    done(device: u16, status: u16, arg: u16, common: &mut [u16], private: &mut [u16], state: &mut [u16]);
    write(edition: u16, length: u16, devices: u16, variables: u16, code: &[u16], out: &mut [u8]);
    is_sound(state: &[u16]);
    record(device: u16, common: &[u16], private: &[u16], state: &[u16], record: &mut [u16]);
}
