//! Tests that need the reference.

/// Differential tests. With no reference each is ignored, with that reason, and counts as neither passed nor
/// failed; `.ci/run` names it.
#[macro_export]
macro_rules! differential {
    ($($(#[$text:meta])* fn $name:ident() { $($body:tt)* })*) => {
        $($(#[$text])*
        #[test]
        #[cfg_attr(not(reference), ignore = "the reference is absent")]
        fn $name() {
            #[cfg(reference)]
            let () = { $($body)* };
        })*
    };
}
