//! Declares functions of the archive, each with a safe function over it. The archive has them with the prefix `talwighest_`,
//! so that a program may have names such as `transpose` of its own. The crate that has this module says in `pointers` where a list
//! begins.

/// A declaration is read from the left: each parameter gives the words that the library's function takes for it, so that
/// a list is a pointer and a length, and a record of lists those of each in turn.
macro_rules! exported {
    ($(fn $name:ident($($parameters:tt)*) -> $result:ty;)*) => {
        $(exported!(@ $name ($($parameters)*) -> $result, [] []);)*
    };
    (@ $name:ident () -> $result:ty, [$($parameter:ident: $kind:ty,)*] [$($word:ty = $passed:expr,)*]) => {
        pub fn $name($($parameter: $kind),*) -> $result {
            extern "C" {
                #[link_name = concat!("talwighest_", stringify!($name))]
                fn $name($(_: $word),*) -> $result;
            }
            unsafe { $name($($passed),*) }
        }
    };
    (@ $name:ident ($p:ident: u32 $(, $($rest:tt)*)?) -> $result:ty, [$($read:tt)*] [$($words:tt)*]) => {
        exported!(@ $name ($($($rest)*)?) -> $result, [$($read)* $p: u32,] [$($words)* u32 = $p,]);
    };
    (@ $name:ident ($p:ident: f64 $(, $($rest:tt)*)?) -> $result:ty, [$($read:tt)*] [$($words:tt)*]) => {
        exported!(@ $name ($($($rest)*)?) -> $result, [$($read)* $p: f64,] [$($words)* f64 = $p,]);
    };
    (@ $name:ident ($p:ident: Settings $(, $($rest:tt)*)?) -> $result:ty, [$($read:tt)*] [$($words:tt)*]) => {
        exported!(@ $name ($($($rest)*)?) -> $result, [$($read)* $p: Settings,] [$($words)* Settings = $p,]);
    };
    (@ $name:ident ($p:ident: &[$t:ty] $(, $($rest:tt)*)?) -> $result:ty, [$($read:tt)*] [$($words:tt)*]) => {
        exported!(@ $name ($($($rest)*)?) -> $result, [$($read)* $p: &[$t],]
            [$($words)* *const $t = crate::pointers::read($p), usize = $p.len(),]);
    };
    (@ $name:ident ($p:ident: &mut [$t:ty] $(, $($rest:tt)*)?) -> $result:ty, [$($read:tt)*] [$($words:tt)*]) => {
        exported!(@ $name ($($($rest)*)?) -> $result, [$($read)* $p: &mut [$t],]
            [$($words)* *mut $t = crate::pointers::written($p), usize = $p.len(),]);
    };
    (@ $name:ident ($p:ident: Links $(, $($rest:tt)*)?) -> $result:ty, [$($read:tt)*] [$($words:tt)*]) => {
        exported!(@ $name ($($($rest)*)?) -> $result, [$($read)* $p: Links,] [$($words)*
            u32 = $p.n,
            *const u32 = crate::pointers::read($p.from), usize = $p.from.len(),
            *const u32 = crate::pointers::read($p.to), usize = $p.to.len(),
            *const f64 = crate::pointers::read($p.weight), usize = $p.weight.len(),
        ]);
    };
    (@ $name:ident ($p:ident: Rows $(, $($rest:tt)*)?) -> $result:ty, [$($read:tt)*] [$($words:tt)*]) => {
        exported!(@ $name ($($($rest)*)?) -> $result, [$($read)* $p: Rows,] [$($words)*
            u32 = $p.n,
            *const u32 = crate::pointers::read($p.starts), usize = $p.starts.len(),
            *const u32 = crate::pointers::read($p.columns), usize = $p.columns.len(),
            *const f64 = crate::pointers::read($p.weights), usize = $p.weights.len(),
        ]);
    };
    (@ $name:ident ($p:ident: Pair $(, $($rest:tt)*)?) -> $result:ty, [$($read:tt)*] [$($words:tt)*]) => {
        exported!(@ $name ($($($rest)*)?) -> $result, [$($read)* $p: Pair,] [$($words)*
            *mut f64 = crate::pointers::written($p.estimate), usize = $p.estimate.len(),
            *mut f64 = crate::pointers::written($p.residual), usize = $p.residual.len(),
        ]);
    };
    (@ $name:ident ($p:ident: RowBuffers $(, $($rest:tt)*)?) -> $result:ty, [$($read:tt)*] [$($words:tt)*]) => {
        exported!(@ $name ($($($rest)*)?) -> $result, [$($read)* $p: RowBuffers,] [$($words)*
            *mut u32 = crate::pointers::written($p.starts), usize = $p.starts.len(),
            *mut u32 = crate::pointers::written($p.columns), usize = $p.columns.len(),
            *mut f64 = crate::pointers::written($p.weights), usize = $p.weights.len(),
        ]);
    };
    (@ $name:ident ($p:ident: QueueBuffers $(, $($rest:tt)*)?) -> $result:ty, [$($read:tt)*] [$($words:tt)*]) => {
        exported!(@ $name ($($($rest)*)?) -> $result, [$($read)* $p: QueueBuffers,] [$($words)*
            *mut f64 = crate::pointers::written($p.priorities), usize = $p.priorities.len(),
            *mut u32 = crate::pointers::written($p.nodes), usize = $p.nodes.len(),
            *mut u64 = crate::pointers::written($p.queued), usize = $p.queued.len(),
            *mut u64 = crate::pointers::written($p.visited), usize = $p.visited.len(),
        ]);
    };
}
