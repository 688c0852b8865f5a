//! `delegate`: the one form that the driver uses, `to match &self.0 { arms } { functions }`.
#[macro_export]
macro_rules! delegate {
    (to match &self.0 $arms:tt { $(fn $name:ident(&self) -> $result:ty;)* }) => {
        $($crate::delegate!(@function $arms $name $result);)*
    };
    (@function { $($(#[$attribute:meta])* $pattern:pat => $to:expr,)* } $name:ident $result:ty) => {
        fn $name(&self) -> $result {
            match &self.0 {
                $($(#[$attribute])* $pattern => $to.$name(),)*
            }
        }
    };
}
