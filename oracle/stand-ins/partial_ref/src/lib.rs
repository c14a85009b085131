//! Stand-in for the crate `partial_ref`.
//!
//! The crate proves by types which parts of a context a function may touch. Here every partial
//! reference is one type, a pointer to the whole context, and each part is reached through it; that
//! the parts taken at one time differ is not checked again. What is reached is the same.
use std::marker::PhantomData;

pub use partial_ref_derive::PartialRefTarget;

/// A type that has a part named `P`.
pub trait HasPart<P> {
    type PartType;
    fn part_pointer(target: *mut Self) -> *mut Self::PartType;
}

/// A part's name.
pub trait Part {
    type PartType;
}

/// A reference to a context.
pub struct Ref<'r, Target> {
    target: *mut Target,
    lifetime: PhantomData<&'r mut Target>,
}

impl<'r, Target> Ref<'r, Target> {
    pub fn new(target: &'r mut Target) -> Ref<'r, Target> {
        Ref {
            target,
            lifetime: PhantomData,
        }
    }

    fn again<'b>(&self) -> Ref<'b, Target> {
        Ref {
            target: self.target,
            lifetime: PhantomData,
        }
    }
}

/// What a partial reference gives.
pub trait PartialRef {
    type Target;

    fn borrow<'b>(&'b mut self) -> Ref<'b, Self::Target>;

    fn part<'b, P>(&'b self, part: P) -> &'b <Self::Target as HasPart<P>>::PartType
    where
        Self::Target: HasPart<P>;

    fn part_mut<'b, P>(&'b mut self, part: P) -> &'b mut <Self::Target as HasPart<P>>::PartType
    where
        Self::Target: HasPart<P>;

    fn split_part<'b, P>(
        &'b mut self,
        part: P,
    ) -> (
        &'b <Self::Target as HasPart<P>>::PartType,
        Ref<'b, Self::Target>,
    )
    where
        Self::Target: HasPart<P>;

    fn split_part_mut<'b, P>(
        &'b mut self,
        part: P,
    ) -> (
        &'b mut <Self::Target as HasPart<P>>::PartType,
        Ref<'b, Self::Target>,
    )
    where
        Self::Target: HasPart<P>;

    fn split_borrow<'b>(&'b mut self) -> (Ref<'b, Self::Target>, Ref<'b, Self::Target>);
}

impl<'r, Target> PartialRef for Ref<'r, Target> {
    type Target = Target;

    fn borrow<'b>(&'b mut self) -> Ref<'b, Target> {
        self.again()
    }

    fn part<'b, P>(&'b self, _part: P) -> &'b <Target as HasPart<P>>::PartType
    where
        Target: HasPart<P>,
    {
        unsafe { &*Target::part_pointer(self.target) }
    }

    fn part_mut<'b, P>(&'b mut self, _part: P) -> &'b mut <Target as HasPart<P>>::PartType
    where
        Target: HasPart<P>,
    {
        unsafe { &mut *Target::part_pointer(self.target) }
    }

    fn split_part<'b, P>(
        &'b mut self,
        _part: P,
    ) -> (&'b <Target as HasPart<P>>::PartType, Ref<'b, Target>)
    where
        Target: HasPart<P>,
    {
        unsafe { (&*Target::part_pointer(self.target), self.again()) }
    }

    fn split_part_mut<'b, P>(
        &'b mut self,
        _part: P,
    ) -> (&'b mut <Target as HasPart<P>>::PartType, Ref<'b, Target>)
    where
        Target: HasPart<P>,
    {
        unsafe { (&mut *Target::part_pointer(self.target), self.again()) }
    }

    fn split_borrow<'b>(&'b mut self) -> (Ref<'b, Target>, Ref<'b, Target>) {
        (self.again(), self.again())
    }
}

/// The type of a partial reference; the parts are not looked at.
#[macro_export]
macro_rules! partial {
    ($lifetime:lifetime $target:ty, $($parts:tt)*) => { $crate::Ref<$lifetime, $target> };
    ($target:ty, $($parts:tt)*) => { $crate::Ref<'_, $target> };
}

/// Declares a part's name, as a type and as a value.
#[macro_export]
macro_rules! part {
    ($visible:vis $part:ident : $held:ty) => {
        $visible struct $part;
        impl $crate::Part for $part {
            type PartType = $held;
        }
    };
    ($visible:vis $part:ident < $lifetime:lifetime > : $held:ty) => {
        $visible struct $part<$lifetime> {
            lifetime: ::std::marker::PhantomData<&$lifetime ()>,
        }
        #[allow(non_upper_case_globals)]
        $visible const $part: $part<'static> = $part {
            lifetime: ::std::marker::PhantomData,
        };
        impl<$lifetime> $crate::Part for $part<$lifetime> {
            type PartType = $held;
        }
    };
}

/// Takes some parts off a reference, which keeps its name and the rest.
#[macro_export]
macro_rules! split_borrow {
    ($taken:ident = &($($parts:tt)*) $from:ident) => {
        let (mut $taken, mut $from) = $from.split_borrow();
    };
}
