//! What bench/as_rust puts in place of Rattle's library: the same names and results over Rust's.
#![feature(portable_simd, adt_const_params)]
#![allow(warnings)]

macro_rules! prove {
    ($($any:tt)*) => {};
}

macro_rules! unreachable {
    ($($any:tt)*) => {
        unsafe { ::std::hint::unreachable_unchecked() }
    };
}

macro_rules! vec {
    (in $alloc:expr; $value:expr; $count:expr) => {
        crate::rattle::prelude::Vec::filled($alloc, $value, $count)
    };
}

macro_rules! format {
    (in $alloc:expr; $($words:tt)*) => {
        Ok::<String, crate::rattle::alloc::AllocError>(::std::format!($($words)*))
    };
}

macro_rules! println {
    ($rt:expr; $($words:tt)*) => {{
        ::std::println!($($words)*);
        Ok(())
    }};
}

pub mod rattle {
    pub use ::std::{cmp, convert, fmt, hash, io, iter, mem, num, ops, option, result, str};

    pub mod prelude {
        pub use super::HostRuntime;
        pub use super::vector::Vec;
        use super::alloc::{AllocError, Global};

        /// A value in memory of its own.
        #[derive(Debug)]
        pub struct Box<T>(::std::boxed::Box<T>);

        impl<T> Box<T> {
            pub fn new(_: Global, value: T) -> Result<Box<T>, AllocError> {
                Ok(Box(::std::boxed::Box::new(value)))
            }
        }

        impl<T> ::std::ops::Deref for Box<T> {
            type Target = T;

            #[inline(always)]
            fn deref(&self) -> &T {
                &self.0
            }
        }

        impl<T> ::std::ops::DerefMut for Box<T> {
            #[inline(always)]
            fn deref_mut(&mut self) -> &mut T {
                &mut self.0
            }
        }

        /// All types may be dropped.
        pub trait Drop {}

        impl<T: ?Sized> Drop for T {}
    }

    pub mod simd {
        pub use ::std::simd::*;

        pub mod prelude {
            pub use super::{Lookup, StrictSum, Swizzles};
            pub use ::std::simd::Select;
            pub use ::std::simd::prelude::*;
        }

        /// Rattle's `swizzle_dyn`. Rust's library is compiled for processors without such an instruction.
        pub trait Lookup {
            fn lookup(self, places: Self) -> Self;
        }

        impl Lookup for u8x16 {
            #[inline(always)]
            fn lookup(self, places: u8x16) -> u8x16 {
                unsafe { ::std::arch::x86_64::_mm_shuffle_epi8(self.into(), places.into()).into() }
            }
        }

        /// A sum that is proved to fit.
        pub trait StrictSum: num::SimdUint {
            fn strict_reduce_sum(self) -> Self::Scalar;
        }

        macro_rules! strict_sum {
            ($($item:ty)*) => {$(
                impl<const N: usize> StrictSum for Simd<$item, N> {
                    #[inline(always)]
                    fn strict_reduce_sum(self) -> $item {
                        num::SimdUint::reduce_sum(self)
                    }
                }
            )*};
        }
        strict_sum!(u8 u16 u32 u64);

        /// Rattle's `swizzle::<M>(places)` and `shuffle::<M>(other, places)`, with a method for each M.
        macro_rules! swizzles {
            ($($count:literal $swizzle:ident $shuffle:ident $name:ident)*) => {
                $(
                    struct $name<const I: [usize; $count]>;

                    impl<const I: [usize; $count]> Swizzle<$count> for $name<I> {
                        const INDEX: [usize; $count] = I;
                    }
                )*

                pub trait Swizzles<T: SimdElement>: Sized {
                    $(
                        fn $swizzle<const I: [usize; $count]>(self) -> Simd<T, $count>;
                        fn $shuffle<const I: [usize; $count]>(self, other: Self) -> Simd<T, $count>;
                    )*
                }

                impl<T: SimdElement, const N: usize> Swizzles<T> for Simd<T, N> {
                    $(
                        #[inline(always)]
                        fn $swizzle<const I: [usize; $count]>(self) -> Simd<T, $count> {
                            $name::<I>::swizzle(self)
                        }

                        #[inline(always)]
                        fn $shuffle<const I: [usize; $count]>(self, other: Self) -> Simd<T, $count> {
                            $name::<I>::concat_swizzle(self, other)
                        }
                    )*
                }
            };
        }
        swizzles!(4 swizzle_4 shuffle_4 Places4 8 swizzle_8 shuffle_8 Places8 16 swizzle_16 shuffle_16 Places16
            32 swizzle_32 shuffle_32 Places32);
    }

    pub mod alloc {
        /// The allocator.
        #[derive(Clone, Copy, Debug)]
        pub struct Global;

        /// Memory was refused.
        #[derive(Clone, Copy, Debug, PartialEq, Eq)]
        pub struct AllocError;

        impl From<AllocError> for ::std::io::Error {
            fn from(_: AllocError) -> ::std::io::Error {
                ::std::io::Error::from(::std::io::ErrorKind::OutOfMemory)
            }
        }
    }

    /// The handle that `main` is given.
    pub struct HostRuntime;

    impl HostRuntime {
        pub fn alloc(&self) -> alloc::Global {
            alloc::Global
        }
    }

    pub mod env {
        use super::prelude::Vec;

        /// The words of the command line.
        pub struct Words;

        pub fn args(_: &super::HostRuntime) -> ::std::io::Result<Words> {
            Ok(Words)
        }

        impl Words {
            pub fn collect(self, alloc: super::alloc::Global) -> Result<Vec<String>, super::alloc::AllocError> {
                let mut words = Vec::new(alloc);
                for word in ::std::env::args() {
                    words.push(word)?;
                }
                Ok(words)
            }
        }
    }

    pub mod fs {
        pub fn open(_: &super::HostRuntime, name: &str) -> ::std::io::Result<::std::fs::File> {
            ::std::fs::File::open(name)
        }
    }

    pub mod rc {
        use super::alloc::{AllocError, Global};

        /// A counted reference.
        #[derive(Debug)]
        pub struct Rc<T>(::std::rc::Rc<T>);

        impl<T> Rc<T> {
            pub fn new(_: Global, value: T) -> Result<Rc<T>, AllocError> {
                Ok(Rc(::std::rc::Rc::new(value)))
            }

            pub fn clone(&self) -> Result<Rc<T>, AllocError> {
                Ok(Rc(::std::rc::Rc::clone(&self.0)))
            }

            pub fn into_inner(this: Rc<T>) -> Option<T> {
                ::std::rc::Rc::into_inner(this.0)
            }

            pub fn ptr_eq(one: &Rc<T>, other: &Rc<T>) -> bool {
                ::std::rc::Rc::ptr_eq(&one.0, &other.0)
            }
        }

        impl<T> ::std::ops::Deref for Rc<T> {
            type Target = T;

            fn deref(&self) -> &T {
                &self.0
            }
        }
    }

    pub mod vector {
        use super::alloc::{AllocError, Global};
        use ::std::vec::Vec as Plain;

        /// A vector whose growth can fail.
        #[derive(Debug, PartialEq, Eq)]
        pub struct Vec<T>(Plain<T>);

        impl<T> Vec<T> {
            #[inline(always)]
            pub const fn new(_: Global) -> Vec<T> {
                Vec(Plain::new())
            }

            pub fn with_capacity(_: Global, count: usize) -> Result<Vec<T>, AllocError> {
                let mut items = Plain::new();
                items.try_reserve_exact(count).map_err(|_| AllocError)?;
                Ok(Vec(items))
            }

            #[inline]
            pub fn reserve(&mut self, more: usize) -> Result<(), AllocError> {
                if self.0.capacity() - self.0.len() < more {
                    return self.grow(more);
                }
                Ok(())
            }

            #[inline(never)]
            fn grow(&mut self, more: usize) -> Result<(), AllocError> {
                self.0.try_reserve(more).map_err(|_| AllocError)
            }

            pub fn reserve_exact(&mut self, more: usize) -> Result<(), AllocError> {
                self.0.try_reserve_exact(more).map_err(|_| AllocError)
            }

            pub fn try_reserve(&mut self, more: usize) -> Result<(), AllocError> {
                self.reserve(more)
            }

            #[inline]
            pub fn push(&mut self, item: T) -> Result<(), AllocError> {
                self.reserve(1)?;
                self.push_reserved(item);
                Ok(())
            }

            #[inline(always)]
            pub fn push_reserved(&mut self, item: T) {
                let len = self.0.len();
                unsafe {
                    self.0.as_mut_ptr().add(len).write(item);
                    self.0.set_len(len + 1);
                }
            }

            #[inline(always)]
            pub fn slice_mut<R: ::std::slice::SliceIndex<[T]>>(&mut self, range: R) -> &mut R::Output {
                &mut self.0[range]
            }

            #[inline(always)]
            pub fn as_slice(&self) -> &[T] {
                &self.0
            }

            #[inline(always)]
            pub fn as_mut_slice(&mut self) -> &mut [T] {
                &mut self.0
            }

            pub fn truncate(&mut self, len: usize) {
                self.0.truncate(len);
            }

            pub fn clear(&mut self) {
                self.0.clear();
            }

            pub fn pop(&mut self) -> Option<T> {
                self.0.pop()
            }

            #[inline(always)]
            pub fn is_empty(&self) -> bool {
                self.0.is_empty()
            }

            #[inline(always)]
            pub fn len(&self) -> usize {
                self.0.len()
            }

            pub fn capacity(&self) -> usize {
                self.0.capacity()
            }
        }

        impl<T: Copy> Vec<T> {
            pub fn filled(alloc: Global, value: T, count: usize) -> Result<Vec<T>, AllocError> {
                let mut items = Vec::with_capacity(alloc, count)?;
                items.0.resize(count, value);
                Ok(items)
            }

            pub fn resize(&mut self, count: usize, value: T) -> Result<(), AllocError> {
                self.reserve(count.saturating_sub(self.0.len()))?;
                self.0.resize(count, value);
                Ok(())
            }

            pub fn from_slice(alloc: Global, items: &[T]) -> Result<Vec<T>, AllocError> {
                let mut copy = Vec::with_capacity(alloc, items.len())?;
                copy.extend_from_slice(items)?;
                Ok(copy)
            }

            pub fn extend_from_slice(&mut self, items: &[T]) -> Result<(), AllocError> {
                self.reserve(items.len())?;
                let len = self.0.len();
                unsafe {
                    let end = self.0.as_mut_ptr().add(len);
                    ::std::ptr::copy_nonoverlapping(items.as_ptr(), end, items.len());
                    self.0.set_len(len + items.len());
                }
                Ok(())
            }
        }

        impl<T> ::std::ops::Deref for Vec<T> {
            type Target = [T];

            #[inline(always)]
            fn deref(&self) -> &[T] {
                &self.0
            }
        }

        impl<T> ::std::ops::DerefMut for Vec<T> {
            #[inline(always)]
            fn deref_mut(&mut self) -> &mut [T] {
                &mut self.0
            }
        }

        impl<T> IntoIterator for Vec<T> {
            type Item = T;
            type IntoIter = ::std::vec::IntoIter<T>;

            fn into_iter(self) -> ::std::vec::IntoIter<T> {
                self.0.into_iter()
            }
        }

        impl<'a, T> IntoIterator for &'a Vec<T> {
            type Item = &'a T;
            type IntoIter = ::std::slice::Iter<'a, T>;

            fn into_iter(self) -> ::std::slice::Iter<'a, T> {
                self.0.iter()
            }
        }

        impl ::std::io::Write for Vec<u8> {
            fn write(&mut self, bytes: &[u8]) -> ::std::io::Result<usize> {
                self.extend_from_slice(bytes)?;
                Ok(bytes.len())
            }

            fn flush(&mut self) -> ::std::io::Result<()> {
                Ok(())
            }
        }
    }

    pub mod collections {
        use super::alloc::{AllocError, Global};

        /// A queue whose growth can fail.
        #[derive(Debug)]
        pub struct VecDeque<T>(::std::collections::VecDeque<T>);

        impl<T> VecDeque<T> {
            pub fn new(_: Global) -> VecDeque<T> {
                VecDeque(::std::collections::VecDeque::new())
            }

            pub fn push_back(&mut self, item: T) -> Result<(), AllocError> {
                self.0.push_back(item);
                Ok(())
            }

            pub fn append(&mut self, other: &mut VecDeque<T>) -> Result<(), AllocError> {
                self.0.append(&mut other.0);
                Ok(())
            }

            pub fn try_reserve(&mut self, more: usize) -> Result<(), AllocError> {
                self.0.try_reserve(more).map_err(|_| AllocError)
            }
        }

        impl<T> ::std::ops::Deref for VecDeque<T> {
            type Target = ::std::collections::VecDeque<T>;

            fn deref(&self) -> &Self::Target {
                &self.0
            }
        }

        impl<T> ::std::ops::DerefMut for VecDeque<T> {
            fn deref_mut(&mut self) -> &mut Self::Target {
                &mut self.0
            }
        }
    }
}

pub mod byteorder {
    pub trait ByteOrder {
        fn read_u16(bytes: &[u8]) -> u16;
        fn read_u24(bytes: &[u8]) -> u32;
        fn read_u32(bytes: &[u8]) -> u32;
        fn read_u64(bytes: &[u8]) -> u64;
        fn write_u16(bytes: &mut [u8], value: u16);
        fn write_u24(bytes: &mut [u8], value: u32);
        fn write_u32(bytes: &mut [u8], value: u32);
        fn write_u64(bytes: &mut [u8], value: u64);
    }

    pub enum LittleEndian {}

    fn first<const N: usize>(bytes: &[u8]) -> [u8; N] {
        let mut part = [0; N];
        part.copy_from_slice(&bytes[..N]);
        part
    }

    impl ByteOrder for LittleEndian {
        fn read_u16(bytes: &[u8]) -> u16 {
            u16::from_le_bytes(first(bytes))
        }

        fn read_u24(bytes: &[u8]) -> u32 {
            u32::from(bytes[0]) | u32::from(bytes[1]) << 8 | u32::from(bytes[2]) << 16
        }

        fn read_u32(bytes: &[u8]) -> u32 {
            u32::from_le_bytes(first(bytes))
        }

        fn read_u64(bytes: &[u8]) -> u64 {
            u64::from_le_bytes(first(bytes))
        }

        fn write_u16(bytes: &mut [u8], value: u16) {
            bytes[..2].copy_from_slice(&value.to_le_bytes());
        }

        fn write_u24(bytes: &mut [u8], value: u32) {
            bytes[..3].copy_from_slice(&value.to_le_bytes()[..3]);
        }

        fn write_u32(bytes: &mut [u8], value: u32) {
            bytes[..4].copy_from_slice(&value.to_le_bytes());
        }

        fn write_u64(bytes: &mut [u8], value: u64) {
            bytes[..8].copy_from_slice(&value.to_le_bytes());
        }
    }
}

pub mod arrayvec {
    use ::std::mem::MaybeUninit;

    /// A vector of at most `N` items in place.
    #[derive(Clone, Copy)]
    pub struct ArrayVec<T: Copy, const N: usize> {
        items: [MaybeUninit<T>; N],
        len: usize,
    }

    impl<T: Copy, const N: usize> ArrayVec<T, N> {
        #[inline(always)]
        pub fn new() -> ArrayVec<T, N> {
            ArrayVec {
                items: [const { MaybeUninit::uninit() }; N],
                len: 0,
            }
        }

        #[inline(always)]
        pub fn push(&mut self, item: T) {
            self.items[self.len] = MaybeUninit::new(item);
            self.len += 1;
        }

        #[inline(always)]
        pub fn truncate(&mut self, len: usize) {
            if len < self.len {
                self.len = len;
            }
        }

        #[inline(always)]
        pub fn clear(&mut self) {
            self.len = 0;
        }

        #[inline(always)]
        pub fn is_full(&self) -> bool {
            self.len == N
        }

        #[inline(always)]
        pub fn as_slice(&self) -> &[T] {
            self
        }
    }

    impl<T: Copy, const N: usize> ::std::ops::Deref for ArrayVec<T, N> {
        type Target = [T];

        #[inline(always)]
        fn deref(&self) -> &[T] {
            unsafe { ::std::slice::from_raw_parts(self.items.as_ptr().cast(), self.len) }
        }
    }

    impl<T: Copy, const N: usize> ::std::ops::DerefMut for ArrayVec<T, N> {
        #[inline(always)]
        fn deref_mut(&mut self) -> &mut [T] {
            unsafe { ::std::slice::from_raw_parts_mut(self.items.as_mut_ptr().cast(), self.len) }
        }
    }
}

fn main() {
    if let Err(error) = vp_bench::main(rattle::HostRuntime) {
        ::std::eprintln!("{error}");
        ::std::process::exit(1);
    }
}

