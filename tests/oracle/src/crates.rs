//! Stand-ins for the external crates that the ion-rust sources use. The crate root re-exports
//! their items and says `extern crate self as <name>`, so the sources' own paths
//! (`itoa::Buffer`, `base64::encode`, ...) resolve here unpatched.

/// `itoa`: prints plain decimal.
pub mod itoa {
    const LEN: usize = 40;
    const PAIRS: &[u8; 200] = b"0001020304050607080910111213141516171819\
2021222324252627282930313233343536373839\
4041424344454647484950515253545556575859\
6061626364656667686970717273747576777879\
8081828384858687888990919293949596979899";

    pub struct Buffer {
        bytes: [std::mem::MaybeUninit<u8>; LEN],
    }

    impl Buffer {
        #[inline]
        pub fn new() -> Self {
            Self {
                bytes: [std::mem::MaybeUninit::uninit(); LEN],
            }
        }

        #[inline]
        pub fn format<I: Integer>(&mut self, value: I) -> &str {
            let start = value.write(&mut self.bytes);
            // SAFETY: `write` has set every byte from `start` on, to ASCII.
            unsafe {
                let set = &self.bytes[start..];
                std::str::from_utf8_unchecked(std::slice::from_raw_parts(
                    set.as_ptr() as *const u8,
                    set.len(),
                ))
            }
        }
    }

    pub trait Integer {
        /// Writes the digits at the end of `bytes` and returns the index of the first one.
        fn write(self, bytes: &mut [std::mem::MaybeUninit<u8>; LEN]) -> usize;
    }

    #[inline]
    fn write_u64(
        mut n: u64,
        bytes: &mut [std::mem::MaybeUninit<u8>; LEN],
        mut at: usize,
    ) -> usize {
        while n >= 10000 {
            let rem = (n % 10000) as usize;
            n /= 10000;
            let (high, low) = (rem / 100 * 2, rem % 100 * 2);
            at -= 4;
            bytes[at].write(PAIRS[high]);
            bytes[at + 1].write(PAIRS[high + 1]);
            bytes[at + 2].write(PAIRS[low]);
            bytes[at + 3].write(PAIRS[low + 1]);
        }
        let mut n = n as usize;
        if n >= 100 {
            let low = n % 100 * 2;
            n /= 100;
            at -= 2;
            bytes[at].write(PAIRS[low]);
            bytes[at + 1].write(PAIRS[low + 1]);
        }
        if n >= 10 {
            at -= 2;
            bytes[at].write(PAIRS[n * 2]);
            bytes[at + 1].write(PAIRS[n * 2 + 1]);
        } else {
            at -= 1;
            bytes[at].write(b'0' + n as u8);
        }
        at
    }

    impl Integer for u64 {
        #[inline]
        fn write(self, bytes: &mut [std::mem::MaybeUninit<u8>; LEN]) -> usize {
            write_u64(self, bytes, LEN)
        }
    }

    impl Integer for usize {
        #[inline]
        fn write(self, bytes: &mut [std::mem::MaybeUninit<u8>; LEN]) -> usize {
            write_u64(self as u64, bytes, LEN)
        }
    }

    impl Integer for i64 {
        #[inline]
        fn write(self, bytes: &mut [std::mem::MaybeUninit<u8>; LEN]) -> usize {
            let mut at = write_u64(self.unsigned_abs(), bytes, LEN);
            if self < 0 {
                at -= 1;
                bytes[at].write(b'-');
            }
            at
        }
    }

    impl Integer for u128 {
        #[inline]
        fn write(self, bytes: &mut [std::mem::MaybeUninit<u8>; LEN]) -> usize {
            if let Ok(small) = u64::try_from(self) {
                return write_u64(small, bytes, LEN);
            }
            const CHUNK: u128 = 10_000_000_000_000_000_000;
            let mut n = self;
            let mut end = LEN;
            loop {
                let rest = n / CHUNK;
                let at = write_u64((n % CHUNK) as u64, bytes, end);
                if rest == 0 {
                    return at;
                }
                end -= 19;
                for zero in &mut bytes[end..at] {
                    zero.write(b'0');
                }
                n = rest;
            }
        }
    }
}

/// `base64`, for blobs.
pub mod base64 {
    #[derive(Clone, Copy)]
    pub struct Config;
    pub const STANDARD: Config = Config;
    const ALPHABET: &[u8; 64] = b"ABCDEFGHIJKLMNOPQRSTUVWXYZabcdefghijklmnopqrstuvwxyz0123456789+/";

    pub fn encode_config_slice<T: AsRef<[u8]>>(input: T, _: Config, output: &mut [u8]) -> usize {
        let mut len = 0;
        for chunk in input.as_ref().chunks(3) {
            let byte = |i: usize| chunk.get(i).copied().unwrap_or(0) as u32;
            let bits = byte(0) << 16 | byte(1) << 8 | byte(2);
            for i in 0..4 {
                output[len] = if i > chunk.len() {
                    b'='
                } else {
                    ALPHABET[(bits >> (18 - 6 * i)) as usize & 63]
                };
                len += 1;
            }
        }
        len
    }

    pub fn encode<T: AsRef<[u8]>>(input: T) -> String {
        let mut output = vec![0; input.as_ref().len().div_ceil(3) * 4];
        let len = encode_config_slice(input, STANDARD, &mut output);
        assert_eq!(len, output.len());
        String::from_utf8(output).unwrap()
    }
}

/// `arrayvec`.
pub mod arrayvec {
    use std::mem::MaybeUninit;

    pub struct ArrayString<const CAP: usize> {
        len: usize,
        bytes: [MaybeUninit<u8>; CAP],
    }

    #[derive(Debug)]
    pub struct CapacityError;

    impl<const CAP: usize> ArrayString<CAP> {
        #[inline]
        pub fn new() -> Self {
            Self {
                len: 0,
                bytes: [MaybeUninit::uninit(); CAP],
            }
        }

        #[inline]
        pub fn try_push_str(&mut self, s: &str) -> Result<(), CapacityError> {
            if s.len() > CAP - self.len {
                return Err(CapacityError);
            }
            // SAFETY: there is room for `s` behind `len`.
            unsafe {
                let end = self.bytes.as_mut_ptr().add(self.len) as *mut u8;
                std::ptr::copy_nonoverlapping(s.as_ptr(), end, s.len());
            }
            self.len += s.len();
            Ok(())
        }

        #[inline]
        pub fn clear(&mut self) {
            self.len = 0;
        }
    }

    impl<const CAP: usize> std::ops::Deref for ArrayString<CAP> {
        type Target = str;
        #[inline]
        fn deref(&self) -> &str {
            // SAFETY: the first `len` bytes are whole pushed `str`s.
            unsafe {
                std::str::from_utf8_unchecked(std::slice::from_raw_parts(
                    self.bytes.as_ptr() as *const u8,
                    self.len,
                ))
            }
        }
    }
}

/// `delegate`: the one form that the sources use.
pub mod delegate {
    macro_rules! delegate_to_self {
        (to self {
            fn $name:ident $(<$generic:ident : $bound:path>)? (&mut $this:ident $(, $arg:ident : $type:ty)*) -> $ret:ty;
        }) => {
            fn $name $(<$generic: $bound>)? (&mut $this $(, $arg: $type)*) -> $ret {
                $this.$name($($arg),*)
            }
        };
    }
    pub(crate) use delegate_to_self;
}

/// `ice_code`: marks an expression as unlikely.
pub mod ice_code {
    macro_rules! ice {
        ($name:ident => $expr:expr) => {{
            $crate::crates::ice_code::cold();
            $expr
        }};
        ($expr:expr) => {{
            $crate::crates::ice_code::cold();
            $expr
        }};
    }
    pub(crate) use ice;

    #[cold]
    #[inline(never)]
    pub fn cold() {}
}

/// `hashbrown`: an unindexed table; writing never looks a field up.
pub mod hashbrown {
    #[derive(Debug, Clone)]
    pub struct HashTable<T>(Vec<(u64, T)>);

    impl<T> HashTable<T> {
        pub fn with_capacity(capacity: usize) -> Self {
            Self(Vec::with_capacity(capacity))
        }

        pub fn find(&self, hash: u64, mut eq: impl FnMut(&T) -> bool) -> Option<&T> {
            self.0.iter().find(|(h, t)| *h == hash && eq(t)).map(|(_, t)| t)
        }

        pub fn entry(
            &mut self,
            hash: u64,
            eq: impl FnMut(&T) -> bool,
            _hasher: impl Fn(&T) -> u64,
        ) -> hash_table::Entry<'_, T> {
            if self.find(hash, eq).is_some() {
                hash_table::Entry::Occupied(())
            } else {
                hash_table::Entry::Vacant(hash_table::VacantEntry { table: self, hash })
            }
        }
    }

    pub mod hash_table {
        pub enum Entry<'a, T> {
            Occupied(()),
            Vacant(VacantEntry<'a, T>),
        }
        pub struct VacantEntry<'a, T> {
            pub(super) table: &'a mut super::HashTable<T>,
            pub(super) hash: u64,
        }
        impl<T> VacantEntry<'_, T> {
            pub fn insert(self, value: T) {
                self.table.0.push((self.hash, value));
            }
        }
    }
}

/// `rustc_hash`.
pub mod rustc_hash {
    pub type FxHasher = std::collections::hash_map::DefaultHasher;
}

/// `num_traits`, `num_integer`, `num_bigint`: integers beyond 126 bits do not occur in a tape, so
/// the big ones only have to type-check.
pub mod num {
    use std::fmt;

    pub trait Zero {
        fn is_zero(&self) -> bool;
    }
    impl Zero for f64 {
        fn is_zero(&self) -> bool {
            *self == 0.0
        }
    }
    pub trait Num: Sized {
        fn from_str_radix(src: &str, radix: u32) -> Result<Self, ()>;
    }
    pub trait Pow<E> {
        type Output;
        fn pow(self, exponent: E) -> Self::Output;
    }
    pub trait ToPrimitive {
        fn to_u128(&self) -> Option<u128>;
    }
    pub trait Integer: Sized {
        fn div_rem(&self, other: &Self) -> (Self, Self);
    }

    pub enum Sign {
        Minus,
        NoSign,
        Plus,
    }

    #[derive(Clone, Debug, PartialEq, Eq, PartialOrd, Ord, Hash)]
    pub struct BigUint(u128);
    pub struct BigInt(());

    fn none<T>() -> T {
        unimplemented!("integers beyond 126 bits do not occur")
    }

    impl BigUint {
        pub fn bits(&self) -> u64 {
            none()
        }
        pub fn from_bytes_le(_: &[u8]) -> Self {
            none()
        }
        pub fn from_bytes_be(_: &[u8]) -> Self {
            none()
        }
    }
    impl BigInt {
        pub fn from_biguint(_: Sign, _: BigUint) -> Self {
            none()
        }
        pub fn from_signed_bytes_le(_: &[u8]) -> Self {
            none()
        }
        pub fn into_parts(self) -> (Sign, BigUint) {
            none()
        }
    }
    impl From<u128> for BigUint {
        fn from(_: u128) -> Self {
            none()
        }
    }
    impl From<u32> for BigUint {
        fn from(_: u32) -> Self {
            none()
        }
    }
    impl fmt::Display for BigUint {
        fn fmt(&self, _: &mut fmt::Formatter<'_>) -> fmt::Result {
            none()
        }
    }
    impl Num for BigUint {
        fn from_str_radix(_: &str, _: u32) -> Result<Self, ()> {
            none()
        }
    }
    impl Pow<u64> for BigUint {
        type Output = BigUint;
        fn pow(self, _: u64) -> BigUint {
            none()
        }
    }
    impl ToPrimitive for BigUint {
        fn to_u128(&self) -> Option<u128> {
            none()
        }
    }
    impl Integer for BigUint {
        fn div_rem(&self, _: &Self) -> (Self, Self) {
            none()
        }
    }
    impl std::ops::Mul for BigUint {
        type Output = BigUint;
        fn mul(self, _: BigUint) -> BigUint {
            none()
        }
    }
}
