//! The buffers that make up a machine at the boundary. They are listed here, and
//! everything that is said of each of them follows from the list.

macro_rules! buffers {
    ($($part:ident $buffer:ident),*) => {
        /// One of something for each buffer.
        #[derive(Clone, Debug, PartialEq, Eq)]
        pub struct Buffers<T> {
            $(pub $buffer: T),*
        }

        /// Names one of the buffers.
        #[derive(Clone, Copy, Debug, PartialEq, Eq)]
        pub enum Part {
            $($part),*
        }

        /// All buffers, with their names.
        pub const PARTS: &[(Part, &str)] = &[$((Part::$part, stringify!($buffer))),*];

        impl<T> Buffers<T> {
            /// Makes each out of its name.
            pub fn of_names(mut make: impl FnMut(&'static str) -> T) -> Buffers<T> {
                Buffers { $($buffer: make(stringify!($buffer))),* }
            }

            /// Makes another thing of each.
            pub fn map<U>(self, mut make: impl FnMut(T) -> U) -> Buffers<U> {
                Buffers { $($buffer: make(self.$buffer)),* }
            }

            pub fn each(&self) -> Buffers<&T> {
                Buffers { $($buffer: &self.$buffer),* }
            }

            pub fn part(&self, part: Part) -> &T {
                match part {
                    $(Part::$part => &self.$buffer),*
                }
            }

            pub fn part_mut(&mut self, part: Part) -> &mut T {
                match part {
                    $(Part::$part => &mut self.$buffer),*
                }
            }
        }
    };
}

buffers! { Image image, Memory memory, Picture picture, History history }

/// What a host holds, in the form of the rules: its picture is bytes, eight a row.
pub type Host = Buffers<Vec<u8>>;

/// What a call is lent. An item of the picture is a byte, or a row of 64 spots.
pub struct Lent<'a, Item> {
    pub image: &'a mut [u8],
    pub memory: &'a mut [u8],
    pub picture: &'a mut [Item],
    pub history: &'a mut [u8],
}

impl Host {
    pub fn lend(&mut self) -> Lent<'_, u8> {
        Lent {
            image: &mut self.image,
            memory: &mut self.memory,
            picture: &mut self.picture,
            history: &mut self.history,
        }
    }
}

/// What a call fills beside them, each empty where the call has none.
pub struct Told<'a> {
    pub answer: &'a mut [u64],
    /// The places that a salvage cleared.
    pub list: &'a mut [u16],
}

/// The lists that a call is lent beside them, which it only reads.
#[derive(Clone, Copy)]
pub struct Lists<'a> {
    /// A program, ticks or moves.
    pub first: &'a [u8],
    pub keys: &'a [u16],
    pub randoms: &'a [u8],
}
