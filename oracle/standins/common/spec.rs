// Stand-in for common/spec.rs, which is not there: enums of one case and flags of one byte, never compared, and an error's class and code, which are any number.
macro_rules! numbered {
    ($($name:ident)*) => {$(
        #[derive(Debug, Clone)]
        pub enum $name {
            Only = 0,
        }

        impl TryFrom<u32> for $name {
            type Error = u32;

            fn try_from(number: u32) -> Result<Self, u32> {
                Err(number)
            }
        }
    )*};
}

macro_rules! any_number {
    ($($name:ident)*) => {$(
        #[derive(Debug, Clone)]
        pub struct $name {
            pub number: u32,
        }

        impl TryFrom<u32> for $name {
            type Error = u32;

            fn try_from(number: u32) -> Result<Self, u32> {
                Ok(Self { number })
            }
        }
    )*};
}

macro_rules! flags {
    ($($name:ident)*) => {$(
        #[derive(Debug, Clone)]
        pub struct $name {
            pub inner: u8,
        }

        impl $name {
            pub fn new(inner: u8) -> Self {
                Self { inner }
            }
        }
    )*};
}

numbered!(Binary EngineeringUnits EventState LoggingType NotifyType);
any_number!(ErrorClass ErrorCode);
flags!(Status LogBufferResult);
