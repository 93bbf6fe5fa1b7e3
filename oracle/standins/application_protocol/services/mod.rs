// Stand-in for application_protocol/services/mod.rs, which is not there: service bodies of no bytes, accepted always.
pub mod change_of_value;
pub mod read_property;
pub mod read_property_multiple;
pub mod read_range;
pub mod write_property;

// A request's body.
macro_rules! request_body {
    ($name:ident) => {
        #[derive(Debug, Clone, Default)]
        pub struct $name;

        impl $name {
            pub fn decode(
                _reader: &mut crate::common::io::Reader,
                _buf: &[u8],
            ) -> Result<Self, crate::common::error::Error> {
                Ok(Self)
            }

            pub fn encode(&self, _writer: &mut crate::common::io::Writer) {}
        }
    };
}

// A request's body that borrows from the buffer.
macro_rules! lent_request_body {
    ($name:ident) => {
        #[derive(Debug, Clone, Default)]
        pub struct $name<'a>(core::marker::PhantomData<&'a ()>);

        impl<'a> $name<'a> {
            pub fn decode(
                _reader: &mut crate::common::io::Reader,
                _buf: &'a [u8],
            ) -> Result<Self, crate::common::error::Error> {
                Ok(Self::default())
            }

            pub fn encode(&self, _writer: &mut crate::common::io::Writer) {}
        }
    };
}

// A complex acknowledgement's body: ComplexAck::encode leaves the choice to it, so it writes that byte.
macro_rules! acknowledgement_body {
    ($name:ident, $choice:ident) => {
        #[derive(Debug, Clone, Default)]
        pub struct $name<'a>(core::marker::PhantomData<&'a ()>);

        impl<'a> $name<'a> {
            pub fn decode(
                _reader: &mut crate::common::io::Reader,
                _buf: &'a [u8],
            ) -> Result<Self, crate::common::error::Error> {
                Ok(Self::default())
            }

            pub fn encode(&self, writer: &mut crate::common::io::Writer) {
                writer.push(
                    crate::application_protocol::confirmed::ConfirmedServiceChoice::$choice as u8,
                );
            }
        }
    };
}

pub(crate) use {acknowledgement_body, lent_request_body, request_body};
