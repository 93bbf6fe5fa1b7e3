// Stand-in for common/daily_schedule.rs, which is not there: a schedule of no bytes.
use crate::common::{
    error::Error,
    io::{Reader, Writer},
};
use core::marker::PhantomData;

#[derive(Debug, Clone)]
pub struct WeeklySchedule<'a>(PhantomData<&'a ()>);

impl<'a> WeeklySchedule<'a> {
    pub fn decode(_reader: &mut Reader, _buf: &'a [u8]) -> Result<Self, Error> {
        Ok(Self(PhantomData))
    }

    pub fn encode(&self, _writer: &mut Writer) {}
}
