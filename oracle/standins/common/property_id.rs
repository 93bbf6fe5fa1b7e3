// Stand-in for common/property_id.rs, which is not there: the properties that the given files name.
#[derive(Debug, Clone, Copy, PartialEq)]
pub enum PropertyId {
    PropEventState = 36,
    PropNotifyType = 72,
    PropObjectType = 79,
    PropPresentValue = 85,
    PropStatusFlags = 111,
    PropUnits = 117,
    PropWeeklySchedule = 123,
    PropLogBuffer = 131,
    PropLoggingType = 197,
}

impl From<u32> for PropertyId {
    fn from(_number: u32) -> Self {
        Self::PropPresentValue
    }
}
