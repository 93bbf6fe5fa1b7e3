//! The confirmed services.

/// A confirmed service.
#[derive(Debug, Clone, Copy, PartialEq, Eq)]
#[repr(u8)]
pub enum ConfirmedServiceChoice {
    AcknowledgeAlarm = 0,
    CovNotification = 1,
    EventNotification = 2,
    GetAlarmSummary = 3,
    GetEnrollmentSummary = 4,
    SubscribeCov = 5,
    AtomicReadFile = 6,
    AtomicWriteFile = 7,
    AddListElement = 8,
    RemoveListElement = 9,
    CreateObject = 10,
    DeleteObject = 11,
    ReadProperty = 12,
    ReadPropConditional = 13,
    ReadPropMultiple = 14,
    WriteProperty = 15,
    WritePropMultiple = 16,
    DeviceCommunicationControl = 17,
    PrivateTransfer = 18,
    TextMessage = 19,
    ReinitializeDevice = 20,
    VtOpen = 21,
    VtClose = 22,
    VtData = 23,
    Authenticate = 24,
    RequestKey = 25,
    ReadRange = 26,
    LifeSafetyOperation = 27,
    SubscribeCovProperty = 28,
    GetEventInformation = 29,
    SubscribeCovPropertyMultiple = 30,
    CovNotificationMultiple = 31,
    AuditNotification = 32,
    AuditLogQuery = 33,
}

use ConfirmedServiceChoice::*;

/// Each service at the place of its number.
static ALL: [ConfirmedServiceChoice; 34] = [
    AcknowledgeAlarm,
    CovNotification,
    EventNotification,
    GetAlarmSummary,
    GetEnrollmentSummary,
    SubscribeCov,
    AtomicReadFile,
    AtomicWriteFile,
    AddListElement,
    RemoveListElement,
    CreateObject,
    DeleteObject,
    ReadProperty,
    ReadPropConditional,
    ReadPropMultiple,
    WriteProperty,
    WritePropMultiple,
    DeviceCommunicationControl,
    PrivateTransfer,
    TextMessage,
    ReinitializeDevice,
    VtOpen,
    VtClose,
    VtData,
    Authenticate,
    RequestKey,
    ReadRange,
    LifeSafetyOperation,
    SubscribeCovProperty,
    GetEventInformation,
    SubscribeCovPropertyMultiple,
    CovNotificationMultiple,
    AuditNotification,
    AuditLogQuery,
];

impl TryFrom<u8> for ConfirmedServiceChoice {
    type Error = u8;

    /// The service of this number; above 33 there is none.
    #[inline]
    fn try_from(number: u8) -> Result<Self, u8> {
        ALL.get(usize::from(number)).copied().ok_or(number)
    }
}
