//! Stands in for a message module that the crate's folder does not have: `common.sh` links this one file under each missing module's name.
//! Their types are outside the domain of equality, so no `parse` here is ever asked.

use super::AisMessageType;
use crate::errors::Result;

macro_rules! stand_in {
    ($($name:ident)*) => {$(
        #[derive(Debug, PartialEq)]
        pub struct $name;

        impl<'a> AisMessageType<'a> for $name {
            fn name(&self) -> &'static str {
                stringify!($name)
            }

            fn parse(_: &'a [u8]) -> Result<Self> {
                Err("stand-in".into())
            }
        }
    )*};
}

// Every module has all the names, and `messages/mod.rs` takes the one that it knows.
stand_in! {
    AddressedSafetyRelatedMessage AssignmentModeCommand BinaryAcknowledge BinaryAddressedMessage BinaryBroadcastMessage
    DgnssBroadcastBinaryMessage ExtendedClassBPositionReport LongRangeAisBroadcastMessage SARPositionReport
    SafetyRelatedAcknowledge SafetyRelatedBroadcastMessage UtcDateInquiry UtcDateResponse
}
