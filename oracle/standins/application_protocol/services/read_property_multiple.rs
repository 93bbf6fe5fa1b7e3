// Stand-in for services/read_property_multiple.rs, which is not there.
super::lent_request_body!(ReadPropertyMultiple);
super::acknowledgement_body!(ReadPropertyMultipleAck, ReadPropMultiple);
