// Stand-in for services/read_property.rs, which is not there.
super::request_body!(ReadProperty);
super::acknowledgement_body!(ReadPropertyAck, ReadProperty);
