// Stand-in for services/write_property.rs, which is not there.
super::lent_request_body!(WriteProperty);
