// Stand-in for services/change_of_value.rs, which is not there.
super::request_body!(SubscribeCov);
