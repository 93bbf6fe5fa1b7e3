// Stand-in for services/read_range.rs, which is not there.
super::request_body!(ReadRange);
super::acknowledgement_body!(ReadRangeAck, ReadRange);

#[derive(Debug, Clone)]
pub enum ReadRangeValueType {
    Only = 0,
}
